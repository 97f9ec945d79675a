//! The examples of `examples/EDGES.md`: traces and what they print, both worked by hand on that page, no engine asked.

use crate::engine::Scheme;
use crate::event::{Event, EVENT_WORDS, PLACES, TOP};
use crate::trace;
use std::fmt::Write;

/// Read when it is asked for, so that this crate can be built without the examples.
const PAGE: &str = concat!(env!("CARGO_MANIFEST_DIR"), "/../../examples/EDGES.md");

const COLUMNS: usize = 7;
const NONE: &str = "–";

#[derive(Default)]
pub struct Edges {
    pub name: String,
    pub cells: Vec<u32>,
    pub events: Vec<Event>,
    speculation: String,
    blocking: String,
}

impl Edges {
    pub fn bytes(&self) -> Vec<u8> {
        trace::write(&self.cells, &self.events)
    }

    /// What the trace program shall print, as the page has it.
    pub fn prints(&self, scheme: Scheme) -> &str {
        match scheme {
            Scheme::Speculation => &self.speculation,
            Scheme::Blocking => &self.blocking,
        }
    }
}

/// Every file of these examples, by its name.
pub fn files() -> Vec<(String, Vec<u8>)> {
    let files = |edges: &Edges| {
        let printed = Scheme::ALL
            .map(|scheme| (format!("{}.{}", edges.name, scheme.ending()), edges.prints(scheme).as_bytes().to_vec()));
        printed.into_iter().chain([(format!("{}.trace", edges.name), edges.bytes())]).collect::<Vec<_>>()
    };
    all().iter().flat_map(files).collect()
}

/// A section for each example, `## ` and its name: a line of cells, a table of events, a line of the cells at the end.
pub fn all() -> Vec<Edges> {
    let page = std::fs::read_to_string(PAGE).unwrap_or_else(|trouble| panic!("{PAGE}: {trouble}"));
    let mut all: Vec<Edges> = Vec::new();
    for line in page.lines() {
        if let Some(name) = line.strip_prefix("## ") {
            all.push(Edges { name: name.to_string(), ..Edges::default() });
            continue;
        }
        let Some(last) = all.last_mut() else { continue };
        if let Some(cells) = line.strip_prefix("Cells: ") {
            last.cells = numbers(cells);
        } else if let Some(cells) = line.strip_prefix("Cells at the end: ") {
            let (speculation, blocking) = cells.split_once(", by blocking ").unwrap_or((cells, cells));
            print_cells(&mut last.speculation, speculation);
            print_cells(&mut last.blocking, blocking);
        } else if line.strip_prefix("| ").is_some_and(|row| row.starts_with(|first: char| first.is_ascii_digit())) {
            last.row(line);
        }
    }
    all
}

impl Edges {
    fn row(&mut self, line: &str) {
        let columns: Vec<&str> = line.trim_matches('|').split(" | ").map(str::trim).collect();
        let [positions, row, _, _, returned, answers, blocking] = columns[..] else {
            panic!("not {COLUMNS} columns: {line}")
        };
        let (first, last) = positions.split_once('–').unwrap_or((positions, positions));
        for position in number(first)..=number(last) {
            assert_eq!(position as usize, self.events.len() + 1, "{}: {line}", self.name);
            self.events.push(event(&row.replace('n', &position.to_string())));
            let blocking = if blocking == "same" { answers } else { blocking };
            for (lines, answers) in [(&mut self.speculation, answers), (&mut self.blocking, blocking)] {
                writeln!(lines, "e {position} {}", number(returned)).expect("a String takes all");
                for answer in answers.split("; ").filter(|&answer| answer != NONE) {
                    print(lines, 'a', &numbers(answer));
                }
            }
        }
    }
}

/// The words before the first comma, then the operations; what is left out is 0.
fn event(row: &str) -> Event {
    let mut words = [0; EVENT_WORDS];
    let mut groups = row.split(", ");
    let head = numbers(groups.next().expect("a first group"));
    words[..head.len()].copy_from_slice(&head);
    let mut place = 1;
    for group in groups {
        let (times, operation) = match (group.split_once(" × "), group.split_once(": ")) {
            (Some((times, operation)), _) => (number(times), operation),
            (_, Some((at, operation))) => {
                place = number(at) as usize;
                (1, operation)
            }
            _ => (1, group),
        };
        for _ in 0..times {
            assert!((1..=PLACES).contains(&place), "{row}");
            words[2 + 3 * place..5 + 3 * place].copy_from_slice(&numbers(operation));
            place += 1;
        }
    }
    Event::read(&words)
}

fn numbers(text: &str) -> Vec<u32> {
    text.split(' ').map(number).collect()
}

fn number(text: &str) -> u32 {
    match text {
        "TOP" => TOP,
        _ => text.parse().unwrap_or_else(|_| panic!("{text:?} is no number")),
    }
}

fn print_cells(lines: &mut String, cells: &str) {
    for (cell, content) in (0..).zip(numbers(cells)) {
        print(lines, 'c', &[cell, content]);
    }
}

fn print(lines: &mut String, letter: char, fields: &[u32]) {
    let fields: Vec<String> = fields.iter().map(u32::to_string).collect();
    writeln!(lines, "{letter} {}", fields.join(" ")).expect("a String takes all");
}
