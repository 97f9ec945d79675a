//! The trace program of document 01, and a writer of traces.

use crate::engine::{Answer, Engine, Fault, Record, Scheme, MOST_CELLS, ROOM};
use crate::event::{Event, EVENT_WORDS};
use std::fmt::Write;

pub const HEADER_WORDS: usize = 4;
pub const MOST_EVENTS: u32 = 256;

#[derive(Clone, Debug, PartialEq, Eq)]
pub struct Trace {
    pub cells: Vec<u32>,
    pub events: Vec<Event>,
}

/// One event with what stood before it and what came of it.
pub struct Step<'a> {
    pub event: &'a Event,
    pub before: &'a Record,
    pub number: u32,
    pub answers: &'a [Answer],
    pub after: &'a Record,
}

/// The trace, or nothing if it is bad.
pub fn read(bytes: &[u8]) -> Option<Trace> {
    let rows = bytes.chunks_exact(4);
    if !rows.remainder().is_empty() || bytes.len() < 4 * HEADER_WORDS {
        return None;
    }
    let words: Vec<u32> = rows.map(|b| u32::from_le_bytes([b[0], b[1], b[2], b[3]])).collect();
    let [cells, cells_at, events, events_at] = [words[0], words[1], words[2], words[3]];
    // The counts come first: with these in range no sum below can overflow.
    if !(1..=MOST_CELLS).contains(&cells) || events > MOST_EVENTS {
        return None;
    }
    let length = HEADER_WORDS + cells as usize + EVENT_WORDS * events as usize;
    if cells_at != 4 || events_at != 4 + cells || words.len() != length {
        return None;
    }
    let (cells, events) = words[HEADER_WORDS..].split_at(cells as usize);
    Some(Trace { cells: cells.to_vec(), events: events.chunks_exact(EVENT_WORDS).map(Event::read).collect() })
}

pub fn write(cells: &[u32], events: &[Event]) -> Vec<u8> {
    let count = cells.len() as u32;
    let header = [count, 4, events.len() as u32, 4 + count];
    let events = events.iter().flat_map(|event| event.words());
    header.into_iter().chain(cells.iter().copied()).chain(events).flat_map(u32::to_le_bytes).collect()
}

/// Plays a trace from its start, shows every step, and gives the cells at the end.
pub fn play(trace: &Trace, scheme: Scheme, fault: Fault, mut seen: impl FnMut(Step)) -> Vec<u32> {
    let mut cells = trace.cells.clone();
    let (_, mut engine) = Engine::start(cells.len() as u32);
    engine.fault = fault;
    for event in &trace.events {
        let before = engine.record.clone();
        let (number, answers) = engine.call_by(scheme, &mut cells, event, ROOM);
        seen(Step { event, before: &before, number, answers: &answers, after: &engine.record });
    }
    cells
}

/// All that the trace program prints.
pub fn replay(scheme: Scheme, bytes: &[u8]) -> String {
    replay_with(scheme, bytes, Fault::None)
}

pub fn replay_with(scheme: Scheme, bytes: &[u8], fault: Fault) -> String {
    let Some(trace) = read(bytes) else { return "bad trace\n".to_string() };
    let mut lines = String::new();
    let mut position = 0;
    let cells = play(&trace, scheme, fault, |step| {
        position += 1;
        line(&mut lines, 'e', &[position, step.number]);
        for Answer { number, attempt, dependence, outcome } in step.answers {
            let attempts = [*attempt, dependence.attempt];
            let told = [outcome.place, outcome.numbers.len() as u32];
            line(&mut lines, 'a', &[&[*number, dependence.number], &attempts[..], &told, &outcome.numbers].concat());
        }
    });
    for (cell, content) in (0..).zip(cells) {
        line(&mut lines, 'c', &[cell, content]);
    }
    lines
}

fn line(lines: &mut String, letter: char, fields: &[u32]) {
    lines.push(letter);
    for field in fields {
        write!(lines, " {field}").expect("a String takes all");
    }
    lines.push('\n');
}
