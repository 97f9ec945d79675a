//! trace make-examples DIR                    writes the example traces and what they print by each scheme; those of
//!                                            EDGES.md print what that page says, whatever this engine says
//! trace show FILE                            a trace's events in words
//! trace [speculation|blocking] run FILE      what the trace program prints for it; - for standard input

use independent::event::*;
use independent::{edges, examples, trace, Scheme};
use std::io::Read;
use std::path::Path;
use std::process::ExitCode;

fn main() -> ExitCode {
    let arguments: Vec<String> = std::env::args().skip(1).collect();
    let done = match arguments.iter().map(String::as_str).collect::<Vec<_>>()[..] {
        ["make-examples", folder] => make_examples(Path::new(folder)),
        ["show", file] => read(file).map(|bytes| show(&bytes)),
        ["run", file] | ["speculation", "run", file] => run(Scheme::Speculation, file),
        ["blocking", "run", file] => run(Scheme::Blocking, file),
        _ => {
            eprintln!("usage: trace make-examples DIR | show FILE | [speculation|blocking] run FILE");
            return ExitCode::FAILURE;
        }
    };
    match done {
        Ok(()) => ExitCode::SUCCESS,
        Err(trouble) => {
            eprintln!("{trouble}");
            ExitCode::FAILURE
        }
    }
}

/// The bytes of a file, of standard input for `-`.
fn read(file: &str) -> std::io::Result<Vec<u8>> {
    if file != "-" {
        return std::fs::read(file);
    }
    let mut bytes = Vec::new();
    std::io::stdin().read_to_end(&mut bytes).map(|_| bytes)
}

fn run(scheme: Scheme, file: &str) -> std::io::Result<()> {
    read(file).map(|bytes| print!("{}", trace::replay(scheme, &bytes)))
}

fn make_examples(folder: &Path) -> std::io::Result<()> {
    std::fs::create_dir_all(folder)?;
    for (name, contents) in examples::files().into_iter().chain(edges::files()) {
        std::fs::write(folder.join(name), contents)?;
    }
    Ok(())
}

fn show(bytes: &[u8]) {
    let Some(trace) = trace::read(bytes) else { return println!("bad trace") };
    println!("{} cells: {}", trace.cells.len(), contents(&trace.cells));
    for (position, event) in (1..).zip(&trace.events) {
        println!("{position}: {}", in_words(event));
    }
}

/// The cells that are not 0.
fn contents(cells: &[u32]) -> String {
    let filled = cells.iter().enumerate().filter(|(_, content)| **content != 0);
    let filled: Vec<String> = filled.map(|(cell, content)| format!("{cell} holds {content}")).collect();
    if filled.is_empty() {
        "all 0".to_string()
    } else {
        filled.join(", ")
    }
}

fn in_words(event: &Event) -> String {
    let fragment = &event.fragment;
    let number = fragment.number;
    match event.kind {
        _ if !event.well_formed() => format!("not well formed: {:?}", event.words()),
        COMMIT => format!("commit {number}"),
        ABORT => format!("abort {number}"),
        _ => {
            let row: Vec<String> = fragment.used().iter().map(operation_in_words).collect();
            let last = if fragment.is_last() { "last" } else { "not last" };
            let kind = match fragment.is_multi() {
                true => format!("multi {number} of coordinator {}, {last}", fragment.coordinator),
                false => format!("single {number}"),
            };
            format!("{kind}: {}", row.join(", "))
        }
    }
}

fn operation_in_words(operation: &Operation) -> String {
    let Operation { code, cell, amount } = operation;
    match *code {
        READ => format!("read {cell}"),
        SET => format!("set {cell} to {amount}"),
        ADD => format!("add {amount} to {cell}"),
        TAKE => format!("take {amount} of {cell}"),
        NEED => format!("need {amount} in {cell}"),
        MATCH => format!("match {amount} in {cell}"),
        RAISE => format!("raise {cell} to {amount}"),
        _ => format!("lower {cell} to {amount}"),
    }
}
