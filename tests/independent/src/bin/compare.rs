//! Compares a trace program with this engine, trace by trace and byte for byte, each trace by both schemes.
//!
//! compare --program PATH [--args "ARG .."] [--traces N] [--seed S]
//! compare --self-check [--traces N] [--seed S]     every fault against the right engine, without a program
//!
//! For blocking the program is handed the word `blocking` before its other arguments; with none it speculates.

use independent::generate::{self, Reach};
use independent::trace::{replay, replay_with};
use independent::{Fault, Scheme};
use std::io::{Read, Write};
use std::process::{Command, ExitCode, Stdio};
use std::sync::mpsc;
use std::time::Duration;

const USAGE: &str =
    "compare --program PATH [--args \"ARG ..\"] [--traces N] [--seed S] | --self-check [--traces N] [--seed S]";
/// A program that takes longer for one trace has hung.
const PATIENCE: Duration = Duration::from_secs(60);

struct Wanted {
    program: Option<String>,
    arguments: Vec<String>,
    traces: u64,
    seed: u64,
    self_check: bool,
}

fn main() -> ExitCode {
    let done = wanted().and_then(|wanted| match &wanted.program {
        _ if wanted.self_check => self_check(&wanted),
        Some(program) => compare(program, &wanted),
        None => Err(format!("usage: {USAGE}")),
    });
    match done {
        Ok(()) => ExitCode::SUCCESS,
        Err(message) => {
            println!("{message}");
            ExitCode::FAILURE
        }
    }
}

fn wanted() -> Result<Wanted, String> {
    let mut wanted = Wanted { program: None, arguments: Vec::new(), traces: 500, seed: 1, self_check: false };
    let mut arguments = std::env::args().skip(1);
    while let Some(name) = arguments.next() {
        let mut value = || arguments.next().ok_or(format!("{name} wants a value; usage: {USAGE}"));
        let number = |text: String| text.parse().map_err(|_| format!("{text} is no number"));
        match name.as_str() {
            "--program" => wanted.program = Some(value()?),
            "--args" => wanted.arguments.extend(value()?.split_whitespace().map(String::from)),
            "--traces" => wanted.traces = number(value()?)?,
            "--seed" => wanted.seed = number(value()?)?,
            "--self-check" => wanted.self_check = true,
            _ => return Err(format!("{name} is unknown; usage: {USAGE}")),
        }
    }
    Ok(wanted)
}

fn compare(program: &str, wanted: &Wanted) -> Result<(), String> {
    let mut reaches = Scheme::ALL.map(Reach::by);
    for (done, seed) in (1..=wanted.traces).zip(wanted.seed..) {
        let trace = generate::trace(seed);
        for reach in &mut reaches {
            let scheme = reach.scheme;
            reach.note_trace(&trace);
            let right = replay(scheme, &trace);
            let wrong = match run(program, scheme, &wanted.arguments, &trace) {
                Ok(printed) if printed == right.as_bytes() => continue,
                Ok(printed) => difference(&right, &printed),
                Err(trouble) => trouble,
            };
            let file = format!("failing-{seed}.trace");
            let kept = std::fs::write(&file, &trace).map_or_else(|trouble| trouble.to_string(), |()| file);
            return Err(format!("FAILED: seed {seed} by {}, {wrong}\ntrace: {kept}", scheme.word()));
        }
        if done % 100 == 0 {
            eprintln!("{done} traces by both schemes, {} events", reaches[0].events);
        }
    }
    reaches.iter().for_each(|reach| println!("equal by {reach}"));
    all_reached(&reaches)
}

/// What the program prints for a trace. Its exit number is its own; an end by a signal is trouble.
fn run(program: &str, scheme: Scheme, arguments: &[String], trace: &[u8]) -> Result<Vec<u8>, String> {
    let mut command = Command::new(program);
    if scheme == Scheme::Blocking {
        command.arg(scheme.word());
    }
    command.args(arguments).stdin(Stdio::piped()).stdout(Stdio::piped());
    let mut child = command.spawn().map_err(|trouble| format!("{program} does not start: {trouble}"))?;
    let (mut input, mut output) = (child.stdin.take().expect("piped"), child.stdout.take().expect("piped"));
    let trace = trace.to_vec();
    // A program may stop reading a bad trace early, so a failing write is none of our business.
    std::thread::spawn(move || drop(input.write_all(&trace)));
    let (sender, receiver) = mpsc::channel();
    std::thread::spawn(move || {
        let mut printed = Vec::new();
        let read = output.read_to_end(&mut printed).map(|_| printed);
        drop(sender.send(read));
    });
    let read = receiver.recv_timeout(PATIENCE);
    if read.is_err() {
        drop(child.kill());
    }
    let status = child.wait().map_err(|trouble| trouble.to_string())?;
    match read {
        Err(_) => Err(format!("{program} did not end in {PATIENCE:?}")),
        Ok(Err(trouble)) => Err(trouble.to_string()),
        Ok(Ok(_)) if status.code().is_none() => Err(format!("{program}: {status}")),
        Ok(Ok(printed)) => Ok(printed),
    }
}

/// The event and the first differing line of both. Split and not taken as lines, so that a missing line end shows.
fn difference(right: &str, printed: &[u8]) -> String {
    let printed = String::from_utf8_lossy(printed);
    let (mut ours, mut theirs) = (right.split('\n'), printed.split('\n'));
    let mut position = "before the first event".to_string();
    loop {
        let (our, their) = (ours.next(), theirs.next());
        match our.and_then(|line| line.split_once(' ')) {
            Some(("e", fields)) => position = format!("event {}", fields.split(' ').next().unwrap_or("")),
            Some(("c", _)) => position = "cells at the end".to_string(),
            _ => {}
        }
        if our != their || our.is_none() {
            let shown = |line: Option<&str>| line.map_or("(nothing more)".to_string(), |line| format!("{line:?}"));
            return format!("{position}\n  independent: {}\n  program:     {}", shown(our), shown(their));
        }
    }
}

fn self_check(wanted: &Wanted) -> Result<(), String> {
    let traces: Vec<_> =
        (wanted.seed..).take(wanted.traces as usize).map(|seed| (seed, generate::trace(seed))).collect();
    let reaches = Scheme::ALL.map(|scheme| {
        let mut reach = Reach::by(scheme);
        traces.iter().for_each(|(_, trace)| reach.note_trace(trace));
        reach
    });
    reaches.iter().for_each(show);
    let mut wrong = Vec::new();
    for scheme in Scheme::ALL {
        let right: Vec<String> = traces.iter().map(|(_, trace)| replay(scheme, trace)).collect();
        for fault in Fault::ALL {
            let differs = |(at, (_, trace)): &(usize, &(u64, Vec<u8>))| replay_with(scheme, trace, fault) != right[*at];
            let shown: Vec<u64> = traces.iter().enumerate().filter(differs).map(|(_, (seed, _))| *seed).collect();
            let (by, all) = (scheme.word(), traces.len());
            match (shown.first(), fault.shows_by(scheme)) {
                (Some(seed), true) => {
                    println!("{fault:?} by {by}: first shown by seed {seed}, by {} of {all} traces", shown.len())
                }
                (None, true) => wrong.push(format!("{fault:?} never noticed by {by}")),
                (Some(seed), false) => wrong.push(format!("{fault:?} is none by {by}, but seed {seed} shows it")),
                (None, false) => {}
            }
        }
    }
    if !wrong.is_empty() {
        return Err(format!("FAILED: {}", wrong.join(", ")));
    }
    all_reached(&reaches)
}

fn show(reach: &Reach) {
    println!("{reach}");
    let Reach { answers, held, dependent, failed, eight_fragments, stopped_by_depth, stopped_by_tail, .. } = reach;
    println!("answers {answers}, with dependence {dependent}, with a place of failure {failed}; held at first {held}");
    println!("drains stopped by depth {stopped_by_depth}, by an unfinished tail {stopped_by_tail}; eight fragments {eight_fragments}");
    println!("aborts by how many they put back, 0 to 15: {:?}", reach.requeued);
}

fn all_reached(reaches: &[Reach]) -> Result<(), String> {
    let of = |reach: &Reach| {
        reach.missing().into_iter().map(|name| format!("{name} by {}", reach.scheme.word())).collect::<Vec<_>>()
    };
    match reaches.iter().flat_map(of).collect::<Vec<_>>() {
        missing if missing.is_empty() => Ok(()),
        missing => Err(format!("FAILED: never reached: {}", missing.join(", "))),
    }
}
