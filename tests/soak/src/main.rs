//! Hostile calls through the boundary to C of the linked archive, by both schemes, each compared whole with the
//! independent engine: the returned number, the count of answers, the record, the cells, the room, the event and the
//! guards around them. Where nothing but calls made a record, its twin is handed the same events by the other scheme,
//! and what must be equal then is compared too. Then the same transactions and decisions are merged in two ways, and
//! what the archive leaves and answers in the end is compared.
//!
//!     tools/archive && cargo build --release     HARUKDALIS_ARCHIVE names another archive
//!     soak                                       a million calls of seed 1, and 4,000 pairs of merges
//!     soak --calls N --seed S --from-batch B     others; a run that was stopped goes on where its progress says
//!     soak --merges N --from-merge M             so many pairs of merges and not one for 250 calls
//!     soak --self-check                          every wrong engine in place of the archive must be noticed
//!     soak --wrong NAME                          one of them, to see what a difference looks like
//!
//! Memory: with --exact each area is an allocation of its own and exactly as long as it says, one of no words none at
//! all, so that valgrind reports one word too far, read or written, in code of any origin:
//!
//!     valgrind --error-exitcode=9 -q target/release/soak --exact --calls 20000
//!
//! That this sees something is shown by the same with --wrong ReadBehindEvent, which must end with 9. A sanitizer of
//! the compiler would not do: it looks at what it compiled itself, and the archive is not among that.
//!
//! * `arena`, `bench`: the areas of a call, and both engines on them; `subject`: what is tried; `twin`: its pair
//! * `merge`: what is tried as a partition of two merges
//! * `batch`: the mix of calls; `life`: events that mean something; `hostile`: any words and lengths
//! * `damage`: records that no run leaves; `clauses`: which clauses of soundness a record breaks; `view`: its words
//! * `unused`: garbage in the unused places of sound records, and the kinds of calls that met it
//! * `wrong`: wrong engines; `tally`: what a run met

mod arena;
mod batch;
mod bench;
mod clauses;
mod damage;
mod hostile;
mod life;
mod listed;
mod merge;
mod subject;
mod tally;
mod twin;
mod unused;
mod view;
mod wrong;

use batch::BATCH_CALLS;
use bench::{Bench, Judges};
use independent::merge::{Met, Parted};
use merge::{Merged, CALLS_FOR_A_PAIR};
use std::process::ExitCode;
use std::time::{Duration, Instant};
use subject::{Archive, Exact, Subject};
use tally::{Tally, ENOUGH};
use wrong::Wrong;

const USAGE: &str = "soak [--calls N] [--seed S] [--from-batch B] [--merges N] [--from-merge M] [--progress SECONDS] \
                     [--exact] [--wrong NAME] | soak --self-check [--seed S]";

/// A wrong engine is noticed in so many calls.
const PATIENCE: u64 = 200_000;
/// And, if it parts merges, in so many pairs of them.
const PATIENCE_IN_PAIRS: u64 = 500;
/// So many pairs have to reach every corner.
const ENOUGH_PAIRS: u64 = 1000;

struct Wanted {
    calls: u64,
    seed: u64,
    from_batch: u64,
    /// Pairs of them; one for 250 calls, if nobody says.
    merges: Option<u64>,
    from_merge: u64,
    progress: Duration,
    exact: bool,
    wrong: Option<Wrong>,
    self_check: bool,
}

fn main() -> ExitCode {
    let done = wanted().and_then(|wanted| match wanted {
        Wanted { self_check: true, .. } => self_check(&wanted),
        Wanted { exact: true, wrong: Some(wrong), .. } => soak(Exact(wrong), &wanted),
        Wanted { wrong: Some(wrong), .. } => soak(wrong, &wanted),
        Wanted { exact: true, .. } => soak(Exact(Archive), &wanted),
        _ => soak(Archive, &wanted),
    });
    match done {
        Ok(()) => ExitCode::SUCCESS,
        Err(message) => {
            println!("{message}");
            ExitCode::FAILURE
        }
    }
}

fn wanted() -> Result<Wanted, String> {
    let mut wanted = Wanted {
        calls: ENOUGH,
        seed: 1,
        from_batch: 0,
        merges: None,
        from_merge: 0,
        progress: Duration::from_secs(10),
        exact: false,
        wrong: None,
        self_check: false,
    };
    let mut arguments = std::env::args().skip(1);
    while let Some(name) = arguments.next() {
        let mut value = || arguments.next().ok_or(format!("{name} wants a value; usage: {USAGE}"));
        let number = |text: String| text.parse::<u64>().map_err(|_| format!("{text} is no number"));
        match name.as_str() {
            "--calls" => wanted.calls = number(value()?)?,
            "--seed" => wanted.seed = number(value()?)?,
            "--from-batch" => wanted.from_batch = number(value()?)?,
            "--merges" => wanted.merges = Some(number(value()?)?),
            "--from-merge" => wanted.from_merge = number(value()?)?,
            "--progress" => wanted.progress = Duration::from_secs(number(value()?)?),
            "--exact" => wanted.exact = true,
            "--wrong" => wanted.wrong = Some(Wrong::named(&value()?)?),
            "--self-check" => wanted.self_check = true,
            _ => return Err(format!("{name} is unknown; usage: {USAGE}")),
        }
    }
    Ok(wanted)
}

fn soak<S: Subject>(subject: S, wanted: &Wanted) -> Result<(), String> {
    let &Wanted { calls, seed, from_batch, progress, .. } = wanted;
    let numbers = subject::archive_numbers();
    if numbers != [9936, 29, 16, 1024, 4096] {
        return Err(format!("FAILED: the archive says of itself {numbers:?}"));
    }
    let (mut bench, mut tally) = (Bench::new(subject), Tally::new());
    let began = Instant::now();
    let rate = |calls: u64| calls as f64 / began.elapsed().as_secs_f64();
    let mut shown = began;
    let batches = calls.div_ceil(BATCH_CALLS);
    for batch in from_batch..from_batch + batches {
        let left = calls - (batch - from_batch) * BATCH_CALLS;
        batch::run(&mut bench, &mut tally, seed, batch, left.min(BATCH_CALLS)).map_err(|found| {
            let again = format!("soak --seed {seed} --from-batch {batch} --calls {BATCH_CALLS}");
            let batch::Found { call, difference } = *found;
            format!("FAILED: seed {seed}, batch {batch}, call {call} of it\n{difference}repeat: {again}")
        })?;
        if shown.elapsed() >= progress {
            shown = Instant::now();
            let (calls, next) = (tally.calls, batch + 1);
            eprintln!("{calls} calls, {:.0} a second; go on with --seed {seed} --from-batch {next}", rate(calls));
        }
    }
    print!("equal: {tally}");
    println!("seed {seed}, {batches} batches from {from_batch} on, {:.0} calls a second", rate(tally.calls));
    if calls >= ENOUGH {
        reached(&tally.missing())?;
    }
    merges(bench.subject, wanted)
}

fn reached(missing: &[String]) -> Result<(), String> {
    match missing {
        [] => Ok(()),
        _ => Err(format!("FAILED: never reached: {}", missing.join(", "))),
    }
}

/// The same transactions and decisions in two orders, as often as wanted.
fn merges<S: Subject>(subject: S, wanted: &Wanted) -> Result<(), String> {
    let &Wanted { calls, seed, merges, from_merge, .. } = wanted;
    let pairs = merges.unwrap_or(calls / CALLS_FOR_A_PAIR);
    let (mut merged, mut met) = (Merged::new(subject), Met::default());
    let began = Instant::now();
    for number in from_merge..from_merge + pairs {
        merged.pair(seed, number, &mut met).map_err(|parted| {
            let again = format!("soak --seed {seed} --calls 0 --merges 1 --from-merge {number}");
            format!("FAILED: seed {seed}, merges {number}\n{parted}\nrepeat: {again}")
        })?;
    }
    print!("merged in two ways and equal: {met}");
    println!("seed {seed}, {pairs} pairs from {from_merge} on, {:.1} s", began.elapsed().as_secs_f64());
    match pairs {
        ENOUGH_PAIRS.. => reached(&met.missing()),
        _ => Ok(()),
    }
}

/// Every wrong engine in place of the archive is noticed, and one that is not wrong is not: by the independent engine
/// alone all of them, by the twin alone those that part the schemes, by two merges alone those that part these.
fn self_check(wanted: &Wanted) -> Result<(), String> {
    if let Some((calls, found)) = notice(Wrong::ByClauses, Judges::Both, wanted) {
        return Err(format!(
            "FAILED: the clauses and the independent engine differ, call {calls}\n{}",
            found.difference
        ));
    }
    println!("ByClauses: as sound as the independent engine in {PATIENCE} calls");
    let mut unnoticed = Vec::new();
    let (all, parting) = (Wrong::all(), Wrong::parting());
    let by_independent = all.iter().map(|&wrong| (wrong, Judges::Independent));
    for (wrong, judges) in by_independent.chain(parting.iter().map(|&wrong| (wrong, Judges::Twin))) {
        let by = if judges == Judges::Twin { ", by its twin" } else { "" };
        match notice(wrong, judges, wanted) {
            Some((calls, found)) => println!("{wrong:?}{by}: call {calls}, {}", found.difference.what),
            None => unnoticed.push(format!("{wrong:?}{by}")),
        }
    }
    let merging = Wrong::merging();
    for &wrong in &merging {
        match notice_merging(wrong, wanted) {
            Some((pairs, parted)) => println!("{wrong:?}, by merges: pair {pairs}, {parted}"),
            None => unnoticed.push(format!("{wrong:?}, by merges")),
        }
    }
    match unnoticed.is_empty() {
        true => {
            let [all, parting, merging] = [all, parting, merging].map(|wrong| wrong.len());
            println!("all {all} wrong engines noticed, {parting} by their twins alone and {merging} by merges alone");
            Ok(())
        }
        false => Err(format!(
            "FAILED: not noticed in {PATIENCE} calls or {PATIENCE_IN_PAIRS} pairs of merges: {}",
            unnoticed.join(", ")
        )),
    }
}

/// The first call that shows a wrong engine, and what it shows.
fn notice(wrong: Wrong, judges: Judges, wanted: &Wanted) -> Option<(u64, Box<batch::Found>)> {
    let (mut bench, mut tally) = (Bench::new(wrong), Tally::new());
    bench.judges = judges;
    (0..PATIENCE / BATCH_CALLS).find_map(|number| {
        let found = batch::run(&mut bench, &mut tally, wanted.seed, wanted.from_batch + number, BATCH_CALLS).err()?;
        Some((number * BATCH_CALLS + found.call, found))
    })
}

/// The first pair of merges that shows a wrong engine, and what it shows.
fn notice_merging(wrong: Wrong, wanted: &Wanted) -> Option<(u64, Parted)> {
    let (mut merged, mut met) = (Merged::new(wrong), Met::default());
    let pairs = wanted.from_merge..wanted.from_merge + PATIENCE_IN_PAIRS;
    (1..).zip(pairs).find_map(|(count, number)| Some((count, merged.pair(wanted.seed, number, &mut met).err()?)))
}
