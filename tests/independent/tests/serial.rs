//! The one-at-a-time run of demand 3 beside generated traces: no queue, no speculation, no undo. What it gives is what
//! the answers tell, the number that a failing operation found too, and what the cells hold whenever nothing is live.
//!
//! Which answers these are is asked as a coordinator can: of what was sent and what was decided, and never of a record.
//! Demand 3's last sentence, as request L2 has it: an answer that depends on D is "right if D commits in that very
//! attempt", and that is if the last answer sent for D before its commit carried the attempt that the answer names.

use independent::engine::ROOM;
use independent::event::*;
use independent::generate::{self, Random};
use independent::trace::{self, Trace};
use independent::{edges, Answer, Engine, Fault, Outcome, Scheme};
use std::collections::HashMap;

/// Which answers that depend on D a coordinator believes when D commits.
#[derive(Clone, Copy, Debug, PartialEq, Eq)]
enum Rule {
    /// Those that name the attempt with which D was answered last.
    NamedAttempt,
    /// As before request L2, and no coordinator may: all of them, old ones too.
    AnyAttempt,
    /// As before request L2: those since the last abort. What holds by it holds by the attempts too.
    NoAbortBetween,
}

/// A transaction as far as it was accepted.
struct Accepted {
    number: u32,
    fragments: Vec<Fragment>,
    aborted: bool,
}

/// What the last of the fragments gives, and the cells after them: those that came, where one fails.
fn run(fragments: &[Fragment], cells: &[u32]) -> (Outcome, Vec<u32>) {
    let mut after = cells.to_vec();
    let mut outcome = Outcome::default();
    for fragment in fragments {
        outcome = Outcome::default();
        for (place, operation) in (1..).zip(fragment.used()) {
            let content = &mut after[operation.cell as usize];
            let Some(number) = operation.apply(*content) else {
                return (Outcome { place, numbers: vec![*content] }, cells.to_vec());
            };
            *content = if operation.writes() { number } else { *content };
            outcome.numbers.push(number);
        }
    }
    (outcome, after)
}

/// Made of the events, the returned numbers and the answers alone.
struct Serial {
    rule: Rule,
    all: Vec<Accepted>,
    /// The cells after the first `done` of all.
    cells: Vec<u32>,
    done: usize,
    /// Answers that depend on one that is undecided, old ones too.
    pending: Vec<Answer>,
    /// The last answer that was sent for each, and whether it holds.
    last: HashMap<u32, (Answer, bool)>,
    met: Met,
}

/// What was compared.
#[derive(Clone, Copy, Debug, Default)]
struct Met {
    /// Failures, and those in which its own changes had made the content that was found.
    failed: u32,
    own: u32,
    /// Answers that hold since the one that they depend on has committed; those of them that depend on attempt 2 or more.
    dependent: u32,
    again: u32,
    /// Answers that depend on one which has committed, but in another attempt; those of them that tell what is not so.
    old: u32,
    untrue: u32,
}

impl Serial {
    fn new(rule: Rule, cells: &[u32]) -> Serial {
        let cells = cells.to_vec();
        Serial { rule, all: vec![], cells, done: 0, pending: vec![], last: HashMap::new(), met: Met::default() }
    }

    fn accept(&mut self, event: &Event) {
        let number = event.fragment.number;
        let known = self.all.iter_mut().find(|one| one.number == number);
        match (event.kind, known) {
            (FRAGMENT, Some(one)) => one.fragments.push(event.fragment),
            (FRAGMENT, None) => self.all.push(Accepted { number, fragments: vec![event.fragment], aborted: false }),
            (ABORT, Some(one)) => one.aborted = true,
            _ => {}
        }
    }

    /// Runs those that have settled: all ahead of one that is answered for good, and all where nothing is live.
    fn settle(&mut self, ahead: impl Fn(u32) -> bool) {
        while let Some(one) = self.all.get(self.done).filter(|one| ahead(one.number)) {
            if !one.aborted {
                self.cells = run(&one.fragments, &self.cells).1;
            }
            self.done += 1;
        }
    }

    /// What an answer must tell that holds now.
    fn true_outcome(&mut self, answer: &Answer) -> Result<Outcome, String> {
        self.settle(|number| number < answer.number);
        let one = self.all.get(self.done).filter(|one| one.number == answer.number);
        let one = one.ok_or(format!("{answer:?} of one that is over, or of none"))?;
        Ok(run(&one.fragments, &self.cells).0)
    }

    /// An answer that holds now.
    fn compare(&mut self, answer: &Answer) -> Result<(), String> {
        let outcome = self.true_outcome(answer)?;
        if outcome != answer.outcome {
            return Err(format!("{answer:?}, and one at a time {outcome:?}"));
        }
        if let Some(at) = outcome.place.checked_sub(1) {
            let failed = self.all[self.done].fragments.last().expect("one was accepted").operations[at as usize];
            self.met.failed += 1;
            self.met.own += u32::from(self.cells[failed.cell as usize] != outcome.numbers[0]);
        }
        if let Some((_, holds)) = self.last.get_mut(&answer.number).filter(|(last, _)| last == answer) {
            *holds = true;
        }
        Ok(())
    }

    /// An accepted event with its answers.
    fn note(&mut self, event: &Event, answers: Vec<Answer>) -> Result<(), String> {
        let decided = event.fragment.number;
        let sent_last = self.last.get(&decided).cloned();
        self.accept(event);
        let (of_decided, others): (Vec<_>, Vec<_>) =
            self.pending.drain(..).partition(|answer| event.kind != FRAGMENT && answer.dependence.number == decided);
        self.pending = others;
        let (mut holds, mut old) = (vec![], vec![]);
        match event.kind {
            COMMIT => {
                // A coordinator commits what it has heard of for good. If it never did, it waits for ever.
                let (last, good) = sent_last.ok_or(format!("{decided} was never answered"))?;
                if !good && self.rule == Rule::NamedAttempt {
                    return Err(format!("{last:?} is the last of {decided}, and never held"));
                }
                let believed = |answer: &Answer| match self.rule {
                    Rule::NamedAttempt => answer.dependence.attempt == last.attempt,
                    Rule::AnyAttempt | Rule::NoAbortBetween => true,
                };
                (holds, old) = of_decided.into_iter().partition(believed);
            }
            ABORT if self.rule == Rule::NoAbortBetween => self.pending.clear(),
            _ => {}
        }
        self.met.dependent += holds.len() as u32;
        self.met.again += holds.iter().filter(|answer| answer.dependence.attempt > 1).count() as u32;
        for answer in &answers {
            self.last.insert(answer.number, (answer.clone(), false));
        }
        let (plain, dependent): (Vec<_>, Vec<_>) =
            answers.into_iter().partition(|answer| answer.dependence.number == 0);
        self.pending.extend(dependent);
        holds.extend(plain);
        holds.sort_by_key(|answer| answer.number);
        // The old ones are not believed, and are looked at in the same order.
        let mut all: Vec<_> = holds.into_iter().map(|answer| (answer, true)).collect();
        all.extend(old.into_iter().map(|answer| (answer, false)));
        all.sort_by_key(|(answer, _)| answer.number);
        for (answer, believed) in all {
            if believed {
                self.compare(&answer)?;
            } else {
                self.met.old += 1;
                self.met.untrue += u32::from(self.true_outcome(&answer)? != answer.outcome);
            }
        }
        Ok(())
    }
}

/// Where a run of a trace, by any mix of schemes, parts from one at a time; else what was compared.
fn parted(seed: u64, trace: &Trace, fault: Fault) -> Result<Met, String> {
    parted_by(Rule::NamedAttempt, mix(seed), trace, fault)
}

/// The scheme of each call.
fn mix(seed: u64) -> impl FnMut() -> Scheme {
    let mut random = Random(seed);
    let (mut scheme, changes) = (random.pick(&Scheme::ALL), random.pick(&[0, 0, 10, 50]));
    move || {
        scheme = if random.percent(changes) { scheme.other() } else { scheme };
        scheme
    }
}

fn parted_by(rule: Rule, mut next_scheme: impl FnMut() -> Scheme, trace: &Trace, fault: Fault) -> Result<Met, String> {
    let (_, mut engine) = Engine::start(trace.cells.len() as u32);
    engine.fault = fault;
    let mut cells = trace.cells.clone();
    let mut serial = Serial::new(rule, &cells);
    for (position, event) in (1..).zip(&trace.events) {
        let scheme = next_scheme();
        let front = engine.record.uncommitted.front().map(|front| (front.first.number, front.attempt));
        let (number, answers) = engine.call_by(scheme, &mut cells, event, ROOM);
        if number != 0 {
            continue;
        }
        let at = |what| format!("event {position} by {scheme:?}: {what}");
        // The record's word is the one that was sent.
        if event.kind == COMMIT && fault == Fault::None {
            let sent = serial.last.get(&event.fragment.number).map(|(last, _)| (last.number, last.attempt));
            assert_eq!(sent, front, "{}", at("the attempt".to_string()));
        }
        serial.note(event, answers).map_err(at)?;
        if engine.record.live().count() == 0 {
            serial.settle(|_| true);
            if serial.cells != cells {
                return Err(at("the cells".to_string()));
            }
        }
    }
    Ok(serial.met)
}

fn traces() -> impl Iterator<Item = (u64, Trace)> {
    (1..=400).filter_map(|seed| Some((seed, trace::read(&generate::trace(seed))?)))
}

/// In how many of the traces a wrong engine is seen.
fn seen(fault: Fault) -> usize {
    traces().filter(|(seed, trace)| parted(*seed, trace, fault).is_err()).count()
}

#[test]
fn answers_are_those_of_one_at_a_time() {
    let mut all = Met::default();
    for (seed, trace) in traces() {
        let met = parted(seed, &trace, Fault::None).unwrap_or_else(|what| panic!("seed {seed}, {what}"));
        all.failed += met.failed;
        all.own += met.own;
        all.dependent += met.dependent;
        all.again += met.again;
        all.old += met.old;
        all.untrue += met.untrue;
    }
    assert!(all.failed > 1000 && all.own > 100, "{all:?}");
    assert!(all.dependent > 1000 && all.again > 300 && all.old > 300 && all.untrue > 100, "{all:?}");
}

/// An answer that depends on D may be wrong although D commits: a coordinator that does not look at the attempts is led
/// astray, in generated runs and by the chain 1, 3, 5 of the page of edges.
#[test]
fn a_commit_in_another_attempt_is_not_enough() {
    let misled = |seed: u64, trace: &Trace| parted_by(Rule::AnyAttempt, mix(seed), trace, Fault::None).is_err();
    let count = traces().filter(|(seed, trace)| misled(*seed, trace)).count();
    assert!(count > 20, "{count}");
    let page = edges::all().into_iter().find(|edges| edges.name == "attempts").expect("on the page");
    let chain = Trace { cells: page.cells, events: page.events[..6].to_vec() };
    let believe = |rule| parted_by(rule, || Scheme::Speculation, &chain, Fault::None);
    let what = believe(Rule::AnyAttempt).map(|_| ()).expect_err("the old answer of 5");
    assert!(what.starts_with("event 5 ") && what.contains("numbers: [19]") && what.contains("numbers: [7]"), "{what}");
    let met = believe(Rule::NamedAttempt).expect("right");
    assert_eq!((met.dependent, met.again, met.old, met.untrue), (1, 1, 1, 1));
}

/// What could be believed before request L2 can be believed still: that no abort came between is another way to know
/// that the attempt is the same.
#[test]
fn with_no_abort_between_an_answer_is_right_too() {
    let mut dependent = 0;
    for (seed, trace) in traces() {
        let met = parted_by(Rule::NoAbortBetween, mix(seed), &trace, Fault::None);
        dependent += met.unwrap_or_else(|what| panic!("seed {seed}, {what}")).dependent;
    }
    assert!(dependent > 1000, "{dependent}");
}

/// The run above sees each way to tell another number than the one that was found.
#[test]
fn what_was_not_found_is_seen() {
    let faults = [
        Fault::FoundNotTold,
        Fault::FoundAfterwards,
        Fault::FoundAfterUndo,
        Fault::FoundTheAmount,
        Fault::FoundAmongOthers,
    ];
    for fault in faults {
        assert!(seen(fault) > 20, "{fault:?}: {}", seen(fault));
    }
}

/// And a released answer that names no dependence, or another one than the nearest multi ahead.
#[test]
fn wrong_dependences_of_released_answers_are_seen() {
    for fault in [Fault::ReleaseWithoutDependence, Fault::ReleaseDependsOnTheFront] {
        assert!(seen(fault) > 5, "{fault:?}: {}", seen(fault));
    }
}

/// And attempts by which a coordinator would believe an old answer, or would wait for one that never comes.
#[test]
fn wrong_attempts_are_seen() {
    let faults = [
        Fault::AttemptNotRaised,
        Fault::AttemptTwoAfterAnAbort,
        Fault::AttemptOfTheFirstAlone,
        Fault::AttemptRaisedByACommit,
        Fault::AttemptsNotMovedUp,
        Fault::HeldWithoutAttempt,
        Fault::AttemptsSwapped,
        Fault::DependenceInItsOwnAttempt,
        Fault::DependenceInTheFrontsAttempt,
        Fault::DependenceWithoutAttempt,
        Fault::ReleaseInItsOwnAttempt,
    ];
    for fault in faults {
        assert!(seen(fault) > 3, "{fault:?}: {}", seen(fault));
    }
}
