//! Blocking beside speculation: what differs, and what both return, settle and leave alike, in any mix.

use independent::engine::{Answer, ROOM};
use independent::event::*;
use independent::generate::{self, Random};
use independent::trace::{self, Trace};
use independent::{examples, Engine, Fault, Scheme};
use std::collections::HashSet;

/// The lines of a trace by blocking, without the `e` lines of accepted events.
fn matters(cells: &[u32], events: &[Event]) -> Vec<String> {
    let accepted = |line: &&str| line.starts_with("e ") && line.ends_with(" 0");
    let printed = trace::replay(Scheme::Blocking, &trace::write(cells, events));
    printed.lines().filter(|line| !accepted(line)).map(String::from).collect()
}

#[test]
fn depot_cases_by_blocking() {
    // P1 and P2 have nothing but singles behind an unfinished front: nothing differs but the attempts of P2, which are
    // the first by blocking.
    for (decision, lines) in [(Event::commit(1), 0), (Event::abort(1), 2)] {
        let mut events = examples::p1();
        events[4] = decision;
        let [one, two] = Scheme::ALL.map(|scheme| trace::replay(scheme, &trace::write(&[5], &events)));
        let differ: Vec<_> = one.lines().zip(two.lines()).filter(|(one, two)| one != two).collect();
        assert_eq!(differ, [("a 2 0 2 0 0 1 6", "a 2 0 1 0 0 1 6"), ("a 3 0 2 0 0 1 7", "a 3 0 1 0 0 1 7")][..lines]);
    }
    // P7: 2 and 3 wait, and cell 0 has nothing but 1's change.
    assert_eq!(matters(&[5, 10], &examples::p7()), ["a 1 0 1 0 0 1 17", "c 0 17", "c 1 10"]);
    // P8: each multi is answered when it becomes the front, in the call of the commit ahead of it.
    let p8 =
        ["a 1 0 1 0 0 1 17", "e 5 7", "a 2 0 1 0 0 1 18", "a 3 0 1 0 0 1 19", "a 4 0 1 0 0 1 19", "c 0 19", "c 1 10"];
    assert_eq!(matters(&[5, 10], &examples::p8()), p8);
}

/// Speculated ones stay as they are when blocking takes over, and what waits runs when speculation does.
#[test]
fn changeovers() {
    let (_, mut engine) = Engine::start(1);
    let mut cells = [5];
    let mut call = |scheme, event| {
        let (number, answers) = engine.call_by(scheme, &mut cells, &event, ROOM);
        assert_eq!(number, 0, "{event:?}");
        let told =
            answers.iter().map(|answer| (answer.number, answer.dependence.number, answer.outcome.numbers.clone()));
        (told.collect::<Vec<_>>(), cells[0], engine.record.uncommitted.len(), engine.record.waiting.len())
    };
    let add = |number| Event::last(number, 1, &[(ADD, 0, 1)]);
    let (speculation, blocking) = (Scheme::Speculation, Scheme::Blocking);
    assert_eq!(call(speculation, add(1)), (vec![(1, 0, vec![6])], 6, 1, 0));
    assert_eq!(call(speculation, add(2)), (vec![(2, 1, vec![7])], 7, 2, 0));
    assert_eq!(call(blocking, add(3)), (vec![], 7, 2, 1));
    // 2 is the front and was answered; 3 waits on.
    assert_eq!(call(blocking, Event::commit(1)), (vec![], 7, 1, 1));
    assert_eq!(call(speculation, add(4)), (vec![(3, 2, vec![8]), (4, 3, vec![9])], 9, 3, 0));
    // Both are undone and requeued; by blocking 3 alone runs again.
    assert_eq!(call(blocking, Event::abort(2)), (vec![(3, 0, vec![7])], 7, 1, 1));
    assert_eq!(call(blocking, Event::commit(3)), (vec![(4, 0, vec![8])], 8, 1, 0));
}

/// A partition that is handed a trace's events.
struct Partition {
    engine: Engine,
    cells: Vec<u32>,
}

impl Partition {
    fn new(trace: &Trace, fault: Fault) -> Partition {
        let (_, mut engine) = Engine::start(trace.cells.len() as u32);
        engine.fault = fault;
        Partition { engine, cells: trace.cells.clone() }
    }

    fn call(&mut self, scheme: Scheme, event: &Event) -> (u32, Vec<Answer>) {
        self.engine.call_by(scheme, &mut self.cells, event, ROOM)
    }

    fn live(&self) -> impl Iterator<Item = &Fragment> {
        self.engine.record.live()
    }
}

/// Where two runs of a trace, each by a scheme for every event, first part in more than the answers of multis and the
/// attempts; else how often nothing was live, and how often singles were answered in other attempts.
fn parted(trace: &Trace, fault: Fault, schemes: [&[Scheme]; 2]) -> Result<[u32; 2], String> {
    let (mut one, mut two) = (Partition::new(trace, fault), Partition::new(trace, fault));
    let mut singles = HashSet::new();
    let (mut settled, mut attempts) = (0, 0);
    for (at, event) in trace.events.iter().enumerate() {
        let (number, mut answers) = one.call(schemes[0][at], event);
        let (again, mut others) = two.call(schemes[1][at], event);
        if number == 0 && event.kind == FRAGMENT && !event.fragment.is_multi() {
            singles.insert(event.fragment.number);
        }
        answers.retain(|answer| singles.contains(&answer.number));
        others.retain(|answer| singles.contains(&answer.number));
        attempts += u32::from(answers != others);
        let [answers, others] =
            [answers, others].map(|all| all.into_iter().map(Answer::attempts_aside).collect::<Vec<_>>());
        let nothing_live = one.live().count() == 0;
        settled += u32::from(nothing_live);
        let parts = [
            ("number", number != again),
            ("answers of singles", answers != others),
            // The same decisions, and the same live ones after each: the same have settled.
            ("live ones", !one.live().eq(two.live())),
            ("largest number", one.engine.record.largest != two.engine.record.largest),
            ("cells", nothing_live && one.cells != two.cells),
        ];
        if let Some((what, _)) = parts.iter().find(|(_, differ)| *differ) {
            return Err(format!("event {}: the {what}", at + 1));
        }
    }
    Ok([settled, attempts])
}

/// Both schemes beside each other, and each beside a mix of runs of some calls or of any.
fn parted_in_any_mix(seed: u64, trace: &Trace, fault: Fault) -> Result<[u32; 2], String> {
    let mut random = Random(seed);
    let (mut scheme, changes) = (random.pick(&Scheme::ALL), random.pick(&[2, 10, 50]));
    let mut any = || {
        scheme = if random.percent(changes) { scheme.other() } else { scheme };
        scheme
    };
    let mix: Vec<Scheme> = trace.events.iter().map(|_| any()).collect();
    let [speculation, blocking] = Scheme::ALL.map(|scheme| vec![scheme; trace.events.len()]);
    let pairs = [[&speculation[..], &blocking], [&speculation, &mix], [&blocking, &mix]];
    let mut counts = [0; 2];
    for schemes in pairs {
        let more = parted(trace, fault, schemes)?;
        counts = [0, 1].map(|at: usize| counts[at] + more[at]);
    }
    Ok(counts)
}

fn traces() -> impl Iterator<Item = (u64, Trace)> {
    (1..=400).filter_map(|seed| Some((seed, trace::read(&generate::trace(seed))?)))
}

#[test]
fn both_schemes_settle_alike() {
    let mut counts = [0; 2];
    for (seed, trace) in traces() {
        let more =
            parted_in_any_mix(seed, &trace, Fault::None).unwrap_or_else(|parted| panic!("seed {seed}, {parted}"));
        counts = [0, 1].map(|at: usize| counts[at] + more[at]);
    }
    // The attempts are set aside for a reason.
    assert!(counts[0] > 5000 && counts[1] > 1000, "{counts:?}");
}

/// The check above sees each wrong engine that parts the schemes, and takes no other for one.
#[test]
fn schemes_parted_by_a_fault_are_seen() {
    for fault in Fault::ALL {
        let seen = traces().filter(|(seed, trace)| parted_in_any_mix(*seed, trace, fault).is_err()).count();
        assert_eq!(seen > 0, fault.parts_schemes(), "{fault:?}: {seen}");
    }
}
