//! Request L10: the order of decisions makes no odds. The same transactions and decisions, merged in two ways from the
//! same start, leave the same cells and give singles the same answers, attempts aside.

use independent::engine::ROOM;
use independent::event::*;
use independent::merge::{self, AnswerWords, Met, Parted};
use independent::{Answer, Engine, Fault, Scheme};
use std::collections::BTreeSet;

struct Partition {
    engine: Engine,
    cells: Vec<u32>,
}

impl Partition {
    fn new(fault: Fault) -> Partition {
        let (_, mut engine) = Engine::start(1);
        engine.fault = fault;
        Partition { engine, cells: vec![] }
    }
}

impl merge::Partition for Partition {
    fn start(&mut self, cells: &[u32]) {
        let fault = self.engine.fault;
        self.engine = Engine { fault, ..Engine::start(cells.len() as u32).1 };
        self.cells = cells.to_vec();
    }

    fn call(&mut self, scheme: Scheme, event: &Event) -> (u32, Vec<AnswerWords>) {
        let (number, answers) = self.engine.call_by(scheme, &mut self.cells, event, ROOM);
        (number, answers.iter().map(Answer::words).collect())
    }

    fn cells(&self) -> &[u32] {
        &self.cells
    }

    fn queues(&self) -> [usize; 2] {
        [self.engine.record.uncommitted.len(), self.engine.record.waiting.len()]
    }
}

#[test]
fn two_merges_end_alike() {
    let (mut partition, mut met) = (Partition::new(Fault::None), Met::default());
    for seed in 1..=2000 {
        merge::pair(seed, &mut partition, &mut met).unwrap_or_else(|parted| panic!("seed {seed}: {parted}"));
    }
    assert!(met.missing().is_empty(), "never reached: {:?}", met.missing());
    // Merges that come out the same show nothing.
    assert!(met.orders > 1800 && met.multis > 1000 && met.undid_more > 1000 && met.attempts > 1000, "{met}");
}

/// Merges that met nothing are worth nothing: those of no pair, and those that never differed.
#[test]
fn missing_differences_are_told() {
    assert!(Met::default().missing().len() > 25);
    let (mut partition, mut met) = (Partition::new(Fault::None), Met::default());
    (1..=200).for_each(|seed| merge::pair(seed, &mut partition, &mut met).expect("equal"));
    assert_eq!(met.missing(), [""; 0]);
    let alike = Met { orders: 0, multis: 0, undid_more: 0, deep: 0, attempts: 0, ..met };
    assert_eq!(alike.missing().len(), 5);
}

fn parted(fault: Fault, seeds: u64) -> Vec<Parted> {
    let (mut partition, mut met) = (Partition::new(fault), Met::default());
    (1..=seeds).filter_map(|seed| merge::pair(seed, &mut partition, &mut met).err()).collect()
}

/// The check above sees each wrong engine that parts merges, and takes no other for one.
#[test]
fn merges_parted_by_a_fault_are_seen() {
    for fault in Fault::ALL {
        let parted = parted(fault, 100);
        assert_eq!(!parted.is_empty(), fault.parts_merges(), "{fault:?}: {parted:?}");
    }
}

/// By what the request speaks of, and not by a merge that has no end.
#[test]
fn decisions_that_settle_by_their_arrival_are_seen_in_the_end() {
    for fault in [
        Fault::DecidedSettlesInItsPlace,
        Fault::DecidedGoesAhead,
        Fault::LateCommitGoesBehind,
        Fault::AbortUndoesTheFrontAlone,
        Fault::WaitingPassesTheFront,
    ] {
        let parted = parted(fault, 400);
        let cells = parted.iter().filter(|parted| matches!(parted, Parted::Cells(_))).count();
        let singles = parted.iter().filter(|parted| matches!(parted, Parted::Singles(_))).count();
        assert!(cells > 0 && singles > 0, "{fault:?}: {parted:?}");
    }
}

/// What the request speaks of at the end: the cells, and each single's answer by its number and its numbers.
type End = (Vec<u32>, Vec<(u32, Vec<u32>)>);

/// A merge of what is asked of a few numbers, and what is left to come.
#[derive(Clone)]
struct Every {
    engine: Engine,
    cells: Vec<u32>,
    left: Vec<Vec<Event>>,
    arrived: usize,
    /// The numbers of singles, and their answers.
    single: &'static [u32],
    singles: Vec<(u32, Vec<u32>)>,
}

impl Every {
    /// One at a time: 17; 18; 40, and taken back; 10 and 11; 10 and 11.
    fn five() -> Every {
        let left = vec![
            vec![Event::open(1, 1, &[(READ, 0, 0)]), Event::last(1, 1, &[(SET, 0, 17)]), Event::commit(1)],
            vec![Event::single(2, &[(ADD, 0, 1)])],
            vec![Event::last(3, 1, &[(SET, 0, 40)]), Event::abort(3)],
            vec![Event::last(4, 2, &[(TAKE, 0, 8), (ADD, 1, 1)]), Event::commit(4)],
            vec![Event::single(5, &[(LOWER, 0, 15), (READ, 1, 0)])],
        ];
        Every { engine: Engine::start(2).1, cells: vec![5, 10], left, arrived: 0, single: &[2, 5], singles: vec![] }
    }

    /// One at a time: 12, 30, 25.
    fn three() -> Every {
        let left = vec![
            vec![Event::last(1, 1, &[(TAKE, 0, 8)]), Event::commit(1)],
            vec![Event::last(2, 1, &[(SET, 0, 30)]), Event::commit(2)],
            vec![Event::single(3, &[(LOWER, 0, 25)])],
        ];
        Every { engine: Engine::start(1).1, cells: vec![20], left, arrived: 0, single: &[3], singles: vec![] }
    }

    /// How many merges there are, each call by either scheme, and all their ends.
    fn ends(mut self, fault: Fault) -> (u64, BTreeSet<End>) {
        self.engine.fault = fault;
        let (mut merges, mut ends) = (0, BTreeSet::new());
        self.gather(&mut merges, &mut ends);
        (merges, ends)
    }

    /// New numbers come in their order: of two in another one the smaller is refused for ever.
    fn gather(self, merges: &mut u64, ends: &mut BTreeSet<End>) {
        if self.left.iter().all(Vec::is_empty) {
            assert_eq!(self.engine.record.live().count(), 0);
            *merges += 1;
            ends.insert((self.cells, self.singles));
            return;
        }
        for at in 0..self.left.len().min(self.arrived + 1) {
            let Some(event) = self.left[at].first() else { continue };
            for scheme in Scheme::ALL {
                let mut next = self.clone();
                let (number, answers) = next.engine.call_by(scheme, &mut next.cells, event, ROOM);
                if number != 0 {
                    continue;
                }
                next.left[at].remove(0);
                next.arrived = next.arrived.max(at + 1);
                let singles = answers.into_iter().filter(|answer| self.single.contains(&answer.number));
                next.singles.extend(singles.map(|answer| (answer.number, answer.outcome.numbers)));
                next.gather(merges, ends);
            }
        }
    }
}

#[test]
fn every_merge_of_a_few_ends_alike() {
    let (merges, ends) = Every::five().ends(Fault::None);
    assert_eq!(ends, BTreeSet::from([(vec![10, 11], vec![(2, vec![18]), (5, vec![10, 11])])]));
    // As often as five arrivals and four others can be merged, none before its transaction's first, and two schemes for
    // each of nine calls.
    assert_eq!(merges, 47 << 9);
    let (merges, ends) = Every::three().ends(Fault::None);
    assert_eq!(ends, BTreeSet::from([(vec![25], vec![(3, vec![25])])]));
    assert_eq!(merges, 5 << 5);
    for fault in [
        Fault::DecidedSettlesInItsPlace,
        Fault::LateCommitGoesBehind,
        Fault::AbortUndoesTheFrontAlone,
        Fault::WaitingPassesTheFront,
        Fault::SpeculateBehindUnfinishedFront,
        Fault::RequeueReversed,
    ] {
        let (_, ends) = Every::five().ends(fault);
        assert!(ends.len() > 1, "{fault:?}: {ends:?}");
    }
    // 2 is decided first, and settles first.
    let (_, ends) = Every::three().ends(Fault::DecidedGoesAhead);
    assert!(ends.contains(&(vec![22], vec![(3, vec![22])])) && ends.len() > 1, "{ends:?}");
}
