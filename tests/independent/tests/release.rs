//! Request L6: "After each commit and before the drain, held answers are looked at in queue order, and each multi for
//! which the multis ahead of it and itself have one coordinator is answered with its dependence."

use independent::engine::{Uncommitted, ROOM};
use independent::event::*;
use independent::generate::{self, Random};
use independent::trace;
use independent::{Dependence, Engine, Outcome, Scheme};

/// A partition of one cell, and what its calls answer: number and dependence.
struct Partition {
    engine: Engine,
    cells: Vec<u32>,
}

impl Partition {
    /// A front of coordinator 1, and behind it one for each coordinator, by speculation: 0 is a single. Numbers from 1.
    fn behind_1(coordinators: &[u32]) -> Partition {
        let mut partition = Partition { engine: Engine::start(1).1, cells: vec![5] };
        for (number, &coordinator) in (1..).zip([1].iter().chain(coordinators)) {
            partition.add(number, coordinator);
        }
        partition
    }

    /// A new one that adds 1 to the cell, by speculation.
    fn add(&mut self, number: u32, coordinator: u32) -> Vec<(u32, u32)> {
        let operation = [(ADD, 0, 1)];
        self.call(match coordinator {
            0 => Event::single(number, &operation),
            _ => Event::last(number, coordinator, &operation),
        })
    }

    fn call(&mut self, event: Event) -> Vec<(u32, u32)> {
        self.call_by(Scheme::Speculation, event)
    }

    fn call_by(&mut self, scheme: Scheme, event: Event) -> Vec<(u32, u32)> {
        let (number, answers) = self.engine.call_by(scheme, &mut self.cells, &event, ROOM);
        assert_eq!(number, 0, "{event:?}");
        answers.iter().map(|answer| (answer.number, answer.dependence.number)).collect()
    }

    fn commit(&mut self, number: u32) -> Vec<(u32, u32)> {
        self.call(Event::commit(number))
    }

    fn held(&self) -> Vec<u32> {
        let held = self.engine.record.uncommitted.iter().filter(|one| one.held.is_some());
        held.map(|one| one.first.number).collect()
    }
}

#[test]
fn one_two_and_three_in_a_call() {
    assert_eq!(Partition::behind_1(&[2]).commit(1), [(2, 0)]);
    assert_eq!(Partition::behind_1(&[2, 2]).commit(1), [(2, 0), (3, 2)]);
    assert_eq!(Partition::behind_1(&[2, 2, 2]).commit(1), [(2, 0), (3, 2), (4, 3)]);
    let mut three = Partition::behind_1(&[2, 2, 2, 2]);
    assert_eq!(three.held(), [2, 3, 4, 5]);
    assert_eq!(three.commit(1), [(2, 0), (3, 2), (4, 3), (5, 4)]);
    // None of them again when it is the front.
    assert!(three.held().is_empty());
    for number in 2..=5 {
        assert_eq!(three.commit(number), []);
    }
}

/// The most that a commit can: 16 are uncommitted, and the second is the new front.
#[test]
fn fourteen_in_a_call() {
    let mut partition = Partition::behind_1(&[2; 15]);
    let expected: Vec<_> = [(2, 0)].into_iter().chain((3..=16).map(|number| (number, number - 1))).collect();
    assert_eq!(partition.commit(1), expected);
}

#[test]
fn another_coordinator_between_stops_it() {
    let mut partition = Partition::behind_1(&[2, 2, 3, 2, 3]);
    assert_eq!(partition.commit(1), [(2, 0), (3, 2)]);
    assert_eq!(partition.held(), [4, 5, 6]);
    // 3 is the front and was released, 4 has another coordinator, and 5 stands behind 4.
    assert_eq!(partition.commit(2), []);
    assert_eq!(partition.commit(3), [(4, 0)]);
    assert_eq!(partition.commit(4), [(5, 0)]);
    assert_eq!(partition.commit(5), [(6, 0)]);
    // Of the front's coordinator, but behind another one.
    let mut partition = Partition::behind_1(&[2, 1, 2]);
    assert_eq!(partition.commit(1), [(2, 0)]);
    assert_eq!(partition.held(), [3, 4]);
}

#[test]
fn singles_between_do_not_count() {
    let mut partition = Partition::behind_1(&[0, 2, 0, 0, 2, 0, 2]);
    // 2 settles, 3 is the front; a dependence names a multi, and singles behind the front stay held.
    assert_eq!(partition.commit(1), [(2, 0), (3, 0), (6, 3), (8, 6)]);
    assert_eq!(partition.held(), [4, 5, 7]);
    assert_eq!(partition.commit(3), [(4, 0), (5, 0)]);
    assert_eq!(partition.commit(6), [(7, 0)]);
    assert_eq!(partition.commit(8), []);
}

/// A released answer is what was held: the numbers, or the place and what was found.
#[test]
fn what_was_held_is_what_is_sent() {
    let mut partition = Partition::behind_1(&[2]);
    partition.call(Event::last(3, 2, &[(ADD, 0, 1), (TAKE, 0, 99)]));
    partition.call(Event::last(4, 2, &[(READ, 0, 0), (SET, 0, 3)]));
    let (_, answers) = partition.engine.call(&mut partition.cells, &Event::commit(1), ROOM);
    let outcomes: Vec<_> = answers.iter().map(|answer| (answer.outcome.place, &answer.outcome.numbers[..])).collect();
    // It found 8, its own addition with it; behind it the cell holds 7 again.
    assert_eq!(outcomes, [(0, &[7][..]), (2, &[8]), (0, &[7, 3])]);
}

/// After the front's and before the drain's: numbers rise.
#[test]
fn before_the_drain() {
    let mut partition = Partition::behind_1(&[2, 2, 0, 0, 0, 0, 0, 0, 0, 0, 0, 0, 0, 0, 0]);
    assert_eq!(partition.add(17, 2), []);
    assert_eq!(partition.engine.record.waiting.len(), 1);
    assert_eq!(partition.commit(1), [(2, 0), (3, 2), (17, 3)]);
    // By blocking the drain runs nothing behind the new front.
    let mut partition = Partition::behind_1(&[2, 2]);
    assert_eq!(partition.call_by(Scheme::Blocking, Event::last(4, 2, &[(ADD, 0, 1)])), []);
    assert_eq!(partition.call_by(Scheme::Blocking, Event::commit(1)), [(2, 0), (3, 2)]);
    assert_eq!(partition.call_by(Scheme::Blocking, Event::commit(2)), []);
    assert_eq!(partition.call_by(Scheme::Blocking, Event::commit(3)), [(4, 0)]);
}

/// A record that no run leaves: 2 and 3 have their front's coordinator, and are held all the same.
fn odd() -> Partition {
    let mut partition = Partition::behind_1(&[1, 1]);
    let hold = |one: &mut Uncommitted| one.held = Some(Outcome { place: 0, numbers: vec![77] });
    partition.engine.record.uncommitted.iter_mut().skip(1).for_each(hold);
    assert!(partition.engine.record.sound());
    partition
}

#[test]
fn not_after_a_fragment_and_not_after_an_abort() {
    for scheme in Scheme::ALL {
        // A new one, which speculation answers.
        let mut partition = odd();
        let answers = partition.call_by(scheme, Event::last(4, 1, &[(ADD, 0, 1)]));
        assert_eq!(answers, if scheme == Scheme::Blocking { vec![] } else { vec![(4, 3)] });
        assert_eq!(partition.held(), [2, 3]);
        assert_eq!(partition.call_by(scheme, Event::commit(1)), [(2, 0), (3, 2)]);
        // One for the front: it was not finished, so nobody has run behind it, and what is answered the drain runs.
        let mut partition = Partition { engine: Engine::start(1).1, cells: vec![5] };
        partition.call_by(scheme, Event::open(1, 1, &[(READ, 0, 0)]));
        partition.call_by(scheme, Event::last(2, 1, &[(READ, 0, 0)]));
        let answers = partition.call_by(scheme, Event::last(1, 1, &[(READ, 0, 0)]));
        assert_eq!(answers, if scheme == Scheme::Blocking { vec![(1, 0)] } else { vec![(1, 0), (2, 1)] });
        // An abort undoes both: what is answered is what the drain runs.
        let mut partition = odd();
        let (_, answers) = partition.engine.call_by(scheme, &mut partition.cells, &Event::abort(1), ROOM);
        assert!(answers.iter().all(|answer| answer.outcome.numbers != [77]), "{answers:?}");
        assert!(partition.held().is_empty());
    }
}

#[test]
fn a_refused_commit_releases_nothing() {
    let mut partition = odd();
    for number in [2, 3, 4] {
        let (number, answers) = partition.engine.call(&mut partition.cells, &Event::commit(number), ROOM);
        assert!(number != 0 && answers.is_empty());
        assert_eq!(partition.held(), [2, 3]);
    }
}

/// Generated runs, by any mix of schemes: what a call answers with a dependence names the nearest multi ahead and its
/// attempt, and a multi is held exactly where another coordinator is ahead of it.
#[test]
fn held_behind_another_coordinator_alone() {
    let mut released = [0; 2];
    for seed in 1..=300 {
        let Some(trace) = trace::read(&generate::trace(seed)) else { continue };
        let mut random = Random(seed);
        let (mut scheme, changes) = (random.pick(&Scheme::ALL), random.pick(&[0, 10, 50]));
        let (mut engine, mut cells) = (Engine::start(trace.cells.len() as u32).1, trace.cells.clone());
        for event in &trace.events {
            scheme = if random.percent(changes) { scheme.other() } else { scheme };
            let ran: Vec<u32> = engine.record.uncommitted.iter().map(|one| one.first.number).collect();
            let (_, answers) = engine.call_by(scheme, &mut cells, event, ROOM);
            let uncommitted = &engine.record.uncommitted;
            for (at, one) in uncommitted.iter().enumerate().filter(|(_, one)| one.first.is_multi()) {
                let number = one.first.number;
                let mut ahead = uncommitted.iter().take(at).filter(|other| other.first.is_multi());
                let foreign = ahead.clone().any(|other| other.first.coordinator != one.first.coordinator);
                assert_eq!(one.held.is_some(), foreign, "seed {seed}");
                let nearest = ahead.next_back().map_or(Dependence::default(), |other| Dependence {
                    number: other.first.number,
                    attempt: other.attempt,
                });
                let mut told = answers.iter().filter(|answer| answer.number == number);
                assert!(
                    told.all(|answer| answer.dependence == nearest && answer.attempt == one.attempt),
                    "seed {seed}"
                );
            }
            let late = |number| event.kind == COMMIT && ran.contains(&number);
            released[scheme as usize] +=
                answers.iter().filter(|answer| answer.dependence.number != 0 && late(answer.number)).count();
        }
    }
    assert!(released.iter().all(|&count| count > 10), "{released:?}");
}
