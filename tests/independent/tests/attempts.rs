//! Request L2: "The thirteenth word of an answer becomes the attempt of its transaction (first run is 1, one more after
//! each undoing), the fourteenth the attempt of the one it depends on, 0 if none."

use independent::engine::{MOST_LIVE, ROOM};
use independent::event::*;
use independent::{Dependence, Engine, Record, Scheme};

/// A partition of one cell.
struct Partition {
    engine: Engine,
    cells: Vec<u32>,
}

/// Number, dependence, attempt, attempt of the dependence, first number.
type Told = (u32, u32, u32, u32, u32);

impl Partition {
    fn new() -> Partition {
        Partition { engine: Engine::start(1).1, cells: vec![5] }
    }

    fn call(&mut self, event: Event) -> Vec<Told> {
        self.call_by(Scheme::Speculation, event)
    }

    fn call_by(&mut self, scheme: Scheme, event: Event) -> Vec<Told> {
        let (number, answers) = self.engine.call_by(scheme, &mut self.cells, &event, ROOM);
        assert_eq!(number, 0, "{event:?}");
        assert!(self.engine.record.sound());
        let told = answers.iter().map(|answer| {
            let words = answer.words();
            assert_eq!(words[12..], [answer.attempt, answer.dependence.attempt, 0, 0]);
            (words[0], words[1], words[12], words[13], words[4])
        });
        told.collect()
    }

    /// A new one that adds 1 to the cell; of coordinator 0 a single.
    fn add(&mut self, number: u32, coordinator: u32) -> Vec<Told> {
        self.call(match coordinator {
            0 => Event::single(number, &[(ADD, 0, 1)]),
            _ => Event::last(number, coordinator, &[(ADD, 0, 1)]),
        })
    }

    fn attempts(&self) -> Vec<u32> {
        self.engine.record.attempts().collect()
    }
}

/// The story of the request: the old answer of 5 names attempt 1 of 3, which commits in attempt 2.
#[test]
fn one_three_and_five_chained() {
    let mut partition = Partition::new();
    assert_eq!(partition.call(Event::last(1, 1, &[(SET, 0, 17)])), [(1, 0, 1, 0, 17)]);
    assert_eq!(partition.add(3, 1), [(3, 1, 1, 1, 18)]);
    assert_eq!(partition.add(5, 1), [(5, 3, 1, 1, 19)]);
    assert_eq!(partition.call(Event::abort(1)), [(3, 0, 2, 0, 6), (5, 3, 2, 2, 7)]);
    assert_eq!(partition.call(Event::commit(3)), []);
    assert_eq!(partition.attempts(), [2]);
    assert_eq!(partition.call(Event::commit(5)), []);
    assert_eq!(partition.cells, [7]);
    // A new one begins at 1, whatever was.
    assert_eq!(partition.add(6, 1), [(6, 0, 1, 0, 8)]);
}

/// By blocking nothing that has run returns, unless speculation ran it.
#[test]
fn one_three_and_five_by_blocking() {
    let add = |number| Event::last(number, 1, &[(ADD, 0, 1)]);
    let mut partition = Partition::new();
    for (number, told) in [(1, vec![(1, 0, 1, 0, 6)]), (3, vec![]), (5, vec![])] {
        assert_eq!(partition.call_by(Scheme::Blocking, add(number)), told);
    }
    assert_eq!(partition.call_by(Scheme::Blocking, Event::abort(1)), [(3, 0, 1, 0, 6)]);
    assert_eq!(partition.call_by(Scheme::Blocking, Event::commit(3)), [(5, 0, 1, 0, 7)]);
    // 8 is speculated, 9 waits.
    partition.call_by(Scheme::Blocking, Event::commit(5));
    assert_eq!(partition.call(add(7)), [(7, 0, 1, 0, 8)]);
    assert_eq!(partition.call(add(8)), [(8, 7, 1, 1, 9)]);
    assert_eq!(partition.call_by(Scheme::Blocking, add(9)), []);
    assert_eq!(partition.call_by(Scheme::Blocking, Event::abort(7)), [(8, 0, 2, 0, 8)]);
    assert_eq!(partition.attempts(), [2, 1]);
}

/// What waits has not run and is not undone: behind an unfinished tail, and behind 16.
#[test]
fn one_that_waits_keeps_its_attempt() {
    let mut partition = Partition::new();
    partition.add(1, 1);
    partition.call(Event::open(2, 1, &[(ADD, 0, 1)]));
    for number in 3..=5 {
        partition.add(number, u32::from(number == 4));
    }
    assert_eq!(partition.attempts(), [1; 5]);
    partition.call(Event::abort(1));
    assert_eq!(partition.attempts(), [2, 1, 1, 1]);
    // They run, each in its first attempt, and the first answer that depends on 2 names its second.
    assert_eq!(partition.call(Event::last(2, 1, &[(ADD, 0, 1)])), [(2, 0, 2, 0, 7), (4, 2, 1, 2, 9)]);
    partition.call(Event::abort(2));
    assert_eq!((partition.attempts(), &partition.cells[..]), (vec![2, 2], &[8][..]));

    let mut partition = Partition::new();
    (1..=20).for_each(|number| drop(partition.add(number, 1)));
    partition.call(Event::abort(1));
    let expected: Vec<u32> = [2; 15].into_iter().chain([1; 4]).collect();
    assert_eq!(partition.attempts(), expected);
    // Sixteen had run before this one, so the first of those that waited is undone too.
    partition.call(Event::abort(2));
    let expected: Vec<u32> = [3; 14].into_iter().chain([2]).chain([1; 3]).collect();
    assert_eq!(partition.attempts(), expected);
}

#[test]
fn later_fragments_and_commits_raise_nothing() {
    let mut partition = Partition::new();
    partition.add(1, 1);
    partition.call(Event::open(2, 1, &[(ADD, 0, 1)]));
    partition.call(Event::abort(1));
    for content in 7..=10 {
        assert_eq!(partition.call(Event::open(2, 1, &[(ADD, 0, 1)])), [(2, 0, 2, 0, content)]);
    }
    assert_eq!(partition.call(Event::last(2, 1, &[(ADD, 0, 1)])), [(2, 0, 2, 0, 11)]);
    (3..=5).for_each(|number| drop(partition.add(number, 1)));
    assert_eq!(partition.attempts(), [2, 1, 1, 1]);
    partition.call(Event::commit(2));
    assert_eq!(partition.attempts(), [1, 1, 1]);
}

/// Singles and held answers too: the attempt goes with the transaction, not with what was sent of it.
#[test]
fn held_answers_carry_their_attempt() {
    let mut partition = Partition::new();
    for (number, coordinator) in [(1, 1), (2, 0), (3, 2), (4, 2)] {
        partition.add(number, coordinator);
    }
    partition.call(Event::abort(1));
    // 2 ran alone and settled; 3 is the front; 4 depends on it.
    assert_eq!(partition.attempts(), [2, 2]);
    let mut partition = Partition::new();
    for (number, coordinator) in [(1, 9), (2, 1), (3, 0), (4, 2), (5, 2)] {
        partition.add(number, coordinator);
    }
    assert_eq!(partition.call(Event::abort(1)), [(2, 0, 2, 0, 6)]);
    partition.add(6, 2);
    let released = [(3, 0, 2, 0, 7), (4, 0, 2, 0, 8), (5, 4, 2, 2, 9), (6, 5, 1, 2, 10)];
    assert_eq!(partition.call(Event::commit(2)), released);
}

/// A refused call raises nothing.
#[test]
fn a_refused_abort_raises_nothing() {
    let mut partition = Partition::new();
    (1..=3).for_each(|number| drop(partition.add(number, 1)));
    for number in [0, 2, 3, 4] {
        let before = partition.engine.record.clone();
        let (refused, answers) = partition.engine.call(&mut partition.cells, &Event::abort(number), ROOM);
        assert!(refused != 0 && answers.is_empty() && partition.engine.record == before);
    }
}

/// From a fresh start attempt plus those ahead is never above 64, and an attempt never above 16: one runs with at most 15
/// ahead of it, none comes ahead of it later, and each undoing takes one of them away.
#[test]
fn the_most_from_a_fresh_start() {
    let mut partition = Partition::new();
    (1..=64).for_each(|number| drop(partition.add(number, 1)));
    assert_eq!(partition.engine.call(&mut partition.cells, &Event::single(65, &[(READ, 0, 0)]), ROOM).0, 10);
    for number in 1..64 {
        let told = partition.call(Event::abort(number));
        assert_eq!(told[0].2, (number + 1).min(16));
        let attempts = partition.attempts();
        assert!(attempts.iter().zip(0..).all(|(attempt, ahead)| attempt + ahead <= 64), "{attempts:?}");
        assert!(attempts.iter().all(|&attempt| attempt <= 16), "{attempts:?}");
    }
    assert_eq!(partition.attempts(), [16]);
}

/// A record with so many live ones, of which the first is uncommitted, or none is.
fn sound_with(uncommitted: bool, attempts: &[u32]) -> bool {
    let mut partition = Partition::new();
    partition.call(Event::open(1, 1, &[(READ, 0, 0)]));
    for number in 2..=attempts.len() as u32 {
        partition.add(number, 0);
    }
    let mut record: Record = partition.engine.record;
    record.uncommitted[0].attempt = attempts[0];
    record.waiting.iter_mut().zip(&attempts[1..]).for_each(|(one, &attempt)| one.attempt = attempt);
    if !uncommitted {
        let front = record.uncommitted.pop_front().expect("a front");
        record.waiting.push_front(independent::Waiting { first: front.first, attempt: front.attempt });
    }
    record.sound()
}

/// "in a sound record an attempt is at least 1, and attempt plus transactions ahead at most 64"
#[test]
fn soundness() {
    let limits: Vec<u32> = (1..=64).rev().collect();
    for uncommitted in [true, false] {
        for count in [1, 2, 16, 17, 63, 64] {
            let limits = &limits[..count];
            assert!(sound_with(uncommitted, limits) && sound_with(uncommitted, &vec![1; count]));
            for at in 0..count {
                let with = |attempt: u32| {
                    let mut attempts = limits.to_vec();
                    attempts[at] = attempt;
                    sound_with(uncommitted, &attempts)
                };
                assert!(with(1) && with(limits[at]), "{at} of {count}");
                for attempt in [0, limits[at] + 1, 65, TOP, 0u32.wrapping_sub(at as u32)] {
                    assert!(!with(attempt), "{attempt} with {at} ahead, {count} live");
                }
            }
        }
    }
}

/// An undoing keeps both clauses at their limits: a record whose attempts are as large as they may be has such ones
/// after it.
#[test]
fn the_limits_are_kept() {
    for scheme in Scheme::ALL {
        let mut partition = Partition::new();
        (1..=MOST_LIVE as u32).for_each(|number| drop(partition.add(number, 1)));
        let record = &mut partition.engine.record;
        let limits = (1..=MOST_LIVE as u32).rev();
        let (uncommitted, waiting) = (&mut record.uncommitted, &mut record.waiting);
        let attempts = uncommitted.iter_mut().map(|one| &mut one.attempt);
        attempts.chain(waiting.iter_mut().map(|one| &mut one.attempt)).zip(limits).for_each(|(at, most)| *at = most);
        assert!(record.sound());
        for number in 1..16 {
            let told = partition.call_by(scheme, Event::abort(number));
            // By blocking all wait after the first abort, and only that one has undone them.
            let attempt = if scheme == Scheme::Blocking { 65 - number } else { 64 };
            assert_eq!((told[0].0, told[0].1, told[0].2), (number + 1, 0, attempt));
        }
    }
}

/// What an answer names is the one ahead as it is in the record.
#[test]
fn the_dependence_is_read_where_it_stands() {
    let mut partition = Partition::new();
    (1..=3).for_each(|number| drop(partition.add(number, 1)));
    let record = &mut partition.engine.record;
    record.uncommitted.iter_mut().zip([64, 7, 5]).for_each(|(one, attempt)| one.attempt = attempt);
    assert_eq!(partition.add(4, 1), [(4, 3, 1, 5, 9)]);
    let (_, answers) = partition.engine.call(&mut partition.cells, &Event::last(5, 1, &[(READ, 0, 0)]), ROOM);
    assert_eq!(answers[0].dependence, Dependence { number: 4, attempt: 1 });
}
