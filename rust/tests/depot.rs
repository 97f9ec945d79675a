//! Cases of document 01 through the wrapper: what a shelf and its answers do.

use harukdalis::{Dependence, Engine, Event, Op, Outcome, Record, Refusal, Room, Scheme, DEPTH, TOP};

/// An answer as transaction, dependence (0 for none), place (0 for none), numbers.
type Told = (u32, u32, u32, Vec<u32>);

#[derive(Clone)]
struct Depot {
    engine: Engine,
    cells: Vec<u32>,
    room: Room,
    /// Of the last accepted call's answers: transaction, attempt, attempt of the dependence (0 for none).
    attempts: Vec<(u32, u32, u32)>,
}

fn depot(cells: &[u32]) -> Depot {
    let engine = Engine::start(cells.len() as u32).unwrap();
    Depot { engine, cells: cells.to_vec(), room: Room::new(), attempts: vec![] }
}

impl Depot {
    fn call(&mut self, event: Event) -> Result<Vec<Told>, Refusal> {
        self.call_by(Scheme::Speculation, event)
    }

    fn call_by(&mut self, scheme: Scheme, event: Event) -> Result<Vec<Told>, Refusal> {
        let answers = self.engine.call_by(scheme, &mut self.cells, &event, &mut self.room)?;
        let told = |outcome: Outcome<'_>| match outcome {
            Outcome::Failed { place, found } => (place, vec![found]),
            Outcome::Numbers(numbers) => (0, numbers.to_vec()),
        };
        let length = answers.len();
        let attempts = &mut self.attempts;
        attempts.clear();
        let answers: Vec<_> = answers
            .map(|answer| {
                let (place, numbers) = told(answer.outcome());
                let none = Dependence { transaction: 0, attempt: 0 };
                let Dependence { transaction, attempt } = answer.dependence().unwrap_or(none);
                assert!(answer.attempt() >= 1 && (attempt >= 1) == (transaction >= 1), "{answer:?}");
                attempts.push((answer.transaction(), answer.attempt(), attempt));
                (answer.transaction(), transaction, place, numbers)
            })
            .collect();
        assert_eq!(length, answers.len());
        Ok(answers)
    }
}

fn one(transaction: u32, dependence: u32, numbers: &[u32]) -> Result<Vec<Told>, Refusal> {
    Ok(vec![(transaction, dependence, 0, numbers.to_vec())])
}

fn failed(transaction: u32, place: u32, found: u32) -> Result<Vec<Told>, Refusal> {
    Ok(vec![(transaction, 0, place, vec![found])])
}

const NONE: Result<Vec<Told>, Refusal> = Ok(vec![]);

/// P1 and P2 up to their last event.
fn swap() -> Depot {
    let mut depot = depot(&[5]);
    assert_eq!(depot.call(Event::multi(1, 1, false, &[Op::read(0)])), one(1, 0, &[5]));
    assert_eq!(depot.call(Event::single(2, &[Op::add(0, 1)])), NONE);
    assert_eq!(depot.call(Event::single(3, &[Op::add(0, 1)])), NONE);
    assert_eq!(depot.cells, [5], "nothing runs behind an unfinished front");
    assert_eq!(depot.call(Event::multi(1, 1, true, &[Op::set(0, 17)])), one(1, 0, &[17]));
    depot
}

#[test]
fn p1_singles_are_answered_when_the_front_commits() {
    let mut depot = swap();
    assert_eq!(depot.call(Event::commit(1)), Ok(vec![(2, 0, 0, vec![18]), (3, 0, 0, vec![19])]));
    assert_eq!(depot.attempts, [(2, 1, 0), (3, 1, 0)]);
    assert_eq!(depot.cells, [19]);
}

#[test]
fn p2_singles_run_again_when_the_front_is_aborted() {
    let mut depot = swap();
    assert_eq!(depot.call(Event::abort(1)), Ok(vec![(2, 0, 0, vec![6]), (3, 0, 0, vec![7])]));
    assert_eq!(depot.attempts, [(2, 2, 0), (3, 2, 0)]);
    assert_eq!(depot.cells, [7]);
}

#[test]
fn p3_two_takes_of_a_shelf_are_put_back() {
    let mut depot = depot(&[5, 10]);
    assert_eq!(depot.call(Event::multi(1, 1, true, &[Op::take(1, 1), Op::take(1, 1)])), one(1, 0, &[9, 8]));
    assert_eq!(depot.cells, [5, 8]);
    assert_eq!(depot.call(Event::abort(1)), NONE);
    assert_eq!(depot.cells, [5, 10]);
}

#[test]
fn p4_p5_a_shelf_gives_what_it_has_and_no_more() {
    let mut few = depot(&[5, 10]);
    assert_eq!(few.call(Event::single(1, &[Op::take(1, 10)])), one(1, 0, &[0]));
    let mut many = depot(&[5, 10]);
    assert_eq!(many.call(Event::single(1, &[Op::take(1, 11)])), failed(1, 1, 10));
    assert_eq!(many.cells, [5, 10]);
}

#[test]
fn p6_a_full_shelf_takes_nothing_more() {
    let mut depot = depot(&[TOP]);
    assert_eq!(depot.call(Event::single(1, &[Op::add(0, 0)])), one(1, 0, &[TOP]));
    assert_eq!(depot.call(Event::single(2, &[Op::add(0, 1)])), failed(2, 1, TOP));
}

#[test]
fn p7_p8_a_dependence_on_the_multi_ahead() {
    let mut depot = depot(&[5, 10]);
    assert_eq!(depot.call(Event::multi(1, 1, true, &[Op::set(0, 17)])), one(1, 0, &[17]));
    assert_eq!(depot.call(Event::single(2, &[Op::add(0, 1)])), NONE);
    assert_eq!(depot.call(Event::multi(3, 1, true, &[Op::add(0, 1)])), one(3, 1, &[19]));
    assert_eq!(depot.call(Event::multi(4, 2, true, &[Op::read(0)])), NONE, "another coordinator's is held");
    assert_eq!(depot.call(Event::commit(3)), Err(Refusal::NotFront));
    assert_eq!(depot.call(Event::commit(1)), one(2, 0, &[18]), "3 is not answered again");
    assert_eq!(depot.call(Event::commit(3)), one(4, 0, &[19]));
}

/// Request L6: coordinators 1, 2, 2 and 1. The commit of 1 answers 2, the new front, and 3, whose multis ahead are then of
/// its own coordinator; 4 is behind another one's.
#[test]
fn a_commit_releases_held_answers() {
    let add = |number, coordinator| Event::multi(number, coordinator, true, &[Op::add(0, 1)]);
    let mut depot = depot(&[5]);
    assert_eq!(depot.call(add(1, 1)), one(1, 0, &[6]));
    for (number, coordinator) in [(2, 2), (3, 2), (4, 1)] {
        assert_eq!(depot.call(add(number, coordinator)), NONE, "another coordinator is ahead");
    }
    let mut blocking = depot.clone();
    let released = Ok(vec![(2, 0, 0, vec![7]), (3, 2, 0, vec![8])]);
    assert_eq!((depot.call(Event::commit(1)), &depot.attempts[..]), (released.clone(), &[(2, 1, 0), (3, 1, 1)][..]));
    // By blocking the commit of what speculation left is the same; what comes then waits.
    assert_eq!(blocking.call_by(Scheme::Blocking, Event::commit(1)), released);
    assert_eq!(blocking.engine, depot.engine);
    assert_eq!(blocking.call_by(Scheme::Blocking, add(5, 2)), NONE);
    assert_eq!(blocking.engine.record().waiting, 1);
    // 3 was answered, and is not answered again when it is the front.
    assert_eq!(depot.call(Event::commit(2)), NONE);
    assert_eq!(depot.call(Event::commit(3)), one(4, 0, &[9]));
}

/// What a commit releases stands between the new front's answer and what the drain runs; a single between counts for no
/// coordinator, and stays held.
#[test]
fn released_answers_come_before_the_drains() {
    let mut depot = depot(&[0]);
    let add = |number, coordinator| Event::multi(number, coordinator, true, &[Op::add(0, 1)]);
    assert_eq!(depot.call(add(1, 1)), one(1, 0, &[1]));
    assert_eq!(depot.call(add(2, 2)), NONE);
    for number in 3..DEPTH as u32 {
        assert_eq!(depot.call(Event::single(number, &[Op::add(0, 1)])), NONE);
    }
    assert_eq!(depot.call(add(16, 2)), NONE);
    assert_eq!(depot.call(add(17, 2)), NONE);
    assert_eq!(depot.engine.record().waiting, 1);
    let answers = vec![(2, 0, 0, vec![2]), (16, 2, 0, vec![16]), (17, 16, 0, vec![17])];
    assert_eq!(depot.call(Event::commit(1)), Ok(answers));
    // An abort makes them void: they run again and are answered again.
    let again = depot.call(Event::abort(2)).unwrap();
    assert_eq!((again.len(), &again[13..]), (15, &[(16, 0, 0, vec![15]), (17, 16, 0, vec![16])][..]));
}

/// The events of P7 and P8 by blocking: no multi is answered before the one ahead of it commits.
#[test]
fn p7_p8_by_blocking_each_multi_is_answered_when_it_is_the_front() {
    let mut depot = depot(&[5, 10]);
    let mut call = |event| (depot.call_by(Scheme::Blocking, event), depot.cells[0]);
    assert_eq!(call(Event::multi(1, 1, true, &[Op::set(0, 17)])), (one(1, 0, &[17]), 17));
    assert_eq!(call(Event::single(2, &[Op::add(0, 1)])), (NONE, 17));
    assert_eq!(call(Event::multi(3, 1, true, &[Op::add(0, 1)])), (NONE, 17));
    assert_eq!(call(Event::multi(4, 2, true, &[Op::read(0)])), (NONE, 17));
    assert_eq!(call(Event::commit(3)), (Err(Refusal::NotFront), 17));
    assert_eq!(call(Event::commit(1)), (Ok(vec![(2, 0, 0, vec![18]), (3, 0, 0, vec![19])]), 19));
    assert_eq!(call(Event::commit(3)), (one(4, 0, &[19]), 19));
    let record = depot.engine.record();
    assert_eq!((record.uncommitted, record.waiting), (1, 0));
}

/// Calls of both schemes on one record: what was speculated stays as it is, what waits goes on waiting.
#[test]
fn a_changeover_at_any_call() {
    let mut depot = depot(&[5]);
    let mut call = |scheme, event| {
        let answers = depot.call_by(scheme, event);
        let record = depot.engine.record();
        (answers, depot.cells[0], record.uncommitted, record.waiting)
    };
    let add = |number| Event::multi(number, 1, true, &[Op::add(0, 1)]);
    let (speculation, blocking) = (Scheme::Speculation, Scheme::Blocking);
    assert_eq!(call(speculation, add(1)), (one(1, 0, &[6]), 6, 1, 0));
    assert_eq!(call(speculation, add(2)), (one(2, 1, &[7]), 7, 2, 0));
    assert_eq!(call(blocking, add(3)), (NONE, 7, 2, 1));
    assert_eq!(call(blocking, Event::single(4, &[Op::add(0, 1)])), (NONE, 7, 2, 2));
    // 2 is the front and was answered while the depot speculated; 3 and 4 wait for its decision.
    assert_eq!(call(blocking, Event::commit(1)), (NONE, 7, 1, 2));
    // Back again: all that waits runs in the next accepted call, whatever it brings; a refused one runs nothing.
    assert_eq!(call(speculation, Event::commit(3)), (Err(Refusal::NotFront), 7, 1, 2));
    let both = Ok(vec![(3, 2, 0, vec![8]), (5, 3, 0, vec![10])]);
    assert_eq!(call(speculation, add(5)), (both, 10, 4, 0));
    // An abort by blocking undoes and requeues all of them, and the next multi alone runs again.
    assert_eq!(call(blocking, Event::abort(2)), (one(3, 0, &[7]), 7, 1, 2));
    let last = Ok(vec![(4, 0, 0, vec![8]), (5, 0, 0, vec![9])]);
    assert_eq!(call(blocking, Event::commit(3)), (last, 9, 1, 0));
}

/// A morning with aborts by either scheme, and by one and then the other: equal but for the answers of multis.
#[test]
fn both_schemes_settle_alike() {
    let events = [
        Event::multi(1, 1, false, &[Op::take(0, 1)]),
        Event::single(2, &[Op::take(0, 3)]),
        Event::multi(3, 1, true, &[Op::take(0, 2), Op::add(1, 2)]),
        Event::multi(1, 1, true, &[Op::take(0, 1)]),
        Event::single(4, &[Op::take(0, 1)]),
        Event::commit(2),
        Event::abort(1),
        Event::multi(5, 2, true, &[Op::take(1, 13)]),
        Event::commit(3),
        Event::single(6, &[Op::read(0), Op::read(1)]),
        Event::commit(5),
        Event::abort(5),
    ];
    let singles = [2, 4, 6];
    let run = |change: usize, first: Scheme, then: Scheme| {
        let mut depot = depot(&[5, 10]);
        let mut results = vec![];
        for (at, &event) in events.iter().enumerate() {
            let mut result = depot.call_by(if at < change { first } else { then }, event);
            if let Ok(answers) = &mut result {
                answers.retain(|(number, ..)| singles.contains(number));
            }
            results.push(result);
        }
        let record = depot.engine.record();
        assert_eq!((record.uncommitted, record.waiting), (0, 0), "nothing is live at the end");
        (results, depot.cells)
    };
    let speculation = run(events.len(), Scheme::Speculation, Scheme::Speculation);
    assert_eq!(speculation.0.iter().flatten().flatten().count(), singles.len(), "each single is answered once");
    assert_eq!((&speculation.0[10], &speculation.1[..]), (&Err(Refusal::Failed), &[0, 12][..]));
    for change in 0..=events.len() {
        for [first, then] in [[Scheme::Speculation, Scheme::Blocking], [Scheme::Blocking, Scheme::Speculation]] {
            assert_eq!(run(change, first, then), speculation, "{first:?}, and {then:?} from event {change} on");
        }
    }
}

/// Request L2: with 1, 3 and 5 chained, an abort of 1 undoes 3 and 5. The old answer of 5 names attempt 1 of 3, and 3
/// commits in attempt 2.
#[test]
fn a_dependent_answer_comes_again_after_an_abort() {
    let mut depot = depot(&[5, 10]);
    assert_eq!(depot.call(Event::multi(1, 1, true, &[Op::set(0, 17)])), one(1, 0, &[17]));
    assert_eq!(depot.attempts, [(1, 1, 0)]);
    assert_eq!(depot.call(Event::multi(3, 1, true, &[Op::add(0, 1)])), one(3, 1, &[18]));
    assert_eq!(depot.attempts, [(3, 1, 1)]);
    assert_eq!(depot.call(Event::multi(5, 1, true, &[Op::add(0, 1)])), one(5, 3, &[19]));
    assert_eq!(depot.attempts, [(5, 1, 1)]);
    assert_eq!(depot.call(Event::abort(1)), Ok(vec![(3, 0, 0, vec![6]), (5, 3, 0, vec![7])]));
    assert_eq!(depot.attempts, [(3, 2, 0), (5, 2, 2)]);
    assert_eq!((depot.call(Event::commit(3)), depot.call(Event::commit(5)), depot.cells[0]), (NONE, NONE, 7));
}

/// What waits, a later fragment of the front and a commit raise no attempt; a held answer carries its own.
#[test]
fn an_attempt_is_one_more_after_each_undoing_and_no_other_time() {
    let mut depot = depot(&[0]);
    let add = |number, coordinator, last| Event::multi(number, coordinator, last, &[Op::add(0, 1)]);
    for event in [add(1, 9, true), add(2, 1, true), add(3, 2, false), add(4, 2, true)] {
        depot.call(event).unwrap();
    }
    // 3 is not finished, so 4 waits. 2 and 3 run again, and 3 is held behind another coordinator's 2.
    assert_eq!((depot.call(Event::abort(1)), &depot.attempts[..]), (one(2, 0, &[1]), &[(2, 2, 0)][..]));
    assert_eq!((depot.call(Event::commit(2)), &depot.attempts[..]), (one(3, 0, &[2]), &[(3, 2, 0)][..]));
    assert_eq!(depot.call(add(3, 2, true)), Ok(vec![(3, 0, 0, vec![3]), (4, 3, 0, vec![4])]));
    assert_eq!(depot.attempts, [(3, 2, 0), (4, 1, 2)]);
    assert_eq!((depot.call(Event::abort(3)), &depot.attempts[..]), (one(4, 0, &[2]), &[(4, 2, 0)][..]));
    // The last word of a live one's row.
    assert_eq!(depot.engine.record().live[28], 2);
}

#[test]
fn p9_an_unfinished_or_failed_front_is_not_committed() {
    let mut depot = depot(&[5, 10]);
    assert_eq!(depot.call(Event::multi(1, 1, false, &[Op::read(0)])), one(1, 0, &[5]));
    assert_eq!(depot.call(Event::commit(1)), Err(Refusal::NotFinished));
    assert_eq!(depot.call(Event::multi(1, 1, true, &[Op::add(0, 1), Op::take(1, 11)])), failed(1, 2, 10));
    assert_eq!(depot.cells, [5, 10]);
    assert_eq!(depot.call(Event::commit(1)), Err(Refusal::Failed));
    assert_eq!(depot.call(Event::abort(1)), NONE);
}

#[test]
fn each_operation_does_what_its_name_says() {
    let mut depot = depot(&[5, 10]);
    let all = [
        Op::read(0),
        Op::set(0, 7),
        Op::add(0, 3),
        Op::take(0, 4),
        Op::need(0, 6),
        Op::match_(0, 6),
        Op::raise(0, 9),
        Op::lower(0, 2),
    ];
    assert_eq!(depot.call(Event::single(1, &all)), one(1, 0, &[5, 7, 10, 6, 6, 6, 9, 2]));
    assert_eq!(depot.cells, [2, 10]);
    for (number, op) in [(2, Op::take(0, 3)), (3, Op::need(0, 3)), (4, Op::match_(0, 3)), (5, Op::add(0, TOP))] {
        assert_eq!(depot.call(Event::single(number, &[Op::set(1, 1), op])), failed(number, 2, 2), "{op:?}");
    }
    assert_eq!(depot.call(Event::single(6, &[Op::raise(0, 1), Op::lower(0, 3)])), one(6, 0, &[2, 2]));
    assert_eq!(depot.cells, [2, 10]);
}

/// The content that the failing operation saw, although what its own transaction changed is taken back.
#[test]
fn what_a_failing_operation_found() {
    let mut depot = depot(&[5, 10]);
    assert_eq!(depot.call(Event::single(1, &[Op::take(1, 4), Op::take(1, 7)])), failed(1, 2, 6));
    assert_eq!(depot.cells, [5, 10]);
    // Changes of earlier fragments too, which the failing one takes back.
    assert_eq!(depot.call(Event::multi(2, 1, false, &[Op::take(1, 8)])), one(2, 0, &[2]));
    assert_eq!(depot.call(Event::multi(2, 1, true, &[Op::take(1, 2), Op::need(1, 1)])), failed(2, 2, 0));
    assert_eq!((depot.cells[1], depot.call(Event::abort(2))), (10, NONE));
    // Behind a front what is found is no more certain than the answer: 4 and 5 find 2, and 10 once 3 is aborted.
    assert_eq!(depot.call(Event::multi(3, 1, true, &[Op::take(1, 8)])), one(3, 0, &[2]));
    assert_eq!(depot.call(Event::single(4, &[Op::need(1, 11)])), NONE);
    assert_eq!(depot.call(Event::multi(5, 1, true, &[Op::take(1, 12)])), Ok(vec![(5, 3, 1, vec![2])]));
    let again = Ok(vec![(4, 0, 1, vec![10]), (5, 0, 1, vec![10])]);
    assert_eq!(depot.call(Event::abort(3)), again);
}

#[test]
fn the_depth_counts_the_front() {
    let mut depot = depot(&[0]);
    assert_eq!(depot.call(Event::multi(1, 1, true, &[Op::read(0)])), one(1, 0, &[0]));
    for number in 2..=DEPTH as u32 {
        assert_eq!(depot.call(Event::single(number, &[Op::add(0, 1)])), NONE);
    }
    assert_eq!(depot.call(Event::single(17, &[Op::add(0, 1)])), NONE);
    assert_eq!((depot.cells[0], depot.engine.record().uncommitted, depot.engine.record().waiting), (15, 16, 1));
    assert_eq!(depot.call(Event::commit(1)).unwrap().len(), 16);
    assert_eq!(depot.cells, [16]);
}

#[test]
fn a_record_that_was_stored_goes_on_where_it_was() {
    let mut depot = swap();
    let stored = depot.engine.clone().into_record().words();
    let mut again = Engine::from_record(Record::from_words(&stored));
    assert_eq!(again, depot.engine);
    let mut cells = depot.cells.clone();
    let mut room = [7; 1040];
    assert_eq!(again.call_words(&mut cells, &Event::commit(1).words(), &mut room), Ok(2));
    assert_eq!(depot.call(Event::commit(1)).unwrap().len(), 2);
    assert_eq!(room[..32], depot.room.words()[..32]);
    assert_eq!(room[32..], [7; 1008], "the rest of the room stays as it was");
    assert_eq!((again, cells), (depot.engine, depot.cells));
}
