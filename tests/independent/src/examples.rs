//! Traces worth keeping as files: the depot cases that are not proved, the errors of the trade, and a depot story.

use crate::engine::{Fault, Scheme};
use crate::event::{Event, ADD, MATCH, NEED, READ, SET, TAKE};
use crate::trace;

pub struct Example {
    pub name: &'static str,
    pub cells: Vec<u32>,
    pub events: Vec<Event>,
    /// The error whose output differs from the right one.
    pub shows: Fault,
}

impl Example {
    pub fn bytes(&self) -> Vec<u8> {
        trace::write(&self.cells, &self.events)
    }
}

/// Every file of the examples, by its name: the traces, and what this engine prints for them.
pub fn files() -> Vec<(String, Vec<u8>)> {
    let files = |Example { name, .. }: &Example, bytes: Vec<u8>| {
        let printed = Scheme::ALL
            .map(|scheme| (format!("{name}.{}", scheme.ending()), trace::replay(scheme, &bytes).into_bytes()));
        printed.into_iter().chain([(format!("{name}.trace"), bytes)]).collect::<Vec<_>>()
    };
    all().iter().flat_map(|example| files(example, example.bytes())).collect()
}

pub fn all() -> Vec<Example> {
    let example = |name, cells: &[u32], events, shows| Example { name, cells: cells.to_vec(), events, shows };
    let depot = [5, 10];
    vec![
        shelf40(),
        example("p1", &[5], p1(), Fault::SpeculateBehindUnfinishedFront),
        example("depth16", &depot, depth16(), Fault::Depth17),
        example("live64", &depot, live64(), Fault::Live65),
        example("ninth-fragment", &depot, ninth_fragment(), Fault::None),
        example("refusals", &depot, refusals(), Fault::CoordinatorBeforeFinished),
        example("error-undo-oldest-first", &depot, p3(), Fault::UndoOldestFirst),
        example("error-speculate-behind-unfinished", &[5], p1(), Fault::SpeculateBehindUnfinishedFront),
        example("error-requeue-reversed", &depot, requeue(), Fault::RequeueReversed),
        example("error-single-answered-early", &[5], single_held(), Fault::SingleAnsweredEarly),
        example("error-singles-foreign", &depot, p7(), Fault::SinglesCountAsForeign),
        example("error-answer-repeated", &depot, p8(), Fault::AnswerRepeated),
    ]
}

pub fn p1() -> Vec<Event> {
    vec![
        Event::open(1, 1, &[(READ, 0, 0)]),
        Event::single(2, &[(ADD, 0, 1)]),
        Event::single(3, &[(ADD, 0, 1)]),
        Event::last(1, 1, &[(SET, 0, 17)]),
        Event::commit(1),
    ]
}

pub fn p3() -> Vec<Event> {
    vec![Event::last(1, 1, &[(TAKE, 1, 1), (TAKE, 1, 1)]), Event::abort(1)]
}

pub fn p7() -> Vec<Event> {
    vec![Event::last(1, 1, &[(SET, 0, 17)]), Event::single(2, &[(ADD, 0, 1)]), Event::last(3, 1, &[(ADD, 0, 1)])]
}

pub fn p8() -> Vec<Event> {
    let then = [Event::last(4, 2, &[(READ, 0, 0)]), Event::commit(3), Event::commit(1), Event::commit(3)];
    [&p7()[..], &then].concat()
}

/// Finished front and 15 speculated. The next is a multi of the same coordinator: speculated it would be answered.
fn depth16() -> Vec<Event> {
    let mut events = vec![Event::last(1, 1, &[(SET, 0, 100)])];
    events.extend((2..=15).map(|number| Event::single(number, &[(ADD, 0, 1)])));
    events.push(Event::last(16, 1, &[(ADD, 0, 1)]));
    events.push(Event::last(17, 1, &[(ADD, 0, 1)]));
    events.extend([Event::commit(17), Event::commit(1), Event::commit(16), Event::commit(17)]);
    events
}

/// 64 live; the 65th is refused and its number comes again when there is room.
fn live64() -> Vec<Event> {
    let mut events = vec![Event::open(1, 1, &[(READ, 0, 0)])];
    events.extend((2..=64).map(|number| Event::single(number, &[(ADD, 0, 1)])));
    let sixty_fifth = Event::single(65, &[(READ, 0, 0)]);
    events.extend([sixty_fifth, Event::commit(65), Event::last(1, 1, &[(SET, 0, 0)]), sixty_fifth]);
    events.extend([Event::commit(1), sixty_fifth, sixty_fifth]);
    events
}

fn ninth_fragment() -> Vec<Event> {
    let mut events = vec![Event::open(1, 1, &[(TAKE, 1, 1)]); 9];
    events.extend([Event::last(1, 1, &[(READ, 1, 0)]), Event::commit(1), Event::abort(1)]);
    events.push(Event::single(2, &[(READ, 1, 0)]));
    events
}

/// Every refusal from 4 to 14, each of an event that a later row would refuse too where there is one.
fn refusals() -> Vec<Event> {
    let (read, outside, unknown) = ((READ, 0, 0), (READ, 2, 0), (9, 2, 0));
    let mut events = vec![Event::single(2, &[read]), Event::open(4, 1, &[read]), Event::single(6, &[read])];
    // 4 before 5, 5 before 6, 6 whatever comes, 7 of one that waits, 9, 12 of a new number, 13.
    events.extend([Event::single(1, &[unknown]), Event::single(1, &[outside]), Event::last(1, 2, &[read])]);
    events.extend([Event::commit(2), Event::last(6, 2, &[read]), Event::abort(6), Event::last(4, 2, &[read])]);
    events.extend([Event::single(4, &[read]), Event::commit(7), Event::abort(7), Event::commit(4)]);
    // Eight fragments and 64 live: 9 before 11, 10, 11.
    events.extend(vec![Event::open(4, 1, &[read]); 7]);
    events.extend((7..=68).map(|number| Event::single(number, &[read])));
    events.extend([Event::open(4, 2, &[read]), Event::open(4, 1, &[outside]), Event::last(4, 1, &[read])]);
    events.extend([Event::single(69, &[outside]), Event::single(69, &[read]), Event::commit(69), Event::commit(4)]);
    // A finished front: 8 before 9. A failed one: 8, then 14, then an abort.
    events.extend([Event::abort(4), Event::last(70, 1, &[read]), Event::last(70, 2, &[read])]);
    events.extend([Event::commit(70), Event::open(71, 1, &[(TAKE, 0, 6)]), Event::open(71, 2, &[read])]);
    events.extend([Event::commit(71), Event::abort(71), Event::abort(71)]);
    events
}

fn requeue() -> Vec<Event> {
    vec![
        Event::last(1, 1, &[(SET, 0, 17)]),
        Event::single(2, &[(SET, 0, 1)]),
        Event::single(3, &[(ADD, 0, 1)]),
        Event::last(4, 1, &[(ADD, 0, 1)]),
        Event::abort(1),
        Event::commit(4),
    ]
}

/// The front is aborted, so the first number of the single was never true.
fn single_held() -> Vec<Event> {
    vec![Event::last(1, 1, &[(SET, 0, 17)]), Event::single(2, &[(ADD, 0, 1)]), Event::abort(1)]
}

/// Shelf 40 holds 3 parts. A transfer takes two of them, one by one, and is called off after others built on it.
fn shelf40() -> Example {
    let mut cells = vec![0; 64];
    cells[40] = 3;
    cells[41] = 10;
    let events = vec![
        Event::single(1, &[(READ, 40, 0)]),
        // The transfer: two parts off shelf 40, onto shelf 12. It is not finished, so the next ones wait.
        Event::open(2, 1, &[(TAKE, 40, 1), (TAKE, 40, 1)]),
        Event::single(3, &[(READ, 40, 0)]),
        Event::single(4, &[(NEED, 40, 2), (TAKE, 40, 2)]),
        // Finished: 3 reads one part, 4 fails, both held.
        Event::last(2, 1, &[(ADD, 12, 2)]),
        // Takes one of the transferred parts: answered now, depending on 2.
        Event::last(5, 1, &[(TAKE, 12, 1), (ADD, 41, 1)]),
        // Another coordinator: held.
        Event::last(6, 2, &[(MATCH, 41, 11), (TAKE, 41, 1)]),
        // Refused: a late fragment, a decision for a speculated one, a shelf that is not there, no number.
        Event::last(2, 1, &[(TAKE, 40, 1)]),
        Event::commit(4),
        Event::single(7, &[(TAKE, 64, 1)]),
        Event::single(0, &[(TAKE, 40, 1)]),
        // Called off. Shelf 40 has its 3 parts again: 3 reads them, 4 gets two, 5 fails and 6 with it.
        Event::abort(2),
        Event::abort(2),
        Event::single(7, &[(READ, 40, 0), (READ, 12, 0), (READ, 41, 0)]),
        Event::commit(5),
        Event::abort(5),
        // 6 is the front: 41 holds 10, so it failed. Once it is gone 7 reads 1, 0 and 10.
        Event::commit(6),
        Event::abort(6),
        Event::single(8, &[(TAKE, 40, 2)]),
        Event::single(9, &[(TAKE, 40, 1)]),
        Event::single(10, &[(SET, 40, 3)]),
    ];
    Example { name: "shelf40", cells, events, shows: Fault::UndoOldestFirst }
}
