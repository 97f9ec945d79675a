//! Every refusal through the wrapper by both schemes, each with record, cells and room untouched; and the wrapper's own
//! types.

use harukdalis::{
    Answer, Answers, Dependence, Engine, Event, Op, Outcome, Record, Refusal, Room, Scheme, EVENT_WORDS, LEAST_ROOM,
    MOST_CELLS, RECORD_WORDS, TOP,
};

/// A call that must be refused by this number by either scheme, and leave everything as it was.
fn refused(number: u32, engine: &Engine, cells: &[u32], event: &[u32], room_words: usize) {
    let room_before: Vec<u32> = (0..room_words as u32).map(|i| i.wrapping_mul(2_654_435_761)).collect();
    for scheme in Scheme::ALL {
        let (mut engine_after, mut cells_after, mut room_after) = (engine.clone(), cells.to_vec(), room_before.clone());
        let got = engine_after.call_words_by(scheme, &mut cells_after, event, &mut room_after);
        assert_eq!(got.map_err(Refusal::number), Err(number), "{scheme:?}");
        assert_eq!(engine_after.record().words(), engine.record().words(), "the record");
        assert_eq!(cells_after, cells, "the cells");
        assert_eq!(room_after, room_before, "the room");
    }
}

/// Two shelves of 5 and 10 after these events.
fn after_by(scheme: Scheme, events: &[Event]) -> (Engine, Vec<u32>) {
    let (mut engine, mut cells, mut room) = (Engine::start(2).unwrap(), vec![5, 10], Room::new());
    for event in events {
        engine.call_by(scheme, &mut cells, event, &mut room).unwrap();
    }
    (engine, cells)
}

fn after(events: &[Event]) -> (Engine, Vec<u32>) {
    after_by(Scheme::Speculation, events)
}

fn read(number: u32) -> Event {
    Event::single(number, &[Op::read(0)])
}

fn front(last: bool) -> Event {
    Event::multi(5, 1, last, &[Op::add(0, 1)])
}

/// Whichever scheme took the events, and whichever is asked then.
fn refused_after(number: u32, events: &[Event], event: Event) {
    for scheme in Scheme::ALL {
        let (engine, cells) = after_by(scheme, events);
        refused(number, &engine, &cells, &event.words(), LEAST_ROOM);
    }
}

#[test]
fn r1_unsound_record() {
    let (engine, cells) = after(&[front(true), read(6)]);
    let mut record = engine.into_record();
    record.waiting = 64;
    refused(1, &Engine::from_record(record), &cells, &read(7).words(), LEAST_ROOM);
    // Attempts: at least 1, and with those ahead at most 64, of the uncommitted 5 and of 6 behind it, which may wait.
    for scheme in Scheme::ALL {
        let (engine, cells) = after_by(scheme, &[front(true), read(6)]);
        for (row, most) in [(0, 64), (1, 63)] {
            for attempt in [0, most + 1, TOP] {
                let mut record = engine.clone().into_record();
                record.live[29 * row + 28] = attempt;
                refused(1, &Engine::from_record(record), &cells, &read(7).words(), LEAST_ROOM);
            }
            let mut record = engine.clone().into_record();
            record.live[29 * row + 28] = most;
            let (mut engine, mut cells, mut room) = (Engine::from_record(record), cells.clone(), Room::new());
            assert!(engine.call_by(scheme, &mut cells, &Event::abort(5), &mut room).is_ok());
        }
    }
    // Any words may be handed in, and 1 comes before all else.
    refused(1, &Engine::from_record(Record::from_words(&[TOP; RECORD_WORDS])), &[], &[], 0);
    let mut words = [0; RECORD_WORDS];
    words[0] = MOST_CELLS + 1;
    refused(1, &Engine::from_record(Record::from_words(&words)), &[], &[], 0);
}

#[test]
fn r2_small_room() {
    let (engine, cells) = after(&[]);
    refused(2, &engine, &cells, &read(1).words(), LEAST_ROOM - 1);
    refused(2, &engine, &cells, &read(1).words(), 0);
    refused(2, &engine, &[], &[], 0);
}

#[test]
fn r3_wrong_cells() {
    let (engine, _) = after(&[]);
    for cells in [&[][..], &[5], &[5, 10, 15]] {
        refused(3, &engine, cells, &read(1).words(), LEAST_ROOM);
    }
    refused(3, &Engine::from_record(Record::empty()), &[], &read(1).words(), LEAST_ROOM);
    refused(3, &Engine::from_record(Record::empty()), &[0], &[], LEAST_ROOM);
    for count in [0, MOST_CELLS + 1, TOP] {
        assert_eq!(Engine::start(count), Err(Refusal::WrongCells));
    }
    for count in [1, MOST_CELLS] {
        assert_eq!(Engine::start(count).unwrap().record().count, count);
    }
}

#[test]
fn r4_not_well_formed() {
    let (engine, cells) = after(&[]);
    let ops = [Op::read(0); 9];
    let mut code = read(1).words();
    code[5] = 9;
    let mut flag = read(1).words();
    flag[2] = 6;
    let mut unused = read(1).words();
    unused[28] = 1;
    let mut decision = Event::commit(1).words();
    decision[28] = 1;
    let events = [
        Event::single(1, &[]),
        Event::single(1, &ops),
        Event::single(0, &ops[..1]),
        Event::multi(1, 0, true, &ops[..1]),
        Event::fragment(1, true, true, 256, &ops[..1]),
        Event::fragment(1, false, true, 1, &ops[..1]),
        Event::fragment(1, false, false, 0, &ops[..1]),
        Event::commit(0),
        Event::from_words([0; EVENT_WORDS]),
        Event::from_words(code),
        Event::from_words(flag),
        Event::from_words(unused),
        Event::from_words(decision),
    ];
    for event in events {
        refused(4, &engine, &cells, &event.words(), LEAST_ROOM);
    }
    // Another length, whatever the words are, and after 1, 2 and 3.
    let mut long = read(1).words().to_vec();
    long.push(0);
    for event in [&long[..], &long[..EVENT_WORDS - 1], &[]] {
        refused(4, &engine, &cells, event, LEAST_ROOM);
        refused(3, &engine, &[5], event, LEAST_ROOM);
        refused(2, &engine, &[5], event, LEAST_ROOM - 1);
    }
}

#[test]
fn r5_cell_outside() {
    refused_after(5, &[], Event::single(1, &[Op::read(0), Op::read(2)]));
}

#[test]
fn r6_not_live() {
    refused_after(6, &[read(5)], read(5));
    refused_after(6, &[read(5)], Event::commit(5));
    refused_after(6, &[read(5)], read(4));
    refused_after(6, &[front(true), Event::abort(5)], Event::abort(5));
}

#[test]
fn r7_not_front() {
    for event in [read(6), Event::commit(6), Event::abort(6)] {
        refused_after(7, &[front(true), read(6)], event);
    }
}

#[test]
fn r8_front_finished() {
    refused_after(8, &[front(true)], front(true));
    refused_after(8, &[Event::multi(5, 1, false, &[Op::take(0, 6)])], front(true));
}

#[test]
fn r9_other_coordinator() {
    refused_after(9, &[front(false)], Event::multi(5, 2, true, &[Op::read(0)]));
    refused_after(9, &[front(false)], read(5));
}

#[test]
fn r10_too_many_live() {
    let mut events = vec![front(true)];
    events.extend((6..69).map(read));
    refused_after(10, &events, read(69));
    // The number may come again, once there is room for it.
    events.extend([Event::commit(5), read(69)]);
    for scheme in Scheme::ALL {
        assert_eq!(after_by(scheme, &events).0.record().largest, 69);
    }
}

#[test]
fn r11_too_many_fragments() {
    refused_after(11, &[front(false); 8], front(true));
}

#[test]
fn r12_not_yet_accepted() {
    refused_after(12, &[front(true)], Event::commit(6));
    refused_after(12, &[], Event::abort(1));
}

#[test]
fn r13_not_finished() {
    refused_after(13, &[front(false)], Event::commit(5));
}

#[test]
fn r14_failed() {
    refused_after(14, &[Event::multi(5, 1, false, &[Op::take(0, 6)])], Event::commit(5));
}

#[test]
fn the_smallest_number_that_applies_is_returned() {
    let mut both = Event::single(1, &[Op::read(2); 8]).words();
    both[26] = 9;
    refused_after(4, &[], Event::from_words(both));
    refused_after(5, &[front(true)], Event::single(5, &[Op::read(2)]));
    refused_after(8, &[front(true)], Event::multi(5, 2, true, &[Op::read(0)]));
    let mut full = vec![front(false); 8];
    refused_after(9, &full, Event::multi(5, 2, true, &[Op::read(0)]));
    full.push(read(6));
    refused_after(7, &full, Event::commit(6));
}

#[test]
fn a_refused_call_leaves_a_room_of_its_own_type() {
    let (mut engine, mut cells) = after(&[]);
    let mut room = Room::new();
    engine.call(&mut cells, &read(1), &mut room).unwrap();
    let (engine_before, room_before) = (engine.clone(), room.clone());
    assert_eq!(engine.call(&mut cells, &read(1), &mut room).unwrap_err(), Refusal::NotLive);
    assert_eq!((engine, room, cells), (engine_before, room_before, vec![5, 10]));
}

#[test]
fn refusals_are_numbered_from_1_to_14() {
    for (number, refusal) in (1..).zip(Refusal::ALL) {
        assert_eq!((refusal.number(), Refusal::from_number(number)), (number, Some(refusal)));
    }
    assert_eq!([0, 15, TOP].map(Refusal::from_number), [None; 3]);
    let mut sentences: Vec<_> = Refusal::ALL.iter().map(|refusal| refusal.to_string()).collect();
    sentences.sort();
    sentences.dedup();
    assert_eq!(sentences.len(), 14, "no two refusals say the same");
}

#[test]
fn records_are_their_words() {
    let mut words = [0; RECORD_WORDS];
    for (i, word) in words.iter_mut().enumerate() {
        *word = i as u32 + 1;
    }
    let record = Record::from_words(&words);
    assert_eq!(record.words(), words);
    assert_eq!((record.count, record.waiting, record.live[0], record.runs[0], record.undo[0]), (1, 4, 5, 1861, 2117));
}

#[test]
fn answers_are_read_from_any_room() {
    let mut words = [0; 40];
    words[..6].copy_from_slice(&[9, 0, 0, 2, 11, 12]);
    words[12] = 3;
    words[16..21].copy_from_slice(&[10, 9, 3, 1, 6]);
    words[28..30].copy_from_slice(&[2, 3]);
    let answers: Vec<Answer> = Answers::in_room(&words, 2).collect();
    assert_eq!((answers[0].transaction(), answers[0].attempt(), answers[0].dependence()), (9, 3, None));
    assert_eq!(answers[0].outcome(), Outcome::Numbers(&[11, 12]));
    let nine = Dependence { transaction: 9, attempt: 3 };
    assert_eq!((answers[1].transaction(), answers[1].attempt(), answers[1].dependence()), (10, 2, Some(nine)));
    assert_eq!(answers[1].outcome(), Outcome::Failed { place: 3, found: 6 });
    assert_eq!(answers[1].words(), words[16..32]);
    let lengths = [0, 1, 2, 3, usize::MAX].map(|count| Answers::in_room(&words, count).len());
    assert_eq!(lengths, [0, 1, 2, 2, 2], "no more than the room has");
    let many = Answer::from_words([1, 0, 0, TOP, 1, 2, 3, 4, 5, 6, 7, 8, 9, 9, 9, 9]);
    assert_eq!(many.outcome(), Outcome::Numbers(&[1, 2, 3, 4, 5, 6, 7, 8]));
}
