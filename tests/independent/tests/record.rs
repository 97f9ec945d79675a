//! Soundness clause by clause, the layout, and calls on words.

use independent::event::*;
use independent::generate::{self, Random};
use independent::layout::{
    call, call_in_place, lay_out, read, start, Words, LIVE, LIVE_WORDS, RUNS, RUN_WORDS, UNDO, WORDS,
};
use independent::{trace, Engine, Scheme};

const CELLS: u32 = 0;
const LARGEST: u32 = 1;
const UNCOMMITTED: u32 = 2;
const WAITING: u32 = 3;
const ROOM: usize = 1024;
const UNTOUCHED: u32 = 0xdead_beef;

/// A word of a live row: 0 number, 1 flags, 2 coordinator, 3 count, then code, cell, amount; 28 attempt.
fn live(row: u32, field: u32) -> u32 {
    LIVE as u32 + LIVE_WORDS as u32 * row + field
}

const ATTEMPT: u32 = 28;

/// A word of a run row: 0 fragments run, 1 state, 2 reply, 3 own entries, 4 held place, 5 held count, 6.. numbers.
fn run(row: u32, field: u32) -> u32 {
    RUNS as u32 + RUN_WORDS as u32 * row + field
}

fn undo(entry: u32, field: u32) -> u32 {
    UNDO as u32 + 2 * entry + field
}

/// Four cells. Uncommitted: 3 finished in two fragments with three entries; single 5 held, multi 6 sent, multi 8 of
/// another coordinator held and running, with one entry each. Waiting: single 9, multi 12.
fn base() -> (Words, Vec<u32>) {
    let mut cells = vec![5, 10, 0, 7];
    let (_, mut engine) = Engine::start(4);
    let events = [
        Event::open(3, 1, &[(SET, 0, 1), (ADD, 1, 1), (READ, 0, 0)]),
        Event::last(3, 1, &[(SET, 2, 4)]),
        Event::single(5, &[(ADD, 0, 1), (READ, 1, 0)]),
        Event::last(6, 1, &[(TAKE, 1, 1)]),
        Event::open(8, 2, &[(RAISE, 3, 9)]),
        Event::single(9, &[(READ, 0, 0)]),
        Event::last(12, 7, &[(LOWER, 1, 3)]),
    ];
    for event in events {
        assert_eq!(engine.call(&mut cells, &event, ROOM).0, 0);
    }
    (lay_out(&engine.record), cells)
}

fn with(words: &Words, changes: &[(u32, u32)]) -> Words {
    let mut words = *words;
    changes.iter().for_each(|&(at, word)| words[at as usize] = word);
    words
}

fn careful_call(words: &Words, cells: &mut [u32], event: &Event) -> (u32, Vec<Vec<u32>>, Words) {
    careful_call_by(Scheme::Speculation, words, cells, event)
}

/// Calls, and sees that a refusal leaves everything and an acceptance the rest of the room.
fn careful_call_by(scheme: Scheme, words: &Words, cells: &mut [u32], event: &Event) -> (u32, Vec<Vec<u32>>, Words) {
    let mut room = vec![UNTOUCHED; ROOM + 5];
    let (mut next, contents) = (*words, cells.to_vec());
    let (number, answers) = call_in_place(scheme, &mut next, cells, &event.words(), &mut room);
    let (filled, rest) = room.split_at(16 * answers as usize);
    assert!(rest.iter().all(|&word| word == UNTOUCHED));
    if number != 0 {
        assert!(answers == 0 && next == *words && cells == contents);
    }
    (number, filled.chunks(16).map(<[u32]>::to_vec).collect(), next)
}

#[test]
fn the_base_is_laid_out_as_written() {
    let (words, cells) = base();
    assert_eq!(WORDS, 4 + 1856 + 256 + 368);
    assert_eq!(cells, [2, 10, 4, 9]);
    assert_eq!(words[..4], [4, 12, 4, 2]);
    let numbers: Vec<u32> = (0..64).map(|row| words[live(row, 0) as usize]).collect();
    assert_eq!(numbers[..7], [3, 5, 6, 8, 9, 12, 0]);
    let row = |start: u32, length: usize| words[start as usize..start as usize + length].to_vec();
    assert_eq!(row(live(1, 0), 29)[..11], [5, 2, 0, 2, ADD, 0, 1, READ, 1, 0, 0]);
    let attempts: Vec<u32> = (0..64).map(|row| words[live(row, ATTEMPT) as usize]).collect();
    assert_eq!(attempts[..7], [1, 1, 1, 1, 1, 1, 0]);
    assert_eq!((live(0, ATTEMPT), live(1, 0), run(0, 0), undo(0, 0)), (32, 33, 1860, 2116));
    assert_eq!(row(run(0, 0), 16), [2, 1, 0, 3, 0, 0, 0, 0, 0, 0, 0, 0, 0, 0, 0, 0]);
    assert_eq!(row(run(1, 0), 16), [1, 1, 1, 1, 0, 2, 2, 11, 0, 0, 0, 0, 0, 0, 0, 0]);
    assert_eq!(row(run(2, 0), 16), [1, 1, 0, 1, 0, 0, 0, 0, 0, 0, 0, 0, 0, 0, 0, 0]);
    assert_eq!(row(run(3, 0), 16), [1, 0, 1, 1, 0, 1, 9, 0, 0, 0, 0, 0, 0, 0, 0, 0]);
    assert_eq!(row(run(4, 0), 16), [0; 16]);
    assert_eq!(row(undo(0, 0), 14), [0, 5, 1, 10, 2, 0, 0, 1, 1, 11, 3, 7, 0, 0]);
    assert_eq!(lay_out(&read(&words).expect("sound")), words);
}

#[test]
fn each_clause_of_soundness() {
    let (words, cells) = base();
    let unsound = |clause: &str, changes: &[(u32, u32)]| {
        let damaged = with(&words, changes);
        for event in [Event::commit(3), Event::abort(3), Event::single(20, &[(READ, 0, 0)]), Event::default()] {
            assert_eq!(careful_call(&damaged, &mut cells.clone(), &event).0, 1, "{clause} {changes:?}");
        }
        // 1 is asked before 2 and 3.
        assert_eq!(call(&damaged, &mut [], &[0; EVENT_WORDS], &mut []).0, 1);
    };
    for count in [4097, TOP] {
        unsound("cell count above 4,096", &[(CELLS, count)]);
    }
    for count in [17, TOP] {
        unsound("uncommitted beyond 16", &[(UNCOMMITTED, count), (WAITING, 0)]);
    }
    for count in [61, TOP, TOP - 3] {
        unsound("live beyond 64", &[(WAITING, count)]);
    }
    for count in [9, TOP] {
        unsound("fragments run beyond 8", &[(run(0, 0), count)]);
    }
    for row in 0..6 {
        unsound("live number 0", &[(live(row, 0), 0)]);
        unsound("live number above the largest", &[(live(row, 0), 13)]);
        unsound("flag", &[(live(row, 1), words[live(row, 1) as usize] | 4)]);
        unsound("coordinator", &[(live(row, 2), 256)]);
        for count in [0, 9, TOP] {
            unsound("operations", &[(live(row, 3), count)]);
        }
        for code in [0, 9] {
            unsound("code", &[(live(row, 4), code)]);
        }
        unsound("read with v", &[(live(row, 4), READ), (live(row, 6), 1)]);
        for field in 13..28 {
            unsound("unused place", &[(live(row, field), 1)]);
        }
        unsound("cell outside", &[(live(row, 5), 4)]);
        unsound("attempt 0", &[(live(row, ATTEMPT), 0)]);
        for attempt in [65 - row, 65, TOP, TOP - row, 0u32.wrapping_sub(row)] {
            unsound("attempt plus those ahead above 64", &[(live(row, ATTEMPT), attempt)]);
        }
    }
    for (row, number) in [(1, 3), (1, 2), (3, 6), (4, 8), (5, 9)] {
        unsound("numbers not rising", &[(live(row, 0), number)]);
    }
    unsound("largest below a live number", &[(LARGEST, 11)]);
    unsound("single not last", &[(live(1, 1), 0)]);
    unsound("single with a coordinator", &[(live(1, 2), 1)]);
    unsound("multi without one", &[(live(2, 2), 0)]);
    for row in 0..4 {
        unsound("no fragment run", &[(run(row, 0), 0), (run(row, 3), 0)]);
        for number in [3, TOP] {
            unsound("a state that stands for nothing", &[(run(row, 1), number)]);
        }
        for number in [2, TOP] {
            unsound("a reply that stands for nothing", &[(run(row, 2), number)]);
        }
        for entries in [65, 185, TOP] {
            unsound("undo entries beyond the limits", &[(run(row, 3), entries)]);
        }
        if row > 0 {
            unsound("behind the front with more than one run", &[(run(row, 0), 2)]);
            unsound("undo entries beyond 8", &[(run(row, 3), 9)]);
        }
        if row < 3 {
            unsound("unfinished and not the last", &[(run(row, 1), 0)]);
        }
    }
    unsound("the front a single", &[(live(0, 1), LAST), (live(0, 2), 0)]);
    unsound("the front a single and held", &[(live(0, 1), LAST), (live(0, 2), 0), (run(0, 2), 1)]);
    unsound("the front holds its answer", &[(run(0, 2), 1)]);
    unsound("a single's answer not held", &[(run(1, 2), 0)]);
    for row in [1, 3] {
        for count in [9, TOP] {
            unsound("held numbers", &[(run(row, 5), count)]);
            unsound("held place", &[(run(row, 4), count)]);
        }
    }
    for entry in 0..6 {
        unsound("undo cell outside", &[(undo(entry, 0), 4)]);
    }
    unsound("undo entries beyond 8 for each fragment run", &[(run(0, 3), 17)]);
    unsound("undo entries beyond 8 for the one fragment run", &[(run(0, 0), 1), (run(0, 3), 9)]);
}

#[test]
fn odd_records_that_are_sound() {
    let (words, cells) = base();
    let odd: [&[(u32, u32)]; 24] = [
        &[],
        &[(CELLS, 4096)],
        &[(LARGEST, TOP)],
        &[(run(0, 0), 8)],
        &[(run(0, 0), 8), (run(0, 3), 64), (run(1, 3), 8), (run(2, 3), 8), (run(3, 3), 8)],
        &[(run(0, 0), 1), (run(0, 3), 8)],
        // Entries that are missing, or that a failed one owns.
        &[(run(0, 3), 0), (run(1, 3), 0)],
        &[(run(0, 1), 2), (run(1, 1), 2), (run(2, 1), 2), (run(3, 1), 2)],
        // Finished without a last fragment, and the reverse.
        &[(run(3, 1), 1)],
        &[(live(0, 1), MULTI), (live(2, 1), MULTI)],
        &[(live(3, 1), MULTI | LAST)],
        // A single at the tail that is running.
        &[(UNCOMMITTED, 2), (WAITING, 4), (run(1, 1), 0)],
        // Nothing uncommitted, but some wait; or some wait behind a finished tail.
        &[(UNCOMMITTED, 0), (WAITING, 6)],
        &[(UNCOMMITTED, 3), (WAITING, 3)],
        &[(UNCOMMITTED, 1), (WAITING, 5), (run(0, 1), 0)],
        // Held answers that no fragment gave, sent ones that should be held, and the reverse.
        &[(run(1, 4), 8), (run(1, 5), 8), (run(3, 4), 1)],
        &[(run(1, 5), 0)],
        &[(run(2, 2), 1), (run(3, 2), 0)],
        // Attempts at their limits, in both queues; a later one that was undone more often than those ahead.
        &[(live(0, ATTEMPT), 64), (live(1, ATTEMPT), 63), (live(2, ATTEMPT), 62), (live(3, ATTEMPT), 61)],
        &[(live(4, ATTEMPT), 60), (live(5, ATTEMPT), 59)],
        &[(live(3, ATTEMPT), 61), (live(5, ATTEMPT), 2)],
        &[(live(6, ATTEMPT), 0), (live(63, ATTEMPT), TOP)],
        // Garbage in unused places.
        &[
            (live(6, 0), 1),
            (live(63, 27), TOP),
            (live(62, ATTEMPT), TOP),
            (run(4, 0), TOP),
            (run(15, 15), 1),
            (undo(6, 0), TOP),
            (undo(183, 1), 1),
        ],
        &[(run(0, 4), 9), (run(0, 5), 9), (run(0, 6), 1), (run(1, 8), 77), (run(1, 14), TOP), (run(3, 15), 1)],
    ];
    for changes in odd {
        let record = with(&words, changes);
        assert_eq!(call(&record, &mut [], &[0; EVENT_WORDS], &mut []).0, 2, "{changes:?}");
        let mut lent = cells.clone();
        lent.resize(record[0] as usize, 0);
        for event in
            [Event::commit(3), Event::abort(3), Event::single(20, &[(SET, 3, 1)]), Event::open(3, 1, &[(READ, 0, 0)])]
        {
            for scheme in Scheme::ALL {
                let (number, _, next) = careful_call_by(scheme, &record, &mut lent.clone(), &event);
                assert_ne!(number, 1, "{changes:?}");
                assert!(read(&next).expect("sound").sound(), "{changes:?} {event:?} {scheme:?}");
            }
        }
    }
}

/// What stands in the unused places of a littered record.
const GARBAGE: u32 = TOP - 5;

/// A sound record with garbage in every word that means nothing, those within the runs in use too.
fn littered(words: &Words) -> Words {
    let used = read(words).expect("sound");
    let mut garbage = *words;
    for at in 4..WORDS as u32 {
        let changed = with(words, &[(at, GARBAGE)]);
        if read(&changed).as_ref() == Some(&used) {
            garbage[at as usize] = GARBAGE;
        }
    }
    garbage
}

#[test]
fn garbage_in_unused_places_reaches_nothing() {
    let (words, cells) = base();
    let garbage = littered(&words);
    assert!(garbage.iter().filter(|&&word| word == GARBAGE).count() > 2000);
    for event in [Event::commit(3), Event::abort(3), Event::single(20, &[(READ, 0, 0)])] {
        let (mut left, mut right) = (cells.clone(), cells.clone());
        let (number, answers, next) = careful_call(&garbage, &mut left, &event);
        let (clean_number, clean_answers, clean) = careful_call(&words, &mut right, &event);
        assert_eq!((number, answers, left), (clean_number, clean_answers, right));
        assert_eq!(read(&next), read(&clean));
    }
    // Refused: the garbage stays, as careful_call sees.
    assert_eq!(careful_call(&garbage, &mut cells.clone(), &Event::commit(5)).0, 7);
}

/// Of a row: how many places are in use after a call, and how many were reached by it.
type Row = (u32, u32);

/// Places that were in use at any time in a call and are not after it are cleared, places that no row reached stay as
/// they came. How far each call reaches was worked by hand: live ones, runs, entries, by speculation and by blocking.
#[test]
fn what_becomes_of_unused_places() {
    let (words, cells) = base();
    let fresh = start(4).1;
    let front_alone = [(UNCOMMITTED, 1), (WAITING, 5)];
    let running = with(&words, &[(UNCOMMITTED, 1), (WAITING, 5), (run(0, 1), 0)]);
    let finished_tail = with(&words, &[(UNCOMMITTED, 3), (WAITING, 0)]);
    let singles_wait = with(&waiting_only(3), &[(CELLS, 4)]);
    let multis_wait = with(&words, &[(UNCOMMITTED, 0), (WAITING, 6)]);
    let single = Event::single(20, &[(ADD, 0, 1), (SET, 3, 1)]);
    let passes = Event::last(3, 1, &[(ADD, 0, 1)]);
    let fails = Event::last(3, 1, &[(SET, 2, 4), (NEED, 2, 5)]);
    let cases: [(&str, Words, Event, [[Row; 3]; 2]); 13] = [
        // It takes the first place and leaves it.
        ("an idle single", fresh, single, [[(0, 1), (0, 0), (0, 0)]; 2]),
        ("an idle multi", fresh, Event::last(20, 1, &[(ADD, 0, 1), (READ, 1, 0)]), [[(1, 1), (1, 1), (1, 1)]; 2]),
        ("an arrival that waits", words, single, [[(7, 7), (4, 4), (6, 6)]; 2]),
        // Two entries more by speculation.
        ("one that speculates", finished_tail, single, [[(4, 4), (4, 4), (7, 7)], [(4, 4), (3, 3), (5, 5)]]),
        // The fourth place is that of the single that arrives.
        ("over singles that wait", singles_wait, single, [[(0, 4), (0, 0), (0, 0)]; 2]),
        // 3 is not last and runs on; all the others wait.
        ("over multis that wait", multis_wait, single, [[(7, 7), (1, 1), (2, 2)]; 2]),
        // 5, 6 and 8 run behind it by speculation.
        ("a fragment that passes", running, passes, [[(6, 6), (4, 4), (7, 7)], [(6, 6), (1, 1), (4, 4)]]),
        // Its three entries go; those three have one each.
        ("one that fails", running, fails, [[(6, 6), (4, 4), (3, 3)], [(6, 6), (1, 1), (0, 3)]]),
        // 3 and 5 settle; 6 and 8 are uncommitted.
        ("a commit without drain", words, Event::commit(3), [[(4, 6), (2, 4), (2, 6)]; 2]),
        // 5 settles, 6 is the front, and 8 runs by speculation.
        (
            "a commit and its drain",
            with(&words, &front_alone),
            Event::commit(3),
            [[(4, 6), (2, 2), (2, 3)], [(4, 6), (1, 1), (1, 3)]],
        ),
        ("an abort", words, Event::abort(3), [[(4, 6), (2, 4), (2, 6)], [(4, 6), (1, 4), (1, 6)]]),
        (
            "an abort of the front alone",
            with(&words, &front_alone),
            Event::abort(3),
            [[(4, 6), (2, 2), (2, 3)], [(4, 6), (1, 1), (1, 3)]],
        ),
        (
            "an abort that leaves nothing",
            with(&words, &[(UNCOMMITTED, 1), (WAITING, 0)]),
            Event::abort(3),
            [[(0, 1), (0, 1), (0, 3)]; 2],
        ),
    ];
    for (name, record, event, rows) in cases {
        let garbage = littered(&record);
        for (scheme, rows) in Scheme::ALL.into_iter().zip(rows) {
            let (mut left, mut right) = (cells.clone(), cells.clone());
            let (number, answers, next) = careful_call_by(scheme, &garbage, &mut left, &event);
            let (_, clean_answers, clean) = careful_call_by(scheme, &record, &mut right, &event);
            assert_eq!((number, answers, left), (0, clean_answers, right), "{name}, {scheme:?}");
            let ranges = [(LIVE, LIVE_WORDS, RUNS), (RUNS, RUN_WORDS, UNDO), (UNDO, 2, WORDS)];
            assert_eq!(next[..4], clean[..4], "{name}, {scheme:?}");
            for ((from, length, to), (used, reached)) in ranges.into_iter().zip(rows) {
                let [used, reached] = [used, reached].map(|places| from + length * places as usize);
                assert_eq!(next[from..used], clean[from..used], "{name}, {scheme:?}: in use");
                assert!(next[used..reached].iter().all(|&word| word == 0), "{name}, {scheme:?}: reached");
                assert_eq!(next[reached..to], garbage[reached..to], "{name}, {scheme:?}: not reached");
                assert!(garbage[reached..to].iter().all(|&word| word == GARBAGE), "{name}, {scheme:?}");
            }
        }
    }
}

#[test]
fn the_record_is_acted_on_as_it_says() {
    let (words, cells) = base();
    // A commit settles the running single at the tail with what it holds; 6 is the new front, 8 joins, 9 and 12 wait.
    let odd = with(
        &words,
        &[(UNCOMMITTED, 2), (WAITING, 4), (run(1, 1), 0), (run(1, 4), 8), (run(1, 5), 1), (run(1, 6), 99)],
    );
    let (number, answers, next) = careful_call(&odd, &mut cells.clone(), &Event::commit(3));
    assert_eq!((number, next[2], next[3]), (0, 2, 2));
    assert_eq!(answers[0], [5, 0, 8, 1, 99, 0, 0, 0, 0, 0, 0, 0, 1, 0, 0, 0]);
    assert_eq!([answers[1][0], answers[1][1], answers.len() as u32], [6, 0, 2]);
    // An abort walks a failed one's entries too.
    let odd = with(&words, &[(run(3, 1), 2), (undo(5, 0), 3), (undo(5, 1), 70)]);
    let mut lent = cells.clone();
    let (number, answers, _) = careful_call(&odd, &mut lent, &Event::abort(3));
    assert_eq!(number, 0);
    assert_eq!(answers.iter().map(|answer| (answer[0], answer[4])).collect::<Vec<_>>(), [(5, 6), (6, 9)]);
    assert_eq!(lent, [6, 9, 0, 70]);
}

/// Many singles waiting and nothing uncommitted, as no run leaves them.
fn waiting_only(count: u32) -> Words {
    let (_, mut words) = start(1);
    words[..4].copy_from_slice(&[1, count, 0, count]);
    for row in 0..count {
        let fragment = Event::single(row + 1, &[(ADD, 0, 1)]).fragment;
        words[live(row, 0) as usize..live(row, ATTEMPT) as usize].copy_from_slice(&fragment.words());
        words[live(row, ATTEMPT) as usize] = 1;
    }
    words
}

#[test]
fn waiting_without_uncommitted() {
    let full = waiting_only(64);
    let event = |number| Event::single(number, &[(READ, 0, 0)]);
    assert_eq!(careful_call(&full, &mut [0], &event(65)).0, 10);
    for number in [1, 64] {
        for event in [event(number), Event::commit(number), Event::abort(number)] {
            assert_eq!(careful_call(&full, &mut [0], &event).0, 7);
        }
    }
    // One fewer: the new one lets all 64 run and fill the room to its end.
    let mut cells = [0];
    let mut room = [UNTOUCHED; ROOM];
    let (number, answers, next) = call(&waiting_only(63), &mut cells, &event(70).words(), &mut room);
    assert_eq!((number, answers, cells, next[..4].to_vec()), (0, 64, [63], vec![1, 70, 0, 0]));
    assert_eq!(room[1008..1013], [70, 0, 0, 1, 63]);
}

#[test]
fn starting() {
    for cells in [1, 4096] {
        let (number, words) = start(cells);
        assert_eq!((number, words), (0, with(&[0; WORDS], &[(CELLS, cells)])));
    }
    for cells in [0, 4097, TOP] {
        assert_eq!(start(cells), (3, [0; WORDS]));
    }
    let none = [0; WORDS];
    let event = Event::commit(1).words();
    assert_eq!(call(&none, &mut [], &event, &mut [0; ROOM - 1]).0, 2);
    for lent in [0, 1, 4096] {
        assert_eq!(call(&none, &mut vec![0; lent], &event, &mut [0; ROOM]).0, 3);
    }
    // Of 0 cells and not empty: its cells are outside.
    assert_eq!(call(&with(&waiting_only(1), &[(CELLS, 0)]), &mut [], &event, &mut []).0, 1);
    assert_eq!(call(&with(&none, &[(LARGEST, 9)]), &mut [], &event, &mut []).0, 2);
}

/// An event of another length is not well formed, which is asked after 1, 2 and 3.
#[test]
fn events_of_other_lengths() {
    let (words, cells) = base();
    let event = [Event::commit(3).words(), [0; EVENT_WORDS]].concat();
    let lend = |words: &Words, lent: usize, length: usize, room: usize| {
        let (mut next, mut cells, mut lent_room) = (*words, cells[..lent].to_vec(), vec![UNTOUCHED; room]);
        let (number, answers) =
            call_in_place(Scheme::Blocking, &mut next, &mut cells, &event[..length], &mut lent_room);
        let untouched = next == *words && answers == 0 && lent_room.iter().all(|&word| word == UNTOUCHED);
        assert!(untouched == (number != 0));
        number
    };
    assert_eq!(lend(&words, 4, 29, ROOM), 0);
    for length in [0, 1, 28, 30, 58] {
        assert_eq!(lend(&words, 4, length, ROOM), 4);
        assert_eq!(lend(&words, 3, length, ROOM), 3);
        assert_eq!(lend(&words, 3, length, ROOM - 1), 2);
        assert_eq!(lend(&with(&words, &[(CELLS, 4097)]), 3, length, ROOM - 1), 1);
    }
}

#[test]
fn words_and_struct_do_the_same() {
    let traces = (1..=48).filter_map(|seed| trace::read(&generate::trace(seed)));
    for (trace, scheme) in traces.flat_map(|trace| Scheme::ALL.map(|scheme| (trace.clone(), scheme))) {
        let mut cells = (trace.cells.clone(), trace.cells.clone());
        let (_, mut engine) = Engine::start(cells.0.len() as u32);
        let (_, mut words) = start(cells.0.len() as u32);
        for event in &trace.events {
            let (number, answers) = engine.call_by(scheme, &mut cells.0, event, ROOM);
            let (again, room, next) = careful_call_by(scheme, &words, &mut cells.1, event);
            let answers: Vec<_> = answers.iter().map(|answer| answer.words().to_vec()).collect();
            assert!(number == again && answers == room && cells.0 == cells.1);
            assert!(next == lay_out(&engine.record) && read(&next).as_ref() == Some(&engine.record));
            words = next;
        }
    }
}

/// Nothing panics on damaged records; what is refused stays, what is accepted is sound again.
#[test]
fn damaged_records() {
    let mut random = Random(1);
    let (mut unsound, mut acted_on) = (0, 0);
    for trace in (1..=96).filter_map(|seed| trace::read(&generate::trace(seed))) {
        let mut cells = trace.cells.clone();
        let (_, mut words) = start(cells.len() as u32);
        for event in trace.events.iter().take(120) {
            let (_, _, next) = careful_call(&words, &mut cells, event);
            words = next;
            let mut damaged = words;
            for _ in 0..random.between(1, 3) {
                let row = random.below(words[2].max(1) as usize) as u32;
                let field = random.below(LIVE_WORDS) as u32;
                let at = match random.below(6) {
                    0 => random.below(4) as u32,
                    1 => live(random.below(64) as u32, field),
                    2 => live(row, field % 7),
                    3 => live(row, ATTEMPT),
                    4 => run(row, field % 16),
                    _ => undo(random.below(16) as u32, field % 2),
                } as usize;
                damaged[at] = random.pick(&[0, 1, 2, 3, 8, 9, 64, damaged[at] ^ 1, damaged[at].wrapping_add(1), TOP]);
            }
            let front = damaged[LIVE];
            for event in [
                *event,
                Event::commit(front),
                Event::abort(front),
                Event::last(front, damaged[LIVE + 2], &[(ADD, 0, 1)]),
            ] {
                let scheme = random.pick(&Scheme::ALL);
                let (number, _, next) = careful_call_by(scheme, &damaged, &mut cells.clone(), &event);
                unsound += u32::from(number == 1);
                acted_on += u32::from(number == 0);
                assert!(number == 1 || read(&next).expect("sound").sound());
            }
        }
    }
    assert!(unsound > 1000 && acted_on > 1000, "{unsound} {acted_on}");
}
