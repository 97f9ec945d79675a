//! The record as words, so that damaged ones can be handed to a call.
//!
//! counts: cells, largest, uncommitted, waiting
//! live: 64 rows of 29: number, flags, coordinator, operation count, eight times code, cell, amount; then the attempt;
//!       the uncommitted ones, then the waiting ones
//! runs: 16 rows of 16, one beside each uncommitted one: fragments run, state (0 running, 1 finished, 2 failed),
//!       reply (0 sent, 1 held), number of its own undo entries, held place, held count, eight held numbers, two zeros
//! undo: 184 pairs of cell and old number, in queue order, oldest first
//!
//! Unused places of an accepted call: those that were in use at any time in it and are not after it are cleared; those
//! that nothing reached stay as they came.

use crate::engine::{Engine, Outcome, Record, Scheme, State, Uncommitted, Waiting, ANSWER_WORDS, DEPTH, MOST_LIVE};
use crate::event::{Event, Fragment, EVENT_WORDS, FRAGMENT, FRAGMENT_WORDS, PLACES};
use std::collections::VecDeque;

/// The attempt is the last of them.
pub const LIVE_WORDS: usize = FRAGMENT_WORDS + 1;
pub const RUN_WORDS: usize = 16;
pub const UNDO_ENTRIES: usize = 184;
pub const LIVE: usize = 4;
pub const RUNS: usize = LIVE + MOST_LIVE * LIVE_WORDS;
pub const UNDO: usize = RUNS + DEPTH * RUN_WORDS;
pub const WORDS: usize = UNDO + 2 * UNDO_ENTRIES;

pub type Words = [u32; WORDS];

/// Starts with a count of cells: the returned number and the record.
pub fn start(cells: u32) -> (u32, Words) {
    let (number, engine) = Engine::start(cells);
    (number, lay_out(&engine.record))
}

/// One call by speculation: the returned number, how many answers fill `room` from its start, and the next record.
pub fn call(words: &Words, cells: &mut [u32], event: &[u32; EVENT_WORDS], room: &mut [u32]) -> (u32, u32, Words) {
    let mut next = *words;
    let (number, answers) = call_in_place(Scheme::Speculation, &mut next, cells, event, room);
    (number, answers, next)
}

/// One call on words of any content and areas of any length: the returned number and the count of answers.
pub fn call_in_place(
    scheme: Scheme,
    words: &mut Words,
    cells: &mut [u32],
    event: &[u32],
    room: &mut [u32],
) -> (u32, u32) {
    match read(words) {
        Some(record) => call_on(scheme, &mut Engine::of(record), words, cells, event, room),
        None => (1, 0),
    }
}

/// One call of an engine, a wrong one too, whose record the words stand for.
pub fn call_on(
    scheme: Scheme,
    engine: &mut Engine,
    words: &mut Words,
    cells: &mut [u32],
    event: &[u32],
    room: &mut [u32],
) -> (u32, u32) {
    // What is no event of 29 words is not well formed, as 29 zeros are not.
    let event = if event.len() == EVENT_WORDS { Event::read(event) } else { Event::default() };
    let (before, largest) = (Places::used(&engine.record), engine.record.largest);
    let (number, answers) = engine.call_by(scheme, cells, &event, room.len());
    if number != 0 {
        // Laying out would clear garbage in unused places.
        return (number, 0);
    }
    for (place, answer) in room.chunks_exact_mut(ANSWER_WORDS).zip(&answers) {
        place.copy_from_slice(&answer.words());
    }
    let arrives = event.kind == FRAGMENT && event.fragment.number > largest;
    lay_out_in(&engine.record, before.reached(arrives, &engine.record), words);
    (0, answers.len() as u32)
}

/// Lays out a sound record. Every unused place is zero, a sent answer's held words too.
pub fn lay_out(record: &Record) -> Words {
    let mut words = [0; WORDS];
    lay_out_in(record, Places::used(record), &mut words);
    words
}

/// How many places of each row, from its start on.
#[derive(Clone, Copy)]
struct Places {
    live: usize,
    runs: usize,
    entries: usize,
}

impl Places {
    fn used(record: &Record) -> Places {
        let entries = record.uncommitted.iter().map(|one| one.undo.len()).sum();
        Places { live: record.live().count(), runs: record.uncommitted.len(), entries }
    }

    /// What was in use at any time in a call, from what was before it. A new number takes a place behind the live ones,
    /// also where it settles in the same call. A single that settles at once takes no run, and a fragment's entries
    /// take places when it has passed: so runs and entries are never more than before the call or after it.
    fn reached(self, arrives: bool, after: &Record) -> Places {
        let after = Places::used(after);
        Places {
            live: after.live.max(self.live + usize::from(arrives)),
            runs: after.runs.max(self.runs),
            entries: after.entries.max(self.entries),
        }
    }
}

/// The record's rows over words of any content: what was reached and is not in use is zero, and what was not stays.
fn lay_out_in(record: &Record, reached: Places, words: &mut Words) {
    // A wrong engine may have more of them than there is room for.
    words[LIVE..RUNS].chunks_exact_mut(LIVE_WORDS).take(reached.live).for_each(|row| row.fill(0));
    words[RUNS..UNDO].chunks_exact_mut(RUN_WORDS).take(reached.runs).for_each(|row| row.fill(0));
    words[UNDO..].chunks_exact_mut(2).take(reached.entries).for_each(|pair| pair.fill(0));
    let counts = [record.uncommitted.len() as u32, record.waiting.len() as u32];
    words[..4].copy_from_slice(&[record.cells, record.largest, counts[0], counts[1]]);
    let live = record.live().zip(record.attempts());
    for (row, (stored, attempt)) in words[LIVE..RUNS].chunks_exact_mut(LIVE_WORDS).zip(live) {
        row[..FRAGMENT_WORDS].copy_from_slice(&stored.words());
        row[FRAGMENT_WORDS] = attempt;
    }
    for (row, one) in words[RUNS..UNDO].chunks_exact_mut(RUN_WORDS).zip(&record.uncommitted) {
        let state = match one.state {
            State::Running => 0,
            State::Finished => 1,
            State::Failed => 2,
        };
        row[..4].copy_from_slice(&[one.fragments_run, state, u32::from(one.held.is_some()), one.undo.len() as u32]);
        if let Some(Outcome { place, numbers }) = &one.held {
            row[4..6].copy_from_slice(&[*place, numbers.len() as u32]);
            row[6..6 + numbers.len()].copy_from_slice(numbers);
        }
    }
    let entries = record.uncommitted.iter().flat_map(|one| &one.undo);
    for (pair, &(cell, old)) in words[UNDO..].chunks_exact_mut(2).zip(entries) {
        pair.copy_from_slice(&[cell, old]);
    }
}

/// The record that the words stand for, or nothing where they stand for none, which is unsound too.
pub fn read(words: &Words) -> Option<Record> {
    let (cells, largest, uncommitted, waiting) = (words[0], words[1], words[2] as usize, words[3] as usize);
    if uncommitted > DEPTH || waiting > MOST_LIVE - uncommitted {
        return None;
    }
    let rows = words[LIVE..RUNS].chunks_exact(LIVE_WORDS);
    let mut live = rows.map(|row| Waiting { first: Fragment::read(row), attempt: row[FRAGMENT_WORDS] });
    let mut runs = words[RUNS..UNDO].chunks_exact(RUN_WORDS);
    let mut entries = &words[UNDO..];
    let mut read_one = || {
        let (Waiting { first, attempt }, run) = (live.next()?, runs.next()?);
        let state = match run[1] {
            0 => State::Running,
            1 => State::Finished,
            2 => State::Failed,
            _ => return None,
        };
        let held = match (run[2], run[5] as usize) {
            (0, _) => None,
            (1, count) if count <= PLACES => Some(Outcome { place: run[4], numbers: run[6..6 + count].to_vec() }),
            _ => return None,
        };
        if run[3] as usize > entries.len() / 2 {
            return None;
        }
        let (own, others) = entries.split_at(2 * run[3] as usize);
        entries = others;
        let undo = own.chunks_exact(2).map(|pair| (pair[0], pair[1])).collect();
        Some(Uncommitted { first, attempt, fragments_run: run[0], state, held, undo })
    };
    let mut all = VecDeque::with_capacity(uncommitted + 1);
    for _ in 0..uncommitted {
        all.push_back(read_one()?);
    }
    Some(Record { cells, largest, uncommitted: all, waiting: live.take(waiting).collect() })
}
