//! Records that no run leaves: damaged at random, damaged by one clause of soundness, or odd and still sound.

use crate::clauses::Clause;
use crate::hostile::edge;
use crate::listed::listed;
use crate::view::*;
use independent::engine::{DEPTH, MOST_LIVE};
use independent::event::*;
use independent::generate::Random;
use independent::layout::{Words, LIVE, LIVE_WORDS, RUNS, RUN_WORDS, UNDO, UNDO_ENTRIES, WORDS};

listed! {
    /// Without a plan.
    AtRandom {
        OneWord,
        SeveralWords,
        UsedWord,
        Row,
        BitFlips,
        RowsSwapped,
        Counts,
        AllWords,
        AllEdges,
    }
}

listed! {
    /// Sound and left by no run.
    Odd {
        LargestRaised,
        MoreCells,
        FewerCells,
        FragmentsRun,
        EntriesDropped,
        EntriesAtLimit,
        EntriesChanged,
        States,
        LastToggled,
        TailSingleRunning,
        Requeued,
        Promoted,
        NothingUncommitted,
        SinglesWait,
        Full,
        HeldChanged,
        SentOrHeld,
        Coordinators,
        StoredChanged,
        Attempts,
        AttemptsAtLimit,
        NumbersAtTop,
        Garbage,
    }
}

#[derive(Clone, Copy, Debug, PartialEq, Eq)]
pub enum Damage {
    AtRandom(AtRandom),
    Clause(Clause),
    Odd(Odd),
}

impl Damage {
    pub fn all() -> Vec<Damage> {
        let at_random = AtRandom::ALL.iter().map(|&kind| Damage::AtRandom(kind));
        let clauses = Clause::ALL.iter().map(|&clause| Damage::Clause(clause));
        at_random.chain(clauses).chain(Odd::ALL.iter().map(|&kind| Damage::Odd(kind))).collect()
    }

    /// Does it to a record, or nothing if the record has no place for it.
    pub fn make(self, random: &mut Random, words: &mut Words) -> Option<()> {
        match self {
            Damage::AtRandom(kind) => {
                at_random(kind, random, words);
                Some(())
            }
            Damage::Clause(clause) => break_clause(clause, random, words),
            Damage::Odd(kind) => odd(kind, random, words),
        }
    }
}

fn at_random(kind: AtRandom, random: &mut Random, words: &mut Words) {
    match kind {
        AtRandom::OneWord => words[random.below(WORDS)] = edge(random, words),
        AtRandom::SeveralWords => {
            (0..random.between(2, 9)).for_each(|_| words[random.below(WORDS)] = edge(random, words))
        }
        AtRandom::UsedWord => {
            let at = used_place(random, words);
            let any = edge(random, words);
            words[at] = random.pick(&[any, words[at] ^ 1, words[at].wrapping_add(1)]);
        }
        AtRandom::Row => {
            let (from, length) = some_row(random, words);
            let wild = random.percent(30);
            for at in from..from + length {
                words[at] = if wild { random.word() } else { edge(random, words) };
            }
        }
        AtRandom::BitFlips => (0..random.between(1, 4)).for_each(|_| {
            let at = if random.percent(70) { used_place(random, words) } else { random.below(WORDS) };
            words[at] ^= 1 << random.below(32);
        }),
        AtRandom::RowsSwapped => {
            let (one, length) = some_row(random, words);
            let starts = if one < RUNS {
                LIVE..RUNS
            } else if one < UNDO {
                RUNS..UNDO
            } else {
                UNDO..WORDS
            };
            let near = (one + length).min(starts.end - length);
            let far = starts.start + length * random.below(starts.len() / length);
            let two = if random.percent(60) { near } else { far };
            (0..length).for_each(|at| words.swap(one + at, two + at));
        }
        AtRandom::Counts => {
            let at = random.below(4);
            let any = edge(random, words);
            words[at] = random.pick(&[any, words[at].wrapping_add(1), words[at].wrapping_sub(1)]);
        }
        AtRandom::AllWords => words.iter_mut().for_each(|word| *word = random.word()),
        AtRandom::AllEdges => {
            let edges = [0; 64].map(|_| edge(random, words));
            words.iter_mut().for_each(|word| *word = random.pick(&edges));
        }
    }
}

/// The place of a word that a call reads.
fn used_place(random: &mut Random, words: &Words) -> usize {
    let view = View(words);
    let row = random.below(view.live().max(1));
    match random.below(4) {
        0 => random.below(4),
        1 if random.percent(10) => live_at(row, ATTEMPT),
        1 => live_at(row, random.below(LIVE_WORDS)),
        2 => run_at(random.below(view.uncommitted().max(1)), random.below(RUN_WORDS)),
        _ => undo_at(random.below(view.entries().max(1)), random.below(2)),
    }
}

/// Start and length of a row, mostly of a used one.
fn some_row(random: &mut Random, words: &Words) -> (usize, usize) {
    let view = View(words);
    let all = random.percent(20);
    match random.below(3) {
        0 => (live_at(random.below(if all { MOST_LIVE } else { view.live().max(1) }), 0), LIVE_WORDS),
        1 => (run_at(random.below(if all { DEPTH } else { view.uncommitted().max(1) }), 0), RUN_WORDS),
        _ => (undo_at(random.below(if all { UNDO_ENTRIES } else { view.entries().max(1) }), 0), 2),
    }
}

fn some(random: &mut Random, from: usize, to: usize) -> Option<usize> {
    (from < to).then(|| random.between(from, to - 1))
}

/// Any of `rows` that passes, from a random one on.
fn find(random: &mut Random, from: usize, to: usize, passes: impl Fn(usize) -> bool) -> Option<usize> {
    let first = some(random, from, to)?;
    (first..to).chain(from..first).find(|&row| passes(row))
}

/// Breaks one clause, and no other one where that can be had.
fn break_clause(clause: Clause, random: &mut Random, words: &mut Words) -> Option<()> {
    let view = View(words);
    let (uncommitted, live, count) = (view.uncommitted(), view.live(), words[CELLS]);
    let any = random.word() | 1 << 20;
    let huge = random.pick(&[TOP, TOP - 1, 1 << 31, 1 << 16, any]);
    match clause {
        Clause::CellsAbove4096 => words[CELLS] = random.pick(&[4097, 4097, 4098, 8192, huge]),
        Clause::UncommittedBeyond16 | Clause::LiveBeyond64 | Clause::EntriesBeyond184 => {
            return break_limit(clause, random, words, huge)
        }
        Clause::FragmentsBeyond8 if uncommitted > 0 => words[run_at(0, FRAGMENTS)] = random.pick(&[9, 9, 10, huge]),
        Clause::NumberZero if live > 0 => words[live_at(0, NUMBER)] = 0,
        Clause::NumbersNotRising => {
            let row = some(random, 1, live)?;
            let ahead = view.stored(row - 1, NUMBER);
            words[live_at(row, NUMBER)] = random.pick(&[ahead, ahead.saturating_sub(1).max(1)]);
        }
        Clause::NumberAboveLargest if live > 0 => {
            let last = live_at(live - 1, NUMBER);
            match view.largest().checked_add(1) {
                Some(above) if random.percent(50) => words[last] = random.pick(&[above, above, TOP]),
                _ => words[LARGEST] = words[last].wrapping_sub(1),
            }
        }
        Clause::UndoCellOutside => return break_entry(random, words, count),
        // Also those above where the record has no row for them, and then it has none here.
        _ if (clause as u32) < Clause::NoFragmentRun as u32 => {
            let row = some(random, 0, live)?;
            return break_stored(clause, random, words, row, huge);
        }
        _ => return break_run(clause, random, words, huge),
    }
    Some(())
}

fn break_limit(clause: Clause, random: &mut Random, words: &mut Words, huge: u32) -> Option<()> {
    let uncommitted = View(words).uncommitted();
    match clause {
        Clause::UncommittedBeyond16 => {
            if random.percent(30) {
                words[UNCOMMITTED] = random.pick(&[17, 18, huge]);
                return Some(());
            }
            fill_live(words, 17)?;
            let live = View(words).live();
            promote(words, DEPTH);
            words[run_at(DEPTH - 1, STATE)] = words[run_at(DEPTH - 1, STATE)].max(FINISHED);
            (words[UNCOMMITTED], words[WAITING]) = (17, live as u32 - 17);
        }
        Clause::LiveBeyond64 => {
            fill_live(words, MOST_LIVE)?;
            let uncommitted = uncommitted as u32;
            // Counts whose sum comes round are too many as well.
            words[WAITING] = random.pick(&[65 - uncommitted, 65 - uncommitted, huge, 0u32.wrapping_sub(uncommitted)]);
            if words[WAITING] == 0 {
                words[WAITING] = huge;
            }
        }
        _ => {
            let row = some(random, 0, uncommitted)?;
            words[run_at(row, ENTRIES)] = random.pick(&[185, 186, huge]);
        }
    }
    Some(())
}

/// A sound record's live rows made up to `count` by waiting singles.
fn fill_live(words: &mut Words, count: usize) -> Option<()> {
    let live = View(words).live();
    for row in live..count {
        let number = if row == 0 { 1 } else { words[live_at(row - 1, NUMBER)].checked_add(1)? };
        words[live_at(row, 0)..live_at(row + 1, 0)].fill(0);
        words[live_at(row, 0)..live_at(row, 7)].copy_from_slice(&[number, LAST, 0, 1, READ, 0, 0]);
        words[live_at(row, ATTEMPT)] = 1;
        words[LARGEST] = words[LARGEST].max(number);
        words[WAITING] += 1;
    }
    Some(())
}

/// A record's first ones made uncommitted, up to `count` of the live ones: finished, their answers held.
fn promote(words: &mut Words, count: usize) {
    let (uncommitted, live) = (View(words).uncommitted(), View(words).live());
    let count = count.min(live);
    if count <= uncommitted {
        return;
    }
    for row in uncommitted.saturating_sub(1)..count {
        if row < uncommitted {
            words[run_at(row, STATE)] = words[run_at(row, STATE)].max(FINISHED);
            continue;
        }
        words[run_at(row, 0)..run_at(row + 1, 0)].fill(0);
        words[run_at(row, 0)..run_at(row, 3)].copy_from_slice(&[1, FINISHED, u32::from(row > 0)]);
    }
    (words[UNCOMMITTED], words[WAITING]) = (count as u32, (live - count) as u32);
}

fn break_entry(random: &mut Random, words: &mut Words, count: u32) -> Option<()> {
    if View(words).uncommitted() == 0 {
        return None;
    }
    if View(words).entries() == 0 {
        words[run_at(0, ENTRIES)] = 1;
    }
    let entry = random.below(View(words).entries());
    words[undo_at(entry, 0)] = random.pick(&[count, count, count.saturating_add(1), TOP]);
    Some(())
}

/// A clause about stored fragments.
fn break_stored(clause: Clause, random: &mut Random, words: &mut Words, row: usize, huge: u32) -> Option<()> {
    let view = View(words);
    let count = view.stored(row, COUNT) as usize;
    let used = random.below(count.clamp(1, PLACES));
    let operation = live_at(row, 4 + 3 * used);
    match clause {
        Clause::StoredOperations if random.percent(30) => words[live_at(row, COUNT)..live_at(row, ATTEMPT)].fill(0),
        Clause::StoredOperations => {
            words[live_at(row, COUNT)] = random.pick(&[9, 9, 10, huge]);
            (1..PLACES)
                .for_each(|place| words.copy_within(live_at(row, 4)..live_at(row, 7), live_at(row, 4 + 3 * place)));
        }
        Clause::StoredCode => words[operation] = random.pick(&[0, 9, 9, huge]),
        Clause::StoredReadWithAmount => (words[operation], words[operation + 2]) = (READ, random.pick(&[1, TOP, huge])),
        Clause::StoredUnusedPlace => {
            let used = if count >= PLACES { PLACES - 1 } else { count };
            words[live_at(row, COUNT)] = used as u32;
            let at = random.between(4 + 3 * used, FRAGMENT_WORDS - 1);
            words[live_at(row, at)] = random.pick(&[1, TOP, huge]);
        }
        Clause::StoredSingleNotLast => {
            let behind = view.uncommitted();
            let row = find(random, 0, view.live(), |row| row >= behind || !view.is_multi(row))?;
            (words[live_at(row, FLAGS)], words[live_at(row, COORDINATOR)]) = (0, 0);
        }
        Clause::StoredCoordinator if view.is_multi(row) => {
            words[live_at(row, COORDINATOR)] = random.pick(&[0, 256, 257, huge])
        }
        Clause::StoredCoordinator => words[live_at(row, COORDINATOR)] = random.pick(&[1, 255, huge]),
        Clause::StoredFlag => words[live_at(row, FLAGS)] |= 1 << random.between(2, 31),
        Clause::StoredCellOutside => {
            words[operation + 1] = random.pick(&[words[CELLS], words[CELLS], words[CELLS].saturating_add(1), TOP])
        }
        Clause::AttemptZero => words[live_at(row, ATTEMPT)] = 0,
        Clause::AttemptAndAheadAbove64 => {
            let most = View::most_attempt(row);
            // A sum that comes round is too large as well.
            words[live_at(row, ATTEMPT)] = random.pick(&[most + 1, most + 1, 65, huge, TOP - row as u32]);
        }
        _ => return None,
    }
    Some(())
}

/// A clause about uncommitted ones.
fn break_run(clause: Clause, random: &mut Random, words: &mut Words, huge: u32) -> Option<()> {
    let view = View(words);
    let uncommitted = view.uncommitted();
    let any = some(random, 0, uncommitted)?;
    match clause {
        Clause::NoFragmentRun => (words[run_at(any, FRAGMENTS)], words[run_at(any, ENTRIES)]) = (0, 0),
        Clause::BehindFrontMoreThanOneRun => {
            words[run_at(some(random, 1, uncommitted)?, FRAGMENTS)] = random.between(2, 8) as u32
        }
        Clause::FrontSingle => {
            (words[live_at(0, FLAGS)], words[live_at(0, COORDINATOR)]) = (LAST, 0);
            words[run_at(0, REPLY)] = random.below(2) as u32;
        }
        Clause::FrontHolds => hold(random, words, 0),
        Clause::SingleNotHeld => {
            let sent = |row| !view.is_multi(row) || view.run(row, REPLY) == 0;
            let row = find(random, 1, uncommitted, sent)?;
            (words[live_at(row, FLAGS)], words[live_at(row, COORDINATOR)]) = (LAST, 0);
            words[run_at(row, REPLY)] = 0;
        }
        Clause::UnfinishedNotLast => words[run_at(some(random, 0, uncommitted - 1)?, STATE)] = RUNNING,
        Clause::HeldNumbersBeyond8 | Clause::HeldPlaceAbove8 => {
            let row = some(random, 1, uncommitted)?;
            hold(random, words, row);
            let field = if clause == Clause::HeldPlaceAbove8 { PLACE } else { NUMBERS };
            words[run_at(row, field)] = random.pick(&[9, 9, 10, huge]);
        }
        Clause::EntriesBeyond8EachRun => {
            let (fragments, entries) = (view.run(any, FRAGMENTS), view.entries());
            words[run_at(any, ENTRIES)] = fragments.wrapping_mul(8).wrapping_add(random.pick(&[1, 1, 2]));
            // What stood there may name any cell.
            let more = View(words).entries().max(entries);
            words[undo_at(entries, 0)..undo_at(more, 0)].fill(0);
        }
        Clause::StateOfNothing => words[run_at(any, STATE)] = random.pick(&[3, 3, 4, huge]),
        Clause::ReplyOfNothing => words[run_at(any, REPLY)] = random.pick(&[2, 2, 3, huge]),
        _ => return None,
    }
    Some(())
}

/// A held answer of any place and numbers in their limits.
fn hold(random: &mut Random, words: &mut Words, row: usize) {
    let held = [HELD, words[run_at(row, ENTRIES)], random.below(9) as u32, random.below(9) as u32];
    words[run_at(row, REPLY)..=run_at(row, NUMBERS)].copy_from_slice(&held);
    (0..PLACES).for_each(|at| words[run_at(row, 6 + at)] = random.word());
}

fn odd(kind: Odd, random: &mut Random, words: &mut Words) -> Option<()> {
    let view = View(words);
    let (uncommitted, live) = (view.uncommitted(), view.live());
    match kind {
        Odd::LargestRaised => {
            words[LARGEST] = random.pick(&[TOP, TOP - 1, words[LARGEST].saturating_add(7)]).max(words[LARGEST])
        }
        Odd::MoreCells => words[CELLS] = random.pick(&[4096, 4095, words[CELLS] + 1]).clamp(words[CELLS], 4096),
        Odd::FewerCells => words[CELLS] = least_cells(view),
        Odd::LastToggled => {
            let row = find(random, 0, live, |row| view.is_multi(row))?;
            words[live_at(row, FLAGS)] ^= LAST;
        }
        Odd::Requeued => move_boundary(random, words, uncommitted)?,
        Odd::Promoted => {
            let count = some(random, uncommitted + 1, live.min(DEPTH) + 1)?;
            // A single that becomes the front is unsound.
            (uncommitted > 0 || view.is_multi(0)).then(|| promote(words, count))?;
        }
        Odd::NothingUncommitted if live > 0 => (words[UNCOMMITTED], words[WAITING]) = (0, live as u32),
        Odd::SinglesWait => {
            (words[UNCOMMITTED], words[WAITING]) = (0, 0);
            fill_live(words, random.between(1, 12))?;
        }
        Odd::Full => {
            fill_live(words, random.pick(&[63, 64, 64]))?;
            if random.percent(50) {
                (words[UNCOMMITTED], words[WAITING]) = (0, View(words).live() as u32);
            }
        }
        Odd::Coordinators => {
            let row = find(random, 0, live, |row| view.is_multi(row))?;
            words[live_at(row, COORDINATOR)] = random.pick(&[1, 2, 3, 254, 255]);
        }
        Odd::StoredChanged => {
            let row = some(random, 0, live)?;
            store_another(random, words, row);
        }
        Odd::Attempts if live > 0 => (0..live)
            .for_each(|row| words[live_at(row, ATTEMPT)] = random.between(1, View::most_attempt(row) as usize) as u32),
        // All of them, or one among others as they are: an undoing must not bring it beyond.
        Odd::AttemptsAtLimit => {
            let one = some(random, 0, live)?;
            let rows = if random.percent(50) { 0..live } else { one..one + 1 };
            rows.for_each(|row| words[live_at(row, ATTEMPT)] = View::most_attempt(row));
        }
        Odd::NumbersAtTop => {
            let rise = TOP - view.stored(live.checked_sub(1)?, NUMBER);
            (0..live).for_each(|row| words[live_at(row, NUMBER)] += rise);
            words[LARGEST] = TOP;
        }
        Odd::Garbage => garbage(random, words),
        _ => return odd_run(kind, random, words),
    }
    Some(())
}

/// One more than the largest cell that is named.
fn least_cells(view: View) -> u32 {
    let stored = |row| (0..view.stored(row, COUNT) as usize).map(move |place| view.stored(row, 5 + 3 * place));
    let entries = (0..view.entries()).map(|entry| view.0[undo_at(entry, 0)]);
    (0..view.live()).flat_map(stored).chain(entries).max().map_or(1, |most| most + 1)
}

/// The last uncommitted ones wait again, though nothing was undone.
fn move_boundary(random: &mut Random, words: &mut Words, uncommitted: usize) -> Option<()> {
    let live = View(words).live();
    let count = some(random, 0, uncommitted)?;
    (words[UNCOMMITTED], words[WAITING]) = (count as u32, (live - count) as u32);
    if count > 0 && random.percent(30) {
        words[run_at(count - 1, STATE)] = RUNNING;
    }
    Some(())
}

fn store_another(random: &mut Random, words: &mut Words, row: usize) {
    let count = random.between(1, PLACES);
    words[live_at(row, COUNT)..live_at(row, ATTEMPT)].fill(0);
    words[live_at(row, COUNT)] = count as u32;
    for place in 0..count {
        let code = random.between(1, 8) as u32;
        let amount = if code == READ { 0 } else { edge(random, words) };
        let cell = random.below(words[CELLS].max(1) as usize) as u32;
        words[live_at(row, 4 + 3 * place)..live_at(row, 7 + 3 * place)].copy_from_slice(&[code, cell, amount]);
    }
}

/// Anything in all unused places of a sound record, which changes nothing that it means: noise, one word over and over,
/// or what stands in use ahead of it.
pub fn garbage(random: &mut Random, words: &mut Words) {
    let view = View(words);
    let rows = [
        (LIVE, live_at(view.live(), 0), RUNS),
        (RUNS, run_at(view.uncommitted(), 0), UNDO),
        (UNDO, undo_at(view.entries(), 0), WORDS),
    ];
    let same = random.pick(&[1, 9, 1 << 31, TOP]);
    let (repeats, noise) = (random.percent(30), random.percent(60));
    let mut word = random.word() | 1;
    let mut next = || {
        word = word.wrapping_mul(0x9e37_79b1).rotate_left(7);
        if noise {
            word
        } else {
            same
        }
    };
    for row in 0..View(words).uncommitted() {
        let unused = View(words).unused_of_run(row);
        words[unused].iter_mut().for_each(|place| *place = next());
    }
    for (from, unused, to) in rows {
        let used = unused - from;
        (unused..to).for_each(|at| words[at] = if repeats && used > 0 { words[at - used] } else { next() });
    }
}

fn odd_run(kind: Odd, random: &mut Random, words: &mut Words) -> Option<()> {
    let uncommitted = View(words).uncommitted();
    let any = some(random, 0, uncommitted)?;
    match kind {
        Odd::FragmentsRun => {
            let fragments = random.pick(&[8, 8, 7, 1, 2]);
            words[run_at(0, FRAGMENTS)] = fragments;
            words[run_at(0, ENTRIES)] = words[run_at(0, ENTRIES)].min(8 * fragments);
        }
        Odd::EntriesDropped => (0..=any).for_each(|row| words[run_at(row, ENTRIES)] = 0),
        Odd::EntriesAtLimit => {
            (0..uncommitted).for_each(|row| words[run_at(row, ENTRIES)] = 8 * words[run_at(row, FRAGMENTS)]);
            change_entries(random, words);
        }
        Odd::EntriesChanged => change_entries(random, words),
        Odd::States => {
            (0..uncommitted).for_each(|row| words[run_at(row, STATE)] = random.pick(&[FINISHED, FAILED]));
            words[run_at(uncommitted - 1, STATE)] = random.below(3) as u32;
        }
        Odd::TailSingleRunning => {
            let tail = find(random, 1, uncommitted, |row| !View(words).is_multi(row))?;
            let live = View(words).live();
            (words[UNCOMMITTED], words[WAITING]) = (tail as u32 + 1, (live - tail - 1) as u32);
            words[run_at(tail, STATE)] = RUNNING;
        }
        Odd::HeldChanged => {
            let row = find(random, 1, uncommitted, |row| View(words).run(row, REPLY) == HELD)?;
            hold(random, words, row);
        }
        Odd::SentOrHeld => {
            let row = find(random, 1, uncommitted, |row| View(words).is_multi(row))?;
            match View(words).run(row, REPLY) {
                HELD => words[run_at(row, REPLY)] = 0,
                _ => hold(random, words, row),
            }
        }
        _ => return None,
    }
    Some(())
}

/// Any cells inside and any old numbers.
fn change_entries(random: &mut Random, words: &mut Words) {
    for entry in 0..View(words).entries() {
        let cell = random.below(words[CELLS].max(1) as usize) as u32;
        (words[undo_at(entry, 0)], words[undo_at(entry, 1)]) = (cell, random.word() >> random.below(32));
    }
}
