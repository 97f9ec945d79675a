//! Refusal 1 of document 01 and request L2 clause by clause: which ones a record breaks. A second writing of soundness beside the
//! independent engine's, to see that each clause was broken alone.

use crate::listed::listed;
use crate::view::*;
use independent::engine::{DEPTH, MOST_CELLS, MOST_LIVE};
use independent::event::{LAST, LOWER, MULTI, READ};
use independent::layout::{Words, UNDO_ENTRIES};

listed! {
    /// A clause of refusal 1.
    Clause {
        CellsAbove4096,
        UncommittedBeyond16,
        LiveBeyond64,
        EntriesBeyond184,
        FragmentsBeyond8,
        NumberZero,
        NumbersNotRising,
        NumberAboveLargest,
        StoredOperations,
        StoredCode,
        StoredReadWithAmount,
        StoredUnusedPlace,
        StoredSingleNotLast,
        StoredCoordinator,
        StoredFlag,
        StoredCellOutside,
        AttemptZero,
        AttemptAndAheadAbove64,
        NoFragmentRun,
        BehindFrontMoreThanOneRun,
        FrontSingle,
        FrontHolds,
        SingleNotHeld,
        UnfinishedNotLast,
        HeldNumbersBeyond8,
        HeldPlaceAbove8,
        UndoCellOutside,
        EntriesBeyond8EachRun,
        StateOfNothing,
        ReplyOfNothing,
    }
}

impl Clause {
    fn bit(self) -> u32 {
        1 << self as u32
    }

    /// Broken only together with another one: more than 184 entries are more than 8 for some fragment; a single that
    /// is the front either holds its answer or does not.
    pub fn implied(self) -> bool {
        matches!(self, Clause::EntriesBeyond184 | Clause::FrontSingle)
    }
}

/// The clauses that a record breaks.
#[derive(Clone, Copy, Debug, Default, PartialEq, Eq)]
pub struct Broken(u32);

impl Broken {
    pub fn any(self) -> bool {
        self.0 != 0
    }

    pub fn only(self, clause: Clause) -> bool {
        self.0 == clause.bit()
    }

    fn note(&mut self, clause: Clause, broken: bool) {
        if broken {
            self.0 |= clause.bit();
        }
    }
}

pub fn broken(words: &Words) -> Broken {
    let mut broken = Broken::default();
    let view = View(words);
    let (uncommitted, waiting) = (words[UNCOMMITTED] as usize, words[WAITING] as usize);
    broken.note(Clause::CellsAbove4096, words[CELLS] > MOST_CELLS);
    broken.note(Clause::UncommittedBeyond16, uncommitted > DEPTH);
    broken.note(Clause::LiveBeyond64, uncommitted + waiting > MOST_LIVE);
    for row in 0..view.live() {
        stored(view, row, &mut broken);
    }
    for row in 0..view.uncommitted() {
        ran(view, row, &mut broken);
    }
    entries(view, &mut broken);
    broken
}

fn stored(view: View, row: usize, broken: &mut Broken) {
    let number = view.stored(row, NUMBER);
    broken.note(Clause::NumberZero, number == 0);
    broken.note(Clause::NumbersNotRising, row > 0 && number <= view.stored(row - 1, NUMBER));
    broken.note(Clause::NumberAboveLargest, number > view.largest());

    let attempt = view.stored(row, ATTEMPT);
    broken.note(Clause::AttemptZero, attempt == 0);
    broken.note(Clause::AttemptAndAheadAbove64, u64::from(attempt) + row as u64 > 64);

    let [flags, coordinator, count] = [FLAGS, COORDINATOR, COUNT].map(|field| view.stored(row, field));
    let single = flags & MULTI == 0;
    broken.note(Clause::StoredFlag, flags > (MULTI | LAST));
    broken.note(Clause::StoredSingleNotLast, single && flags & LAST == 0);
    broken
        .note(Clause::StoredCoordinator, if single { coordinator != 0 } else { coordinator == 0 || coordinator > 255 });
    broken.note(Clause::StoredOperations, count == 0 || count > 8);
    for place in 0..8 {
        let [code, cell, amount] = [0, 1, 2].map(|word| view.stored(row, 4 + 3 * place + word));
        if place as u32 >= count {
            broken.note(Clause::StoredUnusedPlace, [code, cell, amount] != [0; 3]);
            continue;
        }
        broken.note(Clause::StoredCode, code == 0 || code > LOWER);
        broken.note(Clause::StoredReadWithAmount, code == READ && amount != 0);
        broken.note(Clause::StoredCellOutside, cell >= view.0[CELLS]);
    }
}

fn ran(view: View, row: usize, broken: &mut Broken) {
    let front = row == 0;
    let last = row + 1 == view.0[UNCOMMITTED] as usize;
    let single = !view.is_multi(row);
    let [fragments, state, reply] = [FRAGMENTS, STATE, REPLY].map(|field| view.run(row, field));
    let held = reply == HELD;
    broken.note(Clause::NoFragmentRun, fragments == 0);
    broken.note(Clause::FragmentsBeyond8, fragments > 8);
    broken.note(Clause::BehindFrontMoreThanOneRun, !front && fragments > 1);
    broken.note(Clause::FrontSingle, front && single);
    broken.note(Clause::FrontHolds, front && held);
    broken.note(Clause::SingleNotHeld, single && reply == 0);
    broken.note(Clause::UnfinishedNotLast, state == RUNNING && !last);
    broken.note(Clause::HeldNumbersBeyond8, held && view.run(row, NUMBERS) > 8);
    broken.note(Clause::HeldPlaceAbove8, held && view.run(row, PLACE) > 8);
    broken.note(Clause::StateOfNothing, state > FAILED);
    broken.note(Clause::ReplyOfNothing, reply > HELD);
    broken.note(Clause::EntriesBeyond8EachRun, u64::from(view.run(row, ENTRIES)) > 8 * u64::from(fragments));
}

fn entries(view: View, broken: &mut Broken) {
    let sum: u64 = (0..view.uncommitted()).map(|row| u64::from(view.run(row, ENTRIES))).sum();
    broken.note(Clause::EntriesBeyond184, sum > UNDO_ENTRIES as u64);
    let outside = |entry| view.0[undo_at(entry, 0)] >= view.0[CELLS];
    broken.note(Clause::UndoCellOutside, (0..view.entries()).any(outside));
}
