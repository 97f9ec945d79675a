//! A record of any words, read without trust: counts are cut to what there is room for.

use independent::engine::{DEPTH, MOST_LIVE};
use independent::event::PLACES;
use independent::layout::{Words, LIVE, LIVE_WORDS, RUNS, RUN_WORDS, UNDO, UNDO_ENTRIES};
use std::ops::Range;

pub const CELLS: usize = 0;
pub const LARGEST: usize = 1;
pub const UNCOMMITTED: usize = 2;
pub const WAITING: usize = 3;

/// Words of a live row; eight times code, cell, amount stand between the count and the attempt.
pub const NUMBER: usize = 0;
pub const FLAGS: usize = 1;
pub const COORDINATOR: usize = 2;
pub const COUNT: usize = 3;
pub const ATTEMPT: usize = 28;

/// Words of a run row; eight held numbers follow.
pub const FRAGMENTS: usize = 0;
pub const STATE: usize = 1;
pub const REPLY: usize = 2;
pub const ENTRIES: usize = 3;
pub const PLACE: usize = 4;
pub const NUMBERS: usize = 5;

/// Words of an answer, counted from 0: its dependence, its attempt and, after this, that of the dependence.
pub const ANSWER_DEPENDENCE: usize = 1;
pub const ANSWER_ATTEMPT: usize = 12;

pub const RUNNING: u32 = 0;
pub const FINISHED: u32 = 1;
pub const FAILED: u32 = 2;
pub const HELD: u32 = 1;

/// Where a word of a live row stands in the record.
pub fn live_at(row: usize, field: usize) -> usize {
    LIVE + LIVE_WORDS * row + field
}

pub fn run_at(row: usize, field: usize) -> usize {
    RUNS + RUN_WORDS * row + field
}

pub fn undo_at(entry: usize, field: usize) -> usize {
    UNDO + 2 * entry + field
}

#[derive(Clone, Copy)]
pub struct View<'a>(pub &'a Words);

impl View<'_> {
    pub fn largest(&self) -> u32 {
        self.0[LARGEST]
    }

    pub fn uncommitted(&self) -> usize {
        DEPTH.min(self.0[UNCOMMITTED] as usize)
    }

    /// Uncommitted and waiting ones.
    pub fn live(&self) -> usize {
        (self.0[UNCOMMITTED] as usize).saturating_add(self.0[WAITING] as usize).min(MOST_LIVE)
    }

    pub fn stored(&self, row: usize, field: usize) -> u32 {
        self.0[live_at(row, field)]
    }

    /// The largest attempt that is sound in a row: with those ahead it makes 64.
    pub fn most_attempt(row: usize) -> u32 {
        (MOST_LIVE - row) as u32
    }

    pub fn run(&self, row: usize, field: usize) -> u32 {
        self.0[run_at(row, field)]
    }

    pub fn is_multi(&self, row: usize) -> bool {
        self.stored(row, FLAGS) & 1 != 0
    }

    /// Undo entries of all uncommitted ones, as far as there is room.
    pub fn entries(&self) -> usize {
        let sum = (0..self.uncommitted()).map(|row| self.run(row, ENTRIES) as usize).sum::<usize>();
        sum.min(UNDO_ENTRIES)
    }

    /// Words of a run in use that mean nothing: an answer's that was sent, numbers beyond a held one's count, the spare
    /// ones.
    pub fn unused_of_run(&self, row: usize) -> Range<usize> {
        let numbers = PLACES.min(self.run(row, NUMBERS) as usize);
        run_at(row, if self.run(row, REPLY) == HELD { NUMBERS + 1 + numbers } else { PLACE })..run_at(row + 1, 0)
    }

    pub fn is_live(&self, number: u32) -> bool {
        (0..self.live()).any(|row| self.stored(row, NUMBER) == number)
    }
}
