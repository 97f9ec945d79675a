//! Operations and events, as the words that the engine takes.

use crate::{EVENT_WORDS, MOST_OPERATIONS};

// Kinds of an event.
const FRAGMENT: u32 = 1;
const COMMIT: u32 = 2;
const ABORT: u32 = 3;

// Flags of a fragment.
const MULTI: u32 = 1;
const LAST: u32 = 2;

// Where the operations start in an event's words.
const OPERATIONS: usize = 5;

/// One operation on a cell. One that does not fail gives one number, the cell's content after it; one that fails gives
/// the content that it found.
#[derive(Clone, Copy, Debug, PartialEq, Eq, Hash)]
pub struct Op {
    code: u32,
    cell: u32,
    amount: u32,
}

impl Op {
    /// Reads the cell. Never fails.
    pub const fn read(cell: u32) -> Op {
        Op { code: 1, cell, amount: 0 }
    }

    /// The cell becomes `amount`. Never fails.
    pub const fn set(cell: u32, amount: u32) -> Op {
        Op { code: 2, cell, amount }
    }

    /// Adds to the cell. Fails above [`crate::TOP`].
    pub const fn add(cell: u32, amount: u32) -> Op {
        Op { code: 3, cell, amount }
    }

    /// Takes from the cell. Fails where it has less.
    pub const fn take(cell: u32, amount: u32) -> Op {
        Op { code: 4, cell, amount }
    }

    /// Writes nothing. Fails where the cell has less than `amount`.
    pub const fn need(cell: u32, amount: u32) -> Op {
        Op { code: 5, cell, amount }
    }

    /// Writes nothing. Fails where the cell is not `amount`.
    pub const fn match_(cell: u32, amount: u32) -> Op {
        Op { code: 6, cell, amount }
    }

    /// The cell becomes the larger of itself and `amount`. Never fails.
    pub const fn raise(cell: u32, amount: u32) -> Op {
        Op { code: 7, cell, amount }
    }

    /// The cell becomes the smaller of itself and `amount`. Never fails.
    pub const fn lower(cell: u32, amount: u32) -> Op {
        Op { code: 8, cell, amount }
    }

    /// Its code, 1 to 8.
    pub const fn code(&self) -> u32 {
        self.code
    }

    /// The cell that it names.
    pub const fn cell(&self) -> u32 {
        self.cell
    }

    /// Its amount; 0 for a read.
    pub const fn amount(&self) -> u32 {
        self.amount
    }
}

/// An event: a fragment of a transaction, or the decision of one. Any 29 words are an event; a call refuses those that
/// are not well formed.
#[derive(Clone, Copy, Debug, PartialEq, Eq, Hash)]
pub struct Event {
    words: [u32; EVENT_WORDS],
}

impl Event {
    /// A single, a transaction of this partition alone: its number and 1 to 8 operations.
    pub fn single(number: u32, ops: &[Op]) -> Event {
        Event::fragment(number, false, true, 0, ops)
    }

    /// A fragment of a multi: its number, its coordinator from 1 on, whether this is its last fragment here, and 1 to 8
    /// operations. Which of its fragments it is no word tells: deliver each once, and in order.
    pub fn multi(number: u32, coordinator: u8, last: bool, ops: &[Op]) -> Event {
        Event::fragment(number, true, last, u32::from(coordinator), ops)
    }

    /// A fragment with everything said, also what no well-formed one has: [`Event::single`] and [`Event::multi`] are
    /// what a host wants. Of more than 8 operations the first 8 are laid out and all are counted, which the engine
    /// refuses.
    pub fn fragment(number: u32, multi: bool, last: bool, coordinator: u32, ops: &[Op]) -> Event {
        let flags = if multi { MULTI } else { 0 } + if last { LAST } else { 0 };
        let count = u32::try_from(ops.len()).unwrap_or(u32::MAX);
        let mut words = [0; EVENT_WORDS];
        words[..OPERATIONS].copy_from_slice(&[FRAGMENT, number, flags, coordinator, count]);
        for (place, op) in words[OPERATIONS..].chunks_exact_mut(3).zip(ops.iter().take(MOST_OPERATIONS)) {
            place.copy_from_slice(&[op.code, op.cell, op.amount]);
        }
        Event { words }
    }

    /// The decision that a multi is to be kept.
    pub fn commit(number: u32) -> Event {
        Event::decision(COMMIT, number)
    }

    /// The decision that a multi is to be undone. What has run behind it is undone too, and runs again in its next
    /// attempt.
    pub fn abort(number: u32) -> Event {
        Event::decision(ABORT, number)
    }

    fn decision(kind: u32, number: u32) -> Event {
        let mut words = [0; EVENT_WORDS];
        words[..2].copy_from_slice(&[kind, number]);
        Event { words }
    }

    /// The event of these words, whatever they are.
    pub const fn from_words(words: [u32; EVENT_WORDS]) -> Event {
        Event { words }
    }

    /// Its words, as they are lent to the engine and sent over a wire.
    pub const fn words(&self) -> [u32; EVENT_WORDS] {
        self.words
    }

    /// The number of its transaction.
    pub const fn number(&self) -> u32 {
        self.words[1]
    }
}
