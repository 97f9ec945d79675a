//! Answers, as a call leaves them in the room.

use crate::{ANSWER_WORDS, MOST_OPERATIONS};
use std::iter::FusedIterator;
use std::slice::ChunksExact;

// Places of an answer's words.
const TRANSACTION: usize = 0;
const DEPENDENCE: usize = 1;
const PLACE: usize = 2;
const COUNT: usize = 3;
const NUMBERS: usize = 4;
const ATTEMPT: usize = 12;
const DEPENDENCE_ATTEMPT: usize = 13;

/// The answer to a fragment.
#[derive(Clone, Copy, Debug, PartialEq, Eq, Hash)]
pub struct Answer {
    words: [u32; ANSWER_WORDS],
}

/// What must come true for an answer to be right: that a transaction ahead of its own commits, in this very attempt.
#[derive(Clone, Copy, Debug, PartialEq, Eq, Hash)]
pub struct Dependence {
    /// The number of that transaction.
    pub transaction: u32,
    /// The attempt in which it must commit: that of the last answer which this partition sends for it before.
    pub attempt: u32,
}

/// What an answer tells.
#[derive(Clone, Copy, Debug, PartialEq, Eq, Hash)]
pub enum Outcome<'a> {
    /// The transaction failed: one of its operations could not be done, and all that it changed is taken back.
    Failed {
        /// The place of that operation in its fragment, 1 to 8.
        place: u32,
        /// The content that it found in its cell. Earlier changes of its own transaction are in it, although they are
        /// taken back. It is no more certain than the answer: see [`Answer::dependence`].
        found: u32,
    },
    /// A number for each operation of the fragment, the cell's content after it.
    Numbers(&'a [u32]),
}

impl Answer {
    /// The answer that these words are.
    pub const fn from_words(words: [u32; ANSWER_WORDS]) -> Answer {
        Answer { words }
    }

    /// Its words, as they stood in the room.
    pub const fn words(&self) -> [u32; ANSWER_WORDS] {
        self.words
    }

    /// The transaction that is answered. It need not be the event's: a commit answers the singles that settle with it,
    /// the new front, multis whose answers it releases, and what the drain runs.
    pub const fn transaction(&self) -> u32 {
        self.words[TRANSACTION]
    }

    /// The attempt of the transaction that is answered: 1, and one more after each undoing, which an abort ahead of it
    /// does. A further fragment does not raise it. Of two answers to the same fragment the one of the larger attempt is
    /// the newer. Which fragment of its transaction it answers no word of it tells.
    pub const fn attempt(&self) -> u32 {
        self.words[ATTEMPT]
    }

    /// The transaction that must commit for this answer to be right, and the attempt in which it must, if there is one.
    /// Until it has, the answer is for the coordinator alone. If it is aborted, or commits in another attempt, the
    /// answer is void and another one comes. Attempts are this partition's: the same transaction may commit in another
    /// attempt elsewhere.
    pub const fn dependence(&self) -> Option<Dependence> {
        match self.words[DEPENDENCE] {
            0 => None,
            transaction => Some(Dependence { transaction, attempt: self.words[DEPENDENCE_ATTEMPT] }),
        }
    }

    /// What it tells: where the transaction failed and what was found there, or its numbers.
    pub fn outcome(&self) -> Outcome<'_> {
        match self.words[PLACE] {
            0 => Outcome::Numbers(&self.words[NUMBERS..NUMBERS + MOST_OPERATIONS.min(self.words[COUNT] as usize)]),
            place => Outcome::Failed { place, found: self.words[NUMBERS] },
        }
    }
}

/// The answers of one call, in the order in which they stand: rising numbers, none twice.
#[derive(Clone, Debug)]
pub struct Answers<'r> {
    rows: ChunksExact<'r, u32>,
}

impl<'r> Answers<'r> {
    /// The first `count` answers of a room, as [`crate::Engine::call_words`] left them there; fewer where the room has
    /// fewer.
    pub fn in_room(room: &'r [u32], count: usize) -> Answers<'r> {
        let words = room.len().min(count.saturating_mul(ANSWER_WORDS));
        Answers { rows: room[..words].chunks_exact(ANSWER_WORDS) }
    }
}

impl Iterator for Answers<'_> {
    type Item = Answer;

    fn next(&mut self) -> Option<Answer> {
        let mut words = [0; ANSWER_WORDS];
        words.copy_from_slice(self.rows.next()?);
        Some(Answer { words })
    }

    fn size_hint(&self) -> (usize, Option<usize>) {
        self.rows.size_hint()
    }
}

impl ExactSizeIterator for Answers<'_> {}

impl FusedIterator for Answers<'_> {}
