//! The engine's record.

use crate::RECORD_WORDS;
use std::fmt;

/// The engine's record between calls: the queues, the held answers and what undoing needs. The cells are not in it.
///
/// It is plain words without pointers, laid out as `harukdalis_record` in C. Any words are a record: whether they are
/// sound is asked by every call, so a damaged one is refused unless the damage makes another sound one. A host need not
/// read the fields.
///
/// To store one, write its [`words`](Record::words) in a byte order of your choice, with the cells beside them.
///
/// Two are equal if all their words are, those of unused places too. So are two that mean the same, where nothing but
/// calls made both from a start on; others may differ in places that no call reached.
#[repr(C)]
#[derive(Clone, PartialEq, Eq)]
pub struct Record {
    /// Cells, as given at the start.
    pub count: u32,
    /// The largest number accepted.
    pub largest: u32,
    /// How many are uncommitted.
    pub uncommitted: u32,
    /// How many wait.
    pub waiting: u32,
    /// 64 rows of 29 words: the uncommitted ones, then the waiting ones.
    pub live: [u32; 1856],
    /// 16 rows of 16 words, one beside each uncommitted one.
    pub runs: [u32; 256],
    /// 184 pairs of cell and old number, oldest first.
    pub undo: [u32; 368],
}

impl Record {
    /// The record of 0 cells, all of it 0. It is sound, and every call refuses it for its cells.
    pub const fn empty() -> Record {
        Record { count: 0, largest: 0, uncommitted: 0, waiting: 0, live: [0; 1856], runs: [0; 256], undo: [0; 368] }
    }

    /// The record of these words, whatever they are.
    pub fn from_words(words: &[u32; RECORD_WORDS]) -> Record {
        let mut record = Record::empty();
        let (counts, rows) = words.split_at(4);
        record.count = counts[0];
        record.largest = counts[1];
        record.uncommitted = counts[2];
        record.waiting = counts[3];
        let (live, rows) = rows.split_at(record.live.len());
        let (runs, undo) = rows.split_at(record.runs.len());
        record.live.copy_from_slice(live);
        record.runs.copy_from_slice(runs);
        record.undo.copy_from_slice(undo);
        record
    }

    /// Its words, in the order of the C struct.
    pub fn words(&self) -> [u32; RECORD_WORDS] {
        let mut words = [0; RECORD_WORDS];
        let counts = [self.count, self.largest, self.uncommitted, self.waiting];
        let all = counts.iter().chain(&self.live).chain(&self.runs).chain(&self.undo);
        for (word, from) in words.iter_mut().zip(all) {
            *word = *from;
        }
        words
    }
}

/// The counts alone: 2,416 more words help nobody.
impl fmt::Debug for Record {
    fn fmt(&self, f: &mut fmt::Formatter<'_>) -> fmt::Result {
        f.debug_struct("Record")
            .field("count", &self.count)
            .field("largest", &self.largest)
            .field("uncommitted", &self.uncommitted)
            .field("waiting", &self.waiting)
            .finish_non_exhaustive()
    }
}
