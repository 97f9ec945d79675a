//! The subject as a partition of two merges: its calls are compared with nothing but each other, at the end of both.

use crate::arena::{Arena, Lent};
use crate::subject::Subject;
use crate::view::View;
use independent::engine::{ANSWER_WORDS, MOST_LIVE, ROOM};
use independent::event::{Event, EVENT_WORDS};
use independent::merge::{self, AnswerWords, Met, Parted};
use independent::Scheme;

/// One pair of merges for so many calls that are compared whole.
pub const CALLS_FOR_A_PAIR: u64 = 250;

pub struct Merged<S> {
    subject: S,
    areas: Arena,
    count: usize,
}

impl<S: Subject> Merged<S> {
    pub fn new(subject: S) -> Merged<S> {
        Merged { subject, areas: Arena::new(), count: 0 }
    }

    /// Near seeds share no pairs.
    pub fn pair(&mut self, seed: u64, number: u64, met: &mut Met) -> Result<(), Parted> {
        merge::pair((seed << 32) ^ number, self, met)
    }
}

impl<S: Subject> merge::Partition for Merged<S> {
    fn start(&mut self, cells: &[u32]) {
        self.count = cells.len();
        // The place is as long as a record. A start that is refused leaves one that takes nothing, which is seen.
        unsafe { self.subject.start(self.areas.record_mut().as_mut_ptr(), cells.len() as u32) };
        self.areas.cells_mut(cells.len()).copy_from_slice(cells);
    }

    fn call(&mut self, scheme: Scheme, event: &Event) -> (u32, Vec<AnswerWords>) {
        let lent = Lent { cells: self.count, event: EVENT_WORDS, room: ROOM };
        let mut answers = 0;
        self.areas.event_mut(EVENT_WORDS).copy_from_slice(&event.words());
        // The places are apart from each other, and `answers` lies outside.
        let number = unsafe { self.subject.call(scheme, self.areas.pointers(lent, &mut answers)) };
        let room = self.areas.room(ANSWER_WORDS * MOST_LIVE.min(answers as usize)).chunks_exact(ANSWER_WORDS);
        (number, room.map(|answer| answer.try_into().expect("as many words")).collect())
    }

    fn cells(&self) -> &[u32] {
        self.areas.cells(self.count)
    }

    fn queues(&self) -> [usize; 2] {
        let view = View(self.areas.record());
        [view.uncommitted(), view.live() - view.uncommitted()]
    }
}
