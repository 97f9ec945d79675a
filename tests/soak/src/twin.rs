//! The twin of the partition that is tried: from the same start and handed the same events, each by the other scheme.
//! The two return the same numbers, have the same ones live, answer singles alike, and hold the same cells whenever
//! nothing is live. The answers of multis are their own, and so are the attempts.

use crate::arena::{Arena, Lent};
use crate::bench::{Between, Difference};
use crate::subject::Subject;
use crate::view::*;
use independent::engine::{ANSWER_WORDS, MOST_LIVE};
use independent::event::MULTI;
use independent::layout::{Words, LIVE, LIVE_WORDS, RUNS};
use independent::Scheme;

pub struct Twin {
    areas: Arena,
    /// Whether it takes part in the next call.
    pub called: bool,
}

/// What a call of both was compared by, beside its number.
#[derive(Clone, Copy)]
pub struct Pair {
    pub singles: usize,
    /// Of these, answered in another attempt.
    pub attempts: usize,
    pub nothing_live: bool,
}

/// The partition that is tried, around a call of its own that was accepted or refused by this number.
pub struct Tried<'a> {
    pub scheme: Scheme,
    pub lent: Lent,
    /// Cells of the partition.
    pub count: usize,
    pub number: u32,
    pub answers: u32,
    pub before: &'a Arena,
    pub after: &'a Arena,
}

impl Twin {
    pub fn new() -> Twin {
        Twin { areas: Arena::new(), called: false }
    }

    /// Starts from the record and the cells of the other.
    pub fn start(&mut self, other: &Arena, cells: usize) {
        self.areas.take_over(other, 0, cells);
    }

    /// Follows a call of the other by the other scheme.
    pub fn follow(&mut self, subject: &mut impl Subject, tried: Tried) -> Result<Pair, Difference> {
        let Tried { scheme, lent, count, number, answers, before, after } = tried;
        let (event, mut own_answers) = (before.event(lent.event), 0);
        self.areas.event_mut(lent.event).copy_from_slice(event);
        // The places are apart from each other, and `own_answers` lies outside.
        let own_number = unsafe { subject.call(scheme.other(), self.areas.pointers(lent, &mut own_answers)) };

        let differs = |what: &str, words: [u32; 2]| {
            let (what, numbers) = (format!("the schemes part: {what}"), [number, own_number]);
            let (event, call) = (event.to_vec(), Some((scheme, lent)));
            Difference { what, between: Between::Schemes, words, numbers, event, call }
        };
        if number != own_number {
            return Err(differs("the returned number", [number, own_number]));
        }
        if number != 0 {
            return Ok(Pair { singles: 0, attempts: 0, nothing_live: false });
        }
        let was = View(before.record());
        let single = |answer: &&[u32]| is_single(answer[0], was, event);
        let singles = of_answers(after, answers).filter(single);
        let own_singles = of_answers(&self.areas, own_answers).filter(single);
        if !singles.clone().map(attempts_aside).eq(own_singles.clone().map(attempts_aside)) {
            return Err(differs("answers of singles", [singles.count(), own_singles.count()].map(|n| n as u32)));
        }
        let (record, own) = (after.record(), self.areas.record());
        let live = View(record).live();
        if live != View(own).live() || record[LARGEST] != own[LARGEST] || !stored(record).eq(stored(own)) {
            return Err(differs("the live ones", [live, View(own).live()].map(|n| n as u32)));
        }
        if live == 0 && after.cells(count) != self.areas.cells(count) {
            let mut cells = after.cells(count).iter().zip(self.areas.cells(count)).enumerate();
            let (cell, (&content, &own)) = cells.find(|(_, (one, two))| one != two).expect("unequal");
            return Err(differs(&format!("nothing is live, cell {cell}"), [content, own]));
        }
        let attempts = singles.clone().zip(own_singles).filter(|(one, own)| one != own).count();
        Ok(Pair { singles: singles.count(), attempts, nothing_live: live == 0 })
    }
}

/// The answers in a room. That they are no more than there may be is for the one who compares calls whole.
fn of_answers(areas: &Arena, answers: u32) -> impl Iterator<Item = &[u32]> + Clone {
    areas.room(ANSWER_WORDS * MOST_LIVE.min(answers as usize)).chunks_exact(ANSWER_WORDS)
}

/// An answer's words without the thirteenth and the fourteenth.
fn attempts_aside(answer: &[u32]) -> (&[u32], &[u32]) {
    (&answer[..ANSWER_ATTEMPT], &answer[ANSWER_ATTEMPT + 2..])
}

/// The live rows of a record, but for their attempts.
fn stored(record: &Words) -> impl Iterator<Item = &[u32]> {
    record[LIVE..RUNS].chunks_exact(LIVE_WORDS).take(View(record).live()).map(|row| &row[..ATTEMPT])
}

/// Of one that was live, or is the event's.
fn is_single(number: u32, was: View, event: &[u32]) -> bool {
    match (0..was.live()).find(|&row| was.stored(row, NUMBER) == number) {
        Some(row) => !was.is_multi(row),
        None => event[2] & MULTI == 0,
    }
}
