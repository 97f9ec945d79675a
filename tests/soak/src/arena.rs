//! The areas of a call inside one allocation, with guard words between them.

use independent::event::EVENT_WORDS;
use independent::layout::{Words, LIVE, LIVE_WORDS, RUNS, RUN_WORDS, UNDO, WORDS};
use std::ops::Range;

/// An odd number, so that areas stand at places that are aligned to 4 bytes and to no more.
const GUARD: usize = 65;
pub const MOST_EVENT_WORDS: usize = 128;
pub const MOST_ROOM: usize = 2304;
pub const MOST_LENT: usize = 4200;

const RECORD_AT: usize = GUARD;
const EVENT_AT: usize = RECORD_AT + WORDS + GUARD;
const ROOM_AT: usize = EVENT_AT + MOST_EVENT_WORDS + GUARD;
const CELLS_AT: usize = ROOM_AT + MOST_ROOM + GUARD;
pub const SIZE: usize = CELLS_AT + MOST_LENT + GUARD;

/// How many words of each area a call is lent. What stands behind them is its guard.
#[derive(Clone, Copy, Debug)]
pub struct Lent {
    pub cells: usize,
    pub event: usize,
    pub room: usize,
}

impl Lent {
    /// All but the far ends of the room and the cells, which take long to compare; `count` cells at least.
    fn near(&self, count: usize) -> [Range<usize>; 2] {
        let cells = self.cells.max(count);
        [0..ROOM_AT + self.room + GUARD, CELLS_AT - GUARD..CELLS_AT + cells + GUARD]
    }
}

#[derive(Clone)]
pub struct Arena(Box<[u32]>);

impl Arena {
    pub fn new() -> Arena {
        Arena(vec![0; SIZE].into())
    }

    pub fn fill(&mut self, mut word: impl FnMut() -> u32) {
        self.0.iter_mut().for_each(|place| *place = word());
    }

    pub fn record(&self) -> &Words {
        self.0[RECORD_AT..][..WORDS].try_into().expect("as many words")
    }

    pub fn record_mut(&mut self) -> &mut Words {
        (&mut self.0[RECORD_AT..][..WORDS]).try_into().expect("as many words")
    }

    pub fn cells(&self, count: usize) -> &[u32] {
        &self.0[CELLS_AT..][..count]
    }

    pub fn cells_mut(&mut self, count: usize) -> &mut [u32] {
        &mut self.0[CELLS_AT..][..count]
    }

    pub fn event(&self, words: usize) -> &[u32] {
        &self.0[EVENT_AT..][..words]
    }

    pub fn event_mut(&mut self, words: usize) -> &mut [u32] {
        &mut self.0[EVENT_AT..][..words]
    }

    pub fn room(&self, words: usize) -> &[u32] {
        &self.0[ROOM_AT..][..words]
    }

    pub fn room_mut(&mut self, words: usize) -> &mut [u32] {
        &mut self.0[ROOM_AT..][..words]
    }

    /// Record, cells, event and room of a call at once.
    pub fn parts(&mut self, lent: Lent) -> (&mut Words, &mut [u32], &[u32], &mut [u32]) {
        let (front, cells) = self.0.split_at_mut(CELLS_AT);
        let (front, room) = front.split_at_mut(ROOM_AT);
        let (record, event) = front.split_at_mut(EVENT_AT);
        let record = (&mut record[RECORD_AT..][..WORDS]).try_into().expect("as many words");
        (record, &mut cells[..lent.cells], &event[..lent.event], &mut room[..lent.room])
    }

    pub fn pointers(&mut self, lent: Lent, answers: *mut u32) -> Areas {
        let base = self.0.as_mut_ptr();
        // All of them are places of the one allocation.
        unsafe {
            Areas {
                record: base.add(RECORD_AT),
                cells: base.add(CELLS_AT),
                event: base.add(EVENT_AT),
                room: base.add(ROOM_AT),
                answers,
                lent,
            }
        }
    }

    /// The first place near the lent areas that differs.
    pub fn differs(&self, other: &Arena, lent: Lent, count: usize) -> Option<Place> {
        lent.near(count).into_iter().find_map(|range| self.differs_in(other, range))
    }

    pub fn differs_anywhere(&self, other: &Arena) -> Option<Place> {
        self.differs_in(other, 0..SIZE)
    }

    fn differs_in(&self, other: &Arena, range: Range<usize>) -> Option<Place> {
        if self.0[range.clone()] == other.0[range.clone()] {
            return None;
        }
        let at = range.into_iter().find(|&at| self.0[at] != other.0[at]).expect("unequal");
        Some(Place { at, this: self.0[at], other: other.0[at] })
    }

    /// Takes over what an accepted call may change: the record, so many words of the room, so many cells.
    pub fn take_over(&mut self, other: &Arena, room: usize, cells: usize) {
        for (from, length) in [(RECORD_AT, WORDS), (ROOM_AT, room), (CELLS_AT, cells)] {
            self.0[from..][..length].copy_from_slice(&other.0[from..][..length]);
        }
    }
}

/// The areas of one call as the boundary takes them.
#[derive(Clone, Copy)]
pub struct Areas {
    pub record: *mut u32,
    pub cells: *mut u32,
    /// To be read alone.
    pub event: *mut u32,
    pub room: *mut u32,
    pub answers: *mut u32,
    pub lent: Lent,
}

/// A word that differs.
#[derive(Debug)]
pub struct Place {
    at: usize,
    pub this: u32,
    pub other: u32,
}

impl Place {
    /// The place in words; behind an area of any length stands its guard.
    pub fn name(&self, lent: Lent) -> String {
        let areas = [
            ("record", RECORD_AT, WORDS),
            ("event", EVENT_AT, lent.event),
            ("room", ROOM_AT, lent.room),
            ("cells", CELLS_AT, lent.cells),
        ];
        let ahead = areas.into_iter().find(|(_, from, _)| (1..=GUARD).contains(&from.wrapping_sub(self.at)));
        let area = areas.into_iter().rfind(|(_, from, _)| *from <= self.at);
        let (area, from, length) = match (area, ahead) {
            (Some((_, from, length)), Some((ahead, next, _))) if self.at > from + length + GUARD => {
                return format!("guard, {} words before the {ahead}", next - self.at)
            }
            (Some(area), _) => area,
            (None, _) => return format!("guard, {} words before the record", RECORD_AT - self.at),
        };
        match self.at - from {
            at if at >= length => format!("guard, {} words behind the {area}", at - length + 1),
            at if area == "record" => format!("record word {at}: {}", record_place(at)),
            at if area == "room" => format!("room word {at}: word {} of answer {}", at % 16, at / 16 + 1),
            at => format!("{area} word {at}"),
        }
    }
}

fn record_place(at: usize) -> String {
    match at {
        0 => "cell count".into(),
        1 => "largest".into(),
        2 => "uncommitted".into(),
        3 => "waiting".into(),
        _ if at < RUNS => format!("live row {}, word {}", (at - LIVE) / LIVE_WORDS, (at - LIVE) % LIVE_WORDS),
        _ if at < UNDO => format!("run row {}, word {}", (at - RUNS) / RUN_WORDS, (at - RUNS) % RUN_WORDS),
        _ => format!("undo entry {}, word {}", (at - UNDO) / 2, (at - UNDO) % 2),
    }
}

const _: () = assert!(EVENT_WORDS * 2 <= MOST_EVENT_WORDS);
