//! The lives of partitions: events that mean something to the record as it stands.

use crate::view::*;
use independent::engine::{DEPTH, MOST_FRAGMENTS, MOST_LIVE};
use independent::event::*;
use independent::generate::Random;
use independent::layout::Words;
use independent::Scheme;

#[derive(Clone, Copy)]
enum Wish {
    Single,
    /// A new multi whose first fragment is its last.
    Closed,
    /// A new multi that goes on.
    Open,
    /// One more fragment for the front.
    More,
    Last,
    Commit,
    Abort,
    /// Well formed, and refused by its time or its number.
    Refused,
}

const WISHES: [Wish; 8] =
    [Wish::Single, Wish::Closed, Wish::Open, Wish::More, Wish::Last, Wish::Commit, Wish::Abort, Wish::Refused];

/// Weights of the wishes while a life builds up and while it resolves; the two alternate.
struct Mood {
    build: [usize; 8],
    resolve: [usize; 8],
    most_building: usize,
}

// In the order of WISHES: single, closed, open, more, last, commit, abort, refused.
#[rustfmt::skip]
const MOODS: [Mood; 6] = [
    // A bit of everything.
    Mood { build: [30, 15, 6, 10, 10, 10, 5, 8], resolve: [10, 10, 5, 10, 20, 25, 10, 8], most_building: 40 },
    // Deep speculation.
    Mood { build: [60, 25, 1, 1, 10, 0, 0, 4], resolve: [10, 10, 2, 5, 10, 30, 20, 6], most_building: 60 },
    // An unfinished front and everything waiting.
    Mood { build: [70, 15, 10, 0, 0, 0, 0, 4], resolve: [5, 5, 1, 10, 30, 40, 10, 5], most_building: 120 },
    // Long multis.
    Mood { build: [10, 2, 20, 60, 1, 0, 0, 6], resolve: [10, 10, 5, 10, 20, 30, 20, 6], most_building: 40 },
    // Cascaded aborts.
    Mood { build: [15, 55, 3, 1, 10, 1, 1, 4], resolve: [3, 3, 1, 2, 10, 10, 60, 5], most_building: 40 },
    // Many settled.
    Mood { build: [40, 30, 8, 8, 8, 20, 3, 6], resolve: [10, 10, 2, 4, 20, 60, 3, 6], most_building: 12 },
];

pub struct Life {
    mood: &'static Mood,
    building: bool,
    left_of_phase: usize,
    /// Calls before it ends.
    pub left: usize,
    /// Cells of the partition.
    pub count: usize,
    /// Named more often than the others.
    hot: usize,
    /// Chance of an amount at an edge, which may make an operation fail.
    risk: u32,
    coordinators: [u32; 3],
    /// Chance that numbers are skipped.
    skips: u32,
    /// Every new number is above it: now and then the numbers come to their end.
    floor: u32,
    before: Event,
    scheme: Scheme,
    /// Chance that a call changes over to the other scheme: never, now and then, or at any call.
    changes: u32,
    /// Chance that a call finds anything in all unused places, which changes nothing that the record means.
    pub garbage: u32,
    /// Nothing but calls made the record what it means.
    pub clean: bool,
}

impl Life {
    pub fn new(random: &mut Random) -> Life {
        let count = match random.below(25) {
            0 => 4096,
            1 => random.between(65, 4096),
            2..=6 => random.between(5, 64),
            _ => random.between(1, 4),
        };
        let coordinators = [0; 3].map(|_| random.pick(&[1, 2, 3, 254, 255]));
        let different = random.pick(&[1, 1, 2, 3]);
        Life {
            mood: &MOODS[random.below(MOODS.len())],
            building: false,
            left_of_phase: 0,
            left: random.pick(&[20, 150, 300, 500]) + random.below(100),
            count,
            hot: random.below(count),
            risk: random.pick(&[0, 3, 15, 40]),
            coordinators: [0, 1, 2].map(|at: usize| coordinators[at % different]),
            skips: random.pick(&[0, 0, 20]),
            floor: if random.percent(8) { TOP - random.between(1, 150) as u32 } else { 0 },
            before: Event::default(),
            scheme: random.pick(&Scheme::ALL),
            changes: random.pick(&[0, 0, 0, 3, 50]),
            garbage: random.pick(&[0, 0, 3, 10]),
            clean: true,
        }
    }

    /// What a cell holds at the start.
    pub fn content(random: &mut Random, full: u32) -> u32 {
        match random.percent(full) {
            true => random.pick(&[TOP, TOP - 1, TOP - 7, 1 << 31]),
            false => random.below(20) as u32,
        }
    }

    /// The scheme of the next call.
    pub fn scheme(&mut self, random: &mut Random) -> Scheme {
        if random.percent(self.changes) {
            self.scheme = self.scheme.other();
        }
        self.scheme
    }

    /// The next event. `cells` are the partition's; the record may be any.
    pub fn event(&mut self, random: &mut Random, words: &Words, cells: &[u32]) -> Event {
        for _ in 0..20 {
            if self.left_of_phase == 0 {
                self.building = !self.building;
                self.left_of_phase = random.between(5, if self.building { self.mood.most_building } else { 40 });
            }
            self.left_of_phase -= 1;
            let weights = if self.building { &self.mood.build } else { &self.mood.resolve };
            let wish = WISHES[random.weighted(weights)];
            if let Some(event) = self.grant(random, wish, View(words), cells) {
                self.before = event;
                return event;
            }
        }
        // Nothing can be had, as where the numbers have come to their end.
        self.left = self.left.min(5);
        Event::abort(words[LARGEST].max(1))
    }

    fn grant(&mut self, random: &mut Random, wish: Wish, view: View, cells: &[u32]) -> Option<Event> {
        let front = view.uncommitted() > 0;
        let [number, coordinator] = [NUMBER, COORDINATOR].map(|field| view.stored(0, field));
        let state = view.run(0, STATE);
        match wish {
            Wish::Single => self.new_one(random, view, LAST, cells),
            Wish::Closed => self.new_one(random, view, MULTI | LAST, cells),
            Wish::Open => self.new_one(random, view, MULTI, cells),
            Wish::More | Wish::Last if front && state == RUNNING => {
                let last = if matches!(wish, Wish::Last) { LAST } else { 0 };
                Some(self.fragment(random, number, MULTI | last, coordinator, cells))
            }
            // Refused where it has not finished well, which is worth little repetition.
            Wish::Commit if front && (state == FINISHED || random.percent(10)) => Some(Event::commit(number)),
            Wish::Abort if front => Some(Event::abort(number)),
            Wish::Refused => self.refused(random, view, cells),
            _ => None,
        }
    }

    fn new_one(&mut self, random: &mut Random, view: View, flags: u32, cells: &[u32]) -> Option<Event> {
        if view.live() == MOST_LIVE && !random.percent(30) {
            self.left_of_phase = if self.building { 0 } else { self.left_of_phase };
            return None;
        }
        // A full depth behind which everything waits has shown what it can.
        if view.uncommitted() == DEPTH && self.building && random.percent(3) {
            self.left_of_phase = 0;
        }
        let skip = if random.percent(self.skips) { random.below(5) as u32 } else { 0 };
        let number = view.largest().max(self.floor).checked_add(1 + skip)?;
        let coordinator = if flags & MULTI == 0 { 0 } else { random.pick(&self.coordinators) };
        Some(self.fragment(random, number, flags, coordinator, cells))
    }

    fn fragment(&self, random: &mut Random, number: u32, flags: u32, coordinator: u32, cells: &[u32]) -> Event {
        let count = match random.below(10) {
            0..=4 => 1,
            5..=7 => random.between(2, 4),
            8 => random.between(5, 7),
            _ => 8,
        };
        let mut operations = [Operation::default(); PLACES];
        // The last cell named and its content as the fragment leaves it, if it runs at once.
        let mut changed = (usize::MAX, 0);
        for place in &mut operations[..count] {
            let cell = if random.percent(60) { self.hot } else { random.below(self.count) };
            let content = if changed.0 == cell { changed.1 } else { cells[cell] };
            *place = self.operation(random, cell as u32, content);
            changed = (cell, place.apply(content).unwrap_or(content));
        }
        let count = count as u32;
        Event { kind: FRAGMENT, fragment: Fragment { number, flags, coordinator, count, operations } }
    }

    fn operation(&self, random: &mut Random, cell: u32, content: u32) -> Operation {
        let code = random.pick(&[READ, SET, ADD, ADD, ADD, TAKE, TAKE, TAKE, NEED, MATCH, RAISE, LOWER]);
        let small = random.below(6) as u32;
        let room = TOP - content;
        let edges = [
            content,
            content.wrapping_add(1),
            content.wrapping_sub(1),
            room,
            room.wrapping_add(1),
            TOP,
            TOP - 1,
            0,
            1,
            1 << 31,
        ];
        let amount = match code {
            READ => 0,
            _ if random.percent(self.risk) => random.pick(&edges),
            ADD => small.min(room),
            TAKE if small == 5 => content,
            TAKE | NEED => small.min(content),
            MATCH => content,
            SET if small == 5 => TOP,
            _ => small,
        };
        Operation { code, cell, amount }
    }

    /// A well formed event that its time or its number refuses, if the one picked can be had now.
    fn refused(&mut self, random: &mut Random, view: View, cells: &[u32]) -> Option<Event> {
        let (front, live, largest) = (view.uncommitted() > 0, view.live(), view.largest());
        let [number, coordinator] = [NUMBER, COORDINATOR].map(|field| view.stored(0, field));
        let [run, state] = [FRAGMENTS, STATE].map(|field| view.run(0, field));
        let flags = random.pick(&[LAST, MULTI, MULTI | LAST]);
        let any = if flags == LAST { 0 } else { random.pick(&[1, 2, 3, 254, 255]) };
        match random.below(10) {
            // The same again: a doubled decision, a fragment that came twice.
            0 => Some(self.before),
            // A number of the past, or one that was skipped.
            1 => {
                let old = random.between(1, (largest as usize).clamp(1, 300)) as u32;
                let number = random.pick(&[old, largest, largest.saturating_sub(old).max(1)]);
                (!view.is_live(number)).then(|| self.of_any_kind(random, number, flags, any, cells))
            }
            // A live one that is not the front.
            2 if live > 1 => {
                let number = view.stored(random.between(1, live - 1), NUMBER);
                Some(self.of_any_kind(random, number, flags, any, cells))
            }
            3 => {
                let number = random.pick(&[largest.checked_add(1)?, largest.saturating_add(9), TOP]);
                Some(random.pick(&[Event::commit(number), Event::abort(number)]))
            }
            // For the front, of any coordinator: late, foreign, a single's, or a ninth.
            4 | 5 if front => Some(self.fragment(random, number, flags, any, cells)),
            // For the front and right, but late or the ninth.
            6 | 7 if front && (state != RUNNING || run == MOST_FRAGMENTS) => {
                Some(self.fragment(random, number, MULTI | flags, coordinator, cells))
            }
            8 if front && state != FINISHED => Some(Event::commit(number)),
            9 if live == MOST_LIVE => Some(self.fragment(random, largest.checked_add(1)?, flags, any, cells)),
            _ => None,
        }
    }

    fn of_any_kind(&self, random: &mut Random, number: u32, flags: u32, coordinator: u32, cells: &[u32]) -> Event {
        match random.below(3) {
            0 => Event::commit(number),
            1 => Event::abort(number),
            _ => self.fragment(random, number, flags, coordinator, cells),
        }
    }
}
