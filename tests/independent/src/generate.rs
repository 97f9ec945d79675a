//! Seeded traces that reach every rule, and the counters that show that they do.

use crate::engine::{Answer, Engine, Fault, Scheme, State, DEPTH, MOST_FRAGMENTS, MOST_LIVE, ROOM};
use crate::event::*;
use crate::trace::{self, Step, MOST_EVENTS};
use std::fmt;

/// Splitmix64.
pub struct Random(pub u64);

impl Random {
    pub fn draw(&mut self) -> u64 {
        self.0 = self.0.wrapping_add(0x9e37_79b9_7f4a_7c15);
        let mut z = self.0;
        z = (z ^ (z >> 30)).wrapping_mul(0xbf58_476d_1ce4_e5b9);
        z = (z ^ (z >> 27)).wrapping_mul(0x94d0_49bb_1331_11eb);
        z ^ (z >> 31)
    }

    pub fn word(&mut self) -> u32 {
        self.draw() as u32
    }

    pub fn below(&mut self, end: usize) -> usize {
        (self.draw() % end as u64) as usize
    }

    /// From `low` to `high`, both included.
    pub fn between(&mut self, low: usize, high: usize) -> usize {
        low + self.below(high - low + 1)
    }

    pub fn percent(&mut self, chance: u32) -> bool {
        self.below(100) < chance as usize
    }

    pub fn pick<T: Copy>(&mut self, from: &[T]) -> T {
        from[self.below(from.len())]
    }

    pub fn weighted(&mut self, weights: &[usize]) -> usize {
        let mut left = self.below(weights.iter().sum());
        for (at, &weight) in weights.iter().enumerate() {
            if left < weight {
                return at;
            }
            left -= weight;
        }
        unreachable!("left is below the sum")
    }
}

#[derive(Clone, Copy)]
enum Wish {
    Single,
    /// A new multi whose first fragment is its last.
    Closed,
    /// A new multi that goes on.
    Open,
    /// One more fragment for the front.
    More,
    Last,
    Commit,
    Abort,
    /// Well formed, and refused by its time or its number.
    Refused,
    /// Not well formed, or a cell outside, or both.
    Broken,
}

const WISHES: [Wish; 9] = [
    Wish::Single,
    Wish::Closed,
    Wish::Open,
    Wish::More,
    Wish::Last,
    Wish::Commit,
    Wish::Abort,
    Wish::Refused,
    Wish::Broken,
];

/// Weights of the wishes while a trace builds up and while it resolves; the two alternate.
struct Mood {
    build: [usize; 9],
    resolve: [usize; 9],
    most_building: usize,
}

// In the order of WISHES: single, closed, open, more, last, commit, abort, refused, broken.
#[rustfmt::skip]
const MOODS: [Mood; 7] = [
    // A bit of everything.
    Mood { build: [30, 15, 6, 10, 10, 10, 5, 8, 6], resolve: [10, 10, 5, 10, 20, 25, 10, 5, 5], most_building: 40 },
    // Deep speculation.
    Mood { build: [60, 25, 1, 1, 10, 0, 0, 2, 1], resolve: [10, 10, 2, 5, 10, 30, 20, 5, 3], most_building: 100 },
    // An unfinished front and everything waiting.
    Mood { build: [70, 15, 10, 0, 0, 0, 0, 2, 1], resolve: [5, 5, 1, 10, 30, 40, 10, 3, 1], most_building: 120 },
    // Long multis.
    Mood { build: [10, 2, 20, 60, 1, 0, 0, 5, 2], resolve: [10, 10, 5, 10, 20, 30, 20, 5, 5], most_building: 40 },
    // Cascaded aborts.
    Mood { build: [15, 55, 3, 1, 10, 1, 1, 2, 1], resolve: [3, 3, 1, 2, 10, 10, 60, 3, 1], most_building: 40 },
    // Mostly refused.
    Mood { build: [15, 10, 10, 10, 5, 5, 5, 30, 20], resolve: [5, 5, 5, 5, 10, 10, 10, 30, 20], most_building: 40 },
    // Multis that commit one after the other.
    Mood { build: [15, 60, 1, 1, 10, 5, 1, 2, 1], resolve: [3, 10, 1, 2, 20, 80, 3, 3, 1], most_building: 30 },
];

/// Seeds that follow each other take turns, so that a short run has every mood and a bad trace.
const TURNS: u64 = 8;
/// Ways to make a trace bad; these take turns too.
const BAD_WAYS: u64 = 18;

/// The trace of a seed.
pub fn trace(seed: u64) -> Vec<u8> {
    let mut random = Random(seed.wrapping_mul(0xd129_8a2e_03d1_07a5));
    match seed % TURNS {
        0 => bad_trace(&mut random, seed / TURNS % BAD_WAYS),
        turn => {
            let mood = &MOODS[turn as usize % MOODS.len()];
            let length = match random.below(10) {
                0 => random.below(4),
                1..=4 => random.between(10, 120),
                _ => random.between(150, MOST_EVENTS as usize),
            };
            let (cells, events) = Writer::new(random).events(mood, length);
            trace::write(&cells, &events)
        }
    }
}

/// Keeps an engine beside the trace, to choose next events that mean something.
struct Writer {
    random: Random,
    engine: Engine,
    cells: Vec<u32>,
    /// Named more often than the others.
    hot: usize,
    /// Chance of an amount that may make an operation fail.
    risk: u32,
    coordinators: Vec<u32>,
    /// Chance that numbers are skipped.
    skips: u32,
    /// Every new number is above it: now and then the numbers come to their end.
    floor: u32,
    before: Option<Event>,
}

impl Writer {
    fn new(mut random: Random) -> Writer {
        let count = match random.below(20) {
            0 => 4096,
            1 => random.between(65, 4096),
            2..=4 => random.between(5, 64),
            _ => random.between(1, 4),
        };
        let full = random.pick(&[5, 50]);
        let cells = (0..count).map(|_| match random.percent(full) {
            true => random.pick(&[TOP, TOP - 1, TOP - 7, 1 << 31]),
            false => random.below(20) as u32,
        });
        let cells: Vec<u32> = cells.collect();
        let (_, engine) = Engine::start(count as u32);
        let most_coordinators = random.pick(&[1, 1, 2, 3]);
        Writer {
            hot: random.below(count),
            risk: random.pick(&[0, 5, 15, 40]),
            coordinators: (0..most_coordinators).map(|_| random.pick(&[1, 2, 3, 254, 255])).collect(),
            skips: random.pick(&[0, 0, 20]),
            floor: if random.percent(8) { TOP - random.between(1, 150) as u32 } else { 0 },
            before: None,
            random,
            engine,
            cells,
        }
    }

    fn events(mut self, mood: &Mood, length: usize) -> (Vec<u32>, Vec<Event>) {
        let cells = self.cells.clone();
        let mut events = Vec::new();
        let (mut building, mut left) = (false, 0);
        while events.len() < length {
            if left == 0 {
                building = !building;
                left = self.random.between(5, if building { mood.most_building } else { 40 });
            }
            left -= 1;
            let weights = if building { &mood.build } else { &mood.resolve };
            let wish = WISHES[self.random.weighted(weights)];
            let Some(event) = self.grant(wish) else { continue };
            self.engine.call(&mut self.cells, &event, ROOM);
            self.before = Some(event);
            events.push(event);
        }
        (cells, events)
    }

    /// An event for the wish, or nothing if it cannot be had now.
    fn grant(&mut self, wish: Wish) -> Option<Event> {
        let front = self.engine.record.uncommitted.front().map(|front| (front.first, front.state, front.fragments_run));
        let mut event = match wish {
            Wish::Single => self.new_one(LAST)?,
            Wish::Closed => self.new_one(MULTI | LAST)?,
            Wish::Open => self.new_one(MULTI)?,
            Wish::More | Wish::Last => {
                let (first, ..) = front.filter(|(_, state, _)| *state == State::Running)?;
                let last = if matches!(wish, Wish::Last) { LAST } else { 0 };
                self.fragment(first.number, MULTI | last, first.coordinator)
            }
            Wish::Commit => {
                let (first, state, _) = front?;
                // Refused where it has not finished well, which is worth little repetition.
                if state != State::Finished && !self.random.percent(15) {
                    return None;
                }
                Event::commit(first.number)
            }
            Wish::Abort => Event::abort(front?.0.number),
            Wish::Refused => self.refused()?,
            Wish::Broken => {
                let wish = self.random.pick(&WISHES[..8]);
                let mut event = self.grant(wish)?;
                match self.random.below(5) {
                    0 | 1 => self.outside(&mut event),
                    2 | 3 => self.malformed(&mut event),
                    _ => {
                        self.outside(&mut event);
                        self.malformed(&mut event);
                    }
                }
                event
            }
        };
        if event.kind == FRAGMENT && self.random.percent(1) {
            self.outside(&mut event);
        }
        Some(event)
    }

    fn new_number(&mut self) -> Option<u32> {
        let skip = if self.random.percent(self.skips) { self.random.below(5) as u32 } else { 0 };
        self.engine.record.largest.max(self.floor).checked_add(1 + skip)
    }

    fn new_one(&mut self, flags: u32) -> Option<Event> {
        let number = self.new_number()?;
        let coordinator = if flags & MULTI == 0 { 0 } else { self.random.pick(&self.coordinators.clone()) };
        Some(self.fragment(number, flags, coordinator))
    }

    fn fragment(&mut self, number: u32, flags: u32, coordinator: u32) -> Event {
        let count = match self.random.below(10) {
            0..=4 => 1,
            5..=7 => self.random.between(2, 4),
            8 => self.random.between(5, 7),
            _ => 8,
        };
        let mut operations = [Operation::default(); PLACES];
        // Contents as the fragment's earlier operations leave them, if it runs at once.
        let mut changed: Vec<(usize, u32)> = Vec::new();
        for place in &mut operations[..count] {
            let cell = if self.random.percent(60) { self.hot } else { self.random.below(self.cells.len()) };
            let content =
                changed.iter().rev().find(|(at, _)| *at == cell).map_or(self.cells[cell], |(_, after)| *after);
            let operation = self.operation(cell as u32, content);
            changed.push((cell, operation.apply(content).unwrap_or(content)));
            *place = operation;
        }
        let count = count as u32;
        Event { kind: FRAGMENT, fragment: Fragment { number, flags, coordinator, count, operations } }
    }

    fn operation(&mut self, cell: u32, content: u32) -> Operation {
        let code = self.random.pick(&[READ, SET, ADD, ADD, ADD, TAKE, TAKE, TAKE, NEED, MATCH, RAISE, LOWER]);
        let small = self.random.below(6) as u32;
        let room = TOP - content;
        let risky =
            [content, content.wrapping_add(1), content.wrapping_sub(1), room, room.wrapping_add(1), TOP, 0, 1 << 31];
        let amount = match code {
            READ => 0,
            _ if self.random.percent(self.risk) => self.random.pick(&risky),
            ADD => small.min(room),
            TAKE if self.random.percent(10) => content,
            TAKE | NEED => small.min(content),
            MATCH => content,
            SET if self.random.percent(5) => TOP,
            _ => small,
        };
        Operation { code, cell, amount }
    }

    fn outside(&mut self, event: &mut Event) {
        let count = self.cells.len() as u32;
        let place = self.random.below(event.fragment.used().len().max(1));
        event.fragment.operations[place].cell = self.random.pick(&[count, count + 1, 4096, TOP]).max(count);
    }

    /// Spoils one thing that refusal 4 asks for, whatever the event was.
    fn malformed(&mut self, event: &mut Event) {
        let any = self.random.word().max(1);
        let used = event.fragment.used().len();
        if event.kind != FRAGMENT {
            // Everything after a decision's number is zero.
            let mut words = event.words();
            words[self.random.between(2, EVENT_WORDS - 1)] = self.random.pick(&[1, any, TOP]);
            *event = Event::read(&words);
            return;
        }
        let fragment = &mut event.fragment;
        let place = self.random.below(used.max(1));
        match self.random.below(12) {
            0 => event.kind = self.random.pick(&[0, 4, 5, COMMIT, ABORT, TOP, any.max(4)]),
            1 => fragment.number = 0,
            2 => fragment.count = self.random.pick(&[0, 9, 9, TOP, any.max(9)]),
            3 => fragment.operations[place].code = self.random.pick(&[0, 9, TOP, any.max(9)]),
            4 => fragment.operations[place] = Operation { code: READ, amount: any, ..fragment.operations[place] },
            5 | 6 if used < PLACES => {
                let unused = &mut fragment.operations[self.random.between(used, PLACES - 1)];
                match self.random.below(3) {
                    0 => unused.code = 1 + any % 8,
                    1 => unused.cell = 1,
                    _ => unused.amount = any,
                }
            }
            7 => {
                (fragment.flags, fragment.coordinator) = (0, 0);
            }
            8 if fragment.is_multi() => fragment.coordinator = self.random.pick(&[0, 256, 257, TOP, any | 256]),
            8 => fragment.coordinator = self.random.pick(&[1, 255, TOP, any]),
            // The first unknown flag as often as all others.
            9 => fragment.flags |= 1 << Some(self.random.below(60)).filter(|bit| (2..32).contains(bit)).unwrap_or(2),
            10 => (fragment.count, fragment.operations) = (0, Default::default()),
            11 => *event = Event::default(),
            _ => {
                let words: Vec<u32> = (0..EVENT_WORDS).map(|_| self.random.word()).collect();
                *event = Event { kind: FRAGMENT, ..Event::read(&words) };
            }
        }
    }

    /// A well formed event that its time or its number refuses, if the one picked can be had now.
    fn refused(&mut self) -> Option<Event> {
        let record = &self.engine.record;
        let front = record.uncommitted.front().map(|front| (front.first, front.state, front.fragments_run));
        let live: Vec<u32> = record.live().map(|stored| stored.number).collect();
        let largest = record.largest;
        let flags = self.random.pick(&[LAST, MULTI, MULTI | LAST]);
        let coordinator = if flags == LAST { 0 } else { self.random.pick(&[1, 2, 3, 254, 255]) };
        match self.random.below(9) {
            // The same again: a doubled decision, a fragment that came twice.
            0 => self.before,
            // A number of the past, or one that was skipped.
            1 => {
                let old = self.random.between(1, (largest as usize).clamp(1, 300)) as u32;
                let number = self.random.pick(&[old, largest, largest.saturating_sub(old).max(1)]);
                let new = self.fragment(number, flags, coordinator);
                (!live.contains(&number)).then(|| self.random.pick(&[new, Event::commit(number), Event::abort(number)]))
            }
            // A live one that is not the front.
            2 => {
                let number = self.random.pick(live.get(1..).filter(|others| !others.is_empty())?);
                let late = self.fragment(number, flags, coordinator);
                Some(self.random.pick(&[late, Event::commit(number), Event::abort(number)]))
            }
            3 => {
                let number = self.random.pick(&[largest.checked_add(1)?, largest.saturating_add(9), TOP]);
                Some(self.random.pick(&[Event::commit(number), Event::abort(number)]))
            }
            // For the front, of any coordinator: late, foreign, a single's, or a ninth.
            4 | 5 => Some(self.fragment(front?.0.number, flags, coordinator)),
            // For the front and right, but late or the ninth.
            6 => {
                let (first, state, run) = front?;
                let refused = state != State::Running || run == MOST_FRAGMENTS;
                refused.then(|| self.fragment(first.number, MULTI | flags, first.coordinator))
            }
            _ => {
                let (first, state, _) = front?;
                (state != State::Finished).then(|| Event::commit(first.number))
            }
        }
    }
}

/// A trace that is bad in its shape, mostly by one thing.
fn bad_trace(random: &mut Random, way: u64) -> Vec<u8> {
    let cells = vec![7; random.pick(&[1, 1, 2, 5, 4096])];
    let events = vec![Event::single(1, &[(ADD, 0, 1)]); random.pick(&[0, 1, 3, 256])];
    let mut bytes = trace::write(&cells, &events);
    let mut header = [cells.len() as u32, 4, events.len() as u32, 4 + cells.len() as u32];
    let any = random.word();
    match way {
        0 => bytes.clear(),
        1 => bytes.truncate(random.below(16)),
        // One byte too many or too few, one word, one event.
        2 => bytes.push(0),
        3 => bytes.truncate(bytes.len() - random.between(1, 3)),
        4 => bytes.extend([0; 4]),
        5 => bytes.truncate(bytes.len() - 4),
        6 => bytes.extend([0; 4 * EVENT_WORDS]),
        7 => bytes.truncate(bytes.len().saturating_sub(4 * EVENT_WORDS)),
        8 => bytes.extend([1; 3]),
        // Whole but for their counts.
        9 => return trace::write(&[7; 4097], &events),
        10 => return trace::write(&cells, &vec![Event::commit(1); 257]),
        11 => return trace::write(&[], &events),
        12 => header[1] = random.pick(&[0, 3, 5, 16, TOP]),
        13 => header[3] = random.pick(&[header[3] - 1, header[3] + 1, 4, 0, 4 * header[3]]),
        14 => header[2] = random.pick(&[header[2] + 1, header[2].wrapping_sub(1), 257, TOP, any]),
        15 => (header[0], header[3]) = random.pick(&[(header[0] + 1, header[3] + 1), (0, 4), (4097, 4101), (TOP, 3)]),
        // Counts whose bytes, taken as 32 bits, come round to the right length.
        16 => header[2] += 1 << 30,
        _ => (header[0], header[3]) = (header[0] + (1 << 30), header[3] + (1 << 30)),
    }
    for (place, word) in bytes.chunks_exact_mut(4).zip(header) {
        place.copy_from_slice(&word.to_le_bytes());
    }
    // One change may be none, as 4 where 4 stands.
    if trace::read(&bytes).is_some() {
        bytes.push(0);
    }
    bytes
}

/// What traces reached by a scheme.
#[derive(Clone, Debug, Default)]
pub struct Reach {
    pub scheme: Scheme,
    pub traces: u64,
    pub bad: u64,
    pub events: u64,
    pub returned: [u64; 15],
    pub answers: u64,
    pub held: u64,
    pub dependent: u64,
    pub failed: u64,
    /// Answers of an attempt after the first, those that depend on one, and those that depend on another attempt than
    /// their own.
    pub again: u64,
    pub dependent_again: u64,
    pub attempts_apart: u64,
    pub most_attempt: u32,
    /// Commits by how many held answers they released behind the front: one, two, more.
    pub released: [u64; 3],
    /// Accepted aborts by how many they put back.
    pub requeued: [u64; DEPTH],
    pub depth_16: u64,
    pub live_64: u64,
    pub eight_fragments: u64,
    pub stopped_by_depth: u64,
    pub stopped_by_tail: u64,
    /// Where speculation would have gone on.
    pub stopped_by_blocking: u64,
}

impl Reach {
    pub fn by(scheme: Scheme) -> Reach {
        Reach { scheme, ..Reach::default() }
    }

    pub fn note_trace(&mut self, bytes: &[u8]) {
        self.traces += 1;
        match trace::read(bytes) {
            None => self.bad += 1,
            Some(read) => {
                trace::play(&read, self.scheme, Fault::None, |step| self.note(&step));
            }
        }
    }

    fn note(&mut self, step: &Step) {
        let Step { event, before, number, answers, after } = step;
        self.events += 1;
        self.returned[*number as usize] += 1;
        if *number != 0 {
            return;
        }
        let (aborted, count) = (event.kind == ABORT, after.uncommitted.len());
        let ran_now = |number| aborted || before.uncommitted.iter().all(|one| one.first.number != number);
        let held = after.uncommitted.iter().filter(|one| one.held.is_some() && ran_now(one.first.number));
        self.answers += answers.len() as u64;
        self.held += held.count() as u64;
        let count_of = |which: fn(&&Answer) -> bool| answers.iter().filter(which).count() as u64;
        self.dependent += count_of(|answer| answer.dependence.number != 0);
        self.failed += count_of(|answer| answer.outcome.place != 0);
        self.again += count_of(|answer| answer.attempt > 1);
        self.dependent_again += count_of(|answer| answer.dependence.attempt > 1);
        self.attempts_apart += count_of(|answer| ![0, answer.attempt].contains(&answer.dependence.attempt));
        self.most_attempt = answers.iter().map(|answer| answer.attempt).fold(self.most_attempt, u32::max);
        if aborted {
            self.requeued[before.uncommitted.len() - 1] += 1;
        }
        // Only a released one is answered with a dependence although it had run before.
        let released = answers.iter().filter(|answer| answer.dependence.number != 0 && !ran_now(answer.number)).count();
        if let Some(at) = released.min(3).checked_sub(1) {
            self.released[at] += 1;
        }
        let was_less = |was: usize, now: usize, most: usize| u64::from(was < most && now == most);
        self.depth_16 += was_less(before.uncommitted.len(), count, DEPTH);
        self.live_64 += was_less(before.live().count(), after.live().count(), MOST_LIVE);
        let fragments_run = after.uncommitted.front().map(|front| front.fragments_run);
        self.eight_fragments += u64::from(fragments_run == Some(MOST_FRAGMENTS) && event.kind == FRAGMENT);
        if !after.waiting.is_empty() {
            let running = after.uncommitted.back().is_some_and(|tail| tail.state == State::Running);
            self.stopped_by_tail += u64::from(running);
            self.stopped_by_depth += u64::from(!running && count == DEPTH);
            self.stopped_by_blocking += u64::from(!running && count < DEPTH);
        }
    }

    /// What a comparison must have met to be worth something.
    pub fn missing(&self) -> Vec<String> {
        let refusals = (4..=14).map(|number| (format!("refusal {number}"), self.returned[number]));
        let of_scheme = match self.scheme {
            Scheme::Speculation => vec![
                ("depth 16", self.depth_16),
                ("a commit that releases one answer", self.released[0]),
                ("a commit that releases two", self.released[1]),
                ("a commit that releases more", self.released[2]),
                ("an answer of attempt 2 or more", self.again),
                ("a dependence on attempt 2 or more", self.dependent_again),
                ("a dependence on another attempt than its own", self.attempts_apart),
            ],
            Scheme::Blocking => vec![("a drain that blocking stops", self.stopped_by_blocking)],
        };
        let others = [("64 live", self.live_64), ("a failed answer", self.failed), ("a bad trace", self.bad)];
        let others = of_scheme.into_iter().chain(others).map(|(name, count)| (name.to_string(), count));
        refusals.chain(others).filter(|(_, count)| *count == 0).map(|(name, _)| name).collect()
    }
}

/// One line.
impl fmt::Display for Reach {
    fn fmt(&self, f: &mut fmt::Formatter) -> fmt::Result {
        let Reach { scheme, traces, bad, events, depth_16, live_64, stopped_by_blocking, .. } = self;
        write!(f, "{}: traces {traces} (bad {bad}), events {events}, returned", scheme.word())?;
        for (number, count) in self.returned.iter().enumerate().filter(|(number, _)| !(1..=3).contains(number)) {
            write!(f, " {number}:{count}")?;
        }
        match scheme {
            Scheme::Speculation => {
                let Reach { released: [one, two, more], again, dependent_again, most_attempt, .. } = self;
                write!(f, ", depth 16 {depth_16}, 64 live {live_64}, released 1:{one} 2:{two} more:{more}")?;
                write!(f, ", answers of attempt 2 or more {again}, at most {most_attempt}")?;
                write!(f, ", dependences on one {dependent_again}")
            }
            Scheme::Blocking => write!(f, ", drains that blocking stopped {stopped_by_blocking}, 64 live {live_64}"),
        }
    }
}
