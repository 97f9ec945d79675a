//! A batch: lives of partitions with hostile calls among theirs, all of it decided by the seed and the batch's number.

use crate::arena::{Arena, Lent, MOST_ROOM};
use crate::bench::{Bench, Difference, Done};
use crate::damage::{garbage, Damage};
use crate::hostile;
use crate::life::Life;
use crate::subject::Subject;
use crate::tally::{Met, Tally};
use crate::unused::seen;
use crate::view::*;
use independent::engine::{ANSWER_WORDS, DEPTH, ROOM};
use independent::event::{COMMIT, EVENT_WORDS, TOP};
use independent::generate::Random;
use independent::layout::{Words, WORDS};
use independent::Scheme;

pub const BATCH_CALLS: u64 = 1000;

/// Chances in percent. Each is drawn for itself, so that several things are wrong at once now and then.
const DAMAGED: u32 = 14;
const SPOILED: u32 = 16;
const OTHER_LENGTH: u32 = 3;
const OTHER_ROOM: u32 = 6;
const OTHER_CELLS: u32 = 6;
/// Of a life that has any garbage.
const BEGINS_WITH_GARBAGE: u32 = 70;

pub struct Batch<'a, S> {
    bench: &'a mut Bench<S>,
    tally: &'a mut Tally,
    random: Random,
    life: Life,
    /// What the life returns to after a damaged record, and how many calls are made before it does.
    good: Box<Kept>,
    until_good: Option<usize>,
    /// Whether the last call on the record found it sound.
    sound: bool,
    done: u64,
}

/// A record and its cells.
struct Kept {
    record: Words,
    cells: Vec<u32>,
}

/// Where in a batch a difference was found.
pub struct Found {
    pub call: u64,
    pub difference: Difference,
}

/// Runs a batch of so many calls; starts count as none.
pub fn run<S: Subject>(
    bench: &mut Bench<S>,
    tally: &mut Tally,
    seed: u64,
    number: u64,
    calls: u64,
) -> Result<(), Box<Found>> {
    let mut random = Random(seed.wrapping_mul(0xd129_8a2e_03d1_07a5) ^ number.wrapping_mul(0x2545_f491_4f6c_dd1d));
    // The two multiplied alone would let near seeds and batches share their numbers.
    random = Random(random.draw() ^ number);
    bench.reset(|| random.word());
    let life = Life::new(&mut random);
    let good = Box::new(Kept { record: [0; WORDS], cells: Vec::new() });
    let mut batch = Batch { bench, tally, random, life, good, until_good: None, sound: true, done: 0 };
    let outcome = batch.all(calls).and_then(|()| batch.bench.compare_all());
    outcome.map_err(|difference| Box::new(Found { call: batch.done, difference }))
}

impl<S: Subject> Batch<'_, S> {
    fn all(&mut self, calls: u64) -> Result<(), Difference> {
        self.begin()?;
        while self.done < calls {
            if self.life.left == 0 {
                self.life = Life::new(&mut self.random);
                self.begin()?;
            }
            self.life.left -= 1;
            self.step()?;
        }
        Ok(())
    }

    /// A new life, over whatever record the last one left.
    fn begin(&mut self) -> Result<(), Difference> {
        let count = self.life.count;
        self.bench.count = count;
        self.bench.twin.called = false;
        for _ in 0..self.random.below(3) {
            self.try_start()?;
        }
        self.tally.starts += 1;
        self.tally.lives += 1;
        self.bench.start(count as u32)?;
        let (full, noise) = (self.random.pick(&[5, 50]), self.random.draw());
        self.bench.change(|arena| {
            let mut noise = Random(noise);
            arena.cells_mut(count).iter_mut().for_each(|cell| *cell = Life::content(&mut noise, full));
        });
        (self.until_good, self.sound) = (None, true);
        if self.life.garbage > 0 && self.random.percent(BEGINS_WITH_GARBAGE) {
            self.litter();
        }
        self.bench.pair();
        Ok(())
    }

    /// A start with any count of cells, and sometimes a call on what it left, one of 0 cells mostly.
    fn try_start(&mut self) -> Result<(), Difference> {
        let any = self.random.word();
        let cells = self.random.pick(&[0, 1, 4095, 4096, 4097, TOP, 1 << 31, any]);
        self.tally.starts += 1;
        self.bench.start(cells)?;
        if self.random.percent(50) {
            let cells = self.random.pick(&[0, 1, self.life.count.min(4)]);
            let room = self.random.pick(&[0, ROOM - 1, ROOM, ROOM]);
            self.call(Lent { cells, event: EVENT_WORDS, room })?;
        }
        if self.random.percent(50) {
            let noise = self.random.draw();
            self.bench.change(|arena| {
                let mut noise = Random(noise);
                arena.record_mut().iter_mut().for_each(|word| *word = noise.word());
            });
        }
        Ok(())
    }

    fn step(&mut self) -> Result<(), Difference> {
        if self.sound && self.random.percent(self.life.garbage) {
            self.litter();
        }
        let damaged = self.random.percent(DAMAGED).then(|| self.damage()).flatten();
        let lent = self.prepare();
        // A damaged record has no twin; the one that the life returns to has.
        let clean = self.life.clean && self.until_good.is_none();
        self.bench.twin.called = clean;
        let number = self.call(lent)?.number;
        self.sound = number != 1;
        if number == 0 && clean {
            let view = View(self.bench.areas().record());
            self.tally.uncommitted[view.uncommitted()] += 1;
            self.tally.live[view.live()] += 1;
        }
        match damaged {
            Some(kind) => {
                self.tally.note_damage(kind, number);
                self.choose_return();
            }
            None => self.tally.went_on += u64::from(self.until_good.is_some()),
        }
        self.return_if_due();
        Ok(())
    }

    /// Garbage in the unused places of a sound record. The twin keeps its own.
    fn litter(&mut self) {
        let random = &mut self.random;
        self.bench.change_record(|record| Some(garbage(random, record)));
    }

    fn call(&mut self, lent: Lent) -> Result<Done, Difference> {
        let (scheme, old_answers) = (self.life.scheme(&mut self.random), self.random.word());
        let clean = self.bench.twin.called;
        let view = View(self.bench.areas().record());
        let taken_over = clean && takes_over(scheme, view);
        let commits = clean && self.bench.areas().event(lent.event).first() == Some(&COMMIT);
        let ran: Vec<u32> = (0..view.uncommitted()).filter(|_| commits).map(|row| view.stored(row, NUMBER)).collect();
        let before = *view.0;
        self.done += 1;
        let done = self.bench.call(scheme, lent, old_answers)?;
        let areas = self.bench.areas();
        let released = if done.number == 0 { released(areas, done.answers, &ran) } else { 0 };
        let again = if clean && done.number == 0 { again(areas, done.answers) } else { [0; 3] };
        let unused = (done.number == 0).then(|| seen(&before, areas.event(lent.event), areas.record()));
        self.tally.note(scheme, Met { taken_over, released, again, unused }, &done);
        Ok(done)
    }

    /// The event and what is lent; most are right.
    fn prepare(&mut self) -> Lent {
        let count = self.life.count;
        let areas = self.bench.areas();
        let mut event = self.life.event(&mut self.random, areas.record(), areas.cells(count)).words();
        if self.random.percent(SPOILED) {
            hostile::spoil(&mut self.random, &mut event, areas.record());
        }
        // A damaged record may say another count than its life's, and may be right with it.
        let said = areas.record()[CELLS] as usize;
        let said = if (1..=4096).contains(&said) { said } else { count };
        let mut lent = Lent { cells: said, event: EVENT_WORDS, room: ROOM };
        if self.random.percent(OTHER_LENGTH) {
            lent.event = hostile::event_words(&mut self.random);
        }
        if self.random.percent(OTHER_ROOM) {
            lent.room = hostile::room_words(&mut self.random);
        }
        if self.random.percent(OTHER_CELLS) {
            lent.cells = hostile::lent_cells(&mut self.random, said);
        }
        self.bench.change_beside(|arena| arena.event_mut(EVENT_WORDS).copy_from_slice(&event));
        if lent.event > EVENT_WORDS {
            self.lengthen(&event, lent.event);
        }
        if self.random.percent(1) {
            self.refresh();
        }
        lent
    }

    /// What follows an event that is too long: zeros, the event again, or noise as it was.
    fn lengthen(&mut self, event: &[u32], words: usize) {
        let tail = self.random.pick(&[Some(0), Some(TOP), None]);
        self.bench.change_beside(|arena| {
            for (at, word) in arena.event_mut(words).iter_mut().enumerate().skip(EVENT_WORDS) {
                *word = tail.map_or(*word, |mask| event[at % EVENT_WORDS] & mask);
            }
        });
    }

    /// Other old content in the room.
    fn refresh(&mut self) {
        let noise = self.random.draw();
        self.bench.change_beside(|arena| {
            let mut noise = Random(noise);
            arena.room_mut(MOST_ROOM).iter_mut().for_each(|word| *word = noise.word());
        });
    }

    /// Damages the record, if the kind that is drawn can be had. The kind's place in the tally.
    fn damage(&mut self) -> Option<usize> {
        let at = self.random.below(self.tally.damages.len());
        let kind = self.tally.damages[at].0;
        // The others lean on a sound record.
        if !self.sound && !matches!(kind, Damage::AtRandom(_)) {
            return None;
        }
        let areas = self.bench.areas();
        if self.until_good.is_none() {
            self.good.record = *areas.record();
            self.good.cells.clear();
            self.good.cells.extend_from_slice(areas.cells(self.life.count));
        }
        let random = &mut self.random;
        self.bench.change_record(|record| kind.make(random, record))?;
        self.until_good = self.until_good.or(Some(0));
        Some(at)
    }

    /// After the first call on a damaged record: back at once, some calls later, or never.
    fn choose_return(&mut self) {
        let more = match self.random.below(10) {
            0..=5 => 0,
            6..=8 if self.sound => self.random.between(1, 30),
            9 if self.sound => usize::MAX,
            _ => self.random.between(1, 3),
        };
        self.until_good = Some(more);
    }

    fn return_if_due(&mut self) {
        match self.until_good {
            None => {}
            Some(0) => {
                let good = &self.good;
                self.bench.change(|arena| good.put(arena));
                (self.until_good, self.sound) = (None, true);
            }
            // The life goes on from the odd record.
            Some(usize::MAX) => (self.until_good, self.life.clean) = (None, false),
            Some(left) => self.until_good = Some(left - 1),
        }
    }
}

/// How many of a commit's answers have a dependence although they ran before: these were held and are released.
fn released(areas: &Arena, answers: u32, ran: &[u32]) -> usize {
    let answers = areas.room(ANSWER_WORDS * answers as usize).chunks_exact(ANSWER_WORDS);
    answers.filter(|answer| answer[ANSWER_DEPENDENCE] != 0 && ran.contains(&answer[0])).count()
}

/// How many answers are of attempt 2 or more, how many depend on one, and how many on another attempt than their own.
fn again(areas: &Arena, answers: u32) -> [u64; 3] {
    let answers = areas.room(ANSWER_WORDS * answers as usize).chunks_exact(ANSWER_WORDS);
    answers.fold([0; 3], |[again, dependent, apart], answer| {
        let [attempt, of_dependence] = [answer[ANSWER_ATTEMPT], answer[ANSWER_ATTEMPT + 1]];
        [
            again + u64::from(attempt > 1),
            dependent + u64::from(of_dependence > 1),
            apart + u64::from(of_dependence != 0 && of_dependence != attempt),
        ]
    })
}

/// Whether a record that calls made shows that the other scheme made it: speculated ones for blocking, and for
/// speculation some that wait though they might have run.
fn takes_over(scheme: Scheme, view: View) -> bool {
    let count = view.uncommitted();
    match scheme {
        Scheme::Blocking => count > 1,
        Scheme::Speculation => {
            view.live() > count && (1..DEPTH).contains(&count) && view.run(count - 1, STATE) != RUNNING
        }
    }
}

impl Kept {
    fn put(&self, arena: &mut Arena) {
        *arena.record_mut() = self.record;
        arena.cells_mut(self.cells.len()).copy_from_slice(&self.cells);
    }
}
