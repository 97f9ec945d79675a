//! The subject beside the independent engine on equal areas: every call is made by both and compared whole.

use crate::arena::{Arena, Lent, Place};
use crate::subject::Subject;
use crate::twin::{Pair, Tried, Twin};
use independent::engine::ANSWER_WORDS;
use independent::layout::{self, Words};
use independent::{Engine, Scheme};
use std::fmt;

/// The two sides of a difference.
#[derive(Clone, Copy, Debug)]
pub enum Between {
    /// The subject and the independent engine.
    Engines,
    /// The subject and its twin.
    Schemes,
}

/// What differed first.
#[derive(Debug)]
pub struct Difference {
    pub what: String,
    pub between: Between,
    pub words: [u32; 2],
    /// The returned numbers.
    pub numbers: [u32; 2],
    pub event: Vec<u32>,
    /// The subject's scheme and what it was lent.
    pub call: Option<(Scheme, Lent)>,
}

impl fmt::Display for Difference {
    fn fmt(&self, f: &mut fmt::Formatter) -> fmt::Result {
        let Difference { what, between, words: [this, that], numbers, event, call } = self;
        let [one, two] = match (between, call) {
            (Between::Schemes, Some((scheme, _))) => [scheme.word(), scheme.other().word()],
            _ => ["subject", "independent"],
        };
        writeln!(f, "differs first: {what}: {one} {this} (0x{this:x}), {two} {that} (0x{that:x})")?;
        writeln!(f, "returned: {one} {}, {two} {}", numbers[0], numbers[1])?;
        if let Some((scheme, Lent { cells, event: words, room })) = call {
            let by = scheme.word();
            writeln!(f, "by {by}, lent: {cells} cells, {room} words of room; event of {words} words: {event:?}")?;
        }
        Ok(())
    }
}

/// A call that went well.
pub struct Done {
    pub number: u32,
    pub answers: u32,
    /// Where the twin was called too.
    pub pair: Option<Pair>,
}

/// Who says that the subject is wrong. One alone shows that it needs no other.
#[derive(Clone, Copy, Debug, PartialEq, Eq)]
pub enum Judges {
    Both,
    Independent,
    /// What the subject does is taken for right where its twin does the like.
    Twin,
}

/// Between calls the three areas are equal, word for word.
pub struct Bench<S> {
    pub subject: S,
    tried: Arena,
    right: Arena,
    before: Arena,
    pub twin: Twin,
    /// The independent engine of the record as it stands, if it made it; reading it anew for each call takes long.
    engine: Option<Engine>,
    pub judges: Judges,
    /// Cells of the partition; compared even where fewer are lent.
    pub count: usize,
}

const GUARDS: [u32; 2] = [0x6a5d_0001, 0x6a5d_0002];

impl<S: Subject> Bench<S> {
    pub fn new(subject: S) -> Bench<S> {
        let [tried, right, before] = [(); 3].map(|()| Arena::new());
        Bench { subject, tried, right, before, twin: Twin::new(), engine: None, judges: Judges::Both, count: 0 }
    }

    /// The areas as they stand before the next call.
    pub fn areas(&self) -> &Arena {
        &self.before
    }

    /// Changes the record in all three areas, or leaves it where nothing comes of the change.
    pub fn change_record(&mut self, change: impl FnOnce(&mut Words) -> Option<()>) -> Option<()> {
        self.engine = None;
        let record = self.before.record_mut();
        let changed = change(record);
        match changed {
            Some(()) => {
                *self.tried.record_mut() = *record;
                *self.right.record_mut() = *record;
            }
            None => *record = *self.tried.record(),
        }
        changed
    }

    /// Changes all three areas alike.
    pub fn change(&mut self, change: impl Fn(&mut Arena)) {
        self.engine = None;
        self.change_beside(change);
    }

    /// Changes anything but the record in all three areas.
    pub fn change_beside(&mut self, change: impl Fn(&mut Arena)) {
        [&mut self.before, &mut self.tried, &mut self.right].into_iter().for_each(change);
    }

    pub fn reset(&mut self, word: impl FnMut() -> u32) {
        self.engine = None;
        self.before.fill(word);
        self.tried.clone_from(&self.before);
        self.right.clone_from(&self.before);
    }

    /// The twin starts from where the subject is.
    pub fn pair(&mut self) {
        self.twin.start(&self.before, self.count);
    }

    /// One call of both, and of the twin if it takes part; done if nothing differs.
    pub fn call(&mut self, scheme: Scheme, lent: Lent, old_answers: u32) -> Result<Done, Difference> {
        let mut answers = [GUARDS[0], old_answers, GUARDS[1]];
        // The places are apart from each other, and `answers` lies outside.
        let pointer = unsafe { answers.as_mut_ptr().add(1) };
        let number = unsafe { self.subject.call(scheme, self.tried.pointers(lent, pointer)) };
        let (right_number, right_answers) = match self.judges {
            Judges::Twin => self.trust(lent, number, answers[1]),
            Judges::Both | Judges::Independent => self.ask(scheme, lent),
        };

        let numbers = [number, right_number];
        let differs = |what: &str, subject: u32, independent: u32| {
            let event = self.before.event(lent.event).to_vec();
            let (what, words) = (what.to_string(), [subject, independent]);
            Difference { what, between: Between::Engines, words, numbers, event, call: Some((scheme, lent)) }
        };
        let at = |what: &str, place: Place| differs(&format!("{what}{}", place.name(lent)), place.this, place.other);
        if number != right_number {
            return Err(differs("the returned number", number, right_number));
        }
        if answers[1] != right_answers {
            return Err(differs("the count of answers", answers[1], right_answers));
        }
        if [answers[0], answers[2]] != GUARDS {
            return Err(differs("guard of the count of answers", answers[0], GUARDS[0]));
        }
        if number == 0 {
            if let Some(place) = self.tried.differs(&self.right, lent, self.count) {
                return Err(at("", place));
            }
        } else if let Some(place) = self.tried.differs(&self.before, lent, self.count) {
            // Whatever the independent engine did: a refusal leaves what was. That this one leaves it too is seen by
            // the next accepted call, or at the batch's end.
            return Err(at("refused, but not as before: ", place));
        }
        let followed = self.twin.called && self.judges != Judges::Independent;
        let pair = followed.then(|| {
            let (count, before, after) = (self.count, &self.before, &self.right);
            let tried = Tried { scheme, lent, count, number, answers: right_answers, before, after };
            self.twin.follow(&mut self.subject, tried)
        });
        if number == 0 {
            self.before.take_over(&self.right, ANSWER_WORDS * right_answers as usize, lent.cells);
        }
        Ok(Done { number, answers: right_answers, pair: pair.transpose()? })
    }

    /// The independent engine's call.
    fn ask(&mut self, scheme: Scheme, lent: Lent) -> (u32, u32) {
        let (record, cells, event, room) = self.right.parts(lent);
        self.engine = self.engine.take().or_else(|| layout::read(record).map(Engine::of));
        match &mut self.engine {
            Some(engine) => layout::call_on(scheme, engine, record, cells, event, room),
            None => (1, 0),
        }
    }

    fn trust(&mut self, lent: Lent, number: u32, answers: u32) -> (u32, u32) {
        self.right.take_over(&self.tried, ANSWER_WORDS * answers as usize, lent.cells);
        (number, answers)
    }

    /// A start by both over whatever the record is.
    pub fn start(&mut self, cells: u32) -> Result<u32, Difference> {
        let number = unsafe { self.subject.start(self.tried.record_mut().as_mut_ptr(), cells) };
        let (right_number, record) = layout::start(cells);
        self.engine = None;
        *self.right.record_mut() = record;
        let lent = Lent { cells: 0, event: 0, room: 0 };
        let differs = |what: String, subject: u32, independent: u32| {
            let (what, words) = (format!("start with {cells} cells: {what}"), [subject, independent]);
            Difference {
                what,
                between: Between::Engines,
                words,
                numbers: [number, right_number],
                event: vec![],
                call: None,
            }
        };
        if number != right_number {
            return Err(differs("the returned number".into(), number, right_number));
        }
        if let Some(place) = self.tried.differs(&self.right, lent, self.count) {
            return Err(differs(place.name(lent), place.this, place.other));
        }
        *self.before.record_mut() = record;
        Ok(number)
    }

    /// The far ends too, which single calls are not compared by.
    pub fn compare_all(&self) -> Result<(), Difference> {
        let lent = Lent { cells: 0, event: 0, room: 0 };
        let place = self.tried.differs_anywhere(&self.before).or_else(|| self.right.differs_anywhere(&self.before));
        place.map_or(Ok(()), |place| {
            let (what, words) = (format!("at the end of the batch: {}", place.name(lent)), [place.this, place.other]);
            Err(Difference { what, between: Between::Engines, words, numbers: [0; 2], event: vec![], call: None })
        })
    }
}
