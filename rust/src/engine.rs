//! The engine with its record, and the room for its answers.

use crate::{linked, Answers, Event, Record, Refusal, Scheme, LEAST_ROOM};

/// The engine of one partition. It owns its record; the cells and the room are lent to each call.
///
/// Lend the cells that the last accepted call left, and to one engine only: an engine knows how many cells it has, and
/// not what is in them.
#[derive(Clone, Debug, PartialEq, Eq)]
pub struct Engine {
    // Boxed, so that moving an engine does not copy the record's 9,936 bytes.
    record: Box<Record>,
}

impl Engine {
    /// An engine of 1 to [`crate::MOST_CELLS`] cells with nothing live; [`Refusal::WrongCells`] for any other count.
    pub fn start(cells: u32) -> Result<Engine, Refusal> {
        let mut record = Box::new(Record::empty());
        accepted(linked::start(&mut record, cells))?;
        Ok(Engine { record })
    }

    /// The engine that goes on from a record, any at all: if it is not sound, each call is refused by
    /// [`Refusal::UnsoundRecord`].
    pub fn from_record(record: Record) -> Engine {
        linked::assert_same_record();
        Engine { record: Box::new(record) }
    }

    /// The record as the last accepted call left it.
    pub fn record(&self) -> &Record {
        &self.record
    }

    /// Gives the record away, to be stored or moved.
    pub fn into_record(self) -> Record {
        *self.record
    }

    /// Hands one event to the partition, by speculation. The answers stay in the room until it is lent again.
    ///
    /// A refusal leaves the engine, the cells and the room as they were.
    pub fn call<'r>(&mut self, cells: &mut [u32], event: &Event, room: &'r mut Room) -> Result<Answers<'r>, Refusal> {
        self.call_by(Scheme::Speculation, cells, event, room)
    }

    /// The same by a scheme. Any call may name another one than the call before it.
    ///
    /// ```
    /// use harukdalis::{Dependence, Engine, Event, Op, Outcome, Refusal, Room, Scheme};
    ///
    /// let (mut engine, mut cells, mut room) = (Engine::start(1)?, [5], Room::new());
    /// let reserve = |number| Event::multi(number, 1, true, &[Op::take(0, 1)]);
    ///
    /// // By blocking the second reservation waits until the first is decided.
    /// engine.call_by(Scheme::Blocking, &mut cells, &reserve(1), &mut room)?;
    /// assert_eq!(engine.call_by(Scheme::Blocking, &mut cells, &reserve(2), &mut room)?.len(), 0);
    /// assert_eq!(cells, [4]);
    ///
    /// // It is the front when the first is aborted, and is answered then, in its first attempt. By speculation it
    /// // would have been undone, and this would be its second.
    /// let mut answers = engine.call_by(Scheme::Blocking, &mut cells, &Event::abort(1), &mut room)?;
    /// let answer = answers.next().unwrap();
    /// assert_eq!((answer.transaction(), answer.attempt(), answer.dependence()), (2, 1, None));
    /// assert_eq!(answer.outcome(), Outcome::Numbers(&[4]));
    ///
    /// // From here on the depot speculates: a third one runs behind the second, which has run once.
    /// let mut answers = engine.call_by(Scheme::Speculation, &mut cells, &reserve(3), &mut room)?;
    /// assert_eq!(answers.next().unwrap().dependence(), Some(Dependence { transaction: 2, attempt: 1 }));
    /// # Ok::<(), Refusal>(())
    /// ```
    pub fn call_by<'r>(
        &mut self,
        scheme: Scheme,
        cells: &mut [u32],
        event: &Event,
        room: &'r mut Room,
    ) -> Result<Answers<'r>, Refusal> {
        let count = self.call_words_by(scheme, cells, &event.words(), &mut room.words[..])?;
        Ok(Answers::in_room(&room.words[..], count))
    }

    /// [`Engine::call`] on words of any lengths: the count of answers that fill the room from its start.
    /// [`Answers::in_room`] reads them.
    ///
    /// An event of another length than [`crate::EVENT_WORDS`] is refused by [`Refusal::NotWellFormed`], a room under
    /// [`LEAST_ROOM`] words by [`Refusal::SmallRoom`].
    pub fn call_words(&mut self, cells: &mut [u32], event: &[u32], room: &mut [u32]) -> Result<usize, Refusal> {
        self.call_words_by(Scheme::Speculation, cells, event, room)
    }

    /// The same by a scheme.
    pub fn call_words_by(
        &mut self,
        scheme: Scheme,
        cells: &mut [u32],
        event: &[u32],
        room: &mut [u32],
    ) -> Result<usize, Refusal> {
        let (number, answers) = linked::call(scheme, &mut self.record, cells, event, room);
        accepted(number)?;
        Ok(answers as usize)
    }
}

/// A returned number as a result.
fn accepted(number: u32) -> Result<(), Refusal> {
    match (number, Refusal::from_number(number)) {
        (0, _) => Ok(()),
        (_, Some(refusal)) => Err(refusal),
        (_, None) => panic!("the linked archive is of another version: it returned {number}, which is no refusal"),
    }
}

/// Room for the answers of a call, never too small for one. Take one for each thread and lend it again and again.
#[derive(Clone, Debug, PartialEq, Eq)]
pub struct Room {
    words: Box<[u32; LEAST_ROOM]>,
}

impl Room {
    /// A room, all of it 0.
    pub fn new() -> Room {
        Room { words: Box::new([0; LEAST_ROOM]) }
    }

    /// Its words, with whatever calls have left in it.
    pub fn words(&self) -> &[u32; LEAST_ROOM] {
        &self.words
    }
}

impl Default for Room {
    fn default() -> Room {
        Room::new()
    }
}
