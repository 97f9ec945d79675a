//! The engine of one partition of a stock database for vehicle parts depots.
//!
//! A partition is a row of cells, say the stock on each shelf. The host sends it events: fragments of transactions, and
//! the coordinator's decisions to commit or abort. A call that is accepted may send answers. A *single* is a
//! transaction of this partition alone. A *multi* spans partitions: it is answered, and then undecided until its
//! coordinator has heard all of them. What arrives meanwhile is run behind it, on the guess that it commits. A single's
//! answer is then held back; a multi's may be sent with a *dependence*, the number that must commit for the answer to
//! be right, and the *attempt* in which it must. It is held back while a multi of another coordinator is ahead of it:
//! the commit of the last of these releases it. If the multi ahead is aborted, what ran behind it is undone, waits
//! again and runs again, in its next attempt.
//!
//! ```
//! use harukdalis::{Engine, Event, Op, Outcome, Refusal, Room};
//!
//! // Two shelves, of 5 and 10. The host keeps the cells; the engine keeps its record.
//! let mut cells = [5, 10];
//! let mut engine = Engine::start(2)?;
//! let mut room = Room::new();
//!
//! // A reservation across depots, of coordinator 1, takes 3 from shelf 0. It is answered, and undecided.
//! let reserve = Event::multi(1, 1, true, &[Op::take(0, 3)]);
//! let answers: Vec<_> = engine.call(&mut cells, &reserve, &mut room)?.collect();
//! assert_eq!(answers[0].transaction(), 1);
//! assert_eq!((answers[0].attempt(), answers[0].dependence()), (1, None));
//! assert_eq!(answers[0].outcome(), Outcome::Numbers(&[2]));
//!
//! // A sale behind it wants 4, finds 2 and fails. It has run on a guess, so its answer is held.
//! let sale = Event::single(2, &[Op::take(0, 4)]);
//! assert_eq!(engine.call(&mut cells, &sale, &mut room)?.len(), 0);
//!
//! // The same message again is refused, and nothing changes.
//! assert_eq!(engine.call(&mut cells, &reserve, &mut room).unwrap_err(), Refusal::FrontFinished);
//!
//! // The reservation is aborted: shelf 0 has 5 again, the sale runs again and is answered, in its second attempt.
//! let mut answers = engine.call(&mut cells, &Event::abort(1), &mut room)?;
//! let sold = answers.next().unwrap();
//! assert_eq!((sold.transaction(), sold.attempt(), sold.outcome()), (2, 2, Outcome::Numbers(&[1])));
//! assert_eq!(cells, [1, 10]);
//!
//! // The next sale wants 2. Its answer tells the clerk which operation failed, and that there is 1.
//! let mut answers = engine.call(&mut cells, &Event::single(3, &[Op::take(0, 2)]), &mut room)?;
//! assert_eq!(answers.next().unwrap().outcome(), Outcome::Failed { place: 1, found: 1 });
//! # Ok::<(), Refusal>(())
//! ```
//!
//! A depot with many aborts may want the other [`Scheme`], blocking, in which nothing runs behind an undecided multi:
//! [`Engine::call_by`].
//!
//! What this wrapper adds to the C boundary is that it cannot be called wrongly: lengths and pointers come from Rust's
//! own borrows, which never overlap, and a [`Room`] is never too small. It decides nothing itself. What an event is
//! worth is the engine's to say, so a constructor takes any values, and [`Engine::call`] refuses those that are not
//! well formed.
//!
//! The document `docs/INTEGRATION.md` of the repository says what to do on each refusal and what a dependence means for
//! a coordinator. `examples/transfers.rs` is one, with two partitions and a network that reorders, doubles and loses.

#![deny(missing_docs)]
#![deny(unsafe_code)]
#![deny(unsafe_op_in_unsafe_fn)]

mod answer;
mod engine;
mod event;
pub mod linked;
mod record;
mod refusal;
mod scheme;

pub use answer::{Answer, Answers, Dependence, Outcome};
pub use engine::{Engine, Room};
pub use event::{Event, Op};
pub use record::Record;
pub use refusal::Refusal;
pub use scheme::Scheme;

/// The largest content of a cell, amount of an operation and number of a transaction.
pub const TOP: u32 = 4_294_967_295;
/// A partition has 1 to this many cells.
pub const MOST_CELLS: u32 = 4096;
/// A fragment has 1 to this many operations.
pub const MOST_OPERATIONS: usize = 8;
/// A multi runs at most this many fragments in one partition.
pub const MOST_FRAGMENTS: u32 = 8;
/// A multi's coordinator is 1 to this; a single's is 0.
pub const MOST_COORDINATOR: u32 = 255;
/// At most this many are uncommitted, the front counted.
pub const DEPTH: usize = 16;
/// At most this many are live: uncommitted or waiting. A call sends at most as many answers.
pub const MOST_LIVE: usize = 64;
/// At most this many undo entries are kept.
pub const MOST_ENTRIES: usize = 184;
/// The words that every call must lend for answers. A [`Room`] has them.
pub const LEAST_ROOM: usize = 1024;
/// The words of an answer.
pub const ANSWER_WORDS: usize = 16;
/// The words of an event.
pub const EVENT_WORDS: usize = 29;
/// The bytes of a record.
pub const RECORD_BYTES: usize = 9936;
/// The words of a record.
pub const RECORD_WORDS: usize = RECORD_BYTES / 4;
