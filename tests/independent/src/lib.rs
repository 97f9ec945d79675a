//! A second engine of one partition, written from documents 01 and 02 and their readings alone and sharing nothing with
//! the first, so that a difference between the two points at an error or at a place where the rules can be read two ways.
//!
//! * `event`: events, fragments, operations; what refusals 4 and 5 ask of them
//! * `engine`: the record, the steps by either scheme, the refusals; `Fault` makes it commit a known error on purpose
//! * `layout`: the record as words, and a call on words
//! * `trace`: the trace program; `examples`: traces worth keeping; `edges`: those that were worked by hand;
//!   `generate`: seeded traces and what they reach
//! * `merge`: the same transactions and decisions merged in two ways

pub mod edges;
pub mod engine;
pub mod event;
pub mod examples;
pub mod generate;
pub mod layout;
pub mod merge;
pub mod trace;

pub use engine::{Answer, Dependence, Engine, Fault, Outcome, Record, Scheme, State, Uncommitted, Waiting};
pub use event::{Event, Fragment, Operation, TOP};
pub use layout::{call, start};
