//! The functions of the linked archive, and the only unsafe code of this crate: one block for each of them, but one for
//! both calls.
//!
//! The public ones tell the constants that the archive was built with, as numbers of this crate's constants.
#![allow(unsafe_code)]

use crate::{Record, Scheme};

extern "C" {
    fn harukdalis_start(record: *mut Record, cells: u32) -> u32;
    fn harukdalis_call(
        record: *mut Record,
        cells: *mut u32,
        cell_count: usize,
        event: *const u32,
        event_words: usize,
        room: *mut u32,
        room_words: usize,
        answers: *mut u32,
    ) -> u32;
    fn harukdalis_call_blocking(
        record: *mut Record,
        cells: *mut u32,
        cell_count: usize,
        event: *const u32,
        event_words: usize,
        room: *mut u32,
        room_words: usize,
        answers: *mut u32,
    ) -> u32;
    fn harukdalis_record_bytes() -> u32;
    fn harukdalis_event_words() -> u32;
    fn harukdalis_answer_words() -> u32;
    fn harukdalis_least_room() -> u32;
    fn harukdalis_most_cells() -> u32;
}

/// Starts the record and gives the returned number.
pub(crate) fn start(record: &mut Record, cells: u32) -> u32 {
    assert_same_record();
    // SAFETY: `record` is borrowed alone, and points to one record of the size that the archive writes, as just asked.
    unsafe { harukdalis_start(record, cells) }
}

/// Hands over one event, and gives the returned number and the count of answers.
pub(crate) fn call(
    scheme: Scheme,
    record: &mut Record,
    cells: &mut [u32],
    event: &[u32],
    room: &mut [u32],
) -> (u32, u32) {
    let call = match scheme {
        Scheme::Speculation => harukdalis_call,
        Scheme::Blocking => harukdalis_call_blocking,
    };
    let mut answers = 0;
    // SAFETY: each pointer comes from a live borrow or from a slice with its own length, so it is not null (an empty
    // slice's is dangling and aligned), is aligned, and points to as many words as said. The four areas that are
    // written are borrowed mutably or are this function's own, so they overlap nothing. The record has the size that
    // the archive takes: every `Engine` was made by `start` or after `assert_same_record`. The engine checks all else
    // itself.
    let number = unsafe {
        call(
            record,
            cells.as_mut_ptr(),
            cells.len(),
            event.as_ptr(),
            event.len(),
            room.as_mut_ptr(),
            room.len(),
            &mut answers,
        )
    };
    (number, answers)
}

/// Panics where the archive's record is another than this crate's, before anything is lent to it.
pub(crate) fn assert_same_record() {
    let (archive, here) = (record_bytes() as usize, std::mem::size_of::<Record>());
    assert_eq!(archive, here, "the linked archive is of another version: its record's bytes are not this crate's");
}

/// The bytes of a record: [`crate::RECORD_BYTES`].
pub fn record_bytes() -> u32 {
    // SAFETY: takes nothing and returns a constant.
    unsafe { harukdalis_record_bytes() }
}

/// The words of an event: [`crate::EVENT_WORDS`].
pub fn event_words() -> u32 {
    // SAFETY: takes nothing and returns a constant.
    unsafe { harukdalis_event_words() }
}

/// The words of an answer: [`crate::ANSWER_WORDS`].
pub fn answer_words() -> u32 {
    // SAFETY: takes nothing and returns a constant.
    unsafe { harukdalis_answer_words() }
}

/// The words of the least room: [`crate::LEAST_ROOM`].
pub fn least_room() -> u32 {
    // SAFETY: takes nothing and returns a constant.
    unsafe { harukdalis_least_room() }
}

/// The most cells of a partition: [`crate::MOST_CELLS`].
pub fn most_cells() -> u32 {
    // SAFETY: takes nothing and returns a constant.
    unsafe { harukdalis_most_cells() }
}
