//! What is tried: something that takes calls as the boundary does.

use crate::arena::Areas;
use independent::layout::WORDS;
use independent::Scheme;

pub trait Subject {
    /// # Safety
    /// The record is a place of 2,484 words.
    unsafe fn start(&mut self, record: *mut u32, cells: u32) -> u32;

    /// # Safety
    /// The areas are apart from each other and as long as they say.
    unsafe fn call(&mut self, scheme: Scheme, areas: Areas) -> u32;
}

mod boundary {
    extern "C" {
        pub fn harukdalis_start(record: *mut u32, cells: u32) -> u32;
        pub fn harukdalis_call(
            record: *mut u32,
            cells: *mut u32,
            cell_count: usize,
            event: *const u32,
            event_words: usize,
            room: *mut u32,
            room_words: usize,
            answers: *mut u32,
        ) -> u32;
        pub fn harukdalis_call_blocking(
            record: *mut u32,
            cells: *mut u32,
            cell_count: usize,
            event: *const u32,
            event_words: usize,
            room: *mut u32,
            room_words: usize,
            answers: *mut u32,
        ) -> u32;
        pub fn harukdalis_record_bytes() -> u32;
        pub fn harukdalis_event_words() -> u32;
        pub fn harukdalis_answer_words() -> u32;
        pub fn harukdalis_least_room() -> u32;
        pub fn harukdalis_most_cells() -> u32;
    }
}

/// What the archive says of itself: bytes of a record, words of an event and of an answer, least room, most cells.
pub fn archive_numbers() -> [u32; 5] {
    // They take nothing and touch nothing.
    unsafe {
        [
            boundary::harukdalis_record_bytes(),
            boundary::harukdalis_event_words(),
            boundary::harukdalis_answer_words(),
            boundary::harukdalis_least_room(),
            boundary::harukdalis_most_cells(),
        ]
    }
}

/// The linked archive.
pub struct Archive;

impl Subject for Archive {
    unsafe fn start(&mut self, record: *mut u32, cells: u32) -> u32 {
        boundary::harukdalis_start(record, cells)
    }

    unsafe fn call(&mut self, scheme: Scheme, areas: Areas) -> u32 {
        let Areas { record, cells, event, room, answers, lent } = areas;
        let call = match scheme {
            Scheme::Speculation => boundary::harukdalis_call,
            Scheme::Blocking => boundary::harukdalis_call_blocking,
        };
        call(record, cells, lent.cells, event, lent.event, room, lent.room, answers)
    }
}

/// Hands every area on in an allocation of its own and of its exact length, for a checker of memory.
pub struct Exact<S>(pub S);

impl<S: Subject> Subject for Exact<S> {
    unsafe fn start(&mut self, record: *mut u32, cells: u32) -> u32 {
        let mut own = Own::new(record, WORDS);
        let number = self.0.start(own.pointer(), cells);
        own.give_back();
        number
    }

    unsafe fn call(&mut self, scheme: Scheme, areas: Areas) -> u32 {
        let lent = areas.lent;
        let lengths = [WORDS, lent.cells, lent.event, lent.room, 1];
        let places = [areas.record, areas.cells, areas.event, areas.room, areas.answers];
        let mut owns = [0, 1, 2, 3, 4].map(|at: usize| Own::new(places[at], lengths[at]));
        let [record, cells, event, room, answers] = owns.each_mut().map(Own::pointer);
        let number = self.0.call(scheme, Areas { record, cells, event, room, answers, lent });
        owns.into_iter().for_each(|own| own.give_back());
        number
    }
}

/// A copy of an area, to be put back. Of no words it is no allocation, and its pointer is one to nothing.
struct Own {
    place: *mut u32,
    words: Box<[u32]>,
}

impl Own {
    unsafe fn new(place: *mut u32, length: usize) -> Own {
        Own { place, words: std::slice::from_raw_parts(place, length).into() }
    }

    fn pointer(&mut self) -> *mut u32 {
        self.words.as_mut_ptr()
    }

    unsafe fn give_back(self) {
        std::slice::from_raw_parts_mut(self.place, self.words.len()).copy_from_slice(&self.words);
    }
}
