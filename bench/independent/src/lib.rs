//! The independent engine for the benchmark in C. The engine is kept between calls and works in place: no words are
//! read into a record or laid out for a call. Callers promise what the header of the proved engine asks for.

use independent::engine::{ANSWER_WORDS, DEPTH, MOST_LIVE};
use independent::event::EVENT_WORDS;
use independent::{Engine, Event, Scheme};
use std::slice::{from_raw_parts, from_raw_parts_mut};

#[no_mangle]
pub extern "C" fn independent_start(cells: u32) -> *mut Engine {
    Box::into_raw(Box::new(Engine::start(cells).1))
}

/// # Safety
/// The engine is one of `independent_start` or `independent_copy`, not dropped.
#[no_mangle]
pub unsafe extern "C" fn independent_copy(engine: *const Engine) -> *mut Engine {
    let mut copy = (*engine).clone();
    // A clone has no spare room; an engine that has been at work has.
    copy.record.uncommitted.reserve(DEPTH);
    copy.record.waiting.reserve(MOST_LIVE);
    Box::into_raw(Box::new(copy))
}

/// # Safety
/// As for `independent_copy`; the engine is over.
#[no_mangle]
pub unsafe extern "C" fn independent_drop(engine: *mut Engine) {
    drop(Box::from_raw(engine));
}

/// # Safety
/// As for `independent_copy`, and each pointer points to as many words as said, overlapping no other.
#[no_mangle]
pub unsafe extern "C" fn independent_call(
    engine: *mut Engine,
    cells: *mut u32,
    cell_count: usize,
    event: *const u32,
    event_words: usize,
    room: *mut u32,
    room_words: usize,
    answers: *mut u32,
) -> u32 {
    let (cells, room) = (from_raw_parts_mut(cells, cell_count), from_raw_parts_mut(room, room_words));
    call_by(Scheme::Speculation, &mut *engine, cells, from_raw_parts(event, event_words), room, &mut *answers)
}

/// # Safety
/// As for `independent_call`.
#[no_mangle]
pub unsafe extern "C" fn independent_call_blocking(
    engine: *mut Engine,
    cells: *mut u32,
    cell_count: usize,
    event: *const u32,
    event_words: usize,
    room: *mut u32,
    room_words: usize,
    answers: *mut u32,
) -> u32 {
    let (cells, room) = (from_raw_parts_mut(cells, cell_count), from_raw_parts_mut(room, room_words));
    call_by(Scheme::Blocking, &mut *engine, cells, from_raw_parts(event, event_words), room, &mut *answers)
}

fn call_by(
    scheme: Scheme,
    engine: &mut Engine,
    cells: &mut [u32],
    words: &[u32],
    room: &mut [u32],
    answers: &mut u32,
) -> u32 {
    let event = if words.len() == EVENT_WORDS { Event::read(words) } else { Event::default() };
    let (number, sent) = engine.call_by(scheme, cells, &event, room.len());
    for (place, answer) in room.chunks_exact_mut(ANSWER_WORDS).zip(&sent) {
        place.copy_from_slice(&answer.words());
    }
    *answers = sent.len() as u32;
    number
}
