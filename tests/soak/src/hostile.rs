//! Events of any words, and areas of any length.

use crate::arena::{MOST_EVENT_WORDS, MOST_LENT, MOST_ROOM};
use crate::view::*;
use independent::event::*;
use independent::generate::Random;
use independent::layout::Words;

/// A word at an edge of something that the rules speak of.
pub fn edge(random: &mut Random, record: &Words) -> u32 {
    let count = record[CELLS];
    let of_record = [
        count.wrapping_sub(1),
        count,
        count.wrapping_add(1),
        record[LARGEST],
        record[LARGEST].wrapping_add(1),
        record[live_at(0, NUMBER)],
        record[live_at(1, NUMBER)],
        record[live_at(0, COORDINATOR)],
    ];
    match random.below(10) {
        0..=2 => random.pick(&of_record),
        3..=5 => random.below(10) as u32,
        6 => random.pick(&[15, 16, 17, 63, 64, 65, 254, 255, 256, 257, 1023, 1024, 4095, 4096, 4097]),
        7 => random.pick(&[TOP, TOP - 1, TOP - 2, 1 << 31, (1 << 31) - 1, 1 << 16, 0xff00_0001, 0x0001_0000]),
        8 => 1 << random.below(32),
        _ => random.word(),
    }
}

/// Spoils an event of 29 words, mostly in one place. It may come out well formed.
pub fn spoil(random: &mut Random, event: &mut [u32], record: &Words) {
    let place = random.below(PLACES);
    let [code, cell, amount] = [5, 6, 7].map(|first| first + 3 * place);
    let count = record[CELLS];
    match random.below(16) {
        0 | 1 => event[random.below(EVENT_WORDS)] = edge(random, record),
        2 => event[random.below(EVENT_WORDS)] = random.word(),
        3 => event[0] = random.below(6) as u32,
        4 => event[1] = edge(random, record),
        5 => event[2] = random.below(8) as u32,
        6 => event[3] = random.pick(&[0, 1, 2, 255, 256, 257, TOP]),
        7 => event[4] = random.pick(&[0, 1, 2, 3, 4, 5, 6, 7, 8, 9, 10, 1 << 31, TOP]),
        8 => event[code] = random.pick(&[0, 1, 1, 2, 8, 9, 10, TOP]),
        // A cell of a used place, so that it is the cell alone.
        9..=11 => {
            let used = (event[4] as usize).clamp(1, PLACES);
            let cells = [count.wrapping_sub(1), count, count, count.wrapping_add(1), 4096, TOP];
            event[6 + 3 * random.below(used)] = random.pick(&cells);
        }
        12 => event[if random.percent(50) { amount } else { cell }] = edge(random, record),
        13 => (0..random.between(2, 6)).for_each(|_| event[random.below(EVENT_WORDS)] = edge(random, record)),
        14 => {
            let (one, two) = (random.below(EVENT_WORDS), random.below(EVENT_WORDS));
            event.swap(one, two);
        }
        _ => fill(random, event, record),
    }
}

/// All words at once.
fn fill(random: &mut Random, event: &mut [u32], record: &Words) {
    match random.below(4) {
        0 => event.fill(0),
        1 => event.iter_mut().for_each(|word| *word = random.word()),
        2 => event.iter_mut().for_each(|word| *word = edge(random, record)),
        // A decision's words and a fragment's mixed up.
        _ => {
            event[0] = random.below(4) as u32;
            event[random.between(2, EVENT_WORDS - 1)..].fill(0);
        }
    }
}

pub fn event_words(random: &mut Random) -> usize {
    let any = random.below(MOST_EVENT_WORDS + 1);
    random.pick(&[0, 1, 28, 28, 29, 30, 30, 58, any])
}

pub fn room_words(random: &mut Random) -> usize {
    let any = random.below(MOST_ROOM + 1);
    random.pick(&[0, 1, 15, 16, 1023, 1023, 1023, 1024, 1025, 1040, 2048, any])
}

/// Cells to lend to a record that says `count`.
pub fn lent_cells(random: &mut Random, count: usize) -> usize {
    let any = random.below(MOST_LENT + 1);
    let near = random.pick(&[0, 0, count.saturating_sub(1), count.saturating_sub(1), count + 1, count + 1]);
    // The long ones take long to compare.
    if random.percent(85) {
        near
    } else {
        random.pick(&[4096, 4097, count, any])
    }
}
