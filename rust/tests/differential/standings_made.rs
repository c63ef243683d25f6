//! What the calls by value can be given: standings that no pass over rows makes, and rows that no port has. Most are near to good ones.

use crate::common::random::Random;
use crate::{profiles, rows_made};
use arinduleu::ports::Standing;
use arinduleu::verdicts::Verdict;
use model::Row;

/// One in four has a refusal; of the rest one in four has a place all the same.
pub fn standing(random: &mut Random, capacity: u16) -> Standing {
    let (number, place) = match random.below(16) {
        0 | 1 => (random.u8(), random.u8()),
        2 | 3 => random.pick(&[(30, 0), (32, 0), (37, 1), (37, 8), (31, 2), (4, 3)]),
        4..=6 => (0, random.u8()),
        _ => (0, 0),
    };
    Standing {
        fault: Verdict { number, place },
        count: count(random),
        held: held(random, capacity),
    }
}

fn count(random: &mut Random) -> usize {
    match random.below(16) {
        0 => random.u64() as usize,
        // Their last 8, 16 or 32 bits are a good count.
        1 => random.pick(&[257, 65544, (1 << 32) + 1, usize::MAX]),
        2 => random.pick(&[0, 9, 255, 256]),
        _ => 1 + random.below(8),
    }
}

/// What the rows hold, from nothing to all of the capacity, and past it.
fn held(random: &mut Random, capacity: u16) -> u32 {
    let capacity = u32::from(capacity);
    match random.below(16) {
        0 => capacity,
        1 => capacity + 1,
        2 => capacity.saturating_sub(1),
        // The last 16 bits are within the capacity.
        3 => (1 << 16) + random.below(capacity as usize + 1) as u32,
        4 => u32::MAX - random.below(1 << 16) as u32,
        5 => random.u32(),
        6 => 0,
        _ => random.below(capacity as usize + 1) as u32,
    }
}

pub fn capacity(random: &mut Random) -> u16 {
    match random.below(8) {
        0 => random.u16(),
        1 => random.pick(&[0, 14, 15, 1600, 1601, u16::MAX]),
        _ => random.within(15..=1600),
    }
}

pub fn port(random: &mut Random, count: usize) -> u8 {
    let count = count.min(255);
    match random.below(8) {
        0 => random.u8(),
        1 => random.pick(&[0, 1, count as u8, (count + 1).min(255) as u8, 255]),
        _ => 1 + random.below(count.max(1)) as u8,
    }
}

/// One in eight is anything at all; of the rest many have a list.
pub fn row(random: &mut Random) -> Row {
    if random.one_in(8) {
        return rows_made::stray(random);
    }
    let max = match random.below(8) {
        0 => random.pick(&[0, 14, 15, 200, 201, u16::MAX]),
        _ => profiles::power(random),
    };
    let present = match random.below(8) {
        0 => random.u16(),
        1 => 0,
        2..=4 => max,
        _ => random.within(0..=max),
    };
    let held = match random.below(8) {
        0 => random.u16(),
        1 => random.pick(&[0, 14, u16::MAX]),
        2..=4 => 15,
        _ => random.within(0..=present),
    };
    Row {
        max,
        pps: random.pick(&[0, 0, 1, 1, 1, 2]),
        cable: match random.below(8) {
            0..=2 => 0,
            3 => profiles::no_cable(random),
            _ => profiles::cable(random),
        },
        present,
        held,
    }
}
