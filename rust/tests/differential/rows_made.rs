//! Rows as they are lent, capacities and ports at their bounds, and rows that are not sound.

use crate::common::random::Random;
use crate::profiles;
use model::Row;

/// Rows before set-up, of which only M and PPS wanted are meant.
pub fn lent(random: &mut Random) -> Vec<Row> {
    let count = match random.below(12) {
        // More than 255, too: such a count does not fit a byte.
        0 => random.pick(&[0, 9, 10, 255, 256, 257, 264]),
        _ => 1 + random.below(8),
    };
    let row = |_| Row {
        max: profiles::power(random).clamp(15, 200),
        pps: random.within(0..=1) as u8,
        ..stray(random)
    };
    let mut rows: Vec<Row> = (0..count).map(row).collect();
    // Some that cannot be set up, to see which row comes first, and which of 31 and 4.
    while count > 0 && random.one_in(4) {
        let at = random.below(count);
        match random.below(2) {
            0 => rows[at].max = random.pick(&[0, 14, 201, 202, u16::MAX]),
            _ => rows[at].pps = random.pick(&[2, 3, 255]),
        }
    }
    rows
}

pub fn stray(random: &mut Random) -> Row {
    Row {
        max: random.u16(),
        pps: random.u8(),
        cable: random.u16(),
        present: random.u16(),
        held: random.u16(),
    }
}

fn least(rows: usize) -> u16 {
    15 * rows.min(100) as u16
}

/// Often too little for all ports at once, so that they have to share.
pub fn capacity(random: &mut Random, rows: &[Row]) -> u16 {
    let least = least(rows.len());
    let all: u32 = rows.iter().map(|r| u32::from(r.max)).sum();
    let all = all.clamp(u32::from(least), 1600) as u16;
    match random.below(16) {
        0 => least,
        1 => 1600,
        2 => wrong_capacity(random, rows.len()),
        _ => random.within(least..=all),
    }
}

fn wrong_capacity(random: &mut Random, rows: usize) -> u16 {
    random.pick(&[0, least(rows).saturating_sub(1), 1601, u16::MAX])
}

/// Each call is given the capacity anew. A smaller one can lie below what is held already.
pub fn other_capacity(random: &mut Random, rows: usize, capacity: u16) -> u16 {
    match random.below(48) {
        0 => wrong_capacity(random, rows),
        1 => least(rows) + random.within(0..=1),
        2 => 1600,
        _ => capacity,
    }
}

pub fn port(random: &mut Random, rows: usize) -> u8 {
    let port = match random.below(24) {
        0 => random.pick(&[0, rows + 1, 9, 128, 255]),
        _ => 1 + random.below(rows.max(1)),
    };
    port.min(255) as u8
}

/// One field past what a sound row may have, or just inside it.
pub fn damaged(random: &mut Random, row: Row) -> Row {
    let mut row = row;
    let past = |figure: u16| figure.wrapping_add(1);
    let before = |figure: u16| figure.wrapping_sub(1);
    match random.below(8) {
        0 => row.max = random.pick(&[0, 14, 15, 200, 201, before(row.present)]),
        1 => row.pps = random.pick(&[0, 1, 2, 255]),
        2 => row.cable = random.pick(&[0, 1, 3, 5, 99, 100, 256, 499, 500, 501, 512, u16::MAX]),
        3 => row.present = random.pick(&[0, 1, row.max, past(row.max), row.held, before(row.held)]),
        4 => row.held = random.pick(&[0, 14, 15, 16, row.present, past(row.present), u16::MAX]),
        // All of M held: alone it is sound, and the sum may not be.
        5 | 6 => {
            row.cable = profiles::cable(random);
            row.present = row.max;
            row.held = row.max;
        }
        _ => row = stray(random),
    }
    row
}
