//! Ports that share.

use crate::answers::*;
use crate::requests::{ask, power};
use crate::rules::{is_cable, make};
use crate::{Listing, Profile, RemainingPower, Row, Verdict, Words};

/// The power every port holds at least, in half watts.
const LEAST: u16 = 15;

pub fn set_up(rows: &mut [Row], capacity: u16) -> Verdict {
    verdict(try_set_up(rows, capacity))
}

fn try_set_up(rows: &mut [Row], capacity: u16) -> Result<(), Verdict> {
    check_capacity(rows, capacity)?;
    for (place, row) in (1..).zip(rows.iter()) {
        if !(LEAST..=200).contains(&row.max) {
            return refuse(ROW_MAX, place);
        }
        if row.pps > 1 {
            return refuse(CHOICE, place);
        }
    }
    for row in rows {
        empty(row);
    }
    Ok(())
}

pub fn attach(rows: &mut [Row], capacity: u16, port: u8, cable: u16) -> Listing {
    listing(try_attach(rows, capacity, port, cable))
}

fn try_attach(rows: &mut [Row], capacity: u16, port: u8, cable: u16) -> Result<Words, Verdict> {
    let (row, room) = find(rows, capacity, port)?;
    if !is_cable(cable) {
        return refuse(CABLE, 0);
    }
    if row.cable != 0 {
        return refuse(IN_USE, port);
    }
    row.cable = cable;
    row.present = row.max.min(room);
    Ok(rule_list(row))
}

pub fn advertise(rows: &mut [Row], capacity: u16, port: u8) -> Listing {
    listing(try_advertise(rows, capacity, port))
}

fn try_advertise(rows: &mut [Row], capacity: u16, port: u8) -> Result<Words, Verdict> {
    let (row, room) = find_attached(rows, capacity, port)?;
    row.present = row.max.min(room);
    Ok(rule_list(row))
}

pub fn request(rows: &mut [Row], capacity: u16, port: u8, word: u32) -> Verdict {
    verdict(try_request(rows, capacity, port, word))
}

fn try_request(rows: &mut [Row], capacity: u16, port: u8, word: u32) -> Result<(), Verdict> {
    let (row, room) = find_attached(rows, capacity, port)?;
    let object = ask(&rule_list(row), word)?;
    let held = power(&object, word, row.present).max(LEAST);
    if held > room {
        return refuse(NO_POWER, port);
    }
    row.held = held;
    Ok(())
}

pub fn detach(rows: &mut [Row], capacity: u16, port: u8) -> Verdict {
    verdict(try_detach(rows, capacity, port))
}

fn try_detach(rows: &mut [Row], capacity: u16, port: u8) -> Result<(), Verdict> {
    let (row, _) = find_attached(rows, capacity, port)?;
    empty(row);
    Ok(())
}

pub fn remaining(rows: &[Row], capacity: u16) -> RemainingPower {
    match all_held(rows, capacity) {
        Ok(held) => RemainingPower { verdict: Verdict::default(), power: capacity - held },
        Err(verdict) => RemainingPower { verdict, power: 0 },
    }
}

/// The column "empty port" of the rows.
fn empty(row: &mut Row) {
    row.cable = 0;
    row.present = 0;
    row.held = LEAST;
}

/// "rounding down, without flags, and with PPS wherever PPS is wanted and P is equal to M". A sound
/// row makes a good profile.
fn rule_list(row: &Row) -> Words {
    make(&Profile {
        max: row.max,
        present: row.present,
        cable: row.cable,
        rounding: 0,
        pps: u8::from(row.pps == 1 && row.present == row.max),
        flags: 0,
    })
}

/// Numbers 30 and 32.
fn check_capacity(rows: &[Row], capacity: u16) -> Result<(), Verdict> {
    if !(1..=8).contains(&rows.len()) {
        return refuse(ROW_COUNT, 0);
    }
    if !(LEAST * rows.len() as u16..=1600).contains(&capacity) {
        return refuse(CAPACITY, 0);
    }
    Ok(())
}

/// Numbers 30, 32 and 37; all held power together.
fn all_held(rows: &[Row], capacity: u16) -> Result<u16, Verdict> {
    check_capacity(rows, capacity)?;
    let mut held = 0;
    for (place, row) in (1..).zip(rows) {
        if !sound(row) {
            return refuse(NOT_SOUND, place);
        }
        held += row.held;
    }
    if held > capacity {
        return refuse(NOT_SOUND, 0);
    }
    Ok(held)
}

fn sound(row: &Row) -> bool {
    if !(LEAST..=200).contains(&row.max) || row.pps > 1 {
        return false;
    }
    match row.cable {
        0 => row.present == 0 && row.held == LEAST,
        cable if is_cable(cable) => {
            LEAST <= row.held && row.held <= row.present && row.present <= row.max
        }
        _ => false,
    }
}

/// Numbers 30, 32, 37 and 33; the port's row and what the others leave for it.
fn find(rows: &mut [Row], capacity: u16, port: u8) -> Result<(&mut Row, u16), Verdict> {
    let held = all_held(rows, capacity)?;
    if port == 0 || usize::from(port) > rows.len() {
        return refuse(PORT, 0);
    }
    let row = &mut rows[usize::from(port) - 1];
    let room = capacity - (held - row.held);
    Ok((row, room))
}

/// `find`, then number 35.
fn find_attached(rows: &mut [Row], capacity: u16, port: u8) -> Result<(&mut Row, u16), Verdict> {
    let (row, room) = find(rows, capacity, port)?;
    if row.cable == 0 {
        return refuse(NOT_ATTACHED, port);
    }
    Ok((row, room))
}
