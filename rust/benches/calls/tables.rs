//! Seeded rows of ports, as a board has them after some calls.

use crate::inputs::{cable, many, Dice, Turn};
use crate::lists::row_list;
use crate::objects::request;
use crate::wrappers::library::{self, advertise, attach, detach, set_up};
use arinduleu::ports::Row;
use arinduleu::steps::{HalfWatts, Ma10};

pub const NO_ROW: Row = Row {
    max: HalfWatts(0),
    pps: 0,
    cable: Ma10(0),
    present: HalfWatts(0),
    held: HalfWatts(0),
};

/// One to eight rows, and a capacity from what they must have to what they could use.
fn lent(dice: &mut Dice) -> Turn {
    let count = usize::from(dice.from(1, 8));
    let mut rows = [NO_ROW; 9];
    for row in &mut rows[..count] {
        row.max = HalfWatts(dice.from(15, 200));
        row.pps = dice.below(2) as u8;
    }
    let wanted = rows.iter().map(|row| row.max.0).sum();
    let capacity = dice.from(15 * count as u16, wanted);
    Turn {
        rows,
        count,
        capacity,
        port: 1,
        cable: cable(dice),
        word: 0,
    }
}

fn word_for(dice: &mut Dice, row: Row) -> u32 {
    let list = row_list(row.max, row.present, row.cable, row.pps);
    request(dice, list)
}

fn step(dice: &mut Dice, turn: &mut Turn) {
    let at = dice.below(turn.count as u32) as usize;
    let (rows, port) = (&mut turn.rows[..turn.count], at as u8 + 1);
    if rows[at].cable.0 == 0 {
        attach(rows, turn.capacity, port, cable(dice));
        return;
    }
    match dice.below(4) {
        0 => drop(detach(rows, turn.capacity, port)),
        1 => drop(advertise(rows, turn.capacity, port)),
        _ => {
            let word = word_for(dice, rows[at]);
            library::request(rows, turn.capacity, port, word);
        }
    }
}

/// Four calls for each port since set-up.
fn in_use(dice: &mut Dice) -> Turn {
    let mut turn = lent(dice);
    set_up(&mut turn.rows[..turn.count], turn.capacity);
    for _ in 0..4 * turn.count {
        step(dice, &mut turn);
    }
    turn
}

/// One in sixteen has a row that is not sound, or a bad capacity, or too many rows.
fn spoil(dice: &mut Dice, turn: &mut Turn) {
    if !dice.one_in(16) {
        return;
    }
    let at = dice.below(turn.count as u32) as usize;
    match dice.below(4) {
        0 => turn.rows[at].held = HalfWatts(14),
        1 => turn.rows[at].max = HalfWatts(201),
        2 => turn.capacity = 1601,
        _ => turn.count = 9,
    }
}

/// A port that suits the call, where there is one; one in sixteen is any, or none of the rows.
fn choose(dice: &mut Dice, turn: &mut Turn, suits: impl Fn(&Row) -> bool) {
    let ports: Vec<u8> = (0..turn.count)
        .filter(|at| suits(&turn.rows[*at]))
        .map(|at| at as u8 + 1)
        .collect();
    turn.port = match ports.is_empty() || dice.one_in(16) {
        true => dice.below(10) as u8,
        false => ports[dice.below(ports.len() as u32) as usize],
    };
    let at = usize::from(turn.port).saturating_sub(1).min(turn.count - 1);
    turn.word = word_for(dice, turn.rows[at]);
}

fn turns(seed: u64, suits: impl Fn(&Row) -> bool) -> Vec<Turn> {
    many(seed, |dice| {
        let mut turn = loop {
            let turn = in_use(dice);
            if turn.rows[..turn.count].iter().any(&suits) {
                break turn;
            }
        };
        choose(dice, &mut turn, &suits);
        spoil(dice, &mut turn);
        turn
    })
}

pub fn with_an_empty_port() -> Vec<Turn> {
    turns(20, |row| row.cable.0 == 0)
}

/// Of the requests one in four has a bit turned; others are refused with 36 where the other ports hold too much.
pub fn with_a_port_in_use() -> Vec<Turn> {
    turns(21, |row| row.cable.0 != 0)
}

pub fn any() -> Vec<Turn> {
    turns(22, |_| true)
}

/// Rows before set-up, with whatever the memory had in the rest of the row.
pub fn fresh() -> Vec<Turn> {
    many(23, |dice| {
        let mut turn = lent(dice);
        for row in &mut turn.rows {
            row.cable = Ma10(dice.any() as u16);
            row.present = HalfWatts(dice.any() as u16);
            row.held = HalfWatts(dice.any() as u16);
        }
        spoil(dice, &mut turn);
        turn
    })
}
