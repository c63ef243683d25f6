//! One sharing call, made by value and over lent rows, with something past the count.

use crate::common::by_value::{row_of, stand};
use arinduleu::lists::{Listing, Words};
use arinduleu::ports::{Change, Row};
use arinduleu::steps::{HalfWatts, Ma10};
use arinduleu::verdicts::Verdict;
use arinduleu::{board, ports};

/// M, PPS wanted, cable, P, held.
pub const fn row(max: u16, pps: u8, cable: u16, present: u16, held: u16) -> Row {
    Row {
        max: HalfWatts(max),
        pps,
        cable: Ma10(cable),
        present: HalfWatts(present),
        held: HalfWatts(held),
    }
}

pub const fn empty(max: u16, pps: u8) -> Row {
    row(max, pps, 0, 0, 15)
}

/// Stands in every place past the count: it would be refused if it were looked at, and shows if it is written.
pub const PAST: Row = row(65535, 255, 65535, 65535, 65535);

/// The console's nine rows at most, and one more that is always past the count.
pub type Places = [Row; 10];

pub fn places(rows: &[Row]) -> Places {
    let mut all = [PAST; 10];
    all[..rows.len()].copy_from_slice(rows);
    all
}

#[derive(Clone, Copy, Debug)]
pub enum Call {
    SetUp,
    Attach(u8, u16),
    Advertise(u8),
    Request(u8, u32),
    Detach(u8),
    Remaining,
}

/// A call that gives no list has an empty one here, and one that gives no power has none.
#[derive(Debug, PartialEq)]
pub struct Answer {
    pub verdict: Verdict,
    pub list: Words,
    pub power: u16,
}

pub fn judged(verdict: Verdict) -> Answer {
    let list = Words {
        words: [0; 7],
        count: 0,
    };
    listed(Listing { verdict, list })
}

fn listed(listing: Listing) -> Answer {
    Answer {
        verdict: listing.verdict,
        list: listing.list,
        power: 0,
    }
}

fn left(left: ports::RemainingPower) -> Answer {
    Answer {
        power: left.power.0,
        ..judged(left.verdict)
    }
}

/// What the call decides, and all places once the rows that it names are written.
pub fn by_value(all: Places, count: usize, capacity: u16, call: Call) -> (Answer, Places) {
    let standing = stand(&all, count, capacity, matches!(call, Call::SetUp));
    let own = |port| row_of(&all, count, standing, port);
    let watts = HalfWatts(capacity);
    let mut after = all;
    let mut put = |change: Change| {
        if change.at < count {
            after[change.at] = change.row;
        }
        change
    };
    let answer = match call {
        Call::SetUp => {
            let n = ports::all_or_none(standing);
            after[..n].iter_mut().for_each(|r| *r = ports::emptied(*r));
            judged(standing.fault)
        }
        Call::Attach(port, cable) => {
            let change = put(ports::attach(standing, own(port), watts, port, Ma10(cable)));
            listed(ports::offer(change))
        }
        Call::Advertise(port) => {
            let change = put(ports::advertise(standing, own(port), watts, port));
            listed(ports::offer(change))
        }
        Call::Request(port, word) => {
            judged(put(ports::request(standing, own(port), watts, port, word)).answer)
        }
        Call::Detach(port) => judged(put(ports::detach(standing, own(port), watts, port)).answer),
        Call::Remaining => left(ports::remaining(standing, watts)),
    };
    (answer, after)
}

pub fn lent(rows: &mut [Row], capacity: u16, call: Call) -> Answer {
    match call {
        Call::SetUp => judged(board::arin_set_up(rows, capacity)),
        Call::Attach(port, cable) => listed(board::arin_attach(rows, capacity, port, cable)),
        Call::Advertise(port) => listed(board::arin_advertise(rows, capacity, port)),
        Call::Request(port, word) => judged(board::arin_request(rows, capacity, port, word)),
        Call::Detach(port) => judged(board::arin_detach(rows, capacity, port)),
        Call::Remaining => left(board::arin_remaining(rows, capacity)),
    }
}
