//! The calls of `ports` by value, once more and in plain Rust, for a standing and a row that can be anything. What one row alone, one list
//! and one request are told is the model's to say.

use crate::common::convert::{ToLibrary, ToModel};
use arinduleu::ports::{Change, Standing};
use model::{Listing, Object, Profile, RemainingPower, Request, Row, Verdict, Words};

type Judged = Result<(), Verdict>;

fn refuse_if(applies: bool, number: u8, place: u8) -> Judged {
    match applies {
        true => Err(Verdict { number, place }),
        false => Ok(()),
    }
}

fn so_far(verdict: Verdict) -> Judged {
    refuse_if(verdict.number != 0, verdict.number, verdict.place)
}

fn verdict(judged: Judged) -> Verdict {
    judged.err().unwrap_or_default()
}

/// 30: "number of rows outside 1 to 8"; 32: "capacity outside 15 times the number of rows to 1600".
pub fn begin(count: usize, capacity: u16) -> Standing {
    let table = || {
        refuse_if(!(1..=8).contains(&count), 30, 0)?;
        refuse_if(!(15 * count..=1600).contains(&usize::from(capacity)), 32, 0)
    };
    Standing {
        fault: verdict(table()).library(),
        count,
        held: 0,
    }
}

pub fn goes_on(standing: Standing, judged: usize) -> bool {
    standing.fault.number == 0 && judged < standing.count
}

/// The first refusal stays. At set-up a row can get 31 and 4, else 37; what the rows hold together is a 32-bit figure.
pub fn take_row(standing: Standing, row: Row, place: u8, fresh: bool) -> Standing {
    if standing.fault.number != 0 {
        return standing;
    }
    let alone = match fresh {
        true => model::set_up(&mut [row], 1600),
        false => model::remaining(&[row], 1600).verdict,
    };
    Standing {
        fault: verdict(refuse_if(alone.number != 0, alone.number, place)).library(),
        count: standing.count,
        held: ((u64::from(standing.held) + u64::from(row.held)) % (1 << 32)) as u32,
    }
}

pub fn all_or_none(standing: Standing) -> usize {
    match standing.fault.number {
        0 => standing.count,
        _ => 0,
    }
}

/// Ports count from 1. Past the end after a refusal, and where there is no port.
pub fn place_of(standing: Standing, port: u8) -> usize {
    match (standing.fault.number, port) {
        (0, 1..) => usize::from(port) - 1,
        _ => standing.count,
    }
}

/// The first refusal so far, then 37 for the sum, with place 0.
fn end(standing: Standing, capacity: u16) -> Judged {
    so_far(standing.fault.model())?;
    refuse_if(standing.held > u32::from(capacity), 37, 0)
}

/// .. then 33: "port outside 1 to the number of rows".
fn port_end(standing: Standing, capacity: u16, port: u8) -> Judged {
    end(standing, capacity)?;
    refuse_if(!(1..=standing.count).contains(&usize::from(port)), 33, 0)
}

/// .. then 35: "the port is not attached", with the row's place.
fn use_end(standing: Standing, row: Row, capacity: u16, port: u8) -> Judged {
    port_end(standing, capacity, port)?;
    refuse_if(row.cable == 0, 35, port)
}

/// "the capacity less what all other rows hold": the row's own is in the sum.
pub fn left(standing: Standing, row: Row, capacity: u16) -> u32 {
    u32::from(capacity) - standing.held + u32::from(row.held)
}

/// P becomes "the smaller of M and what the others leave".
fn offered(row: Row, left: u32, cable: u16) -> Row {
    Row {
        cable,
        present: u32::from(row.max).min(left) as u16,
        ..row
    }
}

/// "on a refusal none is" written: past the last row there is none.
fn change(standing: Standing, port: u8, decided: Result<Row, Verdict>) -> Change {
    let (answer, at, row) = match decided {
        Ok(row) => (Verdict::default(), usize::from(port) - 1, row),
        Err(refusal) => (refusal, standing.count, Row::default()),
    };
    Change {
        answer: answer.library(),
        at,
        row: row.library(),
    }
}

/// 3: "cable outside 100 to 500"; 34: "attach to a port that is attached", with the row's place.
pub fn attach(standing: Standing, row: Row, capacity: u16, port: u8, cable: u16) -> Change {
    let decided = || {
        port_end(standing, capacity, port)?;
        refuse_if(!(100..=500).contains(&cable), 3, 0)?;
        refuse_if(row.cable != 0, 34, port)?;
        Ok(offered(row, left(standing, row, capacity), cable))
    };
    change(standing, port, decided())
}

pub fn advertise(standing: Standing, row: Row, capacity: u16, port: u8) -> Change {
    let decided = || {
        use_end(standing, row, capacity, port)?;
        Ok(offered(row, left(standing, row, capacity), row.cable))
    };
    change(standing, port, decided())
}

/// The list of the row that is written. A row that is not sound can have none: the builder's own refusal says why.
pub fn offer(change: Change) -> Listing {
    let verdict = change.answer.model();
    match verdict.number {
        0 => model::build(&rule_profile(change.row.model())),
        _ => Listing {
            verdict,
            list: Words::default(),
        },
    }
}

/// "held becomes the power of the request"; 36 "exactly when its power is more than the others leave", with the row's place. The request's own refusals are those of the row's list, be it empty.
pub fn request(standing: Standing, row: Row, capacity: u16, port: u8, word: u32) -> Change {
    let decided = || {
        use_end(standing, row, capacity, port)?;
        let list = rule_list(row);
        so_far(model::answer(&list, word))?;
        let held = power(&list, word, row.present).max(15);
        refuse_if(held > left(standing, row, capacity), 36, port)?;
        let held = held.try_into().expect("a built list offers 100 W at most");
        Ok(Row { held, ..row })
    };
    change(standing, port, decided())
}

/// "empties the attached port"
pub fn detach(standing: Standing, row: Row, capacity: u16, port: u8) -> Change {
    let empty = Row {
        cable: 0,
        present: 0,
        held: 15,
        ..row
    };
    let decided = use_end(standing, row, capacity, port).map(|()| empty);
    change(standing, port, decided)
}

/// "the capacity less what all rows hold"
pub fn remaining(standing: Standing, capacity: u16) -> RemainingPower {
    let judged = end(standing, capacity);
    let power = match judged {
        Ok(()) => u32::from(capacity) - standing.held,
        Err(_) => 0,
    };
    RemainingPower {
        verdict: verdict(judged),
        power: power as u16,
    }
}

/// "rounding down, without flags, and with PPS wherever PPS is wanted and P is equal to M"
fn rule_profile(row: Row) -> Profile {
    Profile {
        max: row.max,
        present: row.present,
        cable: row.cable,
        rounding: 0,
        pps: u8::from(row.pps == 1 && row.present == row.max),
        flags: 0,
    }
}

/// The list that a request of this row is judged on: empty where none can be built.
pub fn rule_list(row: Row) -> Words {
    model::build(&rule_profile(row)).list
}

/// The power of a request in half watts, "for PPS at most P".
fn power(list: &Words, word: u32, present: u16) -> u32 {
    match asked(list, word) {
        (Object::Pps { .. }, power) => power.min(u32::from(present)),
        (_, power) => power,
    }
}

/// The object that is named on a built list, and the half watts that are asked of it, rounded up, before anything is cut.
pub fn asked(list: &Words, word: u32) -> (Object, u32) {
    let at = usize::from(model::position(word)) - 1;
    let object = model::decode(list.words[at]).expect("a built word has a kind");
    let (mv, ma) = match (object, model::take_apart(&object, word).request) {
        (Object::Fixed { volts, .. }, Request::Fixed { operating, .. }) => {
            (volts * 50, operating * 10)
        }
        (_, Request::Pps { volts, current }) => (volts * 20, current * 50),
        (_, Request::Avs { volts, current }) => (volts * 25, current * 50),
        _ => panic!("a built list has no battery and no variable object"),
    };
    (object, (u32::from(mv) * u32::from(ma)).div_ceil(500_000))
}
