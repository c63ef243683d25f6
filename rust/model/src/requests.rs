//! Answering a request.

use crate::answers::*;
use crate::lists::{object_at, shape};
use crate::steps::round_up;
use crate::{Asked, Object, Request, Verdict, Words};

/// AVS voltages in 25 mV.
const AVS_9V: u16 = 360;
const AVS_15V: u16 = 600;
const AVS_20V: u16 = 800;

// "A reserved bit of a request is ignored" (T-01): 27 and 21 are in no field below, 20 is in the
// voltage alone, 8 and 7 in the maximum figure alone. Only fields are judged, so none is cleared.

pub fn position(word: u32) -> u8 {
    (word >> 28) as u8
}

pub fn mismatch(word: u32) -> bool {
    word >> 26 & 1 == 1
}

pub fn operating(word: u32) -> u16 {
    (word >> 10 & 0x3FF) as u16
}

pub fn maximum(word: u32) -> u16 {
    (word & 0x3FF) as u16
}

/// In 20 mV for PPS, in 25 mV for AVS.
pub fn volts(word: u32) -> u16 {
    (word >> 9 & 0xFFF) as u16
}

/// In 50 mA.
pub fn current(word: u32) -> u16 {
    (word & 0x7F) as u16
}

pub fn take_apart(object: &Object, word: u32) -> Asked {
    let (operating, maximum) = (operating(word), maximum(word));
    let (volts, current) = (volts(word), current(word));
    Asked {
        position: position(word),
        mismatch: mismatch(word),
        request: match object {
            Object::Fixed { .. } => Request::Fixed { operating, maximum },
            Object::Battery { .. } => Request::Battery { operating, maximum },
            Object::Variable { .. } => Request::Variable { operating, maximum },
            Object::Pps { .. } => Request::Pps { volts, current },
            Object::Avs { .. } => Request::Avs { volts, current },
        },
    }
}

/// "as shape; then 20, 23, 22, 24, 25"
pub fn answer(list: &Words, word: u32) -> Verdict {
    let verdict = shape(list);
    if verdict.number != 0 {
        return verdict;
    }
    ask(list, word).err().unwrap_or_default()
}

/// The object asked for, of a list whose shape is good.
pub fn ask(list: &Words, word: u32) -> Result<Object, Verdict> {
    let Some(object) = object_at(list, position(word)) else {
        return refuse(POSITION, 0);
    };
    check_object(&object, word)?;
    Ok(object)
}

/// A request judged by the object that it names: "23, 22, 24, 25".
pub fn judge(object: &Object, word: u32) -> Verdict {
    check_object(object, word).err().unwrap_or_default()
}

fn check_object(object: &Object, word: u32) -> Result<(), Verdict> {
    match *object {
        Object::Fixed { current, .. } | Object::Variable { current, .. } => {
            check_figures(current, word)
        }
        Object::Battery { power, .. } => check_figures(power, word),
        Object::Pps { max, min, current, .. } => check_pps(max, min, current, word),
        Object::Avs { low, high, .. } => check_avs(low, high, word),
    }
}

fn check_figures(advertised: u16, word: u32) -> Result<(), Verdict> {
    if operating(word) > advertised {
        return refuse(OPERATING, 0);
    }
    if maximum(word) > advertised && !mismatch(word) {
        return refuse(MAXIMUM, 0);
    }
    Ok(())
}

fn check_pps(max: u16, min: u16, advertised: u16, word: u32) -> Result<(), Verdict> {
    // The range is in 100 mV, five times the step of the request.
    let (min, max) = (u32::from(min) * 5, u32::from(max) * 5);
    if !(min..=max).contains(&u32::from(volts(word))) {
        return refuse(OUT_OF_RANGE, 0);
    }
    if current(word) > advertised {
        return refuse(OPERATING, 0);
    }
    Ok(())
}

fn check_avs(low: u16, high: u16, word: u32) -> Result<(), Verdict> {
    let volts = volts(word);
    if volts & 0b11 != 0 {
        return refuse(NOT_WHOLE, 0);
    }
    // "An AVS object whose second current is zero ends at 15 V."
    let end = if high == 0 { AVS_15V } else { AVS_20V };
    if !(AVS_9V..=end).contains(&volts) {
        return refuse(OUT_OF_RANGE, 0);
    }
    // "Both ranges hold 15.0 V, so a port that offers the larger current there grants it."
    let limit = if volts < AVS_15V {
        low
    } else if volts > AVS_15V {
        high
    } else {
        low.max(high)
    };
    // The limit is in 10 mA, a fifth of the step of the request.
    if 5 * current(word) > limit {
        return refuse(OPERATING, 0);
    }
    Ok(())
}

/// The power of an accepted request in half watts, rounded up; a rule list has no other kinds.
pub fn power(object: &Object, word: u32, present: u16) -> u16 {
    let requested = u32::from(volts(word)) * u32::from(current(word));
    let power = match *object {
        // 50 mV times 10 mA, a thousandth of a half watt.
        Object::Fixed { volts, .. } => {
            round_up(u32::from(volts) * u32::from(operating(word)), 1000)
        }
        // 20 mV times 50 mA.
        Object::Pps { .. } => round_up(requested, 500).min(u32::from(present)),
        // 25 mV times 50 mA.
        Object::Avs { .. } => round_up(requested, 400),
        Object::Battery { .. } | Object::Variable { .. } => 0,
    };
    power as u16
}
