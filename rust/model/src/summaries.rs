//! Summaries (T-06): making one of a list, decoding a request, and answering from these two alone.

use crate::answers::*;
use crate::lists::{check_count, scan};
use crate::requests::{current, maximum, mismatch, operating, position, volts};
use crate::{DecodedRequest, Figures, FlatRequest, FlatTaken, Object};
use crate::{Summarized, Summary, Taken, Verdict, Words};

/// Voltages in millivolts.
const V9: u16 = 9000;
const V15: u16 = 15_000;
const V20: u16 = 20_000;

/// "*Making* a summary refuses exactly what the shape check refuses, with the same number and
/// place; the summary is then all zero, its count too."
pub fn summarize(list: &Words) -> Summarized {
    let mut rows = [[0; 4]; 7];
    match scan(&list.words, list.count, |at, object| rows[at] = limits(&object)) {
        Ok(()) => {
            Summarized { verdict: Verdict::default(), summary: Summary { count: list.count, rows } }
        }
        Err(verdict) => Summarized { verdict, summary: Summary::default() },
    }
}

/// The row of an object from a word: 10 bits of 50 mV, and 8 of 100 mV, are below 65536 mV.
#[inline]
fn limits(object: &Object) -> [u16; 4] {
    match *object {
        Object::Fixed { volts, current, .. } => {
            [50 * volts, 50 * volts, 10 * current, 10 * current]
        }
        // "a battery row has no power"
        Object::Battery { max, min, .. } => [50 * min, 50 * max, 0, 0],
        Object::Variable { max, min, current } => [50 * min, 50 * max, 10 * current, 10 * current],
        Object::Pps { max, min, current, .. } => [100 * min, 100 * max, 50 * current, 50 * current],
        Object::Avs { low, high, .. } => {
            let end = if high == 0 { V15 } else { V20 };
            [V9, end, 10 * low, 10 * high]
        }
    }
}

/// "looks at the count of the list and at the word that is named, at nothing else"
pub fn take_request(list: &Words, word: u32) -> Taken {
    let kind = match named_kind(list, position(word)) {
        Ok(kind) => kind,
        Err(verdict) => return Taken::Refused(verdict),
    };
    let figures = match kind {
        0 => Figures::Fixed { operating: operating(word), maximum: maximum(word) },
        1 => return Taken::Battery,
        2 => Figures::Variable { operating: operating(word), maximum: maximum(word) },
        3 => Figures::Pps { volts: volts(word), current: current(word) },
        _ => Figures::Avs { volts: volts(word), current: current(word) },
    };
    Taken::Decoded(DecodedRequest { position: position(word), mismatch: mismatch(word), figures })
}

/// The kind of the named word by its number in C. "10, 20, 12", the last at the place of the word,
/// be it the first word too.
#[inline]
fn named_kind(list: &Words, place: u8) -> Result<u8, Verdict> {
    check_count(list.count)?;
    if place == 0 || place > list.count {
        return refuse(POSITION, 0);
    }
    match list.words[usize::from(place) - 1] >> 28 {
        0b0000..=0b0011 => Ok(0),
        0b0100..=0b0111 => Ok(1),
        0b1000..=0b1011 => Ok(2),
        0b1100 => Ok(3),
        0b1110 => Ok(4),
        _ => refuse(KIND, place),
    }
}

/// "A summary may hold any numbers", and so may the request.
pub fn answer_summary(summary: &Summary, request: &DecodedRequest) -> Verdict {
    verdict(check_row(summary, request))
}

/// "10, 20, 23, 22, 24, 25"
#[inline]
fn check_row(summary: &Summary, request: &DecodedRequest) -> Result<(), Verdict> {
    if summary.count > 7 {
        return refuse(COUNT, 0);
    }
    if request.position == 0 || request.position > summary.count {
        return refuse(POSITION, 0);
    }
    // "The row of the position is taken as it stands, whatever object it was made from".
    let row = &summary.rows[usize::from(request.position) - 1];
    match request.figures {
        Figures::Fixed { operating, maximum } | Figures::Variable { operating, maximum } => {
            check_figures(row, operating, maximum, request.mismatch)
        }
        Figures::Pps { volts, current } => check_volts(row, 20 * u32::from(volts), current),
        Figures::Avs { volts, .. } if volts & 0b11 != 0 => refuse(NOT_WHOLE, 0),
        Figures::Avs { volts, current } => check_volts(row, 25 * u32::from(volts), current),
    }
}

/// "A fixed and a variable request ask for no voltage: their limit is that below 15.0 V".
#[inline]
fn check_figures(
    row: &[u16; 4],
    operating: u16,
    maximum: u16,
    mismatch: bool,
) -> Result<(), Verdict> {
    let limit = u32::from(row[2]);
    if 10 * u32::from(operating) > limit {
        return refuse(OPERATING, 0);
    }
    if 10 * u32::from(maximum) > limit && !mismatch {
        return refuse(MAXIMUM, 0);
    }
    Ok(())
}

/// The voltage in millivolts, the current in 50 mA. Both are worked out in 32 bits: an AVS voltage
/// of 4095 steps is 102375 mV.
#[inline]
fn check_volts(row: &[u16; 4], volts: u32, current: u16) -> Result<(), Verdict> {
    let [lowest, highest, below, above] = *row;
    if volts < u32::from(lowest) || volts > u32::from(highest) {
        return refuse(OUT_OF_RANGE, 0);
    }
    let limit = if volts < u32::from(V15) {
        below
    } else if volts > u32::from(V15) {
        above
    } else {
        below.max(above)
    };
    if 50 * u32::from(current) > u32::from(limit) {
        return refuse(OPERATING, 0);
    }
    Ok(())
}

/// "Fields that the kind does not have [...] are zero in what is given back."
pub fn flatten_request(request: &DecodedRequest) -> FlatRequest {
    let zero = FlatRequest {
        position: request.position,
        mismatch: u8::from(request.mismatch),
        ..FlatRequest::default()
    };
    match request.figures {
        Figures::Fixed { operating, maximum } => {
            FlatRequest { kind: 0, operating, maximum, ..zero }
        }
        Figures::Variable { operating, maximum } => {
            FlatRequest { kind: 2, operating, maximum, ..zero }
        }
        Figures::Pps { volts, current } => {
            FlatRequest { kind: 3, volts20: volts, current50: current, ..zero }
        }
        Figures::Avs { volts, current } => {
            FlatRequest { kind: 4, volts25: volts, current50: current, ..zero }
        }
    }
}

/// Bit 26 "is a number there", "and any other than 0 counts as set".
pub fn raise_request(flat: &FlatRequest) -> Option<DecodedRequest> {
    let figures = match flat.kind {
        0 => Figures::Fixed { operating: flat.operating, maximum: flat.maximum },
        2 => Figures::Variable { operating: flat.operating, maximum: flat.maximum },
        3 => Figures::Pps { volts: flat.volts20, current: flat.current50 },
        4 => Figures::Avs { volts: flat.volts25, current: flat.current50 },
        _ => return None,
    };
    Some(DecodedRequest { position: flat.position, mismatch: flat.mismatch != 0, figures })
}

/// As `take_request`, without a decoded request in between. For a battery object "the kind, the
/// position and bit 26 are given back, and all else is zero".
pub fn flat_take_request(list: &Words, word: u32) -> FlatTaken {
    let kind = match named_kind(list, position(word)) {
        Ok(kind) => kind,
        Err(verdict) => return FlatTaken { verdict, ..FlatTaken::default() },
    };
    let plain = FlatRequest {
        kind,
        position: position(word),
        mismatch: u8::from(mismatch(word)),
        ..FlatRequest::default()
    };
    let request = match kind {
        0 | 2 => FlatRequest { operating: operating(word), maximum: maximum(word), ..plain },
        3 => FlatRequest { volts20: volts(word), current50: current(word), ..plain },
        4 => FlatRequest { volts25: volts(word), current50: current(word), ..plain },
        _ => plain,
    };
    FlatTaken { verdict: Verdict::default(), request }
}

/// A kind that has no decoded request "is refused with 12, before the summary is looked at", at
/// place 0.
pub fn flat_answer_summary(summary: &Summary, request: &FlatRequest) -> Verdict {
    match raise_request(request) {
        Some(request) => answer_summary(summary, &request),
        None => Verdict { number: KIND, place: 0 },
    }
}
