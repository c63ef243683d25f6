//! Sink lists (T-04): their words, the shape check, reading, writing, and the design rating. "What
//! this section does not say otherwise is as on the source side", so the bounds are those of lists.

use crate::answers::*;
use crate::lists::{check_count, refuse_kind, within_100_watts};
use crate::lists::{MOST_100MV, MOST_50MV, MOST_BATTERY, V20, V5};
use crate::words::{decode, put, reserved_bit_set, take};
use crate::{FlatObject, FlatObjects, FlatReading, Listing, Object, Side};
use crate::{SinkObject, SinkObjects, SinkReading, Verdict, Words};

/// What a place past the count holds: "a fixed object with all its fields zero".
pub const SINK_NOTHING: SinkObject = SinkObject::Fixed { flags: 0, volts: 0, current: 0 };

/// Voltages of PPS objects, in 100 mV.
const PPS_5V: u16 = 50;
const PPS_11V: u16 = 110;
const PPS_16V: u16 = 160;
const PPS_21V: u16 = 210;

#[inline]
pub fn sink_decode(word: u32) -> Option<SinkObject> {
    let object = match word >> 28 {
        0b0000..=0b0011 => SinkObject::Fixed {
            flags: take(word, 23, 7) as u8,
            volts: take(word, 10, 10),
            current: take(word, 0, 10),
        },
        0b0100..=0b0111 => SinkObject::Battery {
            max: take(word, 20, 10),
            min: take(word, 10, 10),
            power: take(word, 0, 10),
        },
        0b1000..=0b1011 => SinkObject::Variable {
            max: take(word, 20, 10),
            min: take(word, 10, 10),
            current: take(word, 0, 10),
        },
        0b1100 => SinkObject::Pps {
            max: take(word, 17, 8),
            min: take(word, 8, 8),
            current: take(word, 0, 7),
        },
        // "the kinds 1101b, 1110b and 1111b are not allowed"
        _ => return None,
    };
    Some(object)
}

#[inline]
pub fn sink_encode(object: &SinkObject) -> Option<u32> {
    let word = match *object {
        SinkObject::Fixed { flags, volts, current } => {
            put(flags, 23, 7)? | put(volts, 10, 10)? | put(current, 0, 10)?
        }
        SinkObject::Battery { max, min, power } => {
            0b01 << 30 | put(max, 20, 10)? | put(min, 10, 10)? | put(power, 0, 10)?
        }
        SinkObject::Variable { max, min, current } => {
            0b10 << 30 | put(max, 20, 10)? | put(min, 10, 10)? | put(current, 0, 10)?
        }
        SinkObject::Pps { max, min, current } => {
            0b1100 << 28 | put(max, 17, 8)? | put(min, 8, 8)? | put(current, 0, 7)?
        }
    };
    Some(word)
}

#[inline]
pub fn sink_reserved_bit_set(object: &SinkObject, first: bool, word: u32) -> bool {
    let reserved = match object {
        // "fixed, the first word of a list": 22..20
        SinkObject::Fixed { .. } if first => 0b111 << 20,
        // "fixed, any later word": 29..20
        SinkObject::Fixed { .. } => 0x3FF << 20,
        SinkObject::Battery { .. } | SinkObject::Variable { .. } => 0,
        // "PPS": 27..25, 16, 7
        SinkObject::Pps { .. } => 0b111 << 25 | 1 << 16 | 1 << 7,
    };
    word & reserved != 0
}

pub fn sink_shape(list: &Words) -> Verdict {
    verdict(scan_sink(list, |_, _| {}))
}

pub fn sink_read(list: &Words) -> SinkReading {
    let mut places = [SINK_NOTHING; 7];
    match scan_sink(list, |at, object| places[at] = object) {
        Ok(()) => SinkReading {
            verdict: Verdict::default(),
            list: SinkObjects { places, count: list.count },
        },
        Err(verdict) => {
            SinkReading { verdict, list: SinkObjects { places: [SINK_NOTHING; 7], count: 0 } }
        }
    }
}

pub fn sink_write(list: &SinkObjects) -> Listing {
    listing(try_sink_write(list, 0))
}

/// "1; then as sink shape; then 43"
pub fn sink_check(rating: u16, list: &Words) -> Verdict {
    if !(1..=200).contains(&rating) {
        return Verdict { number: MAX_POWER, place: 0 };
    }
    let mut kept = true;
    match scan_sink(list, |_, object| kept &= keeps_to(rating, &object)) {
        Ok(()) if !kept => Verdict { number: CEILING, place: 0 },
        result => verdict(result),
    }
}

/// Whether the operating figure is at most its ceiling. A whole number is at most a quotient
/// rounded down exactly when its product with the divisor is at most the dividend. "A voltage of
/// zero sets no ceiling": its product is 0.
#[inline]
fn keeps_to(rating: u16, object: &SinkObject) -> bool {
    let rating = u32::from(rating);
    let product = |volts: u16, current: u16| u32::from(volts) * u32::from(current);
    match *object {
        SinkObject::Fixed { volts, current, .. } => product(volts, current) <= 1000 * rating,
        SinkObject::Battery { power, .. } => u32::from(power) <= 2 * rating,
        SinkObject::Variable { max, current, .. } => product(max, current) <= 1000 * rating,
        SinkObject::Pps { max, min, current } => {
            product(pps_volts(max, min), current) <= 100 * rating
        }
    }
}

/// The voltage to divide by: 9, 15 and 20 V for the three ranges that have a name, in 100 mV.
#[inline]
fn pps_volts(max: u16, min: u16) -> u16 {
    match (min, max) {
        (PPS_5V, PPS_11V) => 90,
        (PPS_5V, PPS_16V) => 150,
        (PPS_5V, PPS_21V) => 200,
        _ => max,
    }
}

/// "10; 7 at the first such object; then as sink shape from 11 on". The first object of no kind is
/// at the place `no_kind`, or nowhere if that is 0.
fn try_sink_write(list: &SinkObjects, no_kind: u8) -> Result<Words, Verdict> {
    check_count(list.count)?;
    let objects = &list.places[..usize::from(list.count)];
    let mut made = Words { words: [0; 7], count: list.count };
    for (place, (object, word)) in (1..).zip(objects.iter().zip(&mut made.words)) {
        *word = match sink_encode(object) {
            Some(word) => word,
            None => return refuse(TOO_WIDE, place),
        };
    }
    let mut scan = SinkScan { rank: 0, least: 0 };
    for (place, (object, word)) in (1..).zip(objects.iter().zip(&made.words)) {
        if place == no_kind {
            return refuse_kind(place);
        }
        scan.next(place, object, *word)?;
    }
    Ok(made)
}

/// The shape check, handing each object on with its index.
fn scan_sink(list: &Words, mut keep: impl FnMut(usize, SinkObject)) -> Result<(), Verdict> {
    check_count(list.count)?;
    let mut scan = SinkScan { rank: 0, least: 0 };
    for (at, &word) in list.words[..usize::from(list.count)].iter().enumerate() {
        let place = at as u8 + 1;
        let Some(object) = sink_decode(word) else {
            return refuse_kind(place);
        };
        scan.next(place, &object, word)?;
        keep(at, object);
    }
    Ok(())
}

/// The rank of the word before, and the least key that one more of that rank may have.
struct SinkScan {
    rank: u8,
    least: u16,
}

impl SinkScan {
    /// Number 11, then 13, 15, 16, 14 of one word.
    fn next(&mut self, place: u8, object: &SinkObject, word: u32) -> Result<(), Verdict> {
        if place == 1 && !matches!(object, SinkObject::Fixed { volts: V5, .. }) {
            return refuse(FIRST_OBJECT, 1);
        }
        if sink_reserved_bit_set(object, place == 1, word) {
            return refuse(RESERVED, place);
        }
        let (voltage_good, power_good, rank, key, least) = match *object {
            SinkObject::Fixed { volts, current, .. } => {
                (volts <= V20, within_100_watts(volts, current), 0, volts, volts + 1)
            }
            SinkObject::Battery { max, min, power } => {
                (max <= MOST_50MV && min <= max, power <= MOST_BATTERY, 1, min, min)
            }
            SinkObject::Variable { max, min, current } => {
                (max <= MOST_50MV && min <= max, within_100_watts(max, current), 2, min, min)
            }
            SinkObject::Pps { max, min, .. } => {
                (max <= MOST_100MV && min <= max, true, 3, max, max)
            }
        };
        if !voltage_good {
            return refuse(VOLTAGE, place);
        }
        if !power_good {
            return refuse(POWER, place);
        }
        if rank < self.rank || (rank == self.rank && key < self.least) {
            return refuse(ORDER, place);
        }
        self.rank = rank;
        self.least = least;
        Ok(())
    }
}

/// "Peak current and power limited are fields that no sink object has: they are [...] zero in what
/// is given back."
pub fn sink_flatten(object: &SinkObject) -> FlatObject {
    let zero = FlatObject::default();
    match *object {
        SinkObject::Fixed { flags, volts, current } => {
            FlatObject { kind: 0, flags, volts, current, ..zero }
        }
        SinkObject::Battery { max, min, power } => FlatObject { kind: 1, max, min, power, ..zero },
        SinkObject::Variable { max, min, current } => {
            FlatObject { kind: 2, max, min, current, ..zero }
        }
        SinkObject::Pps { max, min, current } => {
            FlatObject { kind: 3, max100: max, min100: min, current50: current, ..zero }
        }
    }
}

pub fn sink_raise(flat: &FlatObject) -> Option<SinkObject> {
    let object = match flat.kind {
        0 => SinkObject::Fixed { flags: flat.flags, volts: flat.volts, current: flat.current },
        1 => SinkObject::Battery { max: flat.max, min: flat.min, power: flat.power },
        2 => SinkObject::Variable { max: flat.max, min: flat.min, current: flat.current },
        3 => SinkObject::Pps { max: flat.max100, min: flat.min100, current: flat.current50 },
        // "4 is not a sink's kind"
        _ => return None,
    };
    Some(object)
}

pub fn sink_flat_read(list: &Words) -> FlatReading {
    let mut places = [FlatObject::default(); 7];
    match scan_sink(list, |at, object| places[at] = sink_flatten(&object)) {
        Ok(()) => FlatReading {
            verdict: Verdict::default(),
            list: FlatObjects { places, count: list.count },
        },
        Err(verdict) => FlatReading { verdict, list: FlatObjects::default() },
    }
}

pub fn sink_flat_write(list: &FlatObjects) -> Listing {
    // An object of no kind has no field that could be too wide; nor has `SINK_NOTHING` in its
    // place.
    let mut objects = SinkObjects { places: [SINK_NOTHING; 7], count: list.count };
    let mut no_kind = 0;
    let places = list.places.iter().zip(&mut objects.places);
    for (place, (flat, object)) in (1..=list.count).zip(places) {
        match sink_raise(flat) {
            Some(known) => *object = known,
            None if no_kind == 0 => no_kind = place,
            None => {}
        }
    }
    listing(try_sink_write(&objects, no_kind))
}

/// "for a sink AVS is not allowed either, and every other word is as above"
pub fn decode_for(side: Side, word: u32) -> Option<Object> {
    match decode(word) {
        Some(Object::Avs { .. }) if side == Side::Sink => None,
        object => object,
    }
}

/// "the bits of an AVS object, which no sink has, are the same for both sides"
pub fn reserved_bit_set_for(side: Side, object: &Object, first: bool, word: u32) -> bool {
    match (side, without_source_fields(object)) {
        (Side::Sink, Some(object)) => sink_reserved_bit_set(&object, first, word),
        _ => reserved_bit_set(object, first, word),
    }
}

/// "A sink has no peak current and no power limited, and no AVS object".
fn without_source_fields(object: &Object) -> Option<SinkObject> {
    let object = match *object {
        Object::Fixed { flags, volts, current, .. } => SinkObject::Fixed { flags, volts, current },
        Object::Battery { max, min, power } => SinkObject::Battery { max, min, power },
        Object::Variable { max, min, current } => SinkObject::Variable { max, min, current },
        Object::Pps { max, min, current, .. } => SinkObject::Pps { max, min, current },
        Object::Avs { .. } => return None,
    };
    Some(object)
}
