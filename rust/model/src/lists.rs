//! Lists of words: the shape check, reading and writing.

use crate::answers::*;
use crate::words::{decode, encode, reserved_bit_set};
use crate::{Listing, Object, Objects, Reading, Verdict, Words};

/// Voltages of fixed objects, in 50 mV.
pub const V5: u16 = 100;
const V15: u16 = 300;
pub const V20: u16 = 400;

/// 21 V in 50 mV and in 100 mV, 100 W in 250 mW and in 50 mV times 10 mA.
pub const MOST_50MV: u16 = 420;
pub const MOST_100MV: u16 = 210;
pub const MOST_BATTERY: u16 = 400;
const MOST_PRODUCT: u32 = 200_000;

/// What a place past the count holds.
pub const NOTHING: Object = Object::Fixed { flags: 0, peak: 0, volts: 0, current: 0 };

pub fn shape(list: &Words) -> Verdict {
    verdict(try_shape(&list.words, list.count))
}

/// The shape check of a list whose words and count stand apart, as in a message.
pub fn try_shape(words: &[u32; 7], count: u8) -> Result<(), Verdict> {
    scan(words, count, |_, _| {})
}

pub fn read(list: &Words) -> Reading {
    let mut places = [NOTHING; 7];
    match scan(&list.words, list.count, |at, object| places[at] = object) {
        Ok(()) => {
            Reading { verdict: Verdict::default(), list: Objects { places, count: list.count } }
        }
        Err(verdict) => Reading { verdict, list: Objects { places: [NOTHING; 7], count: 0 } },
    }
}

pub fn write(list: &Objects) -> Listing {
    listing(try_write(list, 0))
}

/// "10; 7 at the first such object; then as shape from 11 on". The first object of no kind is at
/// the place `no_kind`, or nowhere if that is 0.
pub fn try_write(list: &Objects, no_kind: u8) -> Result<Words, Verdict> {
    check_count(list.count)?;
    let objects = &list.places[..usize::from(list.count)];
    let mut made = Words { words: [0; 7], count: list.count };
    for (place, (object, word)) in (1..).zip(objects.iter().zip(&mut made.words)) {
        *word = match encode(object) {
            Some(word) => word,
            None => return refuse(TOO_WIDE, place),
        };
    }
    let mut scan = Scan::new();
    for (place, (object, word)) in (1..).zip(objects.iter().zip(&made.words)) {
        if place == no_kind {
            return refuse_kind(place);
        }
        scan.next(place, object, *word)?;
    }
    scan.end()?;
    Ok(made)
}

/// The object at a place that counts, of a list whose shape is good.
pub fn object_at(list: &Words, place: u8) -> Option<Object> {
    if place == 0 || place > list.count {
        return None;
    }
    decode(*list.words.get(usize::from(place) - 1)?)
}

pub fn check_count(count: u8) -> Result<(), Verdict> {
    if !(1..=7).contains(&count) {
        return refuse(COUNT, 0);
    }
    Ok(())
}

/// The shape check, handing each object on with its index.
pub fn scan(
    words: &[u32; 7],
    count: u8,
    mut keep: impl FnMut(usize, Object),
) -> Result<(), Verdict> {
    check_count(count)?;
    let mut scan = Scan::new();
    for (at, &word) in words[..usize::from(count)].iter().enumerate() {
        let place = at as u8 + 1;
        let Some(object) = decode(word) else {
            return refuse_kind(place);
        };
        scan.next(place, &object, word)?;
        keep(at, object);
    }
    scan.end()
}

/// An object of no kind "gets 11 where it is the first object and 12 in its turn elsewhere".
pub fn refuse_kind<T>(place: u8) -> Result<T, Verdict> {
    refuse(if place == 1 { FIRST_OBJECT } else { KIND }, place)
}

/// What the shape check remembers from word to word.
struct Scan {
    /// The rank of the word before, and the least key that one more of that rank may have.
    rank: u8,
    least: u16,
    current_15v: Option<u16>,
    current_20v: Option<u16>,
    /// The place of an AVS word that differs from its fixed objects, or 0.
    differing: u8,
}

impl Scan {
    fn new() -> Scan {
        Scan { rank: 0, least: 0, current_15v: None, current_20v: None, differing: 0 }
    }

    /// Number 11, then 13, 15, 16, 14 of one word.
    fn next(&mut self, place: u8, object: &Object, word: u32) -> Result<(), Verdict> {
        if place == 1 && !matches!(object, Object::Fixed { volts: V5, .. }) {
            return refuse(FIRST_OBJECT, 1);
        }
        if reserved_bit_set(object, place == 1, word) {
            return refuse(RESERVED, place);
        }
        let (voltage_good, power_good, rank, key, least) = match *object {
            Object::Fixed { volts, current, .. } => {
                (volts <= V20, within_100_watts(volts, current), 0, volts, volts + 1)
            }
            Object::Battery { max, min, power } => {
                (max <= MOST_50MV && min <= max, power <= MOST_BATTERY, 1, min, min)
            }
            Object::Variable { max, min, current } => {
                (max <= MOST_50MV && min <= max, within_100_watts(max, current), 2, min, min)
            }
            // "there is no second AVS": none has the key 1.
            Object::Avs { .. } => (true, true, 3, 0, 1),
            Object::Pps { max, min, .. } => (max <= MOST_100MV && min <= max, true, 4, max, max),
        };
        if !voltage_good {
            return refuse(VOLTAGE, place);
        }
        if !power_good {
            return refuse(POWER, place);
        }
        if rank < self.rank || (rank == self.rank && key < self.least) {
            return refuse(ORDER, place);
        }
        self.rank = rank;
        self.least = least;
        match *object {
            Object::Fixed { volts: V15, current, .. } => self.current_15v = Some(current),
            Object::Fixed { volts: V20, current, .. } => self.current_20v = Some(current),
            // The order is good up to here, so every fixed object has been seen.
            Object::Avs { low, high, .. }
                if self.current_15v != Some(low)
                    || (high != 0 && self.current_20v != Some(high)) =>
            {
                self.differing = place
            }
            _ => {}
        }
        Ok(())
    }

    fn end(&self) -> Result<(), Verdict> {
        if self.differing != 0 {
            return refuse(AVS_DIFFERS, self.differing);
        }
        Ok(())
    }
}

/// In 50 mV and 10 mA.
pub fn within_100_watts(volts: u16, current: u16) -> bool {
    u32::from(volts) * u32::from(current) <= MOST_PRODUCT
}
