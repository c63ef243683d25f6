//! Sink lists (T-04). What is expected is worked by hand, or told from the page once more below:
//! fields by division, measures in millivolts and microwatts, and none of the model's own code.

mod by_hand;
mod ceilings;
mod flat;
mod seeded;
mod words;

use super::*;
use crate::sinks::SINK_NOTHING;

/// 5 V at no current, which keeps to every rating.
const FIVE: u32 = 0x0001_9000;

/// The kinds by their numbers in C.
const KIND_BITS: [u32; 4] = [0, 0x4000_0000, 0x8000_0000, 0xC000_0000];

/// A fixed word, its voltage in 50 mV.
fn steps(volts: u32, current: u32) -> u32 {
    volts << 10 | current
}

/// As `pps`, without the power limited that no sink has.
fn prog(max: u32, min: u32, current: u32) -> u32 {
    0xC000_0000 | max << 17 | min << 8 | current
}

fn objects_of(objects: &[SinkObject]) -> SinkObjects {
    let mut list = SinkObjects { places: [SINK_NOTHING; 7], count: objects.len() as u8 };
    list.places[..objects.len()].copy_from_slice(objects);
    list
}

/// The shape check, both ways of reading and the sink check refuse alike: "On a refusal everything
/// else in the answer is zero". A rating out of range comes before.
fn refused(number: u8, place: u8, list: &Words) {
    let verdict = said(number, place);
    assert_eq!(sink_shape(list), verdict, "{list:08X?}");
    let empty = SinkObjects { places: [SINK_NOTHING; 7], count: 0 };
    assert_eq!(sink_read(list), SinkReading { verdict, list: empty }, "{list:08X?}");
    let flat = FlatReading { verdict, list: FlatObjects::default() };
    assert_eq!(sink_flat_read(list), flat, "{list:08X?}");
    for rating in [1, 200] {
        assert_eq!(sink_check(rating, list), verdict, "{list:08X?}");
    }
    for rating in [0, 201] {
        assert_eq!(sink_check(rating, list), said(1, 0), "{list:08X?}");
    }
}

/// Read, read for C, and written again from both, gives the words up to the count.
fn both_ways(list: &Words) {
    let count = usize::from(list.count);
    let words = core::array::from_fn(|at| if at < count { list.words[at] } else { 0 });
    let expected = Listing { verdict: said(0, 0), list: Words { words, count: list.count } };
    assert_eq!(sink_shape(list), said(0, 0), "{list:08X?}");
    let reading = sink_read(list);
    assert_eq!((reading.verdict, reading.list.count), (said(0, 0), list.count));
    let flat = sink_flat_read(list);
    assert_eq!((flat.verdict, flat.list.count), (said(0, 0), list.count));
    for (at, &word) in words.iter().enumerate() {
        let object = if at < count { page_object(word).unwrap() } else { SINK_NOTHING };
        assert_eq!(reading.list.places[at], object);
        assert_eq!(flat.list.places[at], page_flat(&object));
    }
    assert_eq!(sink_write(&reading.list), expected, "{list:08X?}");
    assert_eq!(sink_flat_write(&flat.list), expected, "{list:08X?}");
}

/// The number that the bits `high`..`low` make.
fn bits(word: u32, high: u32, low: u32) -> u32 {
    (u64::from(word) / 2u64.pow(low) % 2u64.pow(high - low + 1)) as u32
}

/// By its number in C; `None` is a kind that is not allowed.
fn page_kind(word: u32) -> Option<u8> {
    match (bits(word, 31, 30), bits(word, 29, 28)) {
        (3, 0) => Some(3),
        (3, _) => None,
        (kind, _) => Some(kind as u8),
    }
}

fn page_object(word: u32) -> Option<SinkObject> {
    let field = |high, low| bits(word, high, low) as u16;
    let (max, min) = (field(29, 20), field(19, 10));
    let (volts, last) = (field(19, 10), field(9, 0));
    Some(match page_kind(word)? {
        0 => SinkObject::Fixed { flags: field(29, 23) as u8, volts, current: last },
        1 => SinkObject::Battery { max, min, power: last },
        2 => SinkObject::Variable { max, min, current: last },
        _ => SinkObject::Pps { max: field(24, 17), min: field(15, 8), current: field(6, 0) },
    })
}

fn page_flat(object: &SinkObject) -> FlatObject {
    let mut flat = FlatObject::default();
    match *object {
        SinkObject::Fixed { flags, volts, current } => {
            (flat.kind, flat.flags, flat.volts, flat.current) = (0, flags, volts, current)
        }
        SinkObject::Battery { max, min, power } => {
            (flat.kind, flat.max, flat.min, flat.power) = (1, max, min, power)
        }
        SinkObject::Variable { max, min, current } => {
            (flat.kind, flat.max, flat.min, flat.current) = (2, max, min, current)
        }
        SinkObject::Pps { max, min, current } => {
            (flat.kind, flat.max100, flat.min100, flat.current50) = (3, max, min, current)
        }
    }
    flat
}

/// The bits of the table, one by one.
fn page_reserved(kind: u8, first: bool) -> &'static [u32] {
    match (kind, first) {
        (0, true) => &[22, 21, 20],
        (0, false) => &[29, 28, 27, 26, 25, 24, 23, 22, 21, 20],
        (3, _) => &[27, 26, 25, 16, 7],
        _ => &[],
    }
}

/// Maximum and minimum in millivolts; of a fixed object both are its voltage.
fn millivolts(object: &SinkObject) -> (u64, u64) {
    match *object {
        SinkObject::Fixed { volts, .. } => (u64::from(volts) * 50, u64::from(volts) * 50),
        SinkObject::Battery { max, min, .. } | SinkObject::Variable { max, min, .. } => {
            (u64::from(max) * 50, u64::from(min) * 50)
        }
        SinkObject::Pps { max, min, .. } => (u64::from(max) * 100, u64::from(min) * 100),
    }
}

/// The operating figure at this many millivolts, in microwatts.
fn microwatts(object: &SinkObject, millivolts: u64) -> u64 {
    match *object {
        SinkObject::Fixed { current, .. } => millivolts * u64::from(current) * 10,
        SinkObject::Battery { power, .. } => u64::from(power) * 250_000,
        SinkObject::Variable { current, .. } => millivolts * u64::from(current) * 10,
        SinkObject::Pps { current, .. } => millivolts * u64::from(current) * 50,
    }
}

/// "first the fixed, then battery, then variable, then PPS, and within a kind as there"
fn stands_after(before: &SinkObject, object: &SinkObject) -> bool {
    let kind = |object: &SinkObject| page_flat(object).kind;
    if kind(before) != kind(object) {
        return kind(before) < kind(object);
    }
    let ((old_max, old_min), (max, min)) = (millivolts(before), millivolts(object));
    match kind(object) {
        0 => max > old_max,
        3 => max >= old_max,
        _ => min >= old_min,
    }
}

/// "10; 11; then for each word in turn 12, 13, 15, 16, 14"
fn page_shape(list: &Words) -> Verdict {
    if list.count == 0 || list.count > 7 {
        return said(10, 0);
    }
    let words = &list.words[..usize::from(list.count)];
    if page_kind(words[0]) != Some(0) || bits(words[0], 19, 10) * 50 != 5000 {
        return said(11, 1);
    }
    let mut before = None;
    for (at, &word) in words.iter().enumerate() {
        let place = at as u8 + 1;
        let Some(object) = page_object(word) else {
            return said(12, place);
        };
        let kind = page_flat(&object).kind;
        if page_reserved(kind, place == 1).iter().any(|&bit| bits(word, bit, bit) == 1) {
            return said(13, place);
        }
        let (max, min) = millivolts(&object);
        if max > if kind == 0 { 20_000 } else { 21_000 } || min > max {
            return said(15, place);
        }
        if kind != 3 && microwatts(&object, max) > 100_000_000 {
            return said(16, place);
        }
        if before.is_some_and(|before| !stands_after(&before, &object)) {
            return said(14, place);
        }
        before = Some(object);
    }
    said(0, 0)
}

/// The voltage to divide by, in millivolts.
fn page_divisor(object: &SinkObject) -> u64 {
    let (max, min) = millivolts(object);
    let programmable = matches!(object, SinkObject::Pps { .. });
    match (programmable, min, max) {
        (true, 5000, 11_000) => 9000,
        (true, 5000, 16_000) => 15_000,
        (true, 5000, 21_000) => 20_000,
        _ => max,
    }
}

/// "1; then as sink shape; then 43", by exact microwatts: a rating of one is half a watt.
fn page_check(rating: u16, list: &Words) -> Verdict {
    if rating == 0 || rating > 200 {
        return said(1, 0);
    }
    let shape = page_shape(list);
    if shape != said(0, 0) {
        return shape;
    }
    let above = list.words[..usize::from(list.count)].iter().any(|&word| {
        let object = page_object(word).unwrap();
        microwatts(&object, page_divisor(&object)) > u64::from(rating) * 500_000
    });
    said(if above { 43 } else { 0 }, 0)
}
