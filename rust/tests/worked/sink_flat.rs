//! Sink lists as C gives them: kinds that no sink has among the others, and fields that no sink or no such kind has.

use arinduleu::board;
use arinduleu::flat::{flat_read_for, flat_write_for, FlatObject, FlatObjects, FlatReading};
use arinduleu::lists::{Listing, Words};
use arinduleu::objects::Side;
use arinduleu::steps::{Ma10, Ma50, Mv100, Mv50, Mw250};
use arinduleu::verdicts::Verdict;

/// Every field too wide for the kinds that have it.
const ALL_ONES: FlatObject = FlatObject {
    kind: 255,
    flags: 255,
    peak: 255,
    limited: 255,
    volts: Mv50(65535),
    max: Mv50(65535),
    min: Mv50(65535),
    power: Mw250(65535),
    current: Ma10(65535),
    max100: Mv100(65535),
    min100: Mv100(65535),
    current50: Ma50(65535),
    low: Ma10(65535),
    high: Ma10(65535),
};

/// The fields that a sink's fixed object has; what it does not have is all ones.
const fn fixed(flags: u8, volts: u16, current: u16) -> FlatObject {
    FlatObject {
        kind: 0,
        flags,
        volts: Mv50(volts),
        current: Ma10(current),
        ..ALL_ONES
    }
}

const fn battery(max: u16, min: u16, power: u16) -> FlatObject {
    FlatObject {
        kind: 1,
        max: Mv50(max),
        min: Mv50(min),
        power: Mw250(power),
        ..ALL_ONES
    }
}

const fn variable(max: u16, min: u16, current: u16) -> FlatObject {
    FlatObject {
        kind: 2,
        max: Mv50(max),
        min: Mv50(min),
        current: Ma10(current),
        ..ALL_ONES
    }
}

const fn pps(max: u16, min: u16, current: u16) -> FlatObject {
    FlatObject {
        kind: 3,
        max100: Mv100(max),
        min100: Mv100(min),
        current50: Ma50(current),
        ..ALL_ONES
    }
}

/// As a source would write it, and it agrees with 15 V at 3 A.
const AVS: FlatObject = FlatObject {
    kind: 4,
    peak: 0,
    low: Ma10(300),
    high: Ma10(0),
    ..ALL_ONES
};
const FIVE: FlatObject = fixed(0x41, 100, 300);
const NINE: FlatObject = fixed(0, 180, 200);
const FIFTEEN: FlatObject = fixed(0, 300, 300);
/// Flags 200 do not fit seven bits.
const WIDE: FlatObject = fixed(200, 180, 300);

/// Fixed 5 V at 3 A with flags 41h, 9 V at 2 A; battery and variable 5 to 21 V at 50 W and 3 A; PPS 5 to 11 V at 3 A and 5 to 16 V at 2.4 A.
const OBJECTS: [FlatObject; 6] = [
    FIVE,
    NINE,
    battery(420, 100, 200),
    variable(420, 100, 300),
    pps(110, 50, 60),
    pps(160, 50, 48),
];
const WORDS: [u32; 6] = [
    0x2081912C, 0x0002D0C8, 0x5A4190C8, 0x9A41912C, 0xC0DC323C, 0xC1403230,
];

/// These objects first. Behind them, past the count or not, lies what is of no kind.
fn objects(count: u8, first: &[FlatObject]) -> FlatObjects {
    let mut places = [ALL_ONES; 7];
    places[..first.len()].copy_from_slice(first);
    FlatObjects { places, count }
}

/// By both names of the call.
fn expect(name: &str, given: FlatObjects, number: u8, place: u8, back: &[u32]) {
    let verdict = Verdict { number, place };
    let mut words = [0; 7];
    words[..back.len()].copy_from_slice(back);
    let count = back.len() as u8;
    let list = Words { words, count };
    let listing = Listing { verdict, list };
    assert_eq!(board::arin_sink_write(given), listing, "arin: {name}");
    let by_side = flat_write_for(Side::Sink, given);
    assert_eq!(by_side, listing, "by side: {name}");
}

/// Peak current, power limited and the fields of other kinds are not looked at, however wide.
#[test]
fn fields_that_are_not_read() {
    for count in 1..=6 {
        let n = usize::from(count);
        let given = objects(count, &OBJECTS[..n]);
        expect(&format!("count {count}"), given, 0, 0, &WORDS[..n]);
    }
}

/// The same for a source is too wide: it has peak current and power limited.
#[test]
fn a_source_has_peak_current_and_power_limited() {
    let wide = Verdict {
        number: 7,
        place: 1,
    };
    let given = objects(6, &OBJECTS);
    assert_eq!(flat_write_for(Side::Source, given).verdict, wide);
    let five = FlatObject { peak: 3, ..FIVE };
    let prog = FlatObject {
        limited: 1,
        ..pps(110, 50, 60)
    };
    let given = objects(2, &[five, prog]);
    let written = flat_write_for(Side::Source, given).list;
    assert_eq!(written.words[..2], [0x20B1912C, 0xC8DC323C]);
    let written = flat_write_for(Side::Sink, given).list;
    assert_eq!(written.words[..2], [0x2081912C, 0xC0DC323C]);
}

/// Name, the objects that count, number and place.
type Refused = (&'static str, &'static [FlatObject], u8, u8);

#[rustfmt::skip]
const REFUSED: [Refused; 19] = [
    ("one object of kind 4: 11", &[AVS], 11, 1),
    ("one object of kind 255: 11", &[ALL_ONES], 11, 1),
    ("first of kind 4 with the fields of fixed 5 V: 11", &[FlatObject { kind: 4, ..FIVE }], 11, 1),
    ("second of kind 4: 12 at 2", &[FIVE, AVS], 12, 2),
    ("second of kind 4, every field too wide: 12 at 2", &[FIVE, FlatObject { kind: 4, ..ALL_ONES }], 12, 2),
    ("kind 4 where a source may have it: 12 at 3", &[FIVE, FIFTEEN, AVS], 12, 3),
    ("second of kind 255: 12 at 2", &[FIVE, ALL_ONES], 12, 2),
    ("second of kind 5 with the fields of 9 V: 12 at 2", &[FIVE, FlatObject { kind: 5, ..NINE }], 12, 2),
    ("kind 4, then too wide: 7 at 3", &[FIVE, AVS, WIDE], 7, 3),
    ("too wide, then kind 4: 7 at 2", &[FIVE, WIDE, AVS], 7, 2),
    ("first of kind 4, second too wide: 7 at 2", &[AVS, WIDE], 7, 2),
    ("first 9 V, then kind 4: 11", &[NINE, AVS], 11, 1),
    ("flags of a later one, then kind 4: 13 at 2", &[FIVE, fixed(1, 180, 200), AVS], 13, 2),
    ("falling, then kind 4: 14 at 2", &[FIVE, fixed(0, 66, 300), AVS], 14, 2),
    ("20.05 V, then kind 4: 15 at 2", &[FIVE, fixed(0, 401, 300), AVS], 15, 2),
    ("20 V at 5.01 A, then kind 4: 16 at 2", &[FIVE, fixed(0, 400, 501), AVS], 16, 2),
    ("kind 4, then falling: 12 at 2", &[FIVE, AVS, fixed(0, 66, 300)], 12, 2),
    ("kind 4 twice: 12 at the first", &[FIVE, AVS, AVS], 12, 2),
    ("kind 4 at 7: 12 at 7", &[FIVE, NINE, FIFTEEN, pps(110, 50, 60), pps(160, 50, 48), pps(210, 50, 36), AVS], 12, 7),
];

#[test]
fn kinds_refused_in_order() {
    for (name, given, number, place) in REFUSED {
        expect(name, objects(given.len() as u8, given), number, place, &[]);
    }
    for kind in 4..=255 {
        let none = FlatObject { kind, ..ALL_ONES };
        let given = objects(2, &[FIVE, none]);
        expect(&format!("kind {kind}"), given, 12, 2, &[]);
    }
}

#[test]
fn counts_come_first() {
    for count in [0, 8, 9, 128, 255] {
        let name = format!("count {count}: 10 before 7, 11 and 12");
        expect(&name, objects(count, &[WIDE, AVS]), 10, 0, &[]);
    }
}

/// Every field that the kind of a sink does not have is zero, and so is all that lies past the count.
#[test]
fn what_is_given_back() {
    let zero = FlatObject::default();
    let mut places = [zero; 7];
    for (place, own) in places.iter_mut().zip(OBJECTS) {
        *place = match own.kind {
            0 => FlatObject {
                flags: own.flags,
                volts: own.volts,
                current: own.current,
                ..zero
            },
            1 => FlatObject {
                kind: 1,
                max: own.max,
                min: own.min,
                power: own.power,
                ..zero
            },
            2 => FlatObject {
                kind: 2,
                max: own.max,
                min: own.min,
                current: own.current,
                ..zero
            },
            _ => FlatObject {
                kind: 3,
                max100: own.max100,
                min100: own.min100,
                current50: own.current50,
                ..zero
            },
        };
    }
    let mut words = [0xFFFFFFFF; 7];
    words[..6].copy_from_slice(&WORDS);
    let given = Words { words, count: 6 };
    let reading = FlatReading {
        verdict: Verdict::default(),
        list: FlatObjects { places, count: 6 },
    };
    assert_eq!(board::arin_sink_read(given), reading);
    assert_eq!(flat_read_for(Side::Sink, given), reading);

    let refused = FlatReading {
        verdict: Verdict {
            number: 12,
            place: 7,
        },
        list: FlatObjects::default(),
    };
    let given = Words { words, count: 7 };
    assert_eq!(board::arin_sink_read(given), refused);
    assert_eq!(flat_read_for(Side::Sink, given), refused);
}
