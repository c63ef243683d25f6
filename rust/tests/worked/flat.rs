//! Writing a list as C gives it: an object of no kind among the others, and fields that a kind does not have.

use arinduleu::board;
use arinduleu::flat::{self, FlatObject, FlatObjects};
use arinduleu::lists::{Listing, Words};
use arinduleu::steps::{Ma10, Ma50, Mv100, Mv50, Mw250};
use arinduleu::verdicts::Verdict;

const ZERO: FlatObject = FlatObject {
    kind: 0,
    flags: 0,
    peak: 0,
    limited: 0,
    volts: Mv50(0),
    max: Mv50(0),
    min: Mv50(0),
    power: Mw250(0),
    current: Ma10(0),
    max100: Mv100(0),
    min100: Mv100(0),
    current50: Ma50(0),
    low: Ma10(0),
    high: Ma10(0),
};

/// Every field too wide for the kinds that have it.
const ALL_ONES: FlatObject = FlatObject {
    kind: 255,
    flags: 255,
    peak: 255,
    limited: 255,
    volts: Mv50(65535),
    max: Mv50(65535),
    min: Mv50(65535),
    power: Mw250(65535),
    current: Ma10(65535),
    max100: Mv100(65535),
    min100: Mv100(65535),
    current50: Ma50(65535),
    low: Ma10(65535),
    high: Ma10(65535),
};

const fn fixed(flags: u8, volts: u16, current: u16) -> FlatObject {
    FlatObject {
        flags,
        volts: Mv50(volts),
        current: Ma10(current),
        ..ZERO
    }
}

const fn of_kind(kind: u8) -> FlatObject {
    FlatObject { kind, ..ZERO }
}

const FIVE: FlatObject = fixed(0, 100, 300);
const NINE: FlatObject = fixed(0, 180, 300);
const FIFTEEN: FlatObject = fixed(0, 300, 300);
const TWENTY: FlatObject = fixed(0, 400, 300);
const NONE: FlatObject = of_kind(5);
/// Flags 200 do not fit seven bits.
const WIDE: FlatObject = fixed(200, 180, 300);
const FLAGGED: FlatObject = fixed(1, 180, 300);
/// 3.3 V, below the 5 V of the first.
const FALLING: FlatObject = fixed(0, 66, 300);
/// 20.05 V; 20 V at 5.01 A.
const HIGH: FlatObject = fixed(0, 401, 300);
const STRONG: FlatObject = fixed(0, 400, 501);
/// 100.25 W.
const HEAVY: FlatObject = FlatObject {
    max: Mv50(420),
    min: Mv50(100),
    power: Mw250(401),
    ..of_kind(1)
};
const AVS_300: FlatObject = FlatObject {
    low: Ma10(300),
    ..of_kind(4)
};
/// The power limited bit is one bit.
const WIDE_PPS: FlatObject = FlatObject {
    limited: 2,
    ..of_kind(3)
};

/// These objects first. Behind them, past the count or not, lies what is of no kind.
fn objects(count: u8, first: &[FlatObject]) -> FlatObjects {
    let mut places = [ALL_ONES; 7];
    places[..first.len()].copy_from_slice(first);
    FlatObjects { places, count }
}

/// By both names of the call.
fn expect(name: &str, given: FlatObjects, number: u8, place: u8, back: &[u32]) {
    let verdict = Verdict { number, place };
    let mut words = [0; 7];
    words[..back.len()].copy_from_slice(back);
    let count = back.len() as u8;
    let list = Words { words, count };
    let listing = Listing { verdict, list };
    assert_eq!(flat::flat_write(given), listing, "flat_write: {name}");
    assert_eq!(board::arin_write(given), listing, "arin_write: {name}");
}

/// Name, the objects that count, number and place.
type Refused = (&'static str, &'static [FlatObject], u8, u8);

#[rustfmt::skip]
const REFUSED: [Refused; 32] = [
    ("first of kind 5, flags 200 on the second: 7 at 2", &[NONE, WIDE], 7, 2),
    ("second of no kind, flags 200 on the third: 7 at 3", &[FIVE, NONE, WIDE], 7, 3),
    ("flags 200 on the second, third of no kind: 7 at 2", &[FIVE, WIDE, NONE], 7, 2),
    ("no kind at 1 and 3, too wide at 2 and 4: 7 at 2", &[NONE, WIDE, NONE, WIDE], 7, 2),
    ("no kind at 1 to 6, too wide at 7: 7 at 7", &[NONE, NONE, NONE, NONE, NONE, NONE, WIDE_PPS], 7, 7),
    ("no kind with every field too wide is not 7", &[FIVE, ALL_ONES], 12, 2),
    ("first 9 V, second of no kind, third too wide: 7 at 3", &[NINE, NONE, WIDE], 7, 3),
    ("second 20.05 V, third of no kind, fourth too wide: 7 at 4", &[FIVE, HIGH, NONE, WIDE], 7, 4),
    ("one object of kind 5: 11", &[NONE], 11, 1),
    ("one object of kind 255, every field too wide: 11", &[ALL_ONES], 11, 1),
    ("first of kind 5 with the fields of fixed 5 V: 11", &[FlatObject { kind: 5, ..FIVE }], 11, 1),
    ("all seven of no kind: 11", &[ALL_ONES; 7], 11, 1),
    ("first 9 V, third of kind 9: 11", &[NINE, FIFTEEN, of_kind(9)], 11, 1),
    ("first of no kind, second 20.05 V: 11", &[NONE, HIGH], 11, 1),
    ("first a battery, second of no kind: 11", &[HEAVY, NONE], 11, 1),
    ("second of kind 5: 12 at 2", &[FIVE, NONE], 12, 2),
    ("second of kind 128: 12 at 2", &[FIVE, of_kind(128)], 12, 2),
    ("second of kind 5 with the fields of fixed 9 V: 12 at 2", &[FIVE, FlatObject { kind: 5, ..NINE }], 12, 2),
    ("third of no kind: 12 at 3", &[FIVE, NINE, NONE], 12, 3),
    ("no kind at 2 and 3: 12 at 2", &[FIVE, NONE, of_kind(6)], 12, 2),
    ("no kind, then falling: 12 at 2", &[FIVE, NONE, FALLING], 12, 2),
    ("no kind, then flags: 12 at 2", &[FIVE, NONE, FLAGGED], 12, 2),
    ("no kind, then 20.05 V: 12 at 2", &[FIVE, NONE, HIGH], 12, 2),
    ("no kind, then over 100 W: 12 at 2", &[FIVE, NONE, STRONG], 12, 2),
    ("flags, then no kind: 13 at 2", &[FIVE, FLAGGED, NONE], 13, 2),
    ("falling, then no kind: 14 at 2", &[FIVE, FALLING, NONE], 14, 2),
    ("a second AVS, then no kind: 14 at 4", &[FIVE, FIFTEEN, AVS_300, AVS_300, NONE], 14, 4),
    ("20.05 V, then no kind: 15 at 2", &[FIVE, HIGH, NONE], 15, 2),
    ("20 V at 5.01 A, then no kind: 16 at 2", &[FIVE, STRONG, NONE], 16, 2),
    ("a battery of 100.25 W, then no kind: 16 at 2", &[FIVE, HEAVY, NONE], 16, 2),
    ("AVS with no 15 V, then no kind: 12 at 3, before 17", &[FIVE, AVS_300, NONE], 12, 3),
    ("AVS with no 15 V, and all of a kind: 17 at 2", &[FIVE, AVS_300], 17, 2),
];

#[test]
fn no_kind_refused_in_order() {
    for (name, given, number, place) in REFUSED {
        expect(name, objects(given.len() as u8, given), number, place, &[]);
    }
}

/// Good objects and one of no kind among them, at each place behind the first.
#[test]
fn no_kind_at_each_place() {
    let prog = FlatObject {
        max100: Mv100(210),
        min100: Mv100(50),
        current50: Ma50(60),
        ..of_kind(3)
    };
    let good = [FIVE, NINE, FIFTEEN, TWENTY, AVS_300, prog, prog];
    for place in 2..=7 {
        let mut given = good;
        given[place - 1].kind = 5;
        let name = format!("no kind at {place}: 12 at {place}");
        expect(&name, objects(7, &given), 12, place as u8, &[]);
    }
}

/// The fields that the kind does not have are too wide for the kinds that have them.
const FIVE_AMID_ONES: FlatObject = FlatObject {
    kind: 0,
    flags: 0,
    peak: 0,
    volts: Mv50(100),
    current: Ma10(300),
    ..ALL_ONES
};
const AVS_AMID_ONES: FlatObject = FlatObject {
    kind: 4,
    peak: 0,
    low: Ma10(300),
    high: Ma10(0),
    ..ALL_ONES
};
const WORDS_OF_THREE: [u32; 3] = [0x0001912C, 0x0004B12C, 0xE004B000];

/// Name, count, the objects up to there and more, number, and the words that come back.
type Counted = (&'static str, u8, &'static [FlatObject], u8, &'static [u32]);

#[rustfmt::skip]
const COUNTED: [Counted; 6] = [
    ("count 0, first of no kind: 10", 0, &[NONE], 10, &[]),
    ("count 8, first of no kind, second too wide: 10", 8, &[NONE, WIDE], 10, &[]),
    ("count 255, all of no kind: 10", 255, &[], 10, &[]),
    ("no kind past the count is not read", 1, &[FIVE, NONE], 0, &[0x0001912C]),
    ("too wide past the count is not read", 1, &[FIVE, WIDE], 0, &[0x0001912C]),
    ("fields of other kinds are not read", 3, &[FIVE_AMID_ONES, FIFTEEN, AVS_AMID_ONES], 0, &WORDS_OF_THREE),
];

#[test]
fn counts_and_fields_that_are_not_read() {
    for (name, count, first, number, back) in COUNTED {
        expect(name, objects(count, first), number, 0, back);
    }
}
