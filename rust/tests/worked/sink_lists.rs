//! Reading, writing and checking sink lists: the whole answer in all seven places, with something past the count or a count that is none.

use crate::making::needs::{battery, fixed, pps, variable};
use arinduleu::lists::{Listing, Words, NO_WORDS};
use arinduleu::sinks::{sink_check, sink_read, sink_shape, sink_write, EMPTY_SINK_PLACE};
use arinduleu::sinks::{SinkObject, SinkObjects, SinkPlace, SinkReading};
use arinduleu::steps::HalfWatts;
use arinduleu::verdicts::Verdict;

/// Fixed 5 V at 3 A with flags 41h, 9 V at 2 A; battery and variable 5 to 21 V at 50 W and 3 A; PPS 5 to 11 V at 3 A and 5 to 16 V at 2.4 A.
const WORDS: [u32; 6] = [
    0x2081912C, 0x0002D0C8, 0x5A4190C8, 0x9A41912C, 0xC0DC323C, 0xC1403230,
];
const OBJECTS: [SinkObject; 6] = [
    fixed(0x41, 100, 300),
    fixed(0, 180, 200),
    battery(420, 100, 200),
    variable(420, 100, 300),
    pps(110, 50, 60),
    pps(160, 50, 48),
];

const FIVE: SinkObject = fixed(0, 100, 300);
const NINE: SinkObject = fixed(0, 180, 200);
/// The current is one more than ten bits hold.
const WIDE: SinkObject = fixed(0, 180, 1024);
const ALL_ONES: SinkObject = fixed(255, 65535, 65535);

const SUCCESS: Verdict = Verdict {
    number: 0,
    place: 0,
};

/// These words first, and behind them this one.
fn words(count: u8, first: &[u32], past: u32) -> Words {
    let mut words = [past; 7];
    words[..first.len()].copy_from_slice(first);
    Words { words, count }
}

/// These objects first, and behind them this one.
fn objects(count: u8, first: &[SinkObject], past: SinkObject) -> SinkObjects {
    let mut places = [SinkPlace { object: past }; 7];
    for (place, object) in places.iter_mut().zip(first) {
        *place = SinkPlace { object: *object };
    }
    SinkObjects { places, count }
}

/// What lies past the count is zero in what is given back, and is not read: AVS, or fields that are too wide.
#[test]
fn what_lies_past_the_count() {
    for count in 1..=6 {
        let n = usize::from(count);
        let (own_words, own) = (&WORDS[..n], &OBJECTS[..n]);
        let given = words(count, own_words, 0xE003C000);
        assert_eq!(sink_shape(given), SUCCESS, "count {count}");
        let reading = SinkReading {
            verdict: SUCCESS,
            list: objects(count, own, EMPTY_SINK_PLACE.object),
        };
        assert_eq!(sink_read(given), reading, "count {count}");
        let listing = Listing {
            verdict: SUCCESS,
            list: words(count, own_words, 0),
        };
        let written = sink_write(objects(count, own, ALL_ONES));
        assert_eq!(written, listing, "count {count}");
    }
}

/// A count that is none comes before all that is wrong with the objects, and before what a rating says.
#[test]
fn counts_that_are_none() {
    let verdict = Verdict {
        number: 10,
        place: 0,
    };
    let list = objects(0, &[], EMPTY_SINK_PLACE.object);
    for count in [0, 8, 9, 128, 255] {
        let given = words(count, &WORDS, 0xFFFFFFFF);
        assert_eq!(sink_shape(given), verdict, "count {count}");
        assert_eq!(sink_read(given), SinkReading { verdict, list });
        assert_eq!(sink_check(HalfWatts(1), given), verdict, "count {count}");
        let refused = Listing {
            verdict,
            list: NO_WORDS,
        };
        let written = sink_write(objects(count, &[WIDE], ALL_ONES));
        assert_eq!(written, refused, "count {count}: 10 before 7");
    }
}

/// Name, the first three objects, number and place.
type Refused = (&'static str, [SinkObject; 3], u8, u8);

#[rustfmt::skip]
const REFUSED: [Refused; 10] = [
    ("7 at 1 before 11", [fixed(128, 180, 0), NINE, NINE], 7, 1),
    ("7 at 3 before 11 at 1", [NINE, NINE, WIDE], 7, 3),
    ("7 at 3 before 14 at 2", [FIVE, FIVE, WIDE], 7, 3),
    ("7 at the first of two", [FIVE, WIDE, pps(256, 0, 0)], 7, 2),
    ("first 9 V gets 11", [NINE, NINE, NINE], 11, 1),
    ("flags on the second fixed get 13 at 2", [FIVE, fixed(1, 180, 200), NINE], 13, 2),
    ("falling gets 14 at 3", [FIVE, NINE, FIVE], 14, 3),
    ("a battery behind PPS gets 14 at 3", [FIVE, pps(110, 50, 60), battery(420, 100, 200)], 14, 3),
    ("21.1 V gets 15 at 3", [FIVE, NINE, pps(211, 50, 60)], 15, 3),
    ("100.25 W gets 16 at 3", [FIVE, NINE, battery(420, 100, 401)], 16, 3),
];

#[test]
fn sink_lists_not_written() {
    for (name, given, number, place) in REFUSED {
        let verdict = Verdict { number, place };
        let written = sink_write(objects(3, &given, ALL_ONES));
        let list = NO_WORDS;
        assert_eq!(written, Listing { verdict, list }, "{name}");
    }
}

/// What is refused in reading: the list is empty in all seven places. 12 of AVS comes before its reserved bits and before the order.
#[test]
fn sink_lists_not_read() {
    let rows = [
        ("AVS, as a source has it", [WORDS[0], 0xE004B000], 12, 2),
        ("AVS, reserved bits set", [WORDS[0], 0xE3F4B000], 12, 2),
        ("AVS first", [0xE004B000, WORDS[1]], 11, 1),
        ("peak current, bit 20", [0x2091912C, WORDS[1]], 13, 1),
        ("peak current, bit 21", [0x20A1912C, WORDS[1]], 13, 1),
        ("bit 22", [0x20C1912C, WORDS[1]], 13, 1),
        ("peak current of a later one", [WORDS[0], 0x0012D0C8], 13, 2),
        ("power limited", [WORDS[0], 0xC8DC323C], 13, 2),
    ];
    for (name, first, number, place) in rows {
        let verdict = Verdict { number, place };
        let given = words(2, &first, 0xFFFFFFFF);
        let list = objects(0, &[], EMPTY_SINK_PLACE.object);
        assert_eq!(sink_shape(given), verdict, "{name}");
        assert_eq!(sink_read(given), SinkReading { verdict, list }, "{name}");
        assert_eq!(sink_check(HalfWatts(200), given), verdict, "{name}");
    }
}

/// Half watts: 30, 36, 100, 126, 54 and 72 are what the six need. The words past the count are not looked at.
#[test]
fn what_a_list_needs() {
    for (count, need) in [(1, 30), (2, 36), (3, 100), (4, 126), (5, 126), (6, 126)] {
        for (rating, number) in [(need - 1, 43), (need, 0), (need + 1, 0)] {
            let given = words(count, &WORDS, 0x3FFFFFFF);
            let said = sink_check(HalfWatts(rating), given);
            let verdict = Verdict { number, place: 0 };
            assert_eq!(said, verdict, "count {count}, rating {rating}");
        }
    }
}
