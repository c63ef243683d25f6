//! Reading and writing lists: the whole answer in all seven places, with something past the count or a count that is none.

use crate::making::{avs, battery, fixed, pps, variable};
use arinduleu::lists::{self, Listing, Objects, Place, Reading, Words, EMPTY_PLACE};
use arinduleu::objects::Object;
use arinduleu::verdicts::Verdict;

/// Fixed 5 V and 9 V at 3 A, 15 V at 2.4 A; AVS at 2.4 A to 15 V; PPS 5 to 11 V at 3 A and 5 to 16 V at 2.4 A.
const WORDS_36_W: [u32; 6] = [
    0x0001912C, 0x0002D12C, 0x0004B0F0, 0xE003C000, 0xC8DC323C, 0xC9403230,
];
const OBJECTS_36_W: [Object; 6] = [
    FIVE,
    NINE,
    fixed(0, 0, 300, 240),
    avs(0, 240, 0),
    pps(1, 110, 50, 60),
    pps(1, 160, 50, 48),
];

/// Fixed 5 V with flags 41h and peak 1; battery and variable 5 to 21 V at 50 W and 3 A.
const WORDS_WITH_FLAGS: [u32; 3] = [0x2091912C, 0x5A4190C8, 0x9A41912C];
const OBJECTS_WITH_FLAGS: [Object; 3] = [
    fixed(0x41, 1, 100, 300),
    battery(420, 100, 200),
    variable(420, 100, 300),
];

const FIVE: Object = fixed(0, 0, 100, 300);
const NINE: Object = fixed(0, 0, 180, 300);
/// The current is one more than ten bits hold.
const WIDE: Object = fixed(0, 0, 180, 1024);
const ALL_ONES: Object = fixed(255, 255, 65535, 65535);

/// These words first, then zero.
fn words(count: u8, first: &[u32]) -> Words {
    let mut list = Words {
        words: [0; 7],
        count,
    };
    list.words[..first.len()].copy_from_slice(first);
    list
}

/// These objects first, then zero ones.
fn objects(count: u8, first: &[Object]) -> Objects {
    let mut list = Objects {
        places: [EMPTY_PLACE; 7],
        count,
    };
    for (place, object) in list.places.iter_mut().zip(first) {
        *place = Place { object: *object };
    }
    list
}

fn words_36_w(count: u8, seventh: u32) -> Words {
    let mut list = words(count, &WORDS_36_W);
    list.words[6] = seventh;
    list
}

fn objects_36_w(count: u8, seventh: Object) -> Objects {
    let mut list = objects(count, &OBJECTS_36_W);
    list.places[6] = Place { object: seventh };
    list
}

/// Name, words in hand, number, place, and the objects that come back.
type Read = (&'static str, Words, u8, u8, &'static [Object]);

#[test]
fn reading() {
    let good = [0x0001912C, 0x0002D12C, 0x0004B0F0];
    let falling = [0x0001912C, 0x0004B0F0, 0x0002D12C];
    let lonely = [0x0001912C, 0xE003C000];
    let flags = words(3, &WORDS_WITH_FLAGS);
    let w = words_36_w;
    #[rustfmt::skip]
    let rows: [Read; 9] = [
        ("read: 36 W list", w(6, 0), 0, 0, &OBJECTS_36_W),
        ("read: a bad word past it is zero", w(6, !0), 0, 0, &OBJECTS_36_W),
        ("read: good words past the count are zero", words(1, &good), 0, 0, &[FIVE]),
        ("read: flags, battery and variable", flags, 0, 0, &OBJECTS_WITH_FLAGS),
        ("read: count 0 gets 10", w(0, 0), 10, 0, &[]),
        ("read: count 8 gets 10", w(8, 0), 10, 0, &[]),
        ("read: word 7 of kind 1101b gets 12", w(7, 0xD0000000), 12, 7, &[]),
        ("read: fixed falling gets 14", words(3, &falling), 14, 3, &[]),
        ("read: AVS with no 15 V gets 17", words(2, &lonely), 17, 2, &[]),
    ];
    for (name, given, number, place, back) in rows {
        let verdict = Verdict { number, place };
        let list = objects(back.len() as u8, back);
        assert_eq!(lists::read(given), Reading { verdict, list }, "{name}");
    }
}

/// Name, objects in hand, number, place, and the words that come back.
type Written = (&'static str, Objects, u8, u8, &'static [u32]);

#[test]
fn writing() {
    let past_one = objects(1, &[FIVE, NINE, NINE]);
    let flags = objects(3, &OBJECTS_WITH_FLAGS);
    let good = pps(1, 210, 50, 60);
    let wide = pps(2, 210, 50, 60);
    #[rustfmt::skip]
    let rows: [Written; 8] = [
        ("write: 36 W list", objects(6, &OBJECTS_36_W), 0, 0, &WORDS_36_W),
        ("write: too wide past it is zero", objects_36_w(6, ALL_ONES), 0, 0, &WORDS_36_W),
        ("write: good objects past the count are zero", past_one, 0, 0, &[0x0001912C]),
        ("write: flags, battery and variable", flags, 0, 0, &WORDS_WITH_FLAGS),
        ("write: count 0 gets 10", objects_36_w(0, good), 10, 0, &[]),
        ("write: count 255 gets 10", objects_36_w(255, good), 10, 0, &[]),
        ("write: count 8 gets 10 before 7", objects_36_w(8, wide), 10, 0, &[]),
        ("write: too wide at place 7 gets 7", objects_36_w(7, wide), 7, 7, &[]),
    ];
    for (name, given, number, place, back) in rows {
        let verdict = Verdict { number, place };
        let list = words(back.len() as u8, back);
        assert_eq!(lists::write(given), Listing { verdict, list }, "{name}");
    }
}

/// Name, three objects, number and place.
type Refused = (&'static str, [Object; 3], u8, u8);

#[test]
fn writing_three_objects() {
    // 20 V at 5.01 A; bit 23; 21.05 V; 100.25 W.
    let strong = fixed(0, 0, 400, 501);
    let flagged = fixed(1, 0, 180, 300);
    let high = variable(421, 100, 300);
    let heavy = battery(420, 100, 401);
    let lonely = avs(0, 240, 0);
    #[rustfmt::skip]
    let rows: [Refused; 10] = [
        ("write: too wide at places 2 and 3 gets 7 at 2", [FIVE, WIDE, WIDE], 7, 2),
        ("write: 7 at 3 before 11", [NINE, FIVE, WIDE], 7, 3),
        ("write: 7 at 3 before 14 at 2", [FIVE, FIVE, WIDE], 7, 3),
        ("write: 7 at 2 before 16 at 3", [FIVE, WIDE, strong], 7, 2),
        ("write: first 9 V gets 11", [NINE, NINE, NINE], 11, 1),
        ("write: flags on the second fixed get 13 at 2", [FIVE, flagged, NINE], 13, 2),
        ("write: falling gets 14 at 3", [FIVE, NINE, FIVE], 14, 3),
        ("write: 21.05 V gets 15 at 3", [FIVE, NINE, high], 15, 3),
        ("write: 100.25 W gets 16 at 3", [FIVE, NINE, heavy], 16, 3),
        ("write: AVS with no 15 V gets 17 at 3", [FIVE, NINE, lonely], 17, 3),
    ];
    for (name, given, number, place) in rows {
        let verdict = Verdict { number, place };
        let list = words(0, &[]);
        let written = lists::write(objects(3, &given));
        assert_eq!(written, Listing { verdict, list }, "{name}");
    }
}

/// What comes back from the one call goes to the other. Past the count lies a word, or an object, that would be refused.
#[test]
fn there_and_back() {
    let name = "read and written again: same words";
    let read = lists::read(words_36_w(6, !0));
    let written = lists::write(read.list);
    assert_eq!(written.list, words(6, &WORDS_36_W), "{name}");

    let name = "written and read again: same objects";
    let written = lists::write(objects_36_w(6, ALL_ONES));
    let read = lists::read(written.list);
    assert_eq!(read.list, objects(6, &OBJECTS_36_W), "{name}");
}
