//! Summaries that are of no list, decoded requests that no word gives, and requests to a battery as C has them.

use arinduleu::board;
use arinduleu::flat::{FlatRequest, FlatTaken};
use arinduleu::lists::Words;
use arinduleu::steps::{Ma10, Ma50, Mv20, Mv25};
use arinduleu::summaries::{answer_summary, QuickAsked, QuickRequest, Summary};
use arinduleu::verdicts::Verdict;

/// 9 to 20 V: 3 A below 15.0 V and 2 A above.
const FALLING: [u16; 4] = [9000, 20000, 3000, 2000];

/// The same the other way round.
const RISING: [u16; 4] = [9000, 20000, 2000, 3000];

const ALL: [u16; 4] = [0, 65535, 65535, 65535];

const NOTHING: [u16; 4] = [0; 4];

/// The lowest above the highest.
const EMPTY: [u16; 4] = [12000, 11000, 5000, 5000];

const fn fixed(operating: u16, maximum: u16) -> QuickRequest {
    QuickRequest::Fixed {
        operating: Ma10(operating),
        maximum: Ma10(maximum),
    }
}

const fn variable(operating: u16, maximum: u16) -> QuickRequest {
    QuickRequest::Variable {
        operating: Ma10(operating),
        maximum: Ma10(maximum),
    }
}

const fn pps(volts: u16, current: u16) -> QuickRequest {
    QuickRequest::Pps {
        volts: Mv20(volts),
        current: Ma50(current),
    }
}

const fn avs(volts: u16, current: u16) -> QuickRequest {
    QuickRequest::Avs {
        volts: Mv25(volts),
        current: Ma50(current),
    }
}

/// The name, the row, the mismatch bit and what is asked; then the number.
#[rustfmt::skip]
const ANSWERED: [(&str, [u16; 4], bool, QuickRequest, u8); 40] = [
    ("AVS at 14.9 V: the current below", FALLING, false, avs(596, 60), 0),
    ("AVS at 14.9 V, a step more", FALLING, false, avs(596, 61), 24),
    ("AVS at 15.0 V: the larger, which is that below", FALLING, false, avs(600, 60), 0),
    ("AVS at 15.0 V, a step more", FALLING, false, avs(600, 61), 24),
    ("AVS at 15.1 V: the current above", FALLING, false, avs(604, 40), 0),
    ("AVS at 15.1 V, a step more", FALLING, false, avs(604, 41), 24),
    ("AVS at 14.9 V, rising", RISING, false, avs(596, 41), 24),
    ("AVS at 15.0 V: the larger, which is that above", RISING, false, avs(600, 60), 0),
    ("AVS at 15.1 V, rising", RISING, false, avs(604, 60), 0),
    // 14.98, 15.00 and 15.02 V: a row of two currents is taken as it stands, and PPS goes by it too.
    ("PPS below 15.0 V by the current below", RISING, false, pps(749, 41), 24),
    ("PPS at 15.0 V by the larger", RISING, false, pps(750, 60), 0),
    ("PPS above 15.0 V by the current above", FALLING, false, pps(751, 41), 24),
    ("fixed by the current below", RISING, false, fixed(200, 200), 0),
    ("fixed, not by the current above", RISING, false, fixed(201, 0), 24),
    ("variable by the current below", FALLING, false, variable(300, 300), 0),
    ("variable, a step more", FALLING, false, variable(301, 300), 24),
    ("the maximum a step more", FALLING, false, fixed(300, 301), 25),
    ("the same with a mismatch", FALLING, true, fixed(300, 301), 0),
    ("a mismatch does not help the operating current", FALLING, true, fixed(301, 301), 24),
    ("24 before 25", FALLING, false, variable(301, 301), 24),
    ("AVS not whole before outside", FALLING, false, avs(1, 0), 23),
    ("AVS outside before too much", FALLING, false, avs(0, 65535), 22),
    ("AVS at the lowest", FALLING, false, avs(360, 0), 0),
    ("AVS 100 mV below the lowest", FALLING, false, avs(356, 0), 22),
    ("AVS at the highest", FALLING, false, avs(800, 0), 0),
    ("AVS 100 mV above the highest", FALLING, false, avs(804, 0), 22),
    ("PPS a step below the lowest", FALLING, false, pps(449, 0), 22),
    ("PPS a step above the highest", FALLING, false, pps(1001, 0), 22),
    ("the lowest above the highest: nothing lies between", EMPTY, false, pps(575, 0), 22),
    ("zero volts and zero current are within nothing", NOTHING, false, avs(0, 0), 0),
    ("a step of current is not", NOTHING, false, avs(0, 1), 24),
    ("a step of voltage is not", NOTHING, false, pps(1, 0), 22),
    ("no current of fixed", NOTHING, false, fixed(0, 0), 0),
    ("a step of fixed", NOTHING, false, fixed(0, 1), 25),
    // 65535 mV: 2621 steps of 25 mV are 65525 mV, and 2620 the last whole 100 mV. 16 bits would hold 2624 steps as 64 mV.
    ("AVS up to 65.5 V", ALL, false, avs(2620, 1310), 0),
    ("AVS of 65.6 V, past 16 bits of mV", ALL, false, avs(2624, 0), 22),
    ("PPS of 65.52 V", ALL, false, pps(3276, 1310), 0),
    ("PPS of 65.54 V, past 16 bits of mV", ALL, false, pps(3277, 0), 22),
    // 1311 steps of 50 mA are 65550 mA, and 6554 of 10 mA are 65540.
    ("a current past 16 bits of mA", ALL, false, avs(0, 1311), 24),
    ("two currents past 16 bits of mA", ALL, false, fixed(6554, 65535), 24),
];

/// The row is the third of four, and the rest would allow nothing or all.
#[test]
fn rows_as_they_stand() {
    for (name, row, mismatch, request, number) in ANSWERED {
        for others in [NOTHING, ALL] {
            let mut rows = [others; 7];
            rows[2] = row;
            let asked = QuickAsked {
                position: 3,
                mismatch,
                request,
            };
            let answer = answer_summary(Summary { count: 4, rows }, asked);
            assert_eq!(answer, Verdict { number, place: 0 }, "{name}");
        }
    }
}

/// Every count with every position, on rows that allow all.
#[test]
fn counts_and_positions() {
    for count in 0..=u8::MAX {
        for position in 0..=u8::MAX {
            let asked = QuickAsked {
                position,
                mismatch: false,
                request: fixed(0, 0),
            };
            let summary = Summary {
                count,
                rows: [ALL; 7],
            };
            let number = match (count, position) {
                (8.., _) => 10,
                (_, 0) => 20,
                _ if position > count => 20,
                _ => 0,
            };
            let answer = answer_summary(summary, asked);
            assert_eq!(answer, Verdict { number, place: 0 }, "{count} {position}");
        }
    }
}

/// Of every kind number, on no summary and on one that allows all: a kind that has no answer is refused before the count.
#[test]
fn every_kind_number() {
    for kind in 0..=u8::MAX {
        let request = FlatRequest {
            kind,
            position: 1,
            ..FlatRequest::default()
        };
        let known = matches!(kind, 0 | 2 | 3 | 4);
        for (count, number) in [(1, 0), (0, 20), (8, 10)] {
            let summary = Summary {
                count,
                rows: [ALL; 7],
            };
            let answer = board::arin_answer_summary(summary, request);
            let number = if known { number } else { 12 };
            assert_eq!(answer, Verdict { number, place: 0 }, "{kind} {count}");
        }
    }
}

/// The name, the first two words of a list and its count, the request word, and what is given back.
#[rustfmt::skip]
const TAKEN: [(&str, [u32; 2], u8, u32, FlatTaken); 7] = [
    // Battery of 5 to 21 V and 50 W; 50 W and 50 W are asked for, which are not in what is given back.
    ("battery with a mismatch", [0x0001_912C, 0x5A41_90C8], 2, 0x2403_20C8, taken(1, 2, 1)),
    ("battery without", [0x0001_912C, 0x5A41_90C8], 2, 0x2003_20C8, taken(1, 2, 0)),
    // The list need not have its shape: 9 V first, and a word of no kind behind it.
    ("the shape is not looked at", [0x0002_D12C, 0xFFFF_FFFF], 2, 0x1000_0000, taken(0, 1, 0)),
    ("but the kind of the word is", [0x0002_D12C, 0xFFFF_FFFF], 2, 0x2000_0000, refused(12, 2)),
    ("of the first word too", [0xD000_0000, 0], 1, 0x1000_0000, refused(12, 1)),
    ("the count comes first", [0xFFFF_FFFF, 0], 8, 0x9000_0000, refused(10, 0)),
    ("then the position", [0xFFFF_FFFF, 0], 1, 0x2000_0000, refused(20, 0)),
];

/// All figures are zero.
const fn flat(kind: u8, position: u8, mismatch: u8) -> FlatRequest {
    FlatRequest {
        kind,
        position,
        mismatch,
        operating: Ma10(0),
        maximum: Ma10(0),
        volts20: Mv20(0),
        volts25: Mv25(0),
        current50: Ma50(0),
    }
}

const fn taken(kind: u8, position: u8, mismatch: u8) -> FlatTaken {
    FlatTaken {
        verdict: Verdict {
            number: 0,
            place: 0,
        },
        request: flat(kind, position, mismatch),
    }
}

const fn refused(number: u8, place: u8) -> FlatTaken {
    FlatTaken {
        verdict: Verdict { number, place },
        request: flat(0, 0, 0),
    }
}

#[test]
fn requests_decoded() {
    for (name, [first, second], count, word, wanted) in TAKEN {
        let list = Words {
            words: [first, second, 0, 0, 0, 0, 0],
            count,
        };
        assert_eq!(board::arin_take_request(list, word), wanted, "{name}");
    }
}
