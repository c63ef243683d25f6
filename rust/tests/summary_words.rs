//! Every request word to some lists, but for bits that do not count there: the answer from the summary is the model's answer from the list. And
//! summaries of any rows, by hand.

mod common;

use arinduleu::board;
use arinduleu::steps::{Ma50, Mv25};
use arinduleu::summaries::{answer_summary, rows_of, summarize, take_request};
use arinduleu::summaries::{QuickAsked, QuickRequest, Summary, TakenRequest};
use common::convert::{ToLibrary, ToModel};
use model::{Profile, Verdict, Words};

/// How often each number came up, and over how many words.
#[derive(Default)]
struct Seen {
    numbers: [u64; 32],
    words: u64,
}

/// Each of these figures in the bits from 9 or 10 on, with each of those below them up to this one, to this position.
fn asked(list: Words, position: u32, high: impl Iterator<Item = u32> + Clone, low: u32) -> Seen {
    let words = list.library();
    let summarized = summarize(words);
    assert_eq!(summarized.model(), model::summarize(&list), "{list:x?}");
    assert_eq!(summarized.verdict.number, 0, "{list:x?}");
    let summary = summarized.summary;
    let mut seen = Seen::default();
    for figures in high {
        for figure in 0..=low {
            let word = position << 28 | figures | figure;
            let stated = model::answer(&list, word);
            let Ok(TakenRequest::Quick(asked)) = take_request(words, word) else {
                panic!("{word:08X} is not for the summary");
            };
            let quick = answer_summary(summary, asked).model();
            assert_eq!(quick, stated, "{list:x?} {word:08X}");
            let taken = board::arin_take_request(words, word);
            assert_eq!(taken.verdict.model(), Verdict::default());
            let flat = board::arin_answer_summary(summary, taken.request).model();
            assert_eq!(flat, stated, "{list:x?} {word:08X}, flat");
            seen.numbers[usize::from(stated.number)] += 1;
            seen.words += 1;
        }
    }
    seen
}

fn built(max: u16, cable: u16) -> Words {
    let default = model::default_profile(max).profile;
    let profile = Profile {
        pps: 1,
        cable,
        ..default
    };
    model::build(&profile).list
}

/// The places of a kind, by the highest four bits of the word.
fn places(list: &Words, kind: u32) -> impl Iterator<Item = u32> + '_ {
    let counted = &list.words[..usize::from(list.count)];
    (1..)
        .zip(counted)
        .filter(move |(_, w)| **w >> 28 == kind)
        .map(|(place, _)| place)
}

/// 30 W, 36 W and 45 W, where AVS ends at 15 V, just above it, 65 W and 100 W, with cables that cut and that do not.
fn some_lists() -> Vec<Words> {
    let ports = [
        (60, 300),
        (72, 300),
        (90, 300),
        (91, 300),
        (130, 500),
        (130, 200),
        (200, 500),
        (200, 434),
    ];
    ports.map(|(max, cable)| built(max, cable)).to_vec()
}

/// 4096 voltages of 25 mV with 128 currents of 50 mA.
#[test]
fn every_avs_word_of_some_lists() {
    let (mut numbers, mut objects) = ([0; 32], 0);
    for list in some_lists() {
        for place in places(&list, 0xE) {
            let seen = asked(list, place, (0..4096).map(|v| v << 9), 127);
            assert_eq!(seen.words, 4096 * 128);
            // Three voltages of four are not whole, whatever the object.
            assert_eq!(seen.numbers[23], 3072 * 128);
            numbers = add(numbers, seen.numbers);
            objects += 1;
        }
    }
    println!("{objects} AVS objects, {numbers:?}");
    assert_eq!(objects, 8);
    assert!([0, 22, 24].iter().all(|n| numbers[*n] > 1000));
}

/// 4096 voltages of 20 mV with 128 currents of 50 mA.
#[test]
fn every_pps_word_of_some_lists() {
    let (mut numbers, mut objects) = ([0; 32], 0);
    for list in some_lists() {
        for place in places(&list, 0xC) {
            let seen = asked(list, place, (0..4096).map(|v| v << 9), 127);
            assert_eq!(seen.words, 4096 * 128);
            assert_eq!(seen.numbers[23], 0);
            numbers = add(numbers, seen.numbers);
            objects += 1;
        }
    }
    println!("{objects} PPS objects, {numbers:?}");
    assert_eq!(objects, 11);
    assert!([0, 22, 24].iter().all(|n| numbers[*n] > 1000));
}

/// 1024 operating figures with 1024 maximum ones, with and without the mismatch bit: of each fixed object of a built list, and of a variable one.
#[test]
fn every_word_of_two_currents_of_some_lists() {
    let variable = Words {
        words: [0x0001_912C, 0x5A41_90C8, 0x9901_9096, 0, 0, 0, 0],
        count: 3,
    };
    let fixed = built(130, 500);
    for (list, place) in (1..=4).map(|place| (fixed, place)).chain([(variable, 3)]) {
        let clear = asked(list, place, (0..1024).map(|o| o << 10), 1023);
        let set = asked(list, place, (0..1024).map(|o| 1 << 26 | o << 10), 1023);
        // The limit in 10 mA, from the word itself.
        let limit = u64::from(list.words[place as usize - 1] & 0x3FF);
        assert_eq!(clear.numbers[0], (limit + 1) * (limit + 1));
        assert_eq!(clear.numbers[25], (limit + 1) * (1023 - limit));
        assert_eq!(set.numbers[0], (limit + 1) * 1024);
        let too_large = (1023 - limit) * 1024;
        assert_eq!([clear.numbers[24], set.numbers[24]], [too_large; 2]);
    }
}

fn add(a: [u64; 32], b: [u64; 32]) -> [u64; 32] {
    std::array::from_fn(|n| a[n] + b[n])
}

/// Bits that are reserved or not examined are ignored: with all of them set the answer is the same, and so is what is decoded.
#[test]
fn ignored_bits_change_nothing() {
    let list = built(130, 500);
    for (kind, free) in [(0xE, 0x0BE0_0180), (0xC, 0x0BE0_0180), (0x0, 0x0BF0_0000)] {
        for place in places(&list, kind) {
            for figures in (0..1 << 21).step_by(997) {
                let word = place << 28 | (figures & !free);
                let words = list.library();
                let [without, with] =
                    [word, word | free].map(|w| board::arin_take_request(words, w));
                assert_eq!(with, without, "{word:08X}");
                let [without, with] = [word, word | free].map(|w| board::arin_answer(words, w));
                assert_eq!(with, without, "{word:08X}");
            }
        }
    }
}

/// A summary with a row past its count that is not zero: the rows are given as they stand, and no request to that row is answered by it.
#[test]
fn rows_past_the_count() {
    let summary = Summary {
        count: 1,
        rows: [[9000, 20000, 3000, 3250]; 7],
    };
    assert_eq!(rows_of(summary), summary.rows);
    // 15.05 V and far too much: 23 and 24 would apply at position 1, and 20 comes before them.
    let request = QuickRequest::Avs {
        volts: Mv25(602),
        current: Ma50(65535),
    };
    let asked = |position| QuickAsked {
        position,
        mismatch: false,
        request,
    };
    let numbers = [0, 1, 2, 7, 8, 255].map(|p| answer_summary(summary, asked(p)).number);
    assert_eq!(numbers, [20, 23, 20, 20, 20, 20]);
    // A count above 7 comes before the position.
    let summary = Summary {
        count: 8,
        ..summary
    };
    let numbers = [0, 1, 8, 9].map(|p| answer_summary(summary, asked(p)).number);
    assert_eq!(numbers, [10; 4]);
}
