//! "For every list that has its shape, and every request word that is decoded for an object of it,
//! the answer from the summary of the list is the answer from the list, number and place. Where the
//! position of a request word is outside the count, the answer from the list is 20, decoding gives
//! 20, and every decoded request with that position gets 20 from the summary."

use super::*;

/// How often each number was given, and how often the request was one for the list.
struct Seen {
    numbers: [u32; 32],
    batteries: u32,
}

impl Seen {
    fn none() -> Seen {
        Seen { numbers: [0; 32], batteries: 0 }
    }

    /// Both ways, for a list that has its shape, and as the page says.
    fn both(&mut self, list: &Words, summary: &Summary, word: u32) {
        let from_list = answer(list, word);
        let taken = take_request(list, word);
        let flat = flat_take_request(list, word);
        let from_flat = flat_answer_summary(summary, &flat.request);
        match taken {
            Taken::Refused(verdict) => {
                assert_eq!((verdict, from_list), (said(20, 0), said(20, 0)), "{word:08X}");
                assert_eq!(flat.verdict, said(20, 0), "{word:08X}");
                let position = (word >> 28) as u8;
                for figures in [
                    Figures::Fixed { operating: 0, maximum: 0 },
                    Figures::Avs { volts: 601, current: 127 },
                ] {
                    let request = request_for(position, figures);
                    assert_eq!(answer_summary(summary, &request), said(20, 0), "{word:08X}");
                }
            }
            Taken::Battery => {
                self.batteries += 1;
                assert_eq!(from_flat, said(12, 0), "{word:08X}");
            }
            Taken::Decoded(request) => {
                let said = answer_summary(summary, &request);
                assert_eq!(said, from_list, "{list:08X?} {word:08X}");
                assert_eq!(said, from_flat, "{list:08X?} {word:08X}");
                assert_eq!(said, page_answer(summary, &request), "{list:08X?} {word:08X}");
            }
        }
        self.numbers[usize::from(from_list.number)] += 1;
    }

    /// Each of these many times, and no other.
    fn only(&self, numbers: &[usize], times: u32) {
        for number in 0..32 {
            let seen = self.numbers[number];
            assert_eq!(numbers.contains(&number), seen > times, "{number} {:?}", self.numbers);
            assert!(seen == 0 || seen > times, "{number} {seen}");
        }
    }
}

/// Near the ends and the limits of the object at this place, with every choice of bit 26 and of all
/// or none of the bits that are ignored.
fn near(word: u32, position: u32, mut each: impl FnMut(u32)) {
    let mut all = |plain: u32, ignored: u32| {
        for bits in [0, MISMATCH, ignored, MISMATCH | ignored] {
            each(plain | bits);
        }
    };
    let steps = |figure: u16| [figure.saturating_sub(1), figure, figure + 1].map(u32::from);
    match page_kind(word) {
        Some(3) => {
            let ends = [bits(word, 15, 8) * 5, bits(word, 24, 17) * 5, 450, 750, 1000];
            let volts = ends.into_iter().flat_map(steps).chain([0, 745, 755, 2048, 4095]);
            for volts in volts {
                for current in steps(bits(word, 6, 0)).into_iter().chain([0, 127]) {
                    all(ask_volts(position, volts, current.min(127)), BESIDE_VOLTS);
                }
            }
        }
        Some(4) => {
            let ends = [360, 364, 596, 600, 604, 796, 800, 804];
            let volts = ends.into_iter().flat_map(steps).chain([0, 4, 356, 4092, 4095]);
            let (low, high) = (bits(word, 19, 10) / 5, bits(word, 9, 0) / 5);
            for volts in volts {
                for current in steps(low).into_iter().chain(steps(high)).chain([0, 127]) {
                    all(ask_volts(position, volts, current.min(127)), BESIDE_VOLTS);
                }
            }
        }
        _ => {
            let figures = || steps(bits(word, 9, 0)).into_iter().chain([0, 1023]);
            for operating in figures() {
                for maximum in figures() {
                    let (operating, maximum) = (operating.min(1023), maximum.min(1023));
                    all(ask_figures(position, operating, maximum), BESIDE_FIGURES);
                }
            }
        }
    }
}

#[test]
fn seeded_lists() {
    let mut seeded = Seeded(63);
    let mut seen = Seen::none();
    let (mut kinds, mut counts) = ([0; 5], [0; 8]);
    for _ in 0..1 << 10 {
        let list = seeded.good_list();
        let made = summarize(&list);
        assert_eq!(made, page_summary(&list), "{list:08X?}");
        assert_eq!(made.verdict, said(0, 0), "{list:08X?}");
        counts[usize::from(list.count)] += 1;
        for position in 0..16 {
            match list.words[..usize::from(list.count)].get((position as usize).wrapping_sub(1)) {
                Some(&word) => {
                    kinds[usize::from(page_kind(word).unwrap())] += 1;
                    near(word, position, |word| seen.both(&list, &made.summary, word));
                }
                None => {
                    for lower in [0, 0x0FFF_FFFF, 600 << 9, seeded.next() >> 4] {
                        seen.both(&list, &made.summary, position << 28 | lower);
                    }
                }
            }
            for _ in 0..16 {
                seen.both(&list, &made.summary, position << 28 | seeded.next() >> 4);
            }
        }
    }
    seen.only(&[0, 20, 22, 23, 24, 25], 10_000);
    assert!(seen.batteries > 10_000, "{}", seen.batteries);
    assert!(kinds.iter().all(|&times| times > 200), "{kinds:?}");
    assert!(counts[1..].iter().all(|&times| times > 20), "{counts:?}");
}

/// Every voltage with every current of PPS and of AVS.
#[test]
fn every_voltage() {
    let list = all_kinds();
    let summary = summary_of(&list);
    for position in [PPS, AVS] {
        let mut seen = Seen::none();
        for lower in 0..1u32 << 19 {
            // Bits 20..9 and 6..0.
            let word = position << 28 | (lower >> 7) << 9 | lower & 0x7F;
            seen.both(&list, &summary, word);
        }
        let numbers: &[usize] = if position == PPS { &[0, 22, 24] } else { &[0, 22, 23, 24] };
        seen.only(numbers, 2000);
    }
}

/// Every figure of fixed and variable, beside the other one at its limit and one past it.
#[test]
fn every_figure() {
    let list = all_kinds();
    let summary = summary_of(&list);
    for (position, limit) in [(FIXED, 120), (2, 300), (3, 325), (VARIABLE, 150)] {
        let mut seen = Seen::none();
        for figure in 0..1024 {
            for other in [0, limit, limit + 1, 1023] {
                for bit in [0, MISMATCH] {
                    seen.both(&list, &summary, ask_figures(position, figure, other) | bit);
                    seen.both(&list, &summary, ask_figures(position, other, figure) | bit);
                }
            }
        }
        seen.only(&[0, 24, 25], 100);
    }
}

/// Every list that can be built has its summary, and it answers for the list.
#[test]
fn built_lists() {
    let mut seen = Seen::none();
    for max in 1..=200 {
        for present in [1, max / 2 + 1, max] {
            let present = present.min(max);
            let list = built(profile(max, present, 500, 0, u8::from(present == max)));
            let summary = summary_of(&list);
            assert_eq!(summary, page_summary(&list).summary);
            for position in 1..=u32::from(list.count) {
                let word = list.words[position as usize - 1];
                near(word, position, |word| seen.both(&list, &summary, word));
            }
        }
    }
    seen.only(&[0, 22, 23, 24, 25], 10_000);
    assert_eq!(seen.batteries, 0);
}

/// Lists of which many have no shape: the summary is refused as the shape is.
#[test]
fn spoilt_lists() {
    let mut seeded = Seeded(64);
    let mut seen = [0; 32];
    for _ in 0..1 << 16 {
        let mut list = seeded.good_list();
        let (at, other) = (seeded.below(7) as usize, seeded.below(7) as usize);
        match seeded.below(8) {
            0 | 1 => list.words[at] ^= 1 << seeded.below(32),
            2 => list.words[at] = list.words[other],
            3 => list.words[at] = seeded.next(),
            4 => list.words.swap(at, other),
            5 => list.count = seeded.of(&[0, 1, 2, 3, 6, 7, 8, 255]),
            _ => {}
        }
        let made = summarize(&list);
        assert_eq!(made, page_summary(&list), "{list:08X?}");
        seen[usize::from(made.verdict.number)] += 1;
    }
    for number in [0, 10, 11, 12, 13, 14, 15, 16, 17] {
        assert!(seen[number] > 100, "{number} {seen:?}");
    }
}
