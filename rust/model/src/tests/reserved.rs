//! "A reserved bit of a request is ignored, set or clear, and so is a bit that is not examined
//! (T-01). Two requests to the same object that differ in no other bit get the same answer on the
//! same list; asked of the same port of the same rows they get the same answer and leave the same
//! rows."

use super::*;

/// The bits of a request that are reserved or not examined: with two figures 27, 25..20, with a
/// voltage 27..21, 8, 7.
const IN_FIGURES: u32 = 1 << 27 | 0xF << 22 | 1 << 21 | 1 << 20;
const IN_VOLTS: u32 = 1 << 27 | 0x1F << 22 | 1 << 21 | 1 << 8 | 1 << 7;

/// Where each kind stands in `all_kinds`.
const FIXED: u32 = 1;
const BATTERY: u32 = 4;
const VARIABLE: u32 = 5;
const AVS: u32 = 6;
const PPS: u32 = 7;

/// The figures of the first three kinds are below 128, so that bit 8 or 7 alone is above them.
const FIGURES: [(u32, u32); 3] = [(FIXED, 120), (BATTERY, 110), (VARIABLE, 100)];

fn all_kinds() -> Words {
    list_of(&[
        fixed(5, 120),
        fixed(15, 300),
        fixed(20, 325),
        battery(400, 100, 110),
        variable(300, 60, 100),
        avs(300, 325),
        pps(110, 50, 60),
    ])
}

fn object(position: u32) -> Object {
    decode(all_kinds().words[position as usize - 1]).unwrap()
}

/// No bit of `mask`, each alone, all at once, and every other choice.
fn choices(mask: u32) -> impl Iterator<Item = u32> {
    let mut next = Some(mask);
    core::iter::from_fn(move || {
        let bits = next?;
        next = bits.checked_sub(1).map(|less| less & mask);
        Some(bits)
    })
}

/// A request gets `number` whatever its ignored bits are, and the same fields are taken from it.
fn answered(position: u32, plain: u32, ignored: u32, number: u8) {
    let (list, object) = (all_kinds(), object(position));
    assert_eq!(plain & ignored, 0);
    for bits in choices(ignored) {
        let word = plain | bits;
        assert_eq!(answer(&list, word), said(number, 0), "{word:08X}");
        assert_eq!(judge(&object, word), said(number, 0), "{word:08X}");
        let mismatch = word >> 26 & 1 == 1;
        assert_eq!(take_apart(&object, word), Asked { mismatch, ..take_apart(&object, plain) });
    }
}

#[test]
fn choices_are_all() {
    assert!(choices(0b101).eq([0b101, 0b100, 0b001, 0]));
    assert_eq!(choices(IN_FIGURES).count(), 1 << 7);
    assert_eq!(choices(IN_VOLTS).count(), 1 << 9);
}

#[test]
fn ignored_in_two_figures() {
    for (position, most) in FIGURES {
        let asked = |operating, maximum, number| {
            answered(position, ask_figures(position, operating, maximum), IN_FIGURES, number);
        };
        asked(0, 0, 0);
        asked(most, most, 0);
        asked(most + 1, most, 24);
        asked(most + 1, most + 1, 24);
        asked(1023, 0, 24);
        asked(most, most + 1, 25);
        asked(0, 1023, 25);
        let mismatch = ask_figures(position, most, 1023) | 1 << 26;
        answered(position, mismatch, IN_FIGURES, 0);
    }
}

#[test]
fn ignored_in_pps() {
    let asked = |volts, current, number| {
        answered(PPS, ask_volts(PPS, volts, current), IN_VOLTS, number);
    };
    asked(250, 0, 0);
    asked(251, 1, 0);
    asked(550, 60, 0);
    asked(249, 60, 22);
    asked(551, 61, 22);
    asked(550, 61, 24);
    asked(250, 127, 24);
}

#[test]
fn ignored_in_avs() {
    let asked = |volts, current, number| {
        answered(AVS, ask_volts(AVS, volts, current), IN_VOLTS, number);
    };
    asked(360, 60, 0);
    asked(600, 65, 0);
    asked(800, 65, 0);
    asked(602, 65, 23);
    asked(601, 66, 23);
    asked(358, 0, 23);
    asked(802, 127, 23);
    asked(356, 60, 22);
    asked(804, 66, 22);
    asked(600, 66, 24);
    asked(596, 65, 24);
    asked(800, 127, 24);
}

/// Where no object is named there is no kind either: every bit below the position is free.
#[test]
fn ignored_at_no_position() {
    let list = all_kinds();
    for position in [0, 8, 15] {
        for bits in [0, 1 << 27, IN_FIGURES, IN_VOLTS, IN_FIGURES | IN_VOLTS, !0 >> 4] {
            assert_eq!(answer(&list, position << 28 | bits), said(20, 0));
        }
    }
}

/// Bit 20 is reserved beside two figures only, bits 8 and 7 beside a voltage only.
#[test]
fn fields_keep_their_bits() {
    let list = all_kinds();
    for (position, volts) in [(PPS, 250), (AVS, 600)] {
        let word = ask_volts(position, volts, 1);
        assert_eq!(answer(&list, word), said(0, 0));
        assert_eq!(answer(&list, word | 1 << 20), said(22, 0));
    }
    let asked = take_apart(&object(PPS), ask_volts(PPS, 250, 1) | 1 << 20);
    assert_eq!(asked.request, Request::Pps { volts: 2048 + 250, current: 1 });
    let asked = take_apart(&object(AVS), ask_volts(AVS, 600, 1) | 1 << 20);
    assert_eq!(asked.request, Request::Avs { volts: 2048 + 600, current: 1 });

    for (position, most) in FIGURES {
        let word = ask_figures(position, most, 0);
        assert_eq!(answer(&list, word), said(0, 0));
        for bit in [8, 7] {
            assert_eq!(answer(&list, word | 1 << bit), said(25, 0));
            assert_eq!(answer(&list, word | 1 << bit | 1 << 26), said(0, 0));
        }
    }
    let word = ask_figures(0, 1, 2) | 1 << 8 | 1 << 7;
    let (operating, maximum) = (1, 256 + 128 + 2);
    for (position, request) in [
        (FIXED, Request::Fixed { operating, maximum }),
        (BATTERY, Request::Battery { operating, maximum }),
        (VARIABLE, Request::Variable { operating, maximum }),
    ] {
        assert_eq!(take_apart(&object(position), word).request, request);
    }
}

/// The sentence itself over many words, and "no call gives" 21.
#[test]
fn the_same_answer() {
    let list = all_kinds();
    for step in 0..1u32 << 20 {
        let word = step.wrapping_mul(0x9E37_79B9);
        let ignored = match u32::from(position(word)) {
            AVS | PPS => IN_VOLTS,
            _ => IN_FIGURES,
        };
        let said = answer(&list, word);
        assert_eq!(said, answer(&list, word & !ignored), "{word:08X}");
        assert_eq!(said, answer(&list, word | ignored), "{word:08X}");
        assert!(matches!(said.number, 0 | 20 | 22..=25), "{word:08X}");
    }
}

/// Two ports of 36 W with PPS on 50 W. The second holds all of its 36, so the others leave 28 half
/// watts for the first.
#[test]
fn the_same_rows() {
    let mut rows = [Row { max: 72, pps: 1, ..Row::default() }; 2];
    assert_eq!(set_up(&mut rows, 100), said(0, 0));
    assert_eq!(attach(&mut rows, 100, 1, 300).list.count, 6);
    assert_eq!(attach(&mut rows, 100, 2, 300).list.count, 6);
    let alone = rows;
    assert_eq!(request(&mut rows, 100, 2, ask_volts(4, 600, 48)), said(0, 0));
    assert_eq!(rows[1].held, 72);

    let asked = |rows: [Row; 2], plain: u32, ignored: u32, number: u8, held: u16| {
        assert_eq!(plain & ignored, 0);
        let place = u8::from(number == 36);
        let mut expected = rows;
        expected[0].held = held;
        for bits in choices(ignored) {
            let mut after = rows;
            let word = plain | bits;
            assert_eq!(request(&mut after, 100, 1, word), said(number, place), "{word:08X}");
            assert_eq!(after, expected, "{word:08X}");
        }
    };
    // 9 V at 3 A; 11 V at 3 A; 16 V at 2.4 A, of which PPS holds P; 15 V at 2.4 A; 9 V at 0.05 A.
    asked(alone, ask_figures(2, 300, 300), IN_FIGURES, 0, 54);
    asked(alone, ask_volts(5, 550, 60), IN_VOLTS, 0, 66);
    asked(alone, ask_volts(6, 800, 48), IN_VOLTS, 0, 72);
    asked(alone, ask_volts(4, 600, 48), IN_VOLTS, 0, 72);
    asked(alone, ask_volts(4, 360, 1), IN_VOLTS, 0, 15);
    // 14 W is all that is left; the next step of current is too much.
    asked(rows, ask_figures(1, 280, 300), IN_FIGURES, 0, 28);
    asked(rows, ask_figures(1, 281, 300), IN_FIGURES, 36, 15);
    asked(rows, ask_volts(4, 400, 28), IN_VOLTS, 0, 28);
    asked(rows, ask_volts(4, 400, 29), IN_VOLTS, 36, 15);
    asked(rows, ask_volts(5, 350, 40), IN_VOLTS, 0, 28);
    asked(rows, ask_volts(5, 350, 41), IN_VOLTS, 36, 15);
    // The list's own refusals come before 36.
    asked(rows, ask_volts(7, 400, 29), IN_VOLTS, 20, 15);
    asked(rows, ask_volts(4, 602, 48), IN_VOLTS, 23, 15);
    asked(rows, ask_volts(5, 551, 60), IN_VOLTS, 22, 15);
    asked(rows, ask_volts(4, 600, 49), IN_VOLTS, 24, 15);
    asked(rows, ask_figures(1, 281, 301), IN_FIGURES, 25, 15);
}
