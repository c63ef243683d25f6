//! Decoding: the fields by kind, what is refused, and that nothing but the count and the named word
//! is looked at.

use super::*;

/// Every field at its most and all other bits set, and each field alone.
#[test]
fn fields_by_kind() {
    let taken = |position, word| match take_request(&all_kinds(), position << 28 | word) {
        Taken::Decoded(request) => {
            assert_eq!(u32::from(request.position), position);
            (request.mismatch, request.figures)
        }
        other => panic!("{position} {other:?}"),
    };
    for (word, mismatch, operating, maximum) in [
        (0x0FFF_FFFF, true, 1023, 1023),
        (0x0BFF_FFFF, false, 1023, 1023),
        (0x0400_0000, true, 0, 0),
        (BESIDE_FIGURES, false, 0, 0),
        (0x3FF << 10, false, 1023, 0),
        (0x3FF, false, 0, 1023),
        (123 << 10 | 456, false, 123, 456),
    ] {
        for position in [1, 2, 3] {
            let figures = Figures::Fixed { operating, maximum };
            assert_eq!(taken(position, word), (mismatch, figures), "{word:08X}");
        }
        let figures = Figures::Variable { operating, maximum };
        assert_eq!(taken(VARIABLE, word), (mismatch, figures), "{word:08X}");
    }
    for (word, mismatch, volts, current) in [
        (0x0FFF_FFFF, true, 4095, 127),
        (0x0BFF_FFFF, false, 4095, 127),
        (0x0400_0000, true, 0, 0),
        (BESIDE_VOLTS, false, 0, 0),
        (0xFFF << 9, false, 4095, 0),
        (0x7F, false, 0, 127),
        (602 << 9 | 65, false, 602, 65),
    ] {
        let figures = Figures::Pps { volts, current };
        assert_eq!(taken(PPS, word), (mismatch, figures), "{word:08X}");
        let figures = Figures::Avs { volts, current };
        assert_eq!(taken(AVS, word), (mismatch, figures), "{word:08X}");
    }
    for word in [0, 0x0FFF_FFFF, BESIDE_FIGURES] {
        assert_eq!(take_request(&all_kinds(), BATTERY << 28 | word), Taken::Battery);
    }
}

/// "10, 20, 12", whatever the lower bits of the word are.
#[test]
fn refused() {
    let refused = |number, place, list: &Words, position: u32| {
        for word in [position << 28, position << 28 | 0x0FFF_FFFF] {
            assert_eq!(take_request(list, word), Taken::Refused(said(number, place)));
        }
    };
    for count in [0, 8, 9, 255] {
        for position in 0..16 {
            refused(10, 0, &Words { count, ..all_kinds() }, position);
            refused(10, 0, &Words { count, words: [0xF000_0000; 7] }, position);
        }
    }
    for bad in [0xD000_0000, 0xF000_0000, 0xDFFF_FFFF, 0xFFFF_FFFF] {
        for count in 1..=7 {
            let list = Words { count, words: [bad; 7] };
            for position in 0..16 {
                if position == 0 || position > u32::from(count) {
                    refused(20, 0, &list, position);
                } else {
                    // The first word too: 11 is the shape's.
                    refused(12, position as u8, &list, position);
                }
            }
        }
    }
}

/// "looks at the count of the list and at the word that is named, at nothing else: whether the list
/// has its shape it does not say"
#[test]
fn nothing_else_is_looked_at() {
    let mut seeded = Seeded(61);
    let mut seen = [0; 5];
    for _ in 0..1 << 16 {
        let count = 1 + seeded.below(7) as u8;
        let place = 1 + seeded.below(u32::from(count));
        let named = seeded.next();
        let word = place << 28 | seeded.next() >> 4;
        let mut list = Words { words: core::array::from_fn(|_| seeded.next()), count };
        list.words[place as usize - 1] = named;
        let mut alone = Words { words: [0xF000_0000; 7], count };
        alone.words[place as usize - 1] = named;
        let taken = take_request(&list, word);
        assert_eq!(taken, page_taken(&list, word), "{list:08X?} {word:08X}");
        assert_eq!(taken, take_request(&alone, word), "{list:08X?} {word:08X}");
        if let Some(kind) = page_kind(named) {
            seen[usize::from(kind)] += 1;
        }
    }
    assert!(seen.iter().all(|&times| times > 1000), "{seen:?}");
}

/// Any list, any word.
#[test]
fn anything() {
    let mut seeded = Seeded(62);
    let mut seen = [0; 32];
    for _ in 0..1 << 18 {
        let count = if seeded.below(4) == 0 { seeded.next() as u8 } else { seeded.below(9) as u8 };
        let list = Words { words: core::array::from_fn(|_| seeded.next()), count };
        let word = seeded.next();
        let taken = take_request(&list, word);
        assert_eq!(taken, page_taken(&list, word), "{list:08X?} {word:08X}");
        seen[match taken {
            Taken::Refused(verdict) => usize::from(verdict.number),
            Taken::Battery => 1,
            Taken::Decoded(_) => 0,
        }] += 1;
    }
    for number in [0, 1, 10, 12, 20] {
        assert!(seen[number] > 1000, "{number} {seen:?}");
    }
    assert_eq!(seen.iter().sum::<i32>(), 1 << 18);
}
