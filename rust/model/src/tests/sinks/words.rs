//! One sink word: its fields, its reserved bits, both ways round, and the parts for a side.

use super::*;

/// Fields by the table: kind, high bit, low bit.
const FIELDS: [(usize, u32, u32); 12] = [
    (0, 29, 23),
    (0, 19, 10),
    (0, 9, 0),
    (1, 29, 20),
    (1, 19, 10),
    (1, 9, 0),
    (2, 29, 20),
    (2, 19, 10),
    (2, 9, 0),
    (3, 24, 17),
    (3, 15, 8),
    (3, 6, 0),
];

/// An object of a kind by its three fields, in the order of `FIELDS`.
fn object(kind: usize, [a, b, c]: [u16; 3]) -> SinkObject {
    match kind {
        0 => SinkObject::Fixed { flags: a as u8, volts: b, current: c },
        1 => SinkObject::Battery { max: a, min: b, power: c },
        2 => SinkObject::Variable { max: a, min: b, current: c },
        _ => SinkObject::Pps { max: a, min: b, current: c },
    }
}

/// Each field alone, at every number that its bits hold, and at every one that they do not.
#[test]
fn every_number_of_each_field() {
    for (index, &(kind, high, low)) in FIELDS.iter().enumerate() {
        // C has 8 bits for the flags and 16 for all else.
        let most = if index == 0 { u8::MAX.into() } else { u16::MAX };
        for figure in 0..=most {
            let mut fields = [0; 3];
            fields[index % 3] = figure;
            let given = object(kind, fields);
            if u32::from(figure) >= 1 << (high - low + 1) {
                assert_eq!(sink_encode(&given), None, "{given:?}");
                continue;
            }
            let word = KIND_BITS[kind] + u32::from(figure) * 2u32.pow(low);
            assert_eq!(sink_encode(&given), Some(word), "{given:?}");
            assert_eq!(sink_decode(word), Some(given), "{word:08X}");
        }
    }
}

/// "refuses with 7 when a field does not fit its bits", whether the other fields are full or zero.
#[test]
fn one_field_too_wide() {
    for kind in 0..4 {
        let most: [u16; 3] = core::array::from_fn(|at| {
            let (_, high, low) = FIELDS[3 * kind + at];
            (1u32 << (high - low + 1)) as u16 - 1
        });
        let full = object(kind, most);
        assert_eq!(sink_decode(sink_encode(&full).unwrap()), Some(full));
        for at in 0..3 {
            let mut wide = most;
            wide[at] += 1;
            assert_eq!(sink_encode(&object(kind, wide)), None, "{wide:?}");
            let mut alone = [0; 3];
            alone[at] = most[at] + 1;
            assert_eq!(sink_encode(&object(kind, alone)), None, "{alone:?}");
        }
    }
}

/// "the kinds 1101b, 1110b and 1111b are not allowed"
#[test]
fn kinds() {
    for rest in [0, 1, 0x0003_C000, 0x0FFF_FFFF] {
        for kind in [0xD000_0000, 0xE000_0000, 0xF000_0000] {
            assert_eq!(sink_decode(kind | rest), None);
            assert_eq!(decode_for(Side::Sink, kind | rest), None);
            assert_eq!(decode_for(Side::Source, kind | rest), decode(kind | rest));
        }
    }
    assert!(decode_for(Side::Source, 0xE000_0000).is_some());
    assert!(decode_for(Side::Source, 0xD000_0000).is_none());
}

/// Each bit of each kind, as the first word and as a later one.
#[test]
fn each_reserved_bit() {
    for (kind, base) in (0..).zip(KIND_BITS) {
        for bit in 0..30 {
            let word = base | 1 << bit;
            // In a PPS word 29 and 28 tell the kind.
            let Some(object) = sink_decode(word) else {
                assert!(kind == 3 && bit >= 28);
                continue;
            };
            for first in [true, false] {
                let reserved = page_reserved(kind, first).contains(&bit);
                assert_eq!(sink_reserved_bit_set(&object, first, word), reserved, "{word:08X}");
                assert!(!sink_reserved_bit_set(&object, first, base));
                // A source's object of the same word.
                let source = decode(word).unwrap();
                assert_eq!(reserved_bit_set_for(Side::Sink, &source, first, word), reserved);
                let as_above = reserved_bit_set(&source, first, word);
                assert_eq!(reserved_bit_set_for(Side::Source, &source, first, word), as_above);
            }
            // "A word [...] without reserved bits (of a fixed word: 22..20) comes back the same".
            let lost = page_reserved(kind, true).contains(&bit);
            assert_eq!(sink_encode(&object), Some(if lost { base } else { word }));
        }
    }
    let supply = decode(0xE000_0000).unwrap();
    for bit in 0..32 {
        let reserved = (20..=25).contains(&bit);
        for side in [Side::Source, Side::Sink] {
            assert_eq!(reserved_bit_set_for(side, &supply, false, 1 << bit), reserved);
        }
    }
}

/// Any word: its fields, and what comes back.
#[test]
fn seeded_words() {
    let mut seeded = Seeded(11);
    for _ in 0..1 << 18 {
        let word = seeded.next();
        let object = sink_decode(word);
        assert_eq!(object, page_object(word), "{word:08X}");
        // "for a sink AVS is not allowed either, and every other word is as above"
        let source = decode(word).filter(|_| object.is_some());
        assert_eq!(decode_for(Side::Sink, word), source, "{word:08X}");
        assert_eq!(decode_for(Side::Source, word), decode(word), "{word:08X}");
        let Some(object) = object else {
            continue;
        };
        let lost = page_reserved(page_kind(word).unwrap(), true);
        let kept = lost.iter().fold(word, |word, &bit| word & !(1 << bit));
        assert_eq!(sink_encode(&object), Some(kept), "{word:08X}");
        assert_eq!(sink_decode(kept), Some(object), "{word:08X}");
    }
}
