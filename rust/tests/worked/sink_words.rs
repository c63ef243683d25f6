//! One word of a sink: the object it says, the word that an object makes, and what a word says for either side.

use crate::making::{self, avs, needs};
use arinduleu::objects::{decode_for, reserved_bit_set, Object, Side};
use arinduleu::sinks::{sink_decode, sink_encode, SinkObject};

/// Each kind twice: fields that all differ, and every bit below the kind set, reserved or not. Bits 22..20 of a fixed word and 27 of a PPS one
/// are no field of a sink.
#[rustfmt::skip]
const DECODED: [(&str, u32, SinkObject); 10] = [
    // Flags 53h in 29..23, 20 V = 190h in 19..10, 3.25 A = 145h in 9..0.
    ("decode fixed", 0x29864145, needs::fixed(0x53, 400, 325)),
    ("decode fixed, peak current 2", 0x29A64145, needs::fixed(0x53, 400, 325)),
    ("decode fixed, all bits set", 0x3FFFFFFF, needs::fixed(127, 1023, 1023)),
    ("decode a zero word as fixed, all zero", 0, needs::fixed(0, 0, 0)),
    // 21 V = 1A4h in 29..20, 5 V = 64h in 19..10, then 50 W = 0C8h or 3 A = 12Ch in 9..0.
    ("decode battery", 0x5A4190C8, needs::battery(420, 100, 200)),
    ("decode variable", 0x9A41912C, needs::variable(420, 100, 300)),
    ("decode variable, all bits set", 0xBFFFFFFF, needs::variable(1023, 1023, 1023)),
    // 11 V = 6Eh in 24..17, 5 V = 32h in 15..8, 3 A = 3Ch in 6..0.
    ("decode PPS", 0xC0DC323C, needs::pps(110, 50, 60)),
    ("decode PPS, power limited", 0xC8DC323C, needs::pps(110, 50, 60)),
    ("decode PPS, all bits set", 0xCFFFFFFF, needs::pps(255, 255, 127)),
];

#[test]
fn sink_words_decoded() {
    for (name, word, object) in DECODED {
        assert_eq!(sink_decode(word), Some(object), "{name}");
    }
}

/// The lowest and the highest word of a kind that no sink has.
#[test]
fn kinds_that_no_sink_has() {
    for kind in [0xD, 0xE, 0xF] {
        for rest in [0, 0x0004_B12C, 0x0FFF_FFFF] {
            let word = kind << 28 | rest;
            assert_eq!(sink_decode(word), None, "{word:08X}");
            assert_eq!(decode_for(Side::Sink, word), None);
        }
    }
}

/// For a sink a word is the source's object, with what no sink has still in it; AVS alone is none.
#[test]
fn words_decoded_for_a_side() {
    let rows = [
        ("fixed", 0x29A64145, making::fixed(0x53, 2, 400, 325)),
        ("battery", 0x5A4190C8, making::battery(420, 100, 200)),
        ("variable", 0x9A41912C, making::variable(420, 100, 300)),
        ("PPS", 0xC8DC323C, making::pps(1, 110, 50, 60)),
    ];
    for (name, word, object) in rows {
        for side in [Side::Source, Side::Sink] {
            let said = decode_for(side, word);
            assert_eq!(said, Some(object), "{name}, {side:?}");
        }
    }
    let known = Some(avs(2, 267, 200));
    assert_eq!(decode_for(Side::Source, 0xE8042CC8), known);
    assert_eq!(decode_for(Side::Sink, 0xE8042CC8), None);
    for word in [0xD0000000, 0xF0000000] {
        assert_eq!(decode_for(Side::Source, word), None);
    }
}

/// An object of the kind, whether it is the first, the bits that are reserved in a list of a sink and no other, and a word that has every other
/// bit of the kind.
#[rustfmt::skip]
const RESERVED: [(&str, Object, bool, u32, u32); 9] = [
    ("a sink's first fixed: 22..20", making::fixed(0, 0, 0, 0), true, 0x00700000, 0x3F8FFFFF),
    ("a sink's later fixed: 29..20", making::fixed(0, 0, 0, 0), false, 0x3FF00000, 0x000FFFFF),
    ("a sink's battery: none", making::battery(0, 0, 0), false, 0, 0x7FFFFFFF),
    ("a sink's first battery: none", making::battery(0, 0, 0), true, 0, 0x7FFFFFFF),
    ("a sink's variable: none", making::variable(0, 0, 0), false, 0, 0xBFFFFFFF),
    ("a sink's PPS: 27..25, 16, 7", making::pps(0, 0, 0, 0), false, 0x0E010080, 0xC1FEFF7F),
    ("a sink's first PPS: the same", making::pps(0, 0, 0, 0), true, 0x0E010080, 0xC1FEFF7F),
    // No sink has it; the bits are those of a source.
    ("AVS for a sink: 25..20", avs(0, 0, 0), false, 0x03F00000, 0xEC0FFFFF),
    ("first AVS for a sink: 25..20", avs(0, 0, 0), true, 0x03F00000, 0xEC0FFFFF),
];

/// Each bit by itself is told as reserved exactly where the mask has it, whatever the fields of the object.
#[test]
fn bits_reserved_for_a_sink() {
    for (name, object, first, mask, others) in RESERVED {
        for bit in 0..32 {
            let word = 1 << bit;
            let told = reserved_bit_set(Side::Sink, object, first, word);
            assert_eq!(told, word & mask != 0, "{name}: bit {bit}");
        }
        let told = reserved_bit_set(Side::Sink, object, first, others);
        assert!(!told, "{name}: every other bit");
    }
    let full = making::fixed(127, 3, 1023, 1023);
    assert!(!reserved_bit_set(Side::Sink, full, true, 0x3F8FFFFF));
}

#[rustfmt::skip]
const ENCODED: [(&str, SinkObject, u32); 4] = [
    ("encode fixed", needs::fixed(0x53, 400, 325), 0x29864145),
    ("encode battery", needs::battery(420, 100, 200), 0x5A4190C8),
    ("encode variable", needs::variable(420, 100, 300), 0x9A41912C),
    ("encode PPS", needs::pps(110, 50, 60), 0xC0DC323C),
];

#[test]
fn sink_objects_encoded() {
    for (name, object, word) in ENCODED {
        assert_eq!(sink_encode(object), Some(word), "{name}");
    }
}

/// Both sides of a field's width: the largest value gives the word, the next one does not fit.
#[rustfmt::skip]
const EDGES: [(&str, SinkObject, u32, SinkObject); 12] = [
    ("fixed flags: 127 fits, 128 does not", needs::fixed(127, 0, 0), 0x3F800000, needs::fixed(128, 0, 0)),
    ("fixed voltage: 1023 fits, 1024 does not", needs::fixed(0, 1023, 0), 0x000FFC00, needs::fixed(0, 1024, 0)),
    ("fixed current: 1023 fits, 1024 does not", needs::fixed(0, 0, 1023), 0x000003FF, needs::fixed(0, 0, 1024)),
    ("battery max: 1023 fits, 1024 does not", needs::battery(1023, 0, 0), 0x7FF00000, needs::battery(1024, 0, 0)),
    ("battery min: 1023 fits, 1024 does not", needs::battery(0, 1023, 0), 0x400FFC00, needs::battery(0, 1024, 0)),
    ("battery power: 1023 fits, 1024 does not", needs::battery(0, 0, 1023), 0x400003FF, needs::battery(0, 0, 1024)),
    ("variable max: 1023 fits, 1024 does not", needs::variable(1023, 0, 0), 0xBFF00000, needs::variable(1024, 0, 0)),
    ("variable min: 1023 fits, 1024 does not", needs::variable(0, 1023, 0), 0x800FFC00, needs::variable(0, 1024, 0)),
    ("variable current: 1023 fits, 1024 does not", needs::variable(0, 0, 1023), 0x800003FF, needs::variable(0, 0, 1024)),
    ("PPS max: 255 fits, 256 does not", needs::pps(255, 0, 0), 0xC1FE0000, needs::pps(256, 0, 0)),
    ("PPS min: 255 fits, 256 does not", needs::pps(0, 255, 0), 0xC000FF00, needs::pps(0, 256, 0)),
    ("PPS current: 127 fits, 128 does not", needs::pps(0, 0, 127), 0xC000007F, needs::pps(0, 0, 128)),
];

#[test]
fn widths_of_sink_fields() {
    for (name, largest, word, wider) in EDGES {
        assert_eq!(sink_encode(largest), Some(word), "{name}: largest");
        assert_eq!(sink_encode(wider), None, "{name}: wider");
    }
}
