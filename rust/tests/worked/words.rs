//! One word: the object it says, its reserved bits, and the word that an object makes.

use crate::making::{avs, battery, fixed, pps, variable};
use arinduleu::objects::{decode, encode, is_kind, reserved_bit_set, Object, Side};

/// Each kind twice: fields that all differ, and every bit below the kind set, so that a field that took a bit too many
/// or too few would show.
#[rustfmt::skip]
const DECODED: [(&str, u32, Object); 11] = [
    // Flags 53h in 29..23, peak 2 in 21..20, 20 V = 190h in 19..10, 3.25 A = 145h in 9..0.
    ("decode fixed", 0x29A64145, fixed(0x53, 2, 400, 325)),
    ("decode fixed, all bits set", 0x3FFFFFFF, fixed(127, 3, 1023, 1023)),
    ("decode a zero word as fixed, all zero", 0, fixed(0, 0, 0, 0)),
    // 21 V = 1A4h in 29..20, 5 V = 64h in 19..10, then 50 W = 0C8h or 3 A = 12Ch in 9..0.
    ("decode battery", 0x5A4190C8, battery(420, 100, 200)),
    ("decode battery, all bits set", 0x7FFFFFFF, battery(1023, 1023, 1023)),
    ("decode variable", 0x9A41912C, variable(420, 100, 300)),
    ("decode variable, all bits set", 0xBFFFFFFF, variable(1023, 1023, 1023)),
    // Limited in 27, 11 V = 6Eh in 24..17, 5 V = 32h in 15..8, 3 A = 3Ch in 6..0.
    ("decode PPS", 0xC8DC323C, pps(1, 110, 50, 60)),
    ("decode PPS, all bits set", 0xCFFFFFFF, pps(1, 255, 255, 127)),
    // Peak 2 in 27..26, 2.67 A = 10Bh in 19..10, 2 A = 0C8h in 9..0.
    ("decode AVS", 0xE8042CC8, avs(2, 267, 200)),
    ("decode AVS, all bits set", 0xEFFFFFFF, avs(3, 1023, 1023)),
];

#[test]
fn words_decoded() {
    for (name, word, object) in DECODED {
        assert_eq!(decode(word), Some(object), "{name}");
    }
}

/// The lowest and the highest word of a kind that no list may have.
#[rustfmt::skip]
const NOT_ALLOWED: [(&str, u32, u32); 2] = [
    ("1101b is not allowed", 0xD0000000, 0xDFFFFFFF),
    ("1111b is not allowed", 0xF0000000, 0xFFFFFFFF),
];

#[test]
fn kinds_not_allowed() {
    for (name, lowest, highest) in NOT_ALLOWED {
        assert_eq!(decode(lowest), None, "{name}: lowest");
        assert_eq!(decode(highest), None, "{name}: highest");
    }
}

/// The highest four bits of a word, and the bits that tell its kind: the first two, and for 11b all four.
#[rustfmt::skip]
const KINDS: [(&str, u32, u32); 16] = [
    ("fixed, 0000b", 0b0000, 0b00), ("fixed, 0001b", 0b0001, 0b00), ("fixed, 0010b", 0b0010, 0b00), ("fixed, 0011b", 0b0011, 0b00),
    ("battery, 0100b", 0b0100, 0b01), ("battery, 0101b", 0b0101, 0b01), ("battery, 0110b", 0b0110, 0b01), ("battery, 0111b", 0b0111, 0b01),
    ("variable, 1000b", 0b1000, 0b10), ("variable, 1001b", 0b1001, 0b10), ("variable, 1010b", 0b1010, 0b10), ("variable, 1011b", 0b1011, 0b10),
    ("PPS, 1100b", 0b1100, 0b1100), ("EPR AVS, 1101b", 0b1101, 0b1101), ("AVS, 1110b", 0b1110, 0b1110), ("1111b", 0b1111, 0b1111),
];

#[test]
fn kinds_told_by_their_bits() {
    for (name, top, bits) in KINDS {
        for rest in [0, 0x0FFF_FFFF] {
            for kind in 0..=16 {
                let told = is_kind(top << 28 | rest, kind);
                assert_eq!(told, kind == bits, "{name}, rest {rest:08X}, {kind:04b}b");
            }
        }
    }
}

/// An object of the kind, whether it is the first, the reserved bits and no other, and a word that has every other bit
/// of the kind.
#[rustfmt::skip]
const RESERVED: [(&str, Object, bool, u32, u32); 6] = [
    ("reserved in a first fixed: 22", fixed(0, 0, 0, 0), true, 0x00400000, 0x3FBFFFFF),
    ("reserved in a later fixed: 29..22", fixed(0, 0, 0, 0), false, 0x3FC00000, 0x003FFFFF),
    ("reserved in battery: none", battery(0, 0, 0), false, 0, 0x7FFFFFFF),
    ("reserved in variable: none", variable(0, 0, 0), false, 0, 0xBFFFFFFF),
    ("reserved in PPS: 26..25, 16, 7", pps(0, 0, 0, 0), false, 0x06010080, 0xC9FEFF7F),
    ("reserved in AVS: 25..20", avs(0, 0, 0), false, 0x03F00000, 0xEC0FFFFF),
];

/// Each bit by itself is told as reserved exactly where the mask has it.
#[test]
fn bits_reserved() {
    for (name, object, first, mask, others) in RESERVED {
        for bit in 0..32 {
            let word = 1 << bit;
            let told = reserved_bit_set(Side::Source, object, first, word);
            assert_eq!(told, word & mask != 0, "{name}: bit {bit}");
        }
        let told = reserved_bit_set(Side::Source, object, first, others);
        assert!(!told, "{name}: every other bit");
    }
}

/// The words of the decoded table, the other way.
#[rustfmt::skip]
const ENCODED: [(&str, Object, u32); 5] = [
    ("encode fixed", fixed(0x53, 2, 400, 325), 0x29A64145),
    ("encode battery", battery(420, 100, 200), 0x5A4190C8),
    ("encode variable", variable(420, 100, 300), 0x9A41912C),
    ("encode PPS", pps(1, 110, 50, 60), 0xC8DC323C),
    ("encode AVS", avs(2, 267, 200), 0xE8042CC8),
];

#[test]
fn objects_encoded() {
    for (name, object, word) in ENCODED {
        assert_eq!(encode(object), Some(word), "{name}");
    }
}

/// Both sides of a field's width: the largest value gives the word, the next one does not fit.
#[rustfmt::skip]
const EDGES: [(&str, Object, u32, Object); 17] = [
    ("fixed flags: 127 fits, 128 does not", fixed(127, 0, 0, 0), 0x3F800000, fixed(128, 0, 0, 0)),
    ("fixed peak: 3 fits, 4 does not", fixed(0, 3, 0, 0), 0x00300000, fixed(0, 4, 0, 0)),
    ("fixed voltage: 1023 fits, 1024 does not", fixed(0, 0, 1023, 0), 0x000FFC00, fixed(0, 0, 1024, 0)),
    ("fixed current: 1023 fits, 1024 does not", fixed(0, 0, 0, 1023), 0x000003FF, fixed(0, 0, 0, 1024)),
    ("battery max: 1023 fits, 1024 does not", battery(1023, 0, 0), 0x7FF00000, battery(1024, 0, 0)),
    ("battery min: 1023 fits, 1024 does not", battery(0, 1023, 0), 0x400FFC00, battery(0, 1024, 0)),
    ("battery power: 1023 fits, 1024 does not", battery(0, 0, 1023), 0x400003FF, battery(0, 0, 1024)),
    ("variable max: 1023 fits, 1024 does not", variable(1023, 0, 0), 0xBFF00000, variable(1024, 0, 0)),
    ("variable min: 1023 fits, 1024 does not", variable(0, 1023, 0), 0x800FFC00, variable(0, 1024, 0)),
    ("variable current: 1023 fits, 1024 does not", variable(0, 0, 1023), 0x800003FF, variable(0, 0, 1024)),
    ("PPS power limited: 1 fits, 2 does not", pps(1, 0, 0, 0), 0xC8000000, pps(2, 0, 0, 0)),
    ("PPS max: 255 fits, 256 does not", pps(0, 255, 0, 0), 0xC1FE0000, pps(0, 256, 0, 0)),
    ("PPS min: 255 fits, 256 does not", pps(0, 0, 255, 0), 0xC000FF00, pps(0, 0, 256, 0)),
    ("PPS current: 127 fits, 128 does not", pps(0, 0, 0, 127), 0xC000007F, pps(0, 0, 0, 128)),
    ("AVS peak: 3 fits, 4 does not", avs(3, 0, 0), 0xEC000000, avs(4, 0, 0)),
    ("AVS first current: 1023 fits, 1024 does not", avs(0, 1023, 0), 0xE00FFC00, avs(0, 1024, 0)),
    ("AVS second current: 1023 fits, 1024 does not", avs(0, 0, 1023), 0xE00003FF, avs(0, 0, 1024)),
];

#[test]
fn widths_of_fields() {
    for (name, largest, word, wider) in EDGES {
        assert_eq!(encode(largest), Some(word), "{name}: largest");
        assert_eq!(encode(wider), None, "{name}: wider");
    }
}
