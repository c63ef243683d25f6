//! One object word: "The fields of each kind", by their bits.

use crate::Object;

pub fn take(word: u32, low: u32, width: u32) -> u16 {
    (word >> low & ((1 << width) - 1)) as u16
}

pub fn put(figure: impl Into<u32>, low: u32, width: u32) -> Option<u32> {
    let figure = figure.into();
    if figure >> width != 0 {
        return None;
    }
    Some(figure << low)
}

/// "The kind of a word is in bits 31..30; where these are 11b, bits 29..28 tell which."
#[inline]
pub fn decode(word: u32) -> Option<Object> {
    let object = match word >> 28 {
        0b0000..=0b0011 => Object::Fixed {
            flags: take(word, 23, 7) as u8,
            peak: take(word, 20, 2) as u8,
            volts: take(word, 10, 10),
            current: take(word, 0, 10),
        },
        0b0100..=0b0111 => Object::Battery {
            max: take(word, 20, 10),
            min: take(word, 10, 10),
            power: take(word, 0, 10),
        },
        0b1000..=0b1011 => Object::Variable {
            max: take(word, 20, 10),
            min: take(word, 10, 10),
            current: take(word, 0, 10),
        },
        0b1100 => Object::Pps {
            limited: take(word, 27, 1) as u8,
            max: take(word, 17, 8),
            min: take(word, 8, 8),
            current: take(word, 0, 7),
        },
        0b1110 => Object::Avs {
            peak: take(word, 26, 2) as u8,
            low: take(word, 10, 10),
            high: take(word, 0, 10),
        },
        _ => return None,
    };
    Some(object)
}

#[inline]
pub fn encode(object: &Object) -> Option<u32> {
    let word = match *object {
        Object::Fixed { flags, peak, volts, current } => {
            put(flags, 23, 7)? | put(peak, 20, 2)? | put(volts, 10, 10)? | put(current, 0, 10)?
        }
        Object::Battery { max, min, power } => {
            0b01 << 30 | put(max, 20, 10)? | put(min, 10, 10)? | put(power, 0, 10)?
        }
        Object::Variable { max, min, current } => {
            0b10 << 30 | put(max, 20, 10)? | put(min, 10, 10)? | put(current, 0, 10)?
        }
        Object::Pps { limited, max, min, current } => {
            0b1100 << 28
                | put(limited, 27, 1)?
                | put(max, 17, 8)?
                | put(min, 8, 8)?
                | put(current, 0, 7)?
        }
        Object::Avs { peak, low, high } => {
            0b1110 << 28 | put(peak, 26, 2)? | put(low, 10, 10)? | put(high, 0, 10)?
        }
    };
    Some(word)
}

#[inline]
pub fn reserved_bit_set(object: &Object, first: bool, word: u32) -> bool {
    let reserved = match object {
        Object::Fixed { .. } if first => 1 << 22,
        // "fixed, any later word": 29..22
        Object::Fixed { .. } => 0xFF << 22,
        Object::Battery { .. } | Object::Variable { .. } => 0,
        Object::Pps { .. } => 0b11 << 25 | 1 << 16 | 1 << 7,
        Object::Avs { .. } => 0x3F << 20,
    };
    word & reserved != 0
}
