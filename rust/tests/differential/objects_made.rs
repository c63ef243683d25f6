//! Objects and words of each kind, with fields at their bounds and one past them.

use crate::common::random::Random;
use model::Object;

/// 0, the 5 V of the first word, the bounds of 20 and 21 V, and one beside each, in 50 mV.
const VOLTS: [u16; 15] = [
    0, 1, 99, 100, 101, 180, 299, 300, 301, 399, 400, 401, 420, 421, 1023,
];
/// The same in 100 mV.
const VOLTS_100: [u16; 11] = [0, 33, 50, 51, 110, 160, 209, 210, 211, 212, 255];

fn volts(random: &mut Random) -> u16 {
    match random.below(3) {
        0 => random.pick(&VOLTS),
        _ => random.within(1..=420),
    }
}

fn volts_100(random: &mut Random) -> u16 {
    match random.below(3) {
        0 => random.pick(&VOLTS_100),
        _ => random.within(1..=210),
    }
}

/// At 100 W with this voltage, one step past it, or anything. A step of 50 mV times one of 10 mA is half a milliwatt.
fn current_at(random: &mut Random, volts: u16) -> u16 {
    let full = (200_000 / u32::from(volts.max(1))).min(1023) as u16;
    random.near(full, 10)
}

/// The lower end of a range: often the upper end itself, or one beside it.
fn below(random: &mut Random, max: u16, bits: u32) -> u16 {
    random.near(max, bits)
}

pub fn of_kind(random: &mut Random, kind: usize) -> Object {
    match kind {
        0 => {
            let volts = volts(random);
            Object::Fixed {
                flags: random.pick(&[0, 0, 0, 1, 64, 126, 127]),
                peak: random.within(0..=3) as u8,
                volts,
                current: current_at(random, volts),
            }
        }
        1 => {
            let max = volts(random);
            Object::Battery {
                max,
                min: below(random, max, 10),
                power: random.near(400, 10),
            }
        }
        2 => {
            let max = volts(random);
            Object::Variable {
                max,
                min: below(random, max, 10),
                current: current_at(random, max),
            }
        }
        3 => {
            let max = volts_100(random);
            Object::Pps {
                limited: random.within(0..=1) as u8,
                max,
                min: below(random, max, 8),
                current: random.near(60, 7),
            }
        }
        _ => Object::Avs {
            peak: random.within(0..=3) as u8,
            low: random.near(300, 10),
            high: random.near(500, 10),
        },
    }
}

pub fn plausible(random: &mut Random) -> Object {
    let kind = random.below(5);
    of_kind(random, kind)
}

/// One of the object's fields too wide, mostly by a single step.
pub fn widened(random: &mut Random, object: Object) -> Object {
    let wide = |random: &mut Random, bits: u32| {
        let least = 1u16 << bits;
        random.pick(&[least, least, least + 1, 0x8000, u16::MAX])
    };
    let wide_8 = |random: &mut Random, bits: u32| {
        let least = 1u8 << bits;
        random.pick(&[least, least, least + 1, 0x80, u8::MAX])
    };
    let mut object = object;
    let which = random.below(4);
    match &mut object {
        Object::Fixed {
            flags,
            peak,
            volts,
            current,
        } => match which {
            0 => *flags = random.pick(&[128, 129, 255]),
            1 => *peak = wide_8(random, 2),
            2 => *volts = wide(random, 10),
            _ => *current = wide(random, 10),
        },
        Object::Battery {
            max,
            min,
            power: figure,
        }
        | Object::Variable {
            max,
            min,
            current: figure,
        } => match which {
            0 => *max = wide(random, 10),
            1 => *min = wide(random, 10),
            _ => *figure = wide(random, 10),
        },
        Object::Pps {
            limited,
            max,
            min,
            current,
        } => match which {
            0 => *limited = wide_8(random, 1),
            1 => *max = wide(random, 8),
            2 => *min = wide(random, 8),
            _ => *current = wide(random, 7),
        },
        Object::Avs { peak, low, high } => match which {
            0 => *peak = wide_8(random, 2),
            1 => *low = wide(random, 10),
            _ => *high = wide(random, 10),
        },
    }
    object
}

/// A word of any kind, the refused ones among them, with a stray bit now and then.
pub fn word(random: &mut Random) -> u32 {
    match random.below(8) {
        0 => random.u32(),
        1 => (random.u32() >> 4) | (random.pick(&[0xC, 0xD, 0xE, 0xF]) << 28),
        n => {
            let object = plausible(random);
            let word = model::encode(&object).expect("plausible fields fit");
            if n == 2 {
                word ^ (1 << random.below(32))
            } else {
                word
            }
        }
    }
}
