//! Requests aimed at an object of a list, with figures at its limits and beside them.

use crate::common::random::Random;
use model::{Object, Words};

pub fn any(random: &mut Random, list: &Words) -> u32 {
    let count = usize::from(list.count).min(7);
    if count == 0 || random.one_in(32) {
        return random.u32();
    }
    let at = random.below(count);
    let position = match random.below(16) {
        0 => random.pick(&[0, count + 1, 7, 8, 15]),
        _ => at + 1,
    } as u32;
    let fields = match model::decode(list.words[at]) {
        Some(object) => fields(random, &object),
        None => random.u32() & 0x0FFF_FFFF,
    };
    (position & 0xF) << 28 | fields | mismatch(random)
}

/// Aimed at one object, with any position: here is no list.
pub fn of_object(random: &mut Random, object: &Object) -> u32 {
    let position = random.u32() & 0xF;
    position << 28 | fields(random, object) | mismatch(random)
}

/// Bit 26, and 25..22, which nobody examines.
fn mismatch(random: &mut Random) -> u32 {
    random.u32() & 0x07C0_0000
}

/// What the request asks of this object, and in one of three any of the bits that are reserved.
fn fields(random: &mut Random, object: &Object) -> u32 {
    match *object {
        Object::Fixed { current: limit, .. }
        | Object::Variable { current: limit, .. }
        | Object::Battery { power: limit, .. } => {
            let operating = u32::from(random.near(limit, 10));
            let maximum = u32::from(random.near(limit, 10));
            operating << 10 | maximum | reserved(random, &[27, 21, 20])
        }
        Object::Pps {
            max, min, current, ..
        } => {
            // A field may be too wide; a request has 12 bits for the voltage.
            let steps = |volts: u16| volts.saturating_mul(5).min(0xFFF);
            let volts = match random.below(4) {
                0 => random.near(steps(min), 12),
                1 => random.near(steps(max), 12),
                _ => random.within(steps(min.min(max))..=steps(max)),
            };
            beside_volts(random, volts, current)
        }
        Object::Avs { low, high, .. } => {
            // 9.0, 15.0 and 20.0 V in 25 mV, or a whole 100 mV between them.
            let volts = match random.below(4) {
                0 => random.pick(&[360, 600, 600, 800]) + random.within(0..=8) - 4,
                1 => random.pick(&[360, 600, 600, 800]),
                2 => random.within(350..=810),
                _ => random.within(89..=201) * 4,
            };
            let limit = random.pick(&[low, high]) / 5;
            beside_volts(random, volts, limit)
        }
    }
}

fn beside_volts(random: &mut Random, volts: u16, limit: u16) -> u32 {
    let current = random.near(limit.min(127), 7);
    u32::from(volts) << 9 | u32::from(current) | reserved(random, &[27, 21, 8, 7])
}

fn reserved(random: &mut Random, bits: &[u32]) -> u32 {
    if random.one_in(3) {
        bits.iter().fold(0, |word, bit| word | (random.u32() & 1) << bit)
    } else {
        0
    }
}
