//! Lists that pass, and lists with damage. A list of random words is nearly always refused at its first word and shows nothing.

use crate::common::random::Random;
use crate::{objects_made, profiles};
use model::{Object, Words};

pub fn any(random: &mut Random) -> Words {
    let mut list = match random.below(8) {
        0 => scattered(random),
        1..=3 => composed(random),
        _ => built(random),
    };
    for _ in 0..random.pick(&[0, 0, 1, 1, 1, 2]) {
        damage(random, &mut list);
    }
    litter(random, &mut list);
    list
}

/// The list of some profile.
pub fn built(random: &mut Random) -> Words {
    let mut profile = profiles::sound(random);
    if profile.pps == 1 {
        profile.present = profile.max;
    }
    model::build(&profile).list
}

/// What lies past the count is not read, so it may be anything.
pub fn litter(random: &mut Random, list: &mut Words) {
    let count = usize::from(list.count).min(7);
    for word in &mut list.words[count..] {
        if random.bool() {
            *word = random.u32();
        }
    }
}

fn scattered(random: &mut Random) -> Words {
    let mut list = Words {
        count: random.within(0..=8) as u8,
        words: std::array::from_fn(|_| objects_made::word(random)),
    };
    if random.bool() {
        list.words[0] = 100 << 10;
    }
    list
}

/// A list of all kinds whose shape passes.
pub fn composed(random: &mut Random) -> Words {
    let mut made = fixed_part(random);
    let fixed = made.clone();
    made.extend(ranges(random, 1));
    made.extend(ranges(random, 2));
    made.extend(avs_for(random, &fixed));
    let mut tops: Vec<u16> = (0..random.below(4))
        .map(|_| random.within(1..=210))
        .collect();
    tops.sort();
    for max in tops {
        made.push(Object::Pps {
            limited: random.within(0..=1) as u8,
            max,
            min: random.within(0..=max),
            current: random.within(0..=127),
        });
    }
    // Cut at the end, so that AVS keeps the fixed objects that it needs.
    made.truncate(7);
    let mut list = Words {
        count: made.len() as u8,
        ..Words::default()
    };
    for (word, object) in list.words.iter_mut().zip(&made) {
        *word = model::encode(object).expect("composed fields fit");
    }
    list
}

fn fixed_part(random: &mut Random) -> Vec<Object> {
    let mut volts: Vec<u16> = (0..random.below(4))
        .map(|_| match random.below(3) {
            0 => random.within(101..=400),
            _ => random.pick(&[180, 240, 300, 400]),
        })
        .collect();
    volts.sort();
    volts.dedup();
    volts.insert(0, 100);
    let object = |volts: u16| Object::Fixed {
        flags: if volts == 100 {
            random.within(0..=127) as u8
        } else {
            0
        },
        peak: random.within(0..=3) as u8,
        volts,
        current: allowed(random, volts),
    };
    volts.into_iter().map(object).collect()
}

/// No more than 100 W, and often exactly as much as that allows.
pub fn allowed(random: &mut Random, volts: u16) -> u16 {
    let full = (200_000 / u32::from(volts.max(1))).min(1023) as u16;
    if random.one_in(4) {
        full
    } else {
        random.within(0..=full)
    }
}

/// Batteries (kind 1) or variable supplies (kind 2): the lower ends do not fall.
fn ranges(random: &mut Random, kind: u32) -> Vec<Object> {
    let mut lows: Vec<u16> = (0..random.pick(&[0, 0, 1, 2]))
        .map(|_| random.within(0..=420))
        .collect();
    lows.sort();
    let object = |min: u16| {
        let max = random.within(min..=420);
        match kind {
            1 => Object::Battery {
                max,
                min,
                power: random.within(0..=400),
            },
            _ => Object::Variable {
                max,
                min,
                current: allowed(random, max),
            },
        }
    };
    lows.into_iter().map(object).collect()
}

fn avs_for(random: &mut Random, fixed: &[Object]) -> Option<Object> {
    let current_of = |wanted: u16| {
        fixed.iter().find_map(|o| match *o {
            Object::Fixed { volts, current, .. } if volts == wanted => Some(current),
            _ => None,
        })
    };
    let low = current_of(300)?;
    let high = current_of(400).unwrap_or(0);
    Some(Object::Avs {
        peak: random.within(0..=3) as u8,
        low,
        high: if random.one_in(4) { 0 } else { high },
    })
}

/// One thing that is wrong with a list, or may be.
pub fn damage(random: &mut Random, list: &mut Words) {
    let count = usize::from(list.count).clamp(1, 7);
    let (at, other) = (random.below(count), random.below(count));
    match random.below(9) {
        0 => list.words[at] ^= 1 << random.below(32),
        1 => list.words.swap(at, other),
        2 => {
            list.count = random.pick(&[
                0,
                list.count.wrapping_sub(1),
                list.count.wrapping_add(1),
                7,
                8,
                9,
                128,
                255,
            ])
        }
        3 => list.words[at] = list.words[other],
        4 => list.words[at] = objects_made::word(random),
        5 => list.words[at] = list.words[at] & 0x0FFF_FFFF | (random.u32() << 28),
        6 => insert(list, at, other),
        7 => {
            list.words[at] = list.words[at] & !0x3FF
                | u32::from(random.near((list.words[at] & 0x3FF) as u16, 10))
        }
        _ => past_a_bound(random, &mut list.words[at]),
    }
}

/// A second copy of a word somewhere, if there is room.
fn insert(list: &mut Words, at: usize, other: usize) {
    if list.count < 7 {
        let word = list.words[other];
        list.words.copy_within(at..6, at + 1);
        list.words[at] = word;
        list.count += 1;
    }
}

/// The same kind at a bound, or one past it.
fn past_a_bound(random: &mut Random, word: &mut u32) {
    let kind = match model::decode(*word) {
        Some(Object::Fixed { .. }) => 0,
        Some(Object::Battery { .. }) => 1,
        Some(Object::Variable { .. }) => 2,
        Some(Object::Pps { .. }) => 3,
        _ => 4,
    };
    let object = objects_made::of_kind(random, kind);
    *word = model::encode(&object).expect("plausible fields fit");
}
