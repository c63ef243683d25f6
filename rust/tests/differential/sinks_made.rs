//! Sink lists that pass, sink lists with damage, and ratings near what a list needs.

use crate::common::random::Random;
use crate::{lists_made, objects_made};
use model::{SinkObject, Words};

/// PPS of a range that has volts of its own, in 100 mV: its maximum and these volts.
pub const NAMED: [(u16, u16); 3] = [(110, 90), (160, 150), (210, 200)];

pub fn any(random: &mut Random) -> Words {
    let mut list = match random.below(16) {
        0 => lists_made::any(random),
        1 => scattered(random),
        _ => composed(random),
    };
    for _ in 0..random.pick(&[0, 0, 1, 1, 1, 2]) {
        damage(random, &mut list);
    }
    lists_made::litter(random, &mut list);
    list
}

fn scattered(random: &mut Random) -> Words {
    let mut list = Words {
        count: random.within(0..=8) as u8,
        words: std::array::from_fn(|_| objects_made::word(random)),
    };
    if random.bool() {
        list.words[0] = 100 << 10;
    }
    list
}

/// A list of all kinds whose shape passes.
pub fn composed(random: &mut Random) -> Words {
    let mut made = fixed_part(random);
    made.extend(ranges(random, 1));
    made.extend(ranges(random, 2));
    made.extend(programmable(random));
    made.truncate(7);
    let mut list = Words {
        count: made.len() as u8,
        ..Words::default()
    };
    for (word, object) in list.words.iter_mut().zip(&made) {
        *word = model::sink_encode(object).expect("composed fields fit");
    }
    list
}

fn fixed_part(random: &mut Random) -> Vec<SinkObject> {
    let mut volts: Vec<u16> = (0..random.below(4))
        .map(|_| match random.below(3) {
            0 => random.within(101..=400),
            _ => random.pick(&[180, 240, 300, 400]),
        })
        .collect();
    volts.sort();
    volts.dedup();
    volts.insert(0, 100);
    let object = |volts: u16| SinkObject::Fixed {
        flags: match volts {
            100 => random.within(0..=127) as u8,
            _ => 0,
        },
        volts,
        current: lists_made::allowed(random, volts),
    };
    volts.into_iter().map(object).collect()
}

/// Batteries (kind 1) or variable supplies (kind 2): the lower ends do not fall.
fn ranges(random: &mut Random, kind: u32) -> Vec<SinkObject> {
    let mut lows: Vec<u16> = (0..random.pick(&[0, 0, 1, 2]))
        .map(|_| random.within(0..=420))
        .collect();
    lows.sort();
    let object = |min: u16| {
        let max = random.within(min..=420);
        match kind {
            1 => SinkObject::Battery {
                max,
                min,
                power: random.within(0..=400),
            },
            _ => SinkObject::Variable {
                max,
                min,
                current: lists_made::allowed(random, max),
            },
        }
    };
    lows.into_iter().map(object).collect()
}

/// Half have a maximum of a range with volts of its own, and most of these its minimum of 5 V too.
fn programmable(random: &mut Random) -> Vec<SinkObject> {
    let mut tops: Vec<u16> = (0..random.below(4))
        .map(|_| match random.bool() {
            true => random.pick(&NAMED).0,
            false => random.within(0..=210),
        })
        .collect();
    tops.sort();
    let object = |max: u16| SinkObject::Pps {
        max,
        min: match (NAMED.iter().any(|n| n.0 == max), random.below(8)) {
            (true, 0) => random.pick(&[49, 51]),
            (true, _) => 50,
            _ => random.within(0..=max),
        },
        current: random.within(0..=127),
    };
    tops.into_iter().map(object).collect()
}

/// One thing that is wrong with a list, or may be: what no sink has, or what no list may have.
pub fn damage(random: &mut Random, list: &mut Words) {
    let at = random.below(usize::from(list.count).clamp(1, 7));
    match random.below(8) {
        // Peak current of a fixed object, power limited of PPS.
        0 => list.words[at] |= 1 << random.pick(&[20, 21, 27]),
        // AVS, that of a source.
        1 => list.words[at] = list.words[at] & 0x0FFF_FFFF | 0xE << 28,
        _ => lists_made::damage(random, list),
    }
}

/// Fields at their bounds and one past them, of any of the four kinds.
pub fn plausible(random: &mut Random) -> SinkObject {
    let kind = random.below(4);
    let object = objects_made::of_kind(random, kind);
    let word = model::encode(&object).expect("plausible fields fit");
    model::sink_decode(word).expect("a kind that a sink has")
}

/// One of the object's fields too wide, mostly by a single step.
pub fn widened(random: &mut Random, object: SinkObject) -> SinkObject {
    let wide = |random: &mut Random, bits: u32| {
        let least = 1u16 << bits;
        random.pick(&[least, least, least + 1, 0x8000, u16::MAX])
    };
    let mut object = object;
    let which = random.below(3);
    match &mut object {
        SinkObject::Fixed {
            flags,
            volts,
            current,
        } => match which {
            0 => *flags = random.pick(&[128, 129, 255]),
            1 => *volts = wide(random, 10),
            _ => *current = wide(random, 10),
        },
        SinkObject::Battery {
            max,
            min,
            power: figure,
        }
        | SinkObject::Variable {
            max,
            min,
            current: figure,
        } => match which {
            0 => *max = wide(random, 10),
            1 => *min = wide(random, 10),
            _ => *figure = wide(random, 10),
        },
        SinkObject::Pps { max, min, current } => match which {
            0 => *max = wide(random, 8),
            1 => *min = wide(random, 8),
            _ => *current = wide(random, 7),
        },
    }
    object
}

/// The least rating whose ceiling holds the object's figure, worked out here once more, and by which row of the statement's table.
pub fn need(object: SinkObject) -> (u32, &'static str) {
    let per = |volts: u16, current: u16, step: u32| {
        (u32::from(volts) * u32::from(current)).div_ceil(step)
    };
    match object {
        SinkObject::Fixed { volts, current, .. } => (per(volts, current, 1000), "fixed"),
        SinkObject::Variable { max, current, .. } => (per(max, current, 1000), "variable"),
        SinkObject::Battery { power, .. } => (u32::from(power).div_ceil(2), "battery"),
        SinkObject::Pps { max, min, current } => {
            let named = NAMED.iter().position(|n| n.0 == max && min == 50);
            match named {
                Some(0) => (per(90, current, 100), "PPS to 11 V"),
                Some(1) => (per(150, current, 100), "PPS to 16 V"),
                Some(_) => (per(200, current, 100), "PPS to 21 V"),
                None => (per(max, current, 100), "another PPS"),
            }
        }
    }
}

/// What the list as a whole needs, and which row decides. None where a word of it is no object.
pub fn needed(list: &Words) -> Option<(u32, &'static str)> {
    let counted = list.words.get(..usize::from(list.count))?;
    let needs: Option<Vec<_>> = counted
        .iter()
        .map(|w| model::sink_decode(*w).map(need))
        .collect();
    needs?.into_iter().max_by_key(|n| n.0)
}

/// What the list needs, one half watt beside it, or anything.
pub fn rating(random: &mut Random, list: &Words) -> u16 {
    let need = needed(list).map_or(100, |n| n.0.min(300) as u16);
    match random.below(16) {
        0 => random.pick(&[0, 201, 202, 256, 32768, u16::MAX]),
        1 => random.u16(),
        2 => random.within(1..=200),
        3 => random.pick(&[1, 2, 199, 200]),
        4..=7 => need.saturating_sub(1).clamp(1, 200),
        8 => (need + 1).clamp(1, 200),
        _ => need.clamp(1, 200),
    }
}
