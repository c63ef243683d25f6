//! Seeded lists. They are made through the wrappers: one more place that calls the library would change what the compiler inlines, on one
//! side alone.

use crate::inputs::{good_profile, many, Dice};
use crate::objects::widened;
use crate::wrappers::library::{build, encode, flat_read, read};
use arinduleu::flat::FlatObjects;
use arinduleu::lists::{Objects, Words, EMPTY_PLACE};
use arinduleu::objects::Object;
use arinduleu::rules::Profile;
use arinduleu::steps::{HalfWatts, Ma10, Ma50, Mv100, Mv50, Mw250};

pub fn push(list: &mut Words, object: Object) {
    if let Some(word) = encode(object) {
        if list.count < 7 {
            list.words[usize::from(list.count)] = word;
            list.count += 1;
        }
    }
}

pub fn fixed(volts: u16, current: u16) -> Object {
    Object::Fixed {
        flags: 0,
        peak: 0,
        volts: Mv50(volts),
        current: Ma10(current),
    }
}

/// A list of all five kinds, in order. Its shape passes.
fn mixed(dice: &mut Dice) -> Words {
    let mut list = Words {
        words: [0; 7],
        count: 0,
    };
    let (at_15, at_20) = (dice.from(100, 300), dice.from(100, 500));
    push(&mut list, fixed(100, 300));
    push(&mut list, fixed(300, at_15));
    if dice.one_in(2) {
        push(&mut list, fixed(400, at_20));
    }
    if dice.one_in(2) {
        push(
            &mut list,
            Object::Battery {
                max: Mv50(420),
                min: Mv50(dice.from(60, 400)),
                power: Mw250(dice.from(1, 400)),
            },
        );
    }
    for min in [100, 180] {
        if dice.one_in(2) {
            push(
                &mut list,
                Object::Variable {
                    max: Mv50(400),
                    min: Mv50(min),
                    current: Ma10(dice.from(1, 500)),
                },
            );
        }
    }
    if dice.one_in(2) {
        push(
            &mut list,
            Object::Avs {
                peak: 0,
                low: Ma10(at_15),
                high: Ma10(0),
            },
        );
    }
    push(
        &mut list,
        Object::Pps {
            limited: 1,
            max: Mv100(110),
            min: Mv100(50),
            current: Ma50(dice.from(1, 60)),
        },
    );
    list
}

/// Three of four are built, as firmware has them; the rest have all kinds.
pub fn good_list(dice: &mut Dice) -> Words {
    match dice.one_in(4) {
        true => mixed(dice),
        false => build(good_profile(dice)).list,
    }
}

/// One in eight has a bit turned or a count past seven; most of these are refused.
pub fn list(dice: &mut Dice) -> Words {
    let mut list = good_list(dice);
    if dice.one_in(8) {
        match dice.one_in(4) {
            true => list.count = 8,
            false => list.words[dice.below(list.count.into()) as usize] ^= 1 << dice.below(32),
        }
    }
    list
}

pub fn lists() -> Vec<Words> {
    many(10, list)
}

/// Good lists taken apart; one in eight has a field too wide or two places exchanged.
pub fn object_lists() -> Vec<Objects> {
    many(15, |dice| {
        let mut objects = read(good_list(dice)).list;
        let count = usize::from(objects.count);
        let at = dice.below(count as u32) as usize;
        if dice.one_in(8) {
            match dice.one_in(2) {
                true => objects.places[at].object = widened(objects.places[at].object),
                false => objects.places.swap(at, count - 1),
            }
        }
        assert!(objects.places[count..]
            .iter()
            .all(|place| *place == EMPTY_PLACE));
        objects
    })
}

/// As `object_lists`, or a place of no kind.
pub fn flat_lists() -> Vec<FlatObjects> {
    many(16, |dice| {
        let mut flat = flat_read(good_list(dice)).list;
        let count = usize::from(flat.count);
        let at = dice.below(count as u32) as usize;
        if dice.one_in(8) {
            match dice.below(3) {
                0 => flat.places[at].kind = 9,
                1 => flat.places[at].peak = 4,
                _ => flat.places.swap(at, count - 1),
            }
        }
        flat
    })
}

/// A profile and a list: six of eight times its own (built with either rounding, so passed), else with one current a step higher or the
/// list of another profile.
pub fn checks() -> Vec<(Profile, Words)> {
    many(17, |dice| {
        let profile = good_profile(dice);
        let mut list = build(Profile {
            rounding: dice.below(2) as u8,
            ..profile
        })
        .list;
        match dice.below(8) {
            0 => list.words[dice.below(list.count.into()) as usize] += 1,
            1 => list = build(good_profile(dice)).list,
            _ => {}
        }
        (profile, list)
    })
}

/// The list that a row's stored P gives.
pub fn row_list(max: HalfWatts, present: HalfWatts, cable: Ma10, pps: u8) -> Words {
    let pps = u8::from(pps == 1 && present == max);
    build(Profile {
        max,
        present,
        cable,
        rounding: 0,
        pps,
        flags: 0,
    })
    .list
}
