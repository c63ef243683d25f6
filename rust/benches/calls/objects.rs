//! Seeded words, objects and requests, all of them out of seeded lists.

use crate::inputs::{many, Dice};
use crate::lists::{good_list, list};
use crate::wrappers::library::{decode, flatten};
use arinduleu::flat::FlatObject;
use arinduleu::lists::Words;
use arinduleu::objects::{Object, Side};
use arinduleu::steps::{Ma10, Ma50, Mw250};

/// The words of lists; one in sixteen is any word at all.
fn word(dice: &mut Dice) -> u32 {
    let list = good_list(dice);
    match dice.one_in(16) {
        true => dice.any(),
        false => list.words[dice.below(list.count.into()) as usize],
    }
}

pub fn words() -> Vec<u32> {
    many(11, word)
}

fn side(dice: &mut Dice) -> Side {
    match dice.one_in(2) {
        true => Side::Sink,
        false => Side::Source,
    }
}

/// The words of sources, half of them for a sink.
pub fn words_of_a_side() -> Vec<(Side, u32)> {
    many(32, |dice| (side(dice), word(dice)))
}

fn good_object(dice: &mut Dice) -> (Object, u32) {
    loop {
        let word = word(dice);
        if let Some(object) = decode(word) {
            return (object, word);
        }
    }
}

/// A field past its bits, whatever the kind.
pub fn widened(object: Object) -> Object {
    match object {
        Object::Fixed {
            flags,
            volts,
            current,
            ..
        } => Object::Fixed {
            flags,
            peak: 4,
            volts,
            current,
        },
        Object::Battery { max, min, .. } => Object::Battery {
            max,
            min,
            power: Mw250(1024),
        },
        Object::Variable { max, min, .. } => Object::Variable {
            max,
            min,
            current: Ma10(1024),
        },
        Object::Pps {
            limited, max, min, ..
        } => Object::Pps {
            limited,
            max,
            min,
            current: Ma50(128),
        },
        Object::Avs { low, high, .. } => Object::Avs { peak: 4, low, high },
    }
}

/// One in sixteen has a field too wide.
pub fn objects() -> Vec<Object> {
    many(12, |dice| {
        let object = good_object(dice).0;
        if dice.one_in(16) {
            widened(object)
        } else {
            object
        }
    })
}

/// One in sixteen has no kind.
pub fn flat_objects() -> Vec<FlatObject> {
    many(13, |dice| {
        let mut flat = flatten(good_object(dice).0);
        if dice.one_in(16) {
            flat.kind = 9;
        }
        flat
    })
}

/// One in four is the first of its list; one in sixteen has any bits at all. Half are for a sink.
pub fn placed_words() -> Vec<((Side, Object), bool, u32)> {
    many(14, |dice| {
        let (object, word) = good_object(dice);
        ((side(dice), object), dice.one_in(4), word)
    })
}

/// A request that its object grants.
fn good_request(dice: &mut Dice, object: Object) -> u32 {
    let figures = |dice: &mut Dice, most: u16| {
        let operating = u32::from(dice.from(0, most));
        operating << 10 | u32::from(dice.from(0, most))
    };
    let voltage = |volts: u16, current: u16| u32::from(volts) << 9 | u32::from(current);
    match object {
        Object::Fixed { current, .. } | Object::Variable { current, .. } => {
            figures(dice, current.0)
        }
        Object::Battery { power, .. } => figures(dice, power.0),
        Object::Pps {
            max, min, current, ..
        } => voltage(dice.from(5 * min.0, 5 * max.0), dice.from(0, current.0)),
        Object::Avs { low, high, .. } => {
            let volts = 4 * dice.from(90, if high.0 == 0 { 150 } else { 200 });
            let limit = if volts <= 600 { low.0 } else { high.0 };
            voltage(volts, dice.from(0, limit / 5))
        }
    }
}

/// A request to one place of a list; one in four has a bit turned, and some of these are refused.
pub fn request(dice: &mut Dice, list: Words) -> u32 {
    let at = dice.below(u32::from(list.count.clamp(1, 7)));
    let Some(object) = decode(list.words[at as usize]) else {
        return dice.any();
    };
    let word = good_request(dice, object) | (at + 1) << 28;
    match dice.one_in(4) {
        true => word ^ 1 << dice.below(32),
        false => word,
    }
}

pub fn answers() -> Vec<(Words, u32)> {
    many(18, |dice| {
        let list = list(dice);
        (list, request(dice, list))
    })
}

pub fn request_words() -> Vec<u32> {
    answers().into_iter().map(|(_, word)| word).collect()
}

pub fn asked() -> Vec<(Object, u32)> {
    many(19, |dice| {
        let object = good_object(dice).0;
        let request = good_request(dice, object);
        (object, request | 1 << 28)
    })
}
