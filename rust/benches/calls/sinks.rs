//! Seeded sink lists. They are made through the wrappers, as those of a source are.

use crate::inputs::{many, Dice};
use crate::wrappers::library::{sink_decode, sink_encode, sink_flat_read, sink_read};
use arinduleu::flat::FlatObjects;
use arinduleu::lists::Words;
use arinduleu::sinks::{SinkObject, SinkObjects};
use arinduleu::steps::{Ma10, Ma50, Mv100, Mv50, Mw250};

pub fn push(list: &mut Words, object: SinkObject) {
    if let Some(word) = sink_encode(object) {
        if list.count < 7 {
            list.words[usize::from(list.count)] = word;
            list.count += 1;
        }
    }
}

pub fn fixed(flags: u8, volts: u16, current: u16) -> SinkObject {
    SinkObject::Fixed {
        flags,
        volts: Mv50(volts),
        current: Ma10(current),
    }
}

/// Up to what the rating allows at this voltage, and to 5 A.
fn current(dice: &mut Dice, rating: u16, volts: u16) -> u16 {
    let most = 1000 * u32::from(rating) / u32::from(volts);
    dice.from(0, most.min(500) as u16)
}

/// One of the three ranges that have volts of their own, by their maximum.
fn pps(dice: &mut Dice, rating: u16) -> SinkObject {
    let (max, volts) = [(110, 90), (160, 150), (210, 200)][dice.below(3) as usize];
    let most = (100 * u32::from(rating) / volts).min(100) as u16;
    SinkObject::Pps {
        max: Mv100(max),
        min: Mv100(50),
        current: Ma50(dice.from(0, most)),
    }
}

/// As most sinks have it: 5 V, some of 9, 15 and 20 V, and half of them a PPS.
fn common(dice: &mut Dice, rating: u16) -> Words {
    let mut list = Words::default();
    let flags = dice.below(128) as u8;
    push(&mut list, fixed(flags, 100, current(dice, rating, 100)));
    for volts in [180, 300, 400] {
        if !dice.one_in(3) {
            push(&mut list, fixed(0, volts, current(dice, rating, volts)));
        }
    }
    if dice.one_in(2) {
        push(&mut list, pps(dice, rating));
    }
    list
}

/// A list of all four kinds, in order.
fn mixed(dice: &mut Dice, rating: u16) -> Words {
    let mut list = Words::default();
    push(&mut list, fixed(0, 100, current(dice, rating, 100)));
    push(&mut list, fixed(0, 240, current(dice, rating, 240)));
    if dice.one_in(2) {
        push(
            &mut list,
            SinkObject::Battery {
                max: Mv50(420),
                min: Mv50(dice.from(60, 400)),
                power: Mw250(dice.from(0, 2 * rating)),
            },
        );
    }
    for min in [100, 180] {
        if dice.one_in(2) {
            push(
                &mut list,
                SinkObject::Variable {
                    max: Mv50(400),
                    min: Mv50(min),
                    current: Ma10(current(dice, rating, 400)),
                },
            );
        }
    }
    push(&mut list, pps(dice, rating));
    list
}

/// A rating, and a list that keeps to it. Three of four are as most sinks have them; the rest have all kinds.
fn good_sink(dice: &mut Dice) -> (u16, Words) {
    let rating = dice.from(1, 200);
    let list = match dice.one_in(4) {
        true => mixed(dice, rating),
        false => common(dice, rating),
    };
    (rating, list)
}

/// One in eight has a bit turned or a count past seven; most of these are refused.
pub fn lists() -> Vec<Words> {
    many(26, |dice| {
        let mut list = good_sink(dice).1;
        if dice.one_in(8) {
            match dice.one_in(4) {
                true => list.count = 8,
                false => list.words[dice.below(list.count.into()) as usize] ^= 1 << dice.below(32),
            }
        }
        list
    })
}

/// A rating and a list that keeps to it; one in eight has a lesser rating, a figure that is higher or a rating out of range.
pub fn checks() -> Vec<(u16, Words)> {
    many(27, |dice| {
        let (mut rating, mut list) = good_sink(dice);
        if dice.one_in(8) {
            match dice.below(4) {
                0 => rating = dice.from(201, 400),
                1 => list.words[dice.below(list.count.into()) as usize] |= 0x7F,
                _ => rating = rating.div_ceil(2),
            }
        }
        (rating, list)
    })
}

/// A field past its bits, whatever the kind.
fn widened(object: SinkObject) -> SinkObject {
    match object {
        SinkObject::Fixed { flags, volts, .. } => fixed(flags, volts.0, 1024),
        SinkObject::Battery { max, min, .. } => SinkObject::Battery {
            max,
            min,
            power: Mw250(1024),
        },
        SinkObject::Variable { max, min, .. } => SinkObject::Variable {
            max,
            min,
            current: Ma10(1024),
        },
        SinkObject::Pps { max, min, .. } => SinkObject::Pps {
            max,
            min,
            current: Ma50(128),
        },
    }
}

/// Good lists taken apart; one in eight has a field too wide or two places exchanged.
pub fn object_lists() -> Vec<SinkObjects> {
    many(28, |dice| {
        let mut objects = sink_read(good_sink(dice).1).list;
        let count = usize::from(objects.count);
        let at = dice.below(count as u32) as usize;
        if dice.one_in(8) {
            match dice.one_in(2) {
                true => objects.places[at].object = widened(objects.places[at].object),
                false => objects.places.swap(at, count - 1),
            }
        }
        objects
    })
}

/// As `object_lists`, or a place of a kind that no sink has. One in four has something in a field that no sink has.
pub fn flat_lists() -> Vec<FlatObjects> {
    many(29, |dice| {
        let mut flat = sink_flat_read(good_sink(dice).1).list;
        let count = usize::from(flat.count);
        let at = dice.below(count as u32) as usize;
        if dice.one_in(4) {
            (flat.places[at].peak, flat.places[at].limited) = (255, 255);
        }
        if dice.one_in(8) {
            match dice.below(4) {
                0 => flat.places[at].kind = 4,
                1 => flat.places[at].kind = 9,
                2 => (flat.places[at].current, flat.places[at].min100) = (Ma10(1024), Mv100(256)),
                _ => flat.places.swap(at, count - 1),
            }
        }
        flat
    })
}

/// The words of lists; one in sixteen is any word at all.
fn word(dice: &mut Dice) -> u32 {
    let list = good_sink(dice).1;
    match dice.one_in(16) {
        true => dice.any(),
        false => list.words[dice.below(list.count.into()) as usize],
    }
}

pub fn words() -> Vec<u32> {
    many(30, word)
}

/// One in sixteen has a field too wide.
pub fn objects() -> Vec<SinkObject> {
    many(31, |dice| loop {
        if let Some(object) = sink_decode(word(dice)) {
            break match dice.one_in(16) {
                true => widened(object),
                false => object,
            };
        }
    })
}
