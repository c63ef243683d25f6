//! Profiles, what is built for them, and the check of a list against one.

use crate::common::convert::{ToLibrary, ToModel};
use crate::common::random::Random;
use crate::common::run::Run;
use crate::{lists_made, profiles};
use arinduleu::steps::{HalfWatts, Ma10};
use arinduleu::{board, rules};
use model::{Profile, Words};

pub const NUMBERS: &[u8] = &[0, 1, 2, 3, 4, 5, 6, 10, 11, 12, 13, 14, 15, 16, 17, 18, 19];

const BELOW_3_A: &str = "passes on a cable below 3 A";
const REFUSED_BELOW_3_A: &str = "19 on a cable below 3 A";
const BETWEEN: &str = "passes on a cable between 3 A and 5 A";
const REFUSED_BETWEEN: &str = "19 on a cable between 3 A and 5 A";
const NOT_WHOLE: &str = "PPS passes on a cable that is no whole 50 mA";

#[test]
fn default_profile_of_every_maximum() {
    let mut run = Run::new("default profiles");
    for max in 0..=u16::MAX {
        let model = model::default_profile(max);
        let library = rules::default_profile(HalfWatts(max)).model();
        run.same("default_profile", &max, library, model);
        run.same(
            "arin_default_profile",
            &max,
            board::arin_default_profile(max).model(),
            model,
        );
        run.saw(model.verdict.number);
    }
    run.finish(&[0, 1], &[]);
}

#[test]
fn every_cable() {
    let mut run = Run::new("cables");
    for cable in 0..=u16::MAX {
        let profile = Profile {
            cable,
            ..model::default_profile(72).profile
        };
        let refused = model::build(&profile).verdict.number == 3;
        run.same("bad_cable", &cable, rules::bad_cable(Ma10(cable)), refused);
    }
    run.finish(&[], &[]);
}

#[test]
fn built_and_checked() {
    let mut run = Run::new("rules");
    while run.going() {
        let profile = profiles::any(&mut run.random);
        let built = model::build(&profile);
        run.same(
            "build",
            &profile,
            rules::build(profile.library()).model(),
            built,
        );
        run.same(
            "arin_build",
            &profile,
            board::arin_build(profile.library()).model(),
            built,
        );
        run.saw(built.verdict.number);

        let (profile, list) = to_check(&mut run.random, profile);
        let verdict = model::check(&profile, &list);
        let (p, words) = (profile.library(), list.library());
        run.same(
            "check",
            &(profile, list),
            rules::check(p, words).model(),
            verdict,
        );
        run.same(
            "arin_check",
            &(profile, list),
            board::arin_check(p, words).model(),
            verdict,
        );
        run.saw(verdict.number);
        note(&mut run, profile, list, verdict.number);
    }
    let cases = [
        BELOW_3_A,
        REFUSED_BELOW_3_A,
        BETWEEN,
        REFUSED_BETWEEN,
        NOT_WHOLE,
    ];
    run.finish(NUMBERS, &cases);
}

fn note(run: &mut Run, profile: Profile, list: Words, number: u8) {
    match (number, profile.cable) {
        (0, 100..=299) => run.reached(BELOW_3_A),
        (19, 100..=299) => run.reached(REFUSED_BELOW_3_A),
        (0, 301..=499) => run.reached(BETWEEN),
        (19, 301..=499) => run.reached(REFUSED_BETWEEN),
        _ => {}
    }
    let last = list.words[usize::from(list.count.clamp(1, 7)) - 1];
    if number == 0 && profile.cable % 5 != 0 && last >> 28 == 0xC {
        run.reached(NOT_WHOLE);
    }
}

/// Each word of the built list by its place, and none anywhere else.
#[test]
fn words_at_places() {
    let mut run = Run::new("words at places");
    while run.going() {
        let profile = profiles::any(&mut run.random);
        let built = model::build(&profile);
        // The places of a list and those beside them, then any.
        let places: [u8; 12] = [0, 1, 2, 3, 4, 5, 6, 7, 8, 9, 255, run.random.u8()];
        for place in places {
            let word = match place {
                1..=7 if place <= built.list.count => {
                    Some(built.list.words[usize::from(place) - 1])
                }
                _ => None,
            };
            let library = rules::word_at(profile.library(), place);
            run.same("word_at", &(profile, place), library, word);
        }
        run.saw(built.verdict.number);
    }
    run.finish(&[0, 1, 2, 3, 4, 5, 6], &[]);
}

/// A list, and a profile that it may keep to: its own, one close to it, or any.
fn to_check(random: &mut Random, any: Profile) -> (Profile, Words) {
    if random.one_in(4) {
        return (any, lists_made::any(random));
    }
    let own = profiles::sound(random);
    let wanted = Profile {
        pps: if own.present == own.max { own.pps } else { 0 },
        ..own
    };
    let mut list = model::build(&wanted).list;
    match random.below(4) {
        0 => {}
        1 => lists_made::damage(random, &mut list),
        _ => other_currents(random, own, &mut list),
    }
    lists_made::litter(random, &mut list);
    match random.below(3) {
        0 => (profiles::beside(random, own), list),
        _ => (own, list),
    }
}

/// Currents at and beside what a list may have: the quotient either way, 3 A, the cable, in whole 50 mA for PPS. AVS takes
/// those of its fixed objects along, or 17 would hide 19.
fn other_currents(random: &mut Random, own: Profile, list: &mut Words) {
    for at in 0..usize::from(list.count) {
        if random.bool() {
            continue;
        }
        match model::decode(list.words[at]) {
            Some(model::Object::Fixed { volts, .. }) => {
                let quotient = 50 * u32::from(own.present) / u32::from(volts / 20);
                let up = random.below(2) as u32;
                let limit = random.pick(&[quotient + up, 300, u32::from(own.cable)]);
                let current = u32::from(random.near(limit.min(1023) as u16, 10));
                set_fixed(list, at, current);
            }
            Some(model::Object::Pps { current, .. }) => {
                let limit = random.pick(&[current, 60, own.cable / 5]);
                list.words[at] = list.words[at] & !0x7F | u32::from(random.near(limit, 7));
            }
            _ => {}
        }
    }
}

fn set_fixed(list: &mut Words, at: usize, current: u32) {
    let old = list.words[at];
    list.words[at] = old & !0x3FF | current;
    // Only AVS words begin with 1110b; 15 V is 300 steps and 20 V is 400.
    for word in &mut list.words {
        if *word >> 28 == 0xE {
            match (old >> 10) & 0x3FF {
                300 => *word = *word & !(0x3FF << 10) | current << 10,
                400 => *word = *word & !0x3FF | current,
                _ => {}
            }
        }
    }
}
