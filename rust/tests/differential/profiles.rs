//! Profiles at and around everything that the statement compares a power with.

use crate::common::random::Random;
use model::Profile;

/// Where M or P decides something: the rows of the table, the PPS ranges, where a quotient passes 3 A or 5 A, 15 of a port, both ends.
const EDGES: [u16; 9] = [1, 15, 30, 50, 54, 90, 120, 150, 200];

/// Both ends, where the cable begins to cut, leads as they are made, and figures that are no whole 50 mA.
const CABLES: [u16; 11] = [100, 101, 200, 204, 299, 300, 301, 399, 400, 499, 500];

/// One that is no refusal.
pub fn cable(random: &mut Random) -> u16 {
    match random.below(3) {
        0 => random.pick(&CABLES),
        _ => random.within(100..=500),
    }
}

/// One that is refused: amperes, one step past an end, what would be none or a cable in 8 bits, or any other.
pub fn no_cable(random: &mut Random) -> u16 {
    let cable = match random.below(2) {
        0 => random.pick(&[0, 1, 3, 5, 50, 99, 501, 512, 612, 712, u16::MAX]),
        _ => random.u16(),
    };
    match cable {
        100..=500 => 0,
        _ => cable,
    }
}

/// Mostly one that is no refusal, else any number of 16 bits.
pub fn any_cable(random: &mut Random) -> u16 {
    match random.below(8) {
        0 => no_cable(random),
        1 => random.u16(),
        _ => cable(random),
    }
}

/// From 0 to 201, often at an edge or one beside it.
pub fn power(random: &mut Random) -> u16 {
    match random.below(3) {
        0 => random.pick(&EDGES) + random.within(0..=2) - 1,
        _ => random.within(1..=200),
    }
}

fn present(random: &mut Random, max: u16) -> u16 {
    match random.below(6) {
        0..=2 => max,
        3 => max.saturating_sub(1).max(1),
        4 => power(random).clamp(1, max.max(1)),
        _ => random.within(1..=max.max(1)),
    }
}

/// One that no check of its own refuses. PPS may be wanted where P is below M: 6 is the builder's.
pub fn sound(random: &mut Random) -> Profile {
    let max = power(random).clamp(1, 200);
    Profile {
        max,
        present: present(random, max),
        cable: cable(random),
        rounding: random.pick(&[0, 1]),
        pps: random.pick(&[0, 1]),
        flags: random.pick(&[0, 1, 32, 62, 63]),
    }
}

/// Sound, or with one figure past its bound, or with several.
pub fn any(random: &mut Random) -> Profile {
    let mut profile = sound(random);
    if random.one_in(2) {
        return profile;
    }
    for _ in 0..random.pick(&[1, 1, 2, 6]) {
        match random.below(6) {
            0 => profile.max = random.pick(&[0, 201, 202, 256, 257, 455, u16::MAX]),
            1 => {
                let past = profile.max.saturating_add(1);
                profile.present = random.pick(&[0, past, 201, 256, 257, u16::MAX]);
            }
            2 => profile.cable = no_cable(random),
            3 => profile.rounding = random.pick(&[2, 3, 128, 255]),
            4 => profile.pps = random.pick(&[2, 3, 128, 255]),
            _ => profile.flags = random.pick(&[64, 65, 127, 128, 255]),
        }
    }
    profile
}

/// A profile close to another: what a list was built for is checked against this.
pub fn beside(random: &mut Random, profile: Profile) -> Profile {
    let mut other = profile;
    match random.below(6) {
        0 => other.present = other.present.saturating_sub(1).max(1),
        1 => other.present = (other.present + 1).min(other.max),
        2 => other.max = (other.max + 1).min(200),
        3 => {
            other.max = (other.max - 1).max(1);
            other.present = other.present.min(other.max);
        }
        4 => {
            let beside = [other.cable - 1, other.cable + 1, 300, 500, cable(random)];
            other.cable = random.pick(&beside).clamp(100, 500);
        }
        _ => other.rounding = 1 - other.rounding,
    }
    other
}
