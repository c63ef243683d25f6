//! The power rules: the builder and the rule check.

use crate::answers::*;
use crate::lists::{object_at, shape};
use crate::steps::{round_down, round_up};
use crate::{Listing, Object, Profile, Profiled, Verdict, Words};

/// "The fixed objects come from four rows": voltage, "there when M is above".
const FIXED: [(u32, u16); 4] = [(5, 0), (9, 30), (15, 54), (20, 90)];

/// "There is one AVS object when M is above 54", and its second current "is zero when M is 90 or
/// less".
const AVS_ABOVE: u16 = 54;
const AVS_SECOND_ABOVE: u16 = 90;

/// A PPS object, its M between the two bounds; `max` in 100 mV, `limit` in 50 mA.
struct Prog {
    volts: u32,
    above: u16,
    below: u16,
    max: u16,
    limit: u32,
}

const PROGS: [Prog; 3] = [
    Prog { volts: 9, above: 30, below: 90, max: 110, limit: A3_50MA },
    Prog { volts: 15, above: 54, below: 120, max: 160, limit: A3_50MA },
    Prog { volts: 20, above: 90, below: u16::MAX, max: 210, limit: u32::MAX },
];

/// 5 V in 100 mV.
const PROG_MIN: u16 = 50;

/// 3 A in 10 mA and in 50 mA.
const A3_10MA: u16 = 300;
const A3_50MA: u32 = 60;

pub fn default_profile(max: u16) -> Profiled {
    if !(1..=200).contains(&max) {
        return Profiled {
            verdict: Verdict { number: MAX_POWER, place: 0 },
            profile: Profile::default(),
        };
    }
    Profiled {
        verdict: Verdict::default(),
        profile: Profile { max, present: max, cable: A3_10MA, ..Profile::default() },
    }
}

pub fn build(profile: &Profile) -> Listing {
    listing(try_build(profile))
}

fn try_build(profile: &Profile) -> Result<Words, Verdict> {
    check_profile(profile)?;
    if profile.pps == 1 && profile.present < profile.max {
        return refuse(NO_PPS_NOW, 0);
    }
    Ok(make(profile))
}

/// Numbers 1 to 5.
fn check_profile(profile: &Profile) -> Result<(), Verdict> {
    if !(1..=200).contains(&profile.max) {
        return refuse(MAX_POWER, 0);
    }
    if !(1..=profile.max).contains(&profile.present) {
        return refuse(PRESENT_POWER, 0);
    }
    if !is_cable(profile.cable) {
        return refuse(CABLE, 0);
    }
    if profile.rounding > 1 || profile.pps > 1 {
        return refuse(CHOICE, 0);
    }
    if profile.flags > 63 {
        return refuse(FLAGS, 0);
    }
    Ok(())
}

/// "100 to 500", in 10 mA.
pub fn is_cable(cable: u16) -> bool {
    (100..=500).contains(&cable)
}

/// The list of a profile that the builder accepts.
pub fn make(profile: &Profile) -> Words {
    let mut list = Words::default();
    let (mut low, mut high) = (0, 0);
    for (volts, above) in FIXED {
        if profile.max <= above {
            break;
        }
        let numerator = 50 * u32::from(profile.present);
        let quotient = match profile.rounding {
            0 => round_down(numerator, volts),
            _ => round_up(numerator, volts),
        };
        let current = quotient.min(most(volts, profile.cable));
        match volts {
            15 => low = current,
            20 => high = current,
            _ => {}
        }
        push(&mut list, (volts * 20) << 10 | current);
    }
    list.words[0] |= u32::from(profile.flags) << 24;
    if profile.max > AVS_ABOVE {
        push(&mut list, 0b1110 << 28 | low << 10 | high);
    }
    if profile.pps == 1 {
        for prog in PROGS.iter().filter(|prog| prog.offered(profile.max)) {
            let range = u32::from(prog.max) << 17 | u32::from(PROG_MIN) << 8;
            push(&mut list, 0b1100 << 28 | 1 << 27 | range | prog.built(profile));
        }
    }
    list
}

fn push(list: &mut Words, word: u32) {
    list.words[usize::from(list.count)] = word;
    list.count += 1;
}

/// Of a built fixed current: "at most 3 A at 5, 9 and 15 V, and at every voltage at most the cable".
fn most(volts: u32, cable: u16) -> u32 {
    u32::from(if volts == 20 { cable } else { cable.min(A3_10MA) })
}

/// "the greatest figure of 50 mA that is not above the cable". Divided in 16 bits, so that one
/// multiplication does it where the machine cannot divide.
fn cable_in_whole_50ma(cable: u16) -> u32 {
    u32::from(cable / 5)
}

impl Prog {
    fn offered(&self, max: u16) -> bool {
        self.above < max && max < self.below
    }

    /// "current before its limit, in 50 mA", rounded down and "at most the cable in whole 50 mA".
    fn before_limit(&self, profile: &Profile) -> u32 {
        let quotient = round_down(10 * u32::from(profile.max), self.volts);
        quotient.min(cable_in_whole_50ma(profile.cable))
    }

    fn built(&self, profile: &Profile) -> u32 {
        self.before_limit(profile).min(self.limit)
    }

    /// "from the built figure up to the smaller of the cable in whole 50 mA and" the quotient. The
    /// ends differ only where cable and quotient are both over the limit: the quotient is for 9 V
    /// Prog with M > 54 and for 15 V Prog with M > 90.
    fn allows(&self, profile: &Profile, current: u32) -> bool {
        (self.built(profile)..=self.before_limit(profile)).contains(&current)
    }
}

pub fn check(profile: &Profile, list: &Words) -> Verdict {
    if let Err(verdict) = check_profile(profile) {
        return verdict;
    }
    let verdict = shape(list);
    if verdict.number != 0 {
        return verdict;
    }
    match first_not_allowed(profile, list) {
        Some(0) => Verdict::default(),
        Some(place) => Verdict { number: CURRENT, place },
        None => Verdict { number: WRONG_SET, place: 0 },
    }
}

/// The place of the first current that is not allowed, 0 when all are; None for a wrong set of
/// objects. The AVS currents are those of its fixed objects, by the shape.
fn first_not_allowed(profile: &Profile, list: &Words) -> Option<u8> {
    let mut seen = 0;
    let mut wrong = 0;
    for (row, above) in FIXED {
        if profile.max <= above {
            break;
        }
        seen += 1;
        let Some(Object::Fixed { volts, current, .. }) = object_at(list, seen) else {
            return None;
        };
        if u32::from(volts) != row * 20 {
            return None;
        }
        if wrong == 0 && !fixed_allowed(profile, row, u32::from(current)) {
            wrong = seen;
        }
    }
    if profile.max > AVS_ABOVE {
        seen += 1;
        let Some(Object::Avs { high, .. }) = object_at(list, seen) else {
            return None;
        };
        if (high != 0) != (profile.max > AVS_SECOND_ABOVE) {
            return None;
        }
    }
    if seen == list.count {
        return Some(wrong);
    }
    if profile.present < profile.max {
        return None;
    }
    for prog in PROGS.iter().filter(|prog| prog.offered(profile.max)) {
        seen += 1;
        let Some(Object::Pps { max, min, current, .. }) = object_at(list, seen) else {
            return None;
        };
        if max != prog.max || min != PROG_MIN {
            return None;
        }
        if wrong == 0 && !prog.allows(profile, u32::from(current)) {
            wrong = seen;
        }
    }
    (seen == list.count).then_some(wrong)
}

fn fixed_allowed(profile: &Profile, volts: u32, current: u32) -> bool {
    let present = u32::from(profile.present);
    let cable = u32::from(profile.cable);
    let down = round_down(50 * present, volts).min(cable);
    let up = round_up(50 * present, volts).min(cable);
    if volts != 20 && present > 6 * volts {
        // "from the smaller of 3 A and the cable"
        return (most(volts, profile.cable)..=up).contains(&current);
    }
    current == down || current == up
}
