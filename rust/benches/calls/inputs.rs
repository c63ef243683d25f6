//! Seeded inputs. Most are good, and each comment says how many are refused.

use arinduleu::ports::Row;
use arinduleu::rules::Profile;
use arinduleu::steps::{HalfWatts, Ma10};

pub const INPUTS: usize = 2000;

pub struct Dice(u64);

impl Dice {
    pub fn new(seed: u64) -> Dice {
        Dice(seed)
    }

    /// Splitmix64.
    fn next(&mut self) -> u64 {
        self.0 = self.0.wrapping_add(0x9E37_79B9_7F4A_7C15);
        let a = (self.0 ^ (self.0 >> 30)).wrapping_mul(0xBF58_476D_1CE4_E5B9);
        let b = (a ^ (a >> 27)).wrapping_mul(0x94D0_49BB_1331_11EB);
        b ^ (b >> 31)
    }

    pub fn below(&mut self, n: u32) -> u32 {
        (self.next() % u64::from(n)) as u32
    }

    pub fn from(&mut self, low: u16, high: u16) -> u16 {
        low + self.below(u32::from(high - low) + 1) as u16
    }

    pub fn one_in(&mut self, n: u32) -> bool {
        self.below(n) == 0
    }

    pub fn any(&mut self) -> u32 {
        self.next() as u32
    }
}

pub fn many<A>(seed: u64, make: impl Fn(&mut Dice) -> A) -> Vec<A> {
    let mut dice = Dice::new(seed);
    (0..INPUTS).map(|_| make(&mut dice)).collect()
}

/// A port call: the rows as lent (the first `count` of nine) and its other arguments.
#[derive(Clone, Copy)]
pub struct Turn {
    pub rows: [Row; 9],
    pub count: usize,
    pub capacity: u16,
    pub port: u8,
    pub cable: u16,
    pub word: u32,
}

/// One in eight is outside 1..200.
pub fn maxima() -> Vec<u16> {
    many(1, |dice| match dice.one_in(8) {
        true => dice.from(201, 400),
        false => dice.from(1, 200),
    })
}

/// Half are 3 A or 5 A, as cables that come off have it; the rest are captive leads, of 2 A, of 4 A, or of any rating.
pub fn cable(dice: &mut Dice) -> u16 {
    match dice.below(8) {
        0 | 1 => 300,
        2 | 3 => 500,
        4 => 200,
        5 => 400,
        _ => dice.from(100, 500),
    }
}

/// Half want PPS; of the rest half have less than their maximum.
pub fn good_profile(dice: &mut Dice) -> Profile {
    let max = dice.from(1, 200);
    let pps = dice.below(2) as u8;
    let present = match pps == 1 || dice.one_in(2) {
        true => max,
        false => dice.from(1, max),
    };
    let flags = match dice.one_in(4) {
        true => dice.below(64) as u8,
        false => 0,
    };
    Profile {
        max: HalfWatts(max),
        present: HalfWatts(present),
        cable: Ma10(cable(dice)),
        rounding: dice.below(2) as u8,
        pps,
        flags,
    }
}

/// One in eight is refused, with 1 to 6.
pub fn profiles() -> Vec<Profile> {
    many(2, |dice| {
        let mut profile = good_profile(dice);
        if dice.one_in(8) {
            match dice.below(6) {
                0 => profile.max = HalfWatts(dice.from(201, 400)),
                1 => profile.present = HalfWatts(0),
                2 => profile.cable = Ma10(99),
                3 => profile.rounding = 2,
                4 => profile.flags = 64,
                _ => (profile.pps, profile.present) = (1, HalfWatts(profile.max.0 / 2)),
            }
        }
        profile
    })
}

/// Figures as in object words. Half are multiples of 20, which every step takes; one in sixteen may pass 16 bits.
pub fn figures() -> Vec<u16> {
    many(3, |dice| match (dice.one_in(16), dice.one_in(2)) {
        (true, _) => dice.from(0, u16::MAX),
        (_, true) => 20 * dice.from(0, 50),
        _ => dice.from(0, 1023),
    })
}

/// Quotients as the rules make them: 50 P over volts, and powers of requests. One in 32 has a divisor of 0.
pub fn quotients() -> Vec<(u32, u32)> {
    many(4, |dice| {
        let divisor = [5, 9, 15, 20, 400, 500, 1000][dice.below(7) as usize];
        let numerator = match divisor < 400 {
            true => 50 * u32::from(dice.from(1, 200)),
            false => dice.below(200_000),
        };
        (numerator, if dice.one_in(32) { 0 } else { divisor })
    })
}
