//! What the tests make their inputs with.

mod by_hand;
mod cables;
mod messages;
mod refusals;
mod reserved;
mod sinks;
mod summaries;

use crate::*;

fn profile(max: u16, present: u16, cable: u16, rounding: u8, pps: u8) -> Profile {
    Profile { max, present, cable, rounding, pps, flags: 0 }
}

fn list_of(words: &[u32]) -> Words {
    let mut list = Words::default();
    list.words[..words.len()].copy_from_slice(words);
    list.count = words.len() as u8;
    list
}

fn built(profile: Profile) -> Words {
    let listing = build(&profile);
    assert_eq!(listing.verdict, said(0, 0));
    listing.list
}

fn by_max(max: u16) -> Words {
    built(default_profile(max).profile)
}

fn said(number: u8, place: u8) -> Verdict {
    Verdict { number, place }
}

fn fixed(volts: u32, current: u32) -> u32 {
    (volts * 20) << 10 | current
}

fn battery(max: u32, min: u32, power: u32) -> u32 {
    1 << 30 | max << 20 | min << 10 | power
}

fn variable(max: u32, min: u32, current: u32) -> u32 {
    2 << 30 | max << 20 | min << 10 | current
}

fn avs(low: u32, high: u32) -> u32 {
    0xE000_0000 | low << 10 | high
}

fn pps(max: u32, min: u32, current: u32) -> u32 {
    0xC800_0000 | max << 17 | min << 8 | current
}

fn ask_figures(position: u32, operating: u32, maximum: u32) -> u32 {
    position << 28 | operating << 10 | maximum
}

fn ask_volts(position: u32, volts: u32, current: u32) -> u32 {
    position << 28 | volts << 9 | current
}

/// The list L of the statement.
fn l() -> Words {
    built(profile(160, 130, 500, 0, 0))
}

/// The same numbers on every machine.
struct Seeded(u32);

impl Seeded {
    fn next(&mut self) -> u32 {
        self.0 = self.0.wrapping_add(0x9E37_79B9);
        let mixed = (self.0 ^ self.0 >> 16).wrapping_mul(0x85EB_CA6B);
        let mixed = (mixed ^ mixed >> 13).wrapping_mul(0xC2B2_AE35);
        mixed ^ mixed >> 16
    }

    fn below(&mut self, bound: u32) -> u32 {
        self.next() % bound
    }
}
