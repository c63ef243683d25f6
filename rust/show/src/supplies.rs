//! An object as what it supplies: its ranges of volts, and what limits each.

use arinduleu::objects::Object;

use crate::figures;

#[derive(Clone, Copy, PartialEq, Eq)]
pub enum Kind {
    Fixed,
    Battery,
    Variable,
    Avs,
    Pps,
}

impl Kind {
    pub fn name(self) -> &'static str {
        match self {
            Kind::Fixed => "fixed",
            Kind::Battery => "battery",
            Kind::Variable => "variable",
            Kind::Avs => "AVS",
            Kind::Pps => "PPS",
        }
    }
}

#[derive(Clone, Copy)]
pub enum Limit {
    Milliamperes(u32),
    Milliwatts(u32),
}

/// Both ends, in millivolts, belong to it.
#[derive(Clone, Copy)]
pub struct Range {
    pub from: u32,
    pub to: u32,
    pub limit: Limit,
}

pub struct Supply {
    pub kind: Kind,
    pub ranges: Vec<Range>,
    /// What is said behind volts and amperes, and what is said below them.
    pub note: String,
    pub more: Vec<String>,
}

/// The volts of AVS, in millivolts: where it begins, where the second current takes over, and where that one ends.
const AVS_FROM: u32 = 9000;
pub const AVS_TURN: u32 = 15000;
const AVS_TO: u32 = 20000;

pub fn supply(object: Object) -> Supply {
    match object {
        Object::Fixed { flags, peak, volts, current } => {
            let (mv, ma) = (50 * u32::from(volts.0), 10 * u32::from(current.0));
            let flags = (flags != 0).then(|| format!("flags {flags:07b}b (bits 29..23)"));
            Supply {
                kind: Kind::Fixed,
                ranges: vec![range(mv, mv, Limit::Milliamperes(ma))],
                note: figures::watts(u64::from(mv) * u64::from(ma)),
                more: flags.into_iter().chain(peak_note(peak)).collect(),
            }
        }
        Object::Battery { max, min, power } => Supply {
            kind: Kind::Battery,
            ranges: vec![range(
                50 * u32::from(min.0),
                50 * u32::from(max.0),
                Limit::Milliwatts(250 * u32::from(power.0)),
            )],
            note: String::new(),
            more: vec![],
        },
        Object::Variable { max, min, current } => Supply {
            kind: Kind::Variable,
            ranges: vec![range(
                50 * u32::from(min.0),
                50 * u32::from(max.0),
                Limit::Milliamperes(10 * u32::from(current.0)),
            )],
            note: String::new(),
            more: vec![],
        },
        Object::Pps { limited, max, min, current } => Supply {
            kind: Kind::Pps,
            ranges: vec![range(
                100 * u32::from(min.0),
                100 * u32::from(max.0),
                Limit::Milliamperes(50 * u32::from(current.0)),
            )],
            note: if limited == 0 { String::new() } else { "power limited".to_string() },
            more: vec![],
        },
        Object::Avs { peak, low, high } => {
            let mut ranges =
                vec![range(AVS_FROM, AVS_TURN, Limit::Milliamperes(10 * u32::from(low.0)))];
            // A second current of zero says that the supply ends at 15.0 V.
            if high.0 != 0 {
                ranges.push(range(AVS_TURN, AVS_TO, Limit::Milliamperes(10 * u32::from(high.0))));
            }
            Supply {
                kind: Kind::Avs,
                ranges,
                note: String::new(),
                more: peak_note(peak).into_iter().collect(),
            }
        }
    }
}

fn range(from: u32, to: u32, limit: Limit) -> Range {
    Range { from, to, limit }
}

fn peak_note(peak: u8) -> Option<String> {
    (peak != 0).then(|| format!("peak current {peak}"))
}
