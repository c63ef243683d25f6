//! The refusal numbers of the statement by name, and how a refusal becomes an answer.

use crate::{Listing, Verdict, Words};

/// "M, or the rating of a sink, outside 1 to 200"
pub const MAX_POWER: u8 = 1;
pub const PRESENT_POWER: u8 = 2;
pub const CABLE: u8 = 3;
pub const CHOICE: u8 = 4;
pub const FLAGS: u8 = 5;
pub const NO_PPS_NOW: u8 = 6;
pub const TOO_WIDE: u8 = 7;
pub const COUNT: u8 = 10;
pub const FIRST_OBJECT: u8 = 11;
pub const KIND: u8 = 12;
pub const RESERVED: u8 = 13;
pub const ORDER: u8 = 14;
pub const VOLTAGE: u8 = 15;
pub const POWER: u8 = 16;
pub const AVS_DIFFERS: u8 = 17;
pub const WRONG_SET: u8 = 18;
pub const CURRENT: u8 = 19;
pub const POSITION: u8 = 20;
// 21 is withdrawn (T-01): "no other refusal will have it".
pub const OUT_OF_RANGE: u8 = 22;
pub const NOT_WHOLE: u8 = 23;
pub const OPERATING: u8 = 24;
pub const MAXIMUM: u8 = 25;
pub const ROW_COUNT: u8 = 30;
pub const ROW_MAX: u8 = 31;
pub const CAPACITY: u8 = 32;
pub const PORT: u8 = 33;
pub const IN_USE: u8 = 34;
pub const NOT_ATTACHED: u8 = 35;
pub const NO_POWER: u8 = 36;
pub const NOT_SOUND: u8 = 37;
pub const LENGTH: u8 = 40;
pub const MESSAGE_TYPE: u8 = 41;
pub const EXTENDED: u8 = 42;
pub const CEILING: u8 = 43;
pub const HEADER_TOO_WIDE: u8 = 51;
pub const BUFFER: u8 = 52;
pub const REQUEST_COUNT: u8 = 53;

pub fn refuse<T>(number: u8, place: u8) -> Result<T, Verdict> {
    Err(Verdict { number, place })
}

/// "Success is 0 at place 0."
pub fn verdict(result: Result<(), Verdict>) -> Verdict {
    result.err().unwrap_or_default()
}

/// "On a refusal everything else in the answer is zero, a list is empty".
pub fn listing(result: Result<Words, Verdict>) -> Listing {
    match result {
        Ok(list) => Listing { verdict: Verdict::default(), list },
        Err(verdict) => Listing { verdict, list: Words::default() },
    }
}
