//! The statement (docs/STATEMENT.md) once more, in plain Rust, by hand.
//! Every call answers for every input; none panics, allocates or keeps state.

#![no_std]
#![forbid(unsafe_code)]

mod answers;
mod flat;
mod lists;
mod messages;
mod ports;
mod requests;
mod rules;
mod sinks;
mod steps;
mod summaries;
#[cfg(test)]
mod tests;
mod words;

pub use flat::{flat_read, flat_write, flatten, raise};
pub use lists::{read, shape, write};
pub use messages::{read_message, take_message, write_message};
pub use ports::{advertise, attach, detach, remaining, request, set_up};
pub use requests::{answer, judge, position, take_apart};
pub use rules::{build, check, default_profile};
pub use sinks::{
    decode_for, reserved_bit_set_for, sink_check, sink_decode, sink_encode, sink_flat_read,
    sink_flat_write, sink_flatten, sink_raise, sink_read, sink_reserved_bit_set, sink_shape,
    sink_write,
};
pub use steps::{convert, round_both, round_down, round_up};
pub use summaries::{
    answer_summary, flat_answer_summary, flat_take_request, flatten_request, raise_request,
    summarize, take_request,
};
pub use words::{decode, encode, reserved_bit_set};

#[derive(Clone, Copy, Debug, PartialEq, Eq, Default)]
#[repr(C)]
pub struct Verdict {
    pub number: u8,
    pub place: u8,
}

#[derive(Clone, Copy, Debug, PartialEq, Eq, Default)]
#[repr(C)]
pub struct Words {
    pub words: [u32; 7],
    pub count: u8,
}

#[derive(Clone, Copy, Debug, PartialEq, Eq, Default)]
#[repr(C)]
pub struct Listing {
    pub verdict: Verdict,
    pub list: Words,
}

/// Powers in half watts, cable in 10 mA, rounding 0 down and 1 up.
#[derive(Clone, Copy, Debug, PartialEq, Eq, Default)]
#[repr(C)]
pub struct Profile {
    pub max: u16,
    pub present: u16,
    pub cable: u16,
    pub rounding: u8,
    pub pps: u8,
    pub flags: u8,
}

#[derive(Clone, Copy, Debug, PartialEq, Eq, Default)]
#[repr(C)]
pub struct Profiled {
    pub verdict: Verdict,
    pub profile: Profile,
}

/// Powers in half watts, cable in 10 mA. "A port with cable 0 is empty; any other is attached."
#[derive(Clone, Copy, Debug, PartialEq, Eq, Default)]
#[repr(C)]
pub struct Row {
    pub max: u16,
    pub pps: u8,
    pub cable: u16,
    pub present: u16,
    pub held: u16,
}

#[derive(Clone, Copy, Debug, PartialEq, Eq, Default)]
#[repr(C)]
pub struct RemainingPower {
    pub verdict: Verdict,
    pub power: u16,
}

/// Figures in the object's own steps, as in its word.
#[derive(Clone, Copy, Debug, PartialEq, Eq)]
pub enum Object {
    Fixed { flags: u8, peak: u8, volts: u16, current: u16 },
    Battery { max: u16, min: u16, power: u16 },
    Variable { max: u16, min: u16, current: u16 },
    Pps { limited: u8, max: u16, min: u16, current: u16 },
    Avs { peak: u8, low: u16, high: u16 },
}

#[derive(Clone, Copy, Debug, PartialEq, Eq)]
pub struct Objects {
    pub places: [Object; 7],
    pub count: u8,
}

#[derive(Clone, Copy, Debug, PartialEq, Eq)]
pub struct Reading {
    pub verdict: Verdict,
    pub list: Objects,
}

/// What a sink needs; figures in the object's own steps, as in its word.
#[derive(Clone, Copy, Debug, PartialEq, Eq)]
pub enum SinkObject {
    Fixed { flags: u8, volts: u16, current: u16 },
    Battery { max: u16, min: u16, power: u16 },
    Variable { max: u16, min: u16, current: u16 },
    Pps { max: u16, min: u16, current: u16 },
}

#[derive(Clone, Copy, Debug, PartialEq, Eq)]
pub struct SinkObjects {
    pub places: [SinkObject; 7],
    pub count: u8,
}

#[derive(Clone, Copy, Debug, PartialEq, Eq)]
pub struct SinkReading {
    pub verdict: Verdict,
    pub list: SinkObjects,
}

/// Whose word it is.
#[derive(Clone, Copy, Debug, PartialEq, Eq)]
pub enum Side {
    Source,
    Sink,
}

/// One struct for all kinds, as C has it. kind: 0 fixed, 1 battery, 2 variable, 3 PPS, 4 AVS.
/// "C hands in sink objects in the struct of the source side, with the same kind numbers".
#[derive(Clone, Copy, Debug, PartialEq, Eq, Default)]
#[repr(C)]
pub struct FlatObject {
    pub kind: u8,
    pub flags: u8,
    pub peak: u8,
    pub limited: u8,
    pub volts: u16,
    pub max: u16,
    pub min: u16,
    pub power: u16,
    pub current: u16,
    pub max100: u16,
    pub min100: u16,
    pub current50: u16,
    pub low: u16,
    pub high: u16,
}

#[derive(Clone, Copy, Debug, PartialEq, Eq, Default)]
#[repr(C)]
pub struct FlatObjects {
    pub places: [FlatObject; 7],
    pub count: u8,
}

#[derive(Clone, Copy, Debug, PartialEq, Eq, Default)]
#[repr(C)]
pub struct FlatReading {
    pub verdict: Verdict,
    pub list: FlatObjects,
}

#[derive(Clone, Copy, Debug, PartialEq, Eq)]
pub enum Request {
    Fixed { operating: u16, maximum: u16 },
    Battery { operating: u16, maximum: u16 },
    Variable { operating: u16, maximum: u16 },
    Pps { volts: u16, current: u16 },
    Avs { volts: u16, current: u16 },
}

#[derive(Clone, Copy, Debug, PartialEq, Eq)]
pub struct Asked {
    pub position: u8,
    pub mismatch: bool,
    pub request: Request,
}

/// What a list allows. A row is "the *lowest* and the *highest* voltage in millivolts, and the
/// greatest current in milliamperes *below 15.0 V* and *above 15.0 V*", in this order.
#[derive(Clone, Copy, Debug, PartialEq, Eq, Default)]
#[repr(C)]
pub struct Summary {
    pub count: u8,
    pub rows: [[u16; 4]; 7],
}

#[derive(Clone, Copy, Debug, PartialEq, Eq, Default)]
#[repr(C)]
pub struct Summarized {
    pub verdict: Verdict,
    pub summary: Summary,
}

/// Fixed and variable in 10 mA, volts in 20 mV for PPS and in 25 mV for AVS, their current in 50 mA.
/// "There is none for a battery object".
#[derive(Clone, Copy, Debug, PartialEq, Eq)]
pub enum Figures {
    Fixed { operating: u16, maximum: u16 },
    Variable { operating: u16, maximum: u16 },
    Pps { volts: u16, current: u16 },
    Avs { volts: u16, current: u16 },
}

#[derive(Clone, Copy, Debug, PartialEq, Eq)]
pub struct DecodedRequest {
    pub position: u8,
    pub mismatch: bool,
    pub figures: Figures,
}

/// What decoding answers. "Of a battery object it answers that the request is for the list."
#[derive(Clone, Copy, Debug, PartialEq, Eq)]
pub enum Taken {
    Refused(Verdict),
    Battery,
    Decoded(DecodedRequest),
}

/// One struct for all kinds, as C has it. kind: 0 fixed, 1 battery, 2 variable, 3 PPS, 4 AVS.
#[derive(Clone, Copy, Debug, PartialEq, Eq, Default)]
#[repr(C)]
pub struct FlatRequest {
    pub kind: u8,
    pub position: u8,
    pub mismatch: u8,
    pub operating: u16,
    pub maximum: u16,
    pub volts20: u16,
    pub volts25: u16,
    pub current50: u16,
}

#[derive(Clone, Copy, Debug, PartialEq, Eq, Default)]
#[repr(C)]
pub struct FlatTaken {
    pub verdict: Verdict,
    pub request: FlatRequest,
}

/// The fields of a message's header, from its highest bit down.
#[derive(Clone, Copy, Debug, PartialEq, Eq, Default)]
#[repr(C)]
pub struct Header {
    pub extended: u8,
    pub count: u8,
    pub id: u8,
    pub power_role: u8,
    pub revision: u8,
    pub data_role: u8,
    pub message_type: u8,
}

/// "There is one count, the header's".
#[derive(Clone, Copy, Debug, PartialEq, Eq, Default)]
#[repr(C)]
pub struct Message {
    pub header: Header,
    pub words: [u32; 7],
}

#[derive(Clone, Copy, Debug, PartialEq, Eq, Default)]
#[repr(C)]
pub struct MessageReading {
    pub verdict: Verdict,
    pub message: Message,
}

/// The length in bytes.
#[derive(Clone, Copy, Debug, PartialEq, Eq, Default)]
#[repr(C)]
pub struct Written {
    pub verdict: Verdict,
    pub length: u8,
}
