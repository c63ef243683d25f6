//! Objects as the rows write them down. Figures are in the kind's own steps.

use arinduleu::objects::Object;
use arinduleu::steps::{Ma10, Ma50, Mv100, Mv50, Mw250};

pub const fn fixed(flags: u8, peak: u8, volts: u16, current: u16) -> Object {
    Object::Fixed {
        flags,
        peak,
        volts: Mv50(volts),
        current: Ma10(current),
    }
}

pub const fn battery(max: u16, min: u16, power: u16) -> Object {
    Object::Battery {
        max: Mv50(max),
        min: Mv50(min),
        power: Mw250(power),
    }
}

pub const fn variable(max: u16, min: u16, current: u16) -> Object {
    Object::Variable {
        max: Mv50(max),
        min: Mv50(min),
        current: Ma10(current),
    }
}

pub const fn pps(limited: u8, max: u16, min: u16, current: u16) -> Object {
    Object::Pps {
        limited,
        max: Mv100(max),
        min: Mv100(min),
        current: Ma50(current),
    }
}

pub const fn avs(peak: u8, low: u16, high: u16) -> Object {
    Object::Avs {
        peak,
        low: Ma10(low),
        high: Ma10(high),
    }
}

/// The same for a sink.
pub mod needs {
    use arinduleu::sinks::SinkObject;
    use arinduleu::steps::{Ma10, Ma50, Mv100, Mv50, Mw250};

    pub const fn fixed(flags: u8, volts: u16, current: u16) -> SinkObject {
        SinkObject::Fixed {
            flags,
            volts: Mv50(volts),
            current: Ma10(current),
        }
    }

    pub const fn battery(max: u16, min: u16, power: u16) -> SinkObject {
        SinkObject::Battery {
            max: Mv50(max),
            min: Mv50(min),
            power: Mw250(power),
        }
    }

    pub const fn variable(max: u16, min: u16, current: u16) -> SinkObject {
        SinkObject::Variable {
            max: Mv50(max),
            min: Mv50(min),
            current: Ma10(current),
        }
    }

    pub const fn pps(max: u16, min: u16, current: u16) -> SinkObject {
        SinkObject::Pps {
            max: Mv100(max),
            min: Mv100(min),
            current: Ma50(current),
        }
    }
}
