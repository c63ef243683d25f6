//! A request word taken apart, as firmware sets its supply from it.

use crate::making::{avs, battery, fixed, pps, variable};
use arinduleu::objects::Object;
use arinduleu::requests::{take_apart, Asked, Request};
use arinduleu::steps::{Ma10, Ma50, Mv20, Mv25, Mw250};

const fn of_fixed(operating: u16, maximum: u16) -> Request {
    Request::Fixed {
        operating: Ma10(operating),
        maximum: Ma10(maximum),
    }
}

const fn of_battery(operating: u16, maximum: u16) -> Request {
    Request::Battery {
        operating: Mw250(operating),
        maximum: Mw250(maximum),
    }
}

const fn of_variable(operating: u16, maximum: u16) -> Request {
    Request::Variable {
        operating: Ma10(operating),
        maximum: Ma10(maximum),
    }
}

const fn of_pps(volts: u16, current: u16) -> Request {
    Request::Pps {
        volts: Mv20(volts),
        current: Ma50(current),
    }
}

const fn of_avs(volts: u16, current: u16) -> Request {
    Request::Avs {
        volts: Mv25(volts),
        current: Ma50(current),
    }
}

/// The name, the object and the request word; then the position, the mismatch bit and the figures in the kind's steps.
#[rustfmt::skip]
const TAKEN_APART: [(&str, Object, u32, u8, bool, Request); 6] = [
    ("asked of fixed: 300 and 301", fixed(0, 0, 100, 300), 0x5404B12D, 5, true, of_fixed(300, 301)),
    ("asked of battery: 40 and 41", battery(240, 180, 40), 0x5400A029, 5, true, of_battery(40, 41)),
    ("asked of variable: 200 and 201", variable(300, 180, 200), 0x540320C9, 5, true, of_variable(200, 201)),
    ("asked of PPS: 250 and 60", pps(1, 110, 50, 60), 0x5401F43C, 5, true, of_pps(250, 60)),
    ("asked of AVS: 600 and 65", avs(0, 300, 325), 0x5404B041, 5, true, of_avs(600, 65)),
    ("no mismatch, every other bit set", fixed(0, 0, 100, 300), 0xFBFFFFFF, 15, false, of_fixed(1023, 1023)),
];

#[test]
fn requests_taken_apart() {
    for (name, object, word, position, mismatch, request) in TAKEN_APART {
        let asked = Asked {
            position,
            mismatch,
            request,
        };
        assert_eq!(take_apart(object, word), asked, "{name}");
    }
}
