//! Steps of measure: converting a figure loses nothing or refuses, and both roundings.

use arinduleu::steps::*;

/// What stands for a refusal: no figure of 16 bits.
const NO: u32 = 65536;

macro_rules! figure {
    ($call:expr) => {
        $call.map_or(NO, |figure| u32::from(figure.0))
    };
}

/// The name, the step in mV that the figure is given in, and the same voltage in steps of 20, 25, 50 and 100 mV.
#[rustfmt::skip]
const VOLTAGES: [(&str, u16, [u32; 4]); 21] = [
    ("5 V in 20 mV is 200, 100, 50 in the others",    20, [  250,   200,   100,    50]),
    ("5 V in 25 mV is 250, 100, 50 in the others",    25, [  250,   200,   100,    50]),
    ("5 V in 50 mV is 250, 200, 50 in the others",    50, [  250,   200,   100,    50]),
    ("5 V in 100 mV is 250, 200, 100 in the others", 100, [  250,   200,   100,    50]),
    // What would lose.
    ("5.04 V in 20 mV is refused in each other",      20, [  252,    NO,    NO,    NO]),
    ("5.025 V in 25 mV is refused in each other",     25, [   NO,   201,    NO,    NO]),
    ("5.05 V in 50 mV is 202 in 25, else refused",    50, [   NO,   202,   101,    NO]),
    // 5.1 V is 255 in 20 mV: whole in 25 mV, in 50 mV and in 100 mV.
    ("5.1 V in 20 mV is 204, 102, 51",                20, [  255,   204,   102,    51]),
    // The largest figure that comes out within 16 bits, which end at 65535, and the next one that is whole.
    ("65535 in 20 mV is whole in each other",         20, [65535, 52428, 26214, 13107]),
    // 52428 * 25 = 65535 * 20, 52432 * 25 = 65540 * 20.
    ("52428 in 25 mV is 65535 in 20",                 25, [65535, 52428, 26214, 13107]),
    ("52432 in 25 mV does not fit in 20",             25, [   NO, 52432, 26216, 13108]),
    // 26214 * 50 = 65535 * 20, 26216 * 50 = 65540 * 20.
    ("26214 in 50 mV is 65535 in 20",                 50, [65535, 52428, 26214, 13107]),
    ("26216 in 50 mV does not fit in 20",             50, [   NO, 52432, 26216, 13108]),
    // 32768 * 50 = 65536 * 25.
    ("32766 in 50 mV is 65532 in 25",                 50, [   NO, 65532, 32766, 16383]),
    ("32768 in 50 mV does not fit in 25",             50, [   NO,    NO, 32768, 16384]),
    // 13107 * 5 = 65535.
    ("13107 in 100 mV is 65535 in 20",               100, [65535, 52428, 26214, 13107]),
    ("13108 in 100 mV does not fit in 20",           100, [   NO, 52432, 26216, 13108]),
    // 16383 * 4 = 65532.
    ("16383 in 100 mV is 65532 in 25",               100, [   NO, 65532, 32766, 16383]),
    ("16384 in 100 mV does not fit in 25",           100, [   NO,    NO, 32768, 16384]),
    // 32767 * 2 = 65534.
    ("32767 in 100 mV is 65534 in 50",               100, [   NO,    NO, 65534, 32767]),
    ("32768 in 100 mV does not fit in 50",           100, [   NO,    NO,    NO, 32768]),
];

fn from_mv20(x: Mv20) -> [u32; 4] {
    [
        u32::from(x.0),
        figure!(x.to_mv25()),
        figure!(x.to_mv50()),
        figure!(x.to_mv100()),
    ]
}

fn from_mv25(x: Mv25) -> [u32; 4] {
    [
        figure!(x.to_mv20()),
        u32::from(x.0),
        figure!(x.to_mv50()),
        figure!(x.to_mv100()),
    ]
}

fn from_mv50(x: Mv50) -> [u32; 4] {
    [
        figure!(x.to_mv20()),
        figure!(x.to_mv25()),
        u32::from(x.0),
        figure!(x.to_mv100()),
    ]
}

fn from_mv100(x: Mv100) -> [u32; 4] {
    [
        figure!(x.to_mv20()),
        figure!(x.to_mv25()),
        figure!(x.to_mv50()),
        u32::from(x.0),
    ]
}

/// A figure of the table that is given to a call, so it is no refusal.
fn given(figure: u32) -> u16 {
    u16::try_from(figure).expect("a row gives a figure of 16 bits")
}

#[test]
fn voltages_converted() {
    for (name, step, figures) in VOLTAGES {
        let got = match step {
            20 => from_mv20(Mv20(given(figures[0]))),
            25 => from_mv25(Mv25(given(figures[1]))),
            50 => from_mv50(Mv50(given(figures[2]))),
            100 => from_mv100(Mv100(given(figures[3]))),
            _ => panic!("{name}: no step of {step} mV"),
        };
        assert_eq!(got, figures, "{name}");
    }
}

/// The name, the step in mA that the figure is given in, and the same current in steps of 10 and 50 mA.
#[rustfmt::skip]
const CURRENTS: [(&str, u16, [u32; 2]); 5] = [
    ("3 A in 10 mA is 60 in 50",          10, [  300,    60]),
    ("3.01 A in 10 mA is refused in 50",  10, [  301,    NO]),
    ("3 A in 50 mA is 300 in 10",         50, [  300,    60]),
    // 13107 * 5 = 65535.
    ("13107 in 50 mA is 65535 in 10",     50, [65535, 13107]),
    ("13108 in 50 mA does not fit in 10", 50, [   NO, 13108]),
];

#[test]
fn currents_converted() {
    for (name, step, [in_10, in_50]) in CURRENTS {
        match step {
            10 => {
                let got = figure!(Ma10(given(in_10)).to_ma50());
                assert_eq!(got, in_50, "{name}");
            }
            50 => {
                let got = figure!(Ma50(given(in_50)).to_ma10());
                assert_eq!(got, in_10, "{name}");
            }
            _ => panic!("{name}: no step of {step} mA"),
        }
    }
}

/// The name, the numerator, the divisor, and the quotient rounded down and rounded up.
#[rustfmt::skip]
const ROUNDINGS: [(&str, u32, u32, u32, u32); 6] = [
    // 40 W at 15 V is 50 * 80 / 15 = 266.67.
    ("4000 / 15 is 266 down and 267 up",    4000,          15, 266,           267),
    ("4000 / 20 is 200 both ways",          4000,          20, 200,           200),
    ("1 / 3 is 0 down and 1 up",            1,             3,  0,             1),
    ("0 / 3 is 0 both ways",                0,             3,  0,             0),
    // The largest numerator, where numerator plus divisor would not fit.
    ("4294967295 / 2 rounds to both sides", 4_294_967_295, 2,  2_147_483_647, 2_147_483_648),
    // No quotient is there to round; the library promises 0.
    ("a divisor of 0 gives 0 both ways",    4000,          0,  0,             0),
];

#[test]
fn quotients_rounded() {
    for (name, numerator, divisor, down, up) in ROUNDINGS {
        assert_eq!(round_down(numerator, divisor), down, "{name}: down");
        assert_eq!(round_up(numerator, divisor), up, "{name}: up");
        let both = round_both(numerator, divisor);
        assert_eq!((both.down, both.up), (down, up), "{name}: both");
    }
}
