//! Built lists: what lies past the count. The console prints the words up to it.

use arinduleu::rules::{self, Profile};
use arinduleu::steps::{HalfWatts, Ma10};

/// The list of M, P, C, R, W, F has this count, and zero in every place past it. A refusal has none, so all seven are zero.
fn assert_zero_past(name: &str, [m, p, c, r, w, f]: [u16; 6], count: usize) {
    let list = rules::build(Profile {
        max: HalfWatts(m),
        present: HalfWatts(p),
        cable: Ma10(c),
        rounding: r as u8,
        pps: w as u8,
        flags: f as u8,
    })
    .list;
    assert_eq!(usize::from(list.count), count, "{name}");
    let rest = &list.words[count..];
    assert!(rest.iter().all(|word| *word == 0), "{name}: {rest:X?}");
}

#[test]
fn refused_profiles() {
    #[rustfmt::skip]
    let rows: [(&str, [u16; 6]); 18] = [
        ("M 1 passes, M 0 gets 1", [0, 0, 300, 0, 0, 0]),
        ("M 200 passes, M 201 gets 1", [201, 200, 300, 0, 0, 0]),
        ("P 1 passes, P 0 gets 2", [72, 0, 300, 0, 0, 0]),
        ("P = M passes, P = M + 1 gets 2", [72, 73, 300, 0, 0, 0]),
        ("cable 100 passes, 99 gets 3", [72, 72, 99, 0, 0, 0]),
        ("cable 500 passes, 501 gets 3", [72, 72, 501, 0, 0, 0]),
        ("cable 3, in amperes, gets 3", [72, 72, 3, 0, 0, 0]),
        ("cable 5, in amperes, gets 3", [72, 72, 5, 0, 0, 0]),
        ("cable 65535 gets 3", [72, 72, 65535, 0, 0, 0]),
        ("rounding 1 passes, 2 gets 4", [72, 72, 300, 2, 0, 0]),
        ("PPS 1 passes, 2 gets 4", [72, 72, 300, 0, 2, 0]),
        ("F 63 passes, 64 gets 5", [72, 72, 300, 0, 0, 64]),
        ("PPS: P = M passes, P = M - 1 gets 6", [72, 71, 300, 0, 1, 0]),
        ("M 65535, P 0: 1 before 2", [65535, 0, 300, 0, 0, 0]),
        ("P 65535, cable 99: 2 before 3", [72, 65535, 99, 0, 0, 0]),
        ("cable 0, rounding 2: 3 before 4", [72, 72, 0, 2, 2, 0]),
        ("PPS 2, F 64: 4 before 5", [72, 72, 300, 0, 2, 64]),
        ("F 64, PPS and P < M: 5 before 6", [72, 71, 300, 0, 1, 64]),
    ];
    for (name, profile) in rows {
        assert_zero_past(name, profile, 0);
    }
}

#[test]
fn built_lists() {
    #[rustfmt::skip]
    let rows: [(&str, [u16; 6], usize); 21] = [
        ("built: M 72 with PPS, the listing", [72, 72, 300, 0, 1, 0], 6),
        ("built: M 160, P 80, 5 A, up", [160, 80, 500, 1, 0, 0], 5),
        ("built: M 80, down: 15 V at 2.66 A", [80, 80, 300, 0, 0, 0], 4),
        ("built: M 160, P 130, 5 A: L", [160, 130, 500, 0, 0, 0], 5),
        ("built: M 30: 5 V alone", [30, 30, 300, 0, 0, 0], 1),
        ("built: M 31: 9 V at 1.72 A", [31, 31, 300, 0, 0, 0], 2),
        ("built: M 54: no 15 V", [54, 54, 300, 0, 0, 0], 2),
        ("built: M 55: 15 V at 1.83 A", [55, 55, 300, 0, 0, 0], 4),
        ("built: M 90: no 20 V", [90, 90, 300, 0, 0, 0], 4),
        ("built: M 91: 20 V at 2.27 A", [91, 91, 300, 0, 0, 0], 5),
        ("built: M 200, P 30 keeps 20 V", [200, 30, 500, 0, 0, 0], 5),
        ("built: M 80, up: 15 V at 2.67 A", [80, 80, 300, 1, 0, 0], 4),
        ("built: M 200, P 1, up", [200, 1, 300, 1, 0, 0], 5),
        ("built: F 63 in the first word only", [31, 31, 300, 0, 0, 63], 2),
        ("M 30: no PPS though wanted", [30, 30, 300, 0, 1, 0], 1),
        ("M 200, 5 A: 20 V and 20 V Prog at 5.00 A", [200, 200, 500, 0, 1, 0], 6),
        ("M 200, 3 A: 20 V and 20 V Prog at 3.00 A", [200, 200, 300, 0, 1, 0], 6),
        ("M 200, 2 A: all at 2.00 A", [200, 200, 200, 0, 1, 0], 6),
        ("M 200, 4 A: 20 V and 20 V Prog at 4.00 A", [200, 200, 400, 0, 1, 0], 6),
        ("M 200, 2.04 A: 20 V Prog at 2.00 A", [200, 200, 204, 0, 1, 0], 6),
        ("M 1, 1 A: 5 V at 0.10 A", [1, 1, 100, 0, 1, 0], 1),
    ];
    for (name, profile, count) in rows {
        assert_zero_past(name, profile, count);
    }
}

/// Name, M and count: a port at its maximum, with PPS, has as many words with any cable.
#[test]
fn built_lists_with_pps() {
    #[rustfmt::skip]
    let rows: [(&str, u16, usize); 10] = [
        ("M 31: 9 V Prog at 1.70 A alone", 31, 3),
        ("M 54: 9 V Prog at 3.00 A alone", 54, 3),
        ("M 55: 9 V Prog, with 5 A to 3.05 A", 55, 6),
        ("M 55: 15 V Prog at 1.80 A alone", 55, 6),
        ("M 89: 9 V Prog, with 5 A to 4.90 A", 89, 6),
        ("M 90: 15 V Prog at 3.00 A alone", 90, 5),
        ("M 91: 15 V Prog at 3.00 A alone", 91, 7),
        ("M 119: 15 V Prog, with 5 A to 3.95 A", 119, 7),
        ("M 119: 20 V Prog at 2.95 A alone", 119, 7),
        ("M 120: 20 V Prog at 3.00 A alone", 120, 6),
    ];
    for (name, m, count) in rows {
        for cable in [100, 200, 299, 300, 400, 500] {
            assert_zero_past(name, [m, m, cable, 0, 1, 0], count);
        }
    }
}
