//! Ports that share, with leads of their own.

use super::*;

/// "attach 200 1 500" and what follows it on the console.
#[test]
fn on_the_console() {
    let mut rows = [Row { max: 130, ..Row::default() }; 2];
    assert_eq!(set_up(&mut rows, 200), said(0, 0));
    let first = list_of(&[0x0001912C, 0x0002D12C, 0x0004B12C, 0x00064145, 0xE004B145]);
    let second = list_of(&[0x0001912C, 0x0002D12C, 0x0004B12C, 0x0006412C, 0xE004B12C]);
    let given = |list| Listing { verdict: said(0, 0), list };
    assert_eq!(attach(&mut rows, 200, 1, 500), given(first));
    assert_eq!(attach(&mut rows, 200, 2, 300), given(second));
    assert_eq!(advertise(&mut rows, 200, 2), given(second));
    assert_eq!(attach(&mut rows, 200, 3, 300).verdict, said(33, 0));
    assert_eq!(attach(&mut rows, 200, 1, 500).verdict, said(34, 1));
    assert_eq!(request(&mut rows, 200, 1, 0x4005_1545), said(0, 0));
    let expected = [
        Row { max: 130, pps: 0, cable: 500, present: 130, held: 130 },
        Row { max: 130, pps: 0, cable: 300, present: 130, held: 15 },
    ];
    assert_eq!(rows, expected);
    assert_eq!(request(&mut rows, 200, 2, 0x4004_B12C), said(36, 2));
    assert_eq!(rows, expected);
}

/// A port of 100 W with PPS and a lead of 2.04 A: "a cable of 2.04 A counts as 2.00 A there".
#[test]
fn judged_on_its_own_list() {
    let mut rows = [Row { max: 200, pps: 1, ..Row::default() }];
    assert_eq!(set_up(&mut rows, 200), said(0, 0));
    let expected = list_with(200, &[204, 204, 204, 204], &[40]);
    assert_eq!(attach(&mut rows, 200, 1, 204).list, expected);
    // Half watts are rounded up: 9 V at 2.04 A are 18.36 W, 20 V at 2.04 A are 40.8 W, 21 V at
    // 2 A are 42 W, 15 V at 2 A are 30 W.
    let mut asked = |word, number, held| {
        assert_eq!(request(&mut rows, 200, 1, word), said(number, 0), "{word:08X}");
        assert_eq!(rows, [Row { max: 200, pps: 1, cable: 204, present: 200, held }]);
    };
    asked(ask_figures(2, 204, 204), 0, 37);
    asked(ask_figures(2, 205, 204), 24, 37);
    asked(ask_figures(2, 204, 205), 25, 37);
    asked(ask_figures(4, 204, 204), 0, 82);
    asked(ask_figures(4, 205, 205), 24, 82);
    asked(ask_volts(5, 600, 40), 0, 60);
    asked(ask_volts(5, 600, 41), 24, 60);
    asked(ask_volts(6, 1050, 40), 0, 84);
    asked(ask_volts(6, 1050, 41), 24, 84);
    // The lead stays with the row until it is detached.
    assert_eq!(advertise(&mut rows, 200, 1).list, expected);
    assert_eq!(detach(&mut rows, 200, 1), said(0, 0));
    assert_eq!(rows, [Row { max: 200, pps: 1, cable: 0, present: 0, held: 15 }]);
    let expected = list_with(200, &[300, 300, 300, 400], &[80]);
    assert_eq!(attach(&mut rows, 200, 1, 400).list, expected);
}

/// "what the builder gives for the row's M, P and cable, rounding down, without flags, and with PPS
/// wherever PPS is wanted and P is equal to M"
#[test]
fn rule_lists() {
    for cable in 100..=500 {
        for max in [15, 31, 72, 89, 100, 119, 130, 200] {
            for (pps, others) in [(0, 15), (1, 15), (1, 85), (0, 85)] {
                // The second row holds `others` of 200.
                let mut rows = [
                    Row { max, pps, cable: 0, present: 0, held: 15 },
                    Row { max: 85, pps: 0, cable: 600 - cable, present: 85, held: others },
                ];
                let present = max.min(200 - others);
                let wanted = u8::from(pps == 1 && present == max);
                let expected = built(profile(max, present, cable, 0, wanted));
                let second = rows[1];
                assert_eq!(attach(&mut rows, 200, 1, cable).list, expected);
                assert_eq!(rows, [Row { max, pps, cable, present, held: 15 }, second]);
                assert_eq!(advertise(&mut rows, 200, 1).list, expected);
            }
        }
    }
}
