//! Leads of 2 A and 4 A, and the cut in whole 50 mA.

use super::*;

/// "build 200 200 200 0 1 0" and "build 200 200 99 0 1 0"
#[test]
fn on_the_console() {
    let list = [0x000190C8, 0x0002D0C8, 0x0004B0C8, 0x000640C8, 0xE00320C8, 0xC9A43228];
    assert_eq!(built(profile(200, 200, 200, 0, 1)), list_of(&list));
    let refused = Listing { verdict: said(3, 0), list: Words::default() };
    assert_eq!(build(&profile(200, 200, 99, 0, 1)), refused);
    let default = Profile { max: 72, present: 72, cable: 300, rounding: 0, pps: 0, flags: 0 };
    assert_eq!(default_profile(72), Profiled { verdict: said(0, 0), profile: default });
}

/// M, which P is equal to; the currents of the fixed objects in 10 mA; of the programmable supplies
/// in 50 mA.
type Currents = (u16, &'static [u32], &'static [u32]);

fn all_built(cable: u16, rounding: u8, rows: &[Currents]) {
    for (max, currents, progs) in rows {
        let profile = profile(*max, *max, cable, rounding, 1);
        let expected = list_with(*max, currents, progs);
        assert_eq!(built(profile), expected, "{max} {cable}");
        assert_eq!(check(&profile, &expected), said(0, 0), "{max} {cable}");
        let plain = Profile { pps: 0, ..profile };
        assert_eq!(built(plain), list_with(*max, currents, &[]), "{max} {cable}");
    }
}

#[test]
fn two_amperes() {
    let down: &[Currents] = &[
        (200, &[200, 200, 200, 200], &[40]),
        (100, &[200, 200, 200, 200], &[40, 40]),
        // 20 V at 2 A are 40 W.
        (91, &[200, 200, 200, 200], &[40, 40]),
        (72, &[200, 200, 200], &[40, 40]),
        // 15 V at 2 A are 30 W.
        (60, &[200, 200, 200], &[40, 40]),
        (59, &[200, 200, 196], &[40, 39]),
        // 9 V at 2 A are 18 W.
        (36, &[200, 200], &[40]),
        (35, &[200, 194], &[38]),
        // 5 V at 2 A are 10 W.
        (20, &[200], &[]),
        (19, &[190], &[]),
    ];
    all_built(200, 0, down);
    let up: &[Currents] = &[
        (200, &[200, 200, 200, 200], &[40]),
        (59, &[200, 200, 197], &[40, 39]),
        (35, &[200, 195], &[38]),
        (19, &[190], &[]),
    ];
    all_built(200, 1, up);
    // The cable cuts what is rounded up: 15 V at 1.9667 A, 9 V at 1.9444 A.
    all_built(196, 1, &[(59, &[196, 196, 196], &[39, 39])]);
    all_built(194, 1, &[(35, &[194, 194], &[38])]);
    // 20 W now of 100: 5 V at 4 A, 9 V at 2.2222 A, 15 V at 1.3333 A, 20 V at 1 A.
    let low = |currents| list_with(200, currents, &[]);
    assert_eq!(built(profile(200, 40, 200, 0, 0)), low(&[200, 200, 133, 100]));
    assert_eq!(built(profile(200, 40, 200, 1, 0)), low(&[200, 200, 134, 100]));
}

#[test]
fn four_amperes() {
    let down: &[Currents] = &[
        (200, &[300, 300, 300, 400], &[80]),
        // 20 V at 4 A are 80 W.
        (160, &[300, 300, 300, 400], &[80]),
        (159, &[300, 300, 300, 397], &[79]),
        (119, &[300, 300, 300, 297], &[60, 59]),
        (100, &[300, 300, 300, 250], &[60, 50]),
        (89, &[300, 300, 296], &[60, 59]),
        (72, &[300, 300, 240], &[60, 48]),
        (31, &[300, 172], &[34]),
        (30, &[300], &[]),
    ];
    all_built(400, 0, down);
    all_built(400, 1, &[(159, &[300, 300, 300, 398], &[79]), (31, &[300, 173], &[34])]);
    all_built(397, 1, &[(159, &[300, 300, 300, 397], &[79])]);
}

/// The two ends of what is allowed at a place, and one step past each.
fn ends(max: u16, present: u16, cable: u16, place: u8, low: u32, high: u32) {
    let profile = profile(max, present, cable, 0, u8::from(max == present));
    let list = built(profile);
    for (current, number) in [(low - 1, 19), (low, 0), (high, 0), (high + 1, 19)] {
        let expected = said(number, if number == 0 { 0 } else { place });
        let given = changed(list, place, current);
        assert_eq!(check(&profile, &given), expected, "{max} {present} {cable} {place} {current}");
    }
}

/// The cable is all that is allowed wherever the power is enough for it: 3 A are not.
#[test]
fn ends_with_two_amperes() {
    for place in 1..=4 {
        ends(200, 200, 200, place, 200, 200);
        // 20 V at 2 A are 40 W, and all the others less.
        ends(200, 80, 200, place, 200, 200);
    }
    ends(200, 200, 200, 6, 40, 40);
    // 9 V Prog with 54 < M < 90, and 15 V Prog with 90 < M < 120.
    ends(72, 72, 200, 5, 40, 40);
    ends(89, 89, 200, 5, 40, 40);
    ends(100, 100, 200, 6, 40, 40);
    ends(119, 119, 200, 6, 40, 40);
    ends(72, 72, 200, 6, 40, 40);
    // Below the cable: the quotient rounded down, or up.
    ends(59, 59, 200, 3, 196, 197);
    ends(35, 35, 200, 2, 194, 195);
    ends(19, 19, 200, 1, 190, 190);
    ends(35, 35, 200, 3, 38, 38);
    // Both are cut to the cable, or rounded up alone.
    ends(59, 59, 195, 3, 195, 195);
    ends(200, 79, 196, 4, 196, 196);
    ends(59, 59, 196, 3, 196, 196);
    ends(35, 35, 194, 2, 194, 194);
    ends(200, 79, 197, 4, 197, 197);
    ends(200, 79, 198, 4, 197, 198);
}

#[test]
fn ends_with_four_amperes() {
    for place in 1..=3 {
        ends(200, 200, 400, place, 300, 400);
    }
    ends(200, 200, 400, 4, 400, 400);
    ends(200, 200, 400, 6, 80, 80);
    // 50 W: 15 V at 3.3333 A.
    ends(100, 100, 400, 3, 300, 334);
    ends(100, 100, 334, 3, 300, 334);
    ends(100, 100, 333, 3, 300, 333);
    ends(100, 100, 400, 4, 250, 250);
    ends(100, 100, 400, 6, 60, 66);
    ends(100, 100, 400, 7, 50, 50);
    ends(159, 159, 400, 4, 397, 398);
    // 9 V Prog: 10 M / 9 is 80 for 72 and 98 for 89. 15 V Prog: 2 M / 3 is 79 for 119.
    ends(72, 72, 400, 5, 60, 80);
    ends(72, 72, 399, 5, 60, 79);
    ends(89, 89, 400, 5, 60, 80);
    ends(89, 89, 500, 5, 60, 98);
    ends(119, 119, 400, 6, 60, 79);
    ends(119, 119, 394, 6, 60, 78);
    // Where P is six times the volts the range ends: 3 A and no other.
    ends(200, 30, 400, 1, 300, 300);
    ends(200, 31, 400, 1, 300, 310);
    ends(200, 54, 400, 2, 300, 300);
    ends(200, 55, 400, 2, 300, 306);
    ends(200, 90, 400, 3, 300, 300);
    ends(200, 91, 400, 3, 300, 304);
}

/// "C / 5 rounded down": built for 9 V Prog, 15 V Prog and 20 V Prog, and the most of the first two.
/// 10 M / 9 is 98 for 89; 2 M / 3 is 79 for 119; M / 2 is 100 for 200.
#[test]
fn whole_50_milliamperes() {
    for (cable, nine, nine_most, fifteen, fifteen_most, twenty) in [
        (100, 20, 20, 20, 20, 20),
        (101, 20, 20, 20, 20, 20),
        (104, 20, 20, 20, 20, 20),
        (105, 21, 21, 21, 21, 21),
        (204, 40, 40, 40, 40, 40),
        (299, 59, 59, 59, 59, 59),
        (300, 60, 60, 60, 60, 60),
        (304, 60, 60, 60, 60, 60),
        (305, 60, 61, 60, 61, 61),
        (394, 60, 78, 60, 78, 78),
        (499, 60, 98, 60, 79, 99),
        (500, 60, 98, 60, 79, 100),
    ] {
        let current_at = |max, place: u8| {
            let list = built(profile(max, max, cable, 0, 1));
            list.words[usize::from(place) - 1] % 128
        };
        assert_eq!(current_at(89, 5), nine, "{cable}");
        assert_eq!(current_at(119, 6), fifteen, "{cable}");
        assert_eq!(current_at(200, 6), twenty, "{cable}");
        ends(89, 89, cable, 5, nine, nine_most);
        ends(119, 119, cable, 6, fifteen, fifteen_most);
        ends(200, 200, cable, 6, twenty, twenty);
    }
}

/// "The set is judged over the whole list before any current is", and then the first such word.
#[test]
fn the_first_current() {
    let profile = profile(100, 100, 200, 0, 1);
    let list = built(profile);
    let mut over = list;
    for place in [7, 6, 4, 3, 2, 1] {
        over = changed(over, place, if place < 5 { 201 } else { 41 });
        assert_eq!(check(&profile, &over), said(19, place));
    }
    over.words[6] = pps(209, 50, 40);
    assert_eq!(check(&profile, &over), said(18, 0));
    // AVS that offers what its fixed objects do not is refused by the shape.
    let mut alone = list;
    alone.words[4] = avs(200, 201);
    assert_eq!(check(&profile, &alone), said(17, 5));
}
