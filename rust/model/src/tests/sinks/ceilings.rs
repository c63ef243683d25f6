//! The design rating: each ceiling at the figure and one above, by the quotients of the table.

use super::*;

/// A word after 5 V at no current.
fn checked(rating: u32, word: u32) -> Verdict {
    sink_check(rating as u16, &list_of(&[FIVE, word]))
}

/// The figures 0, the ceiling and one above it, as far as the field and 100 W allow.
fn at_ceiling(rating: u32, ceiling: u32, most: u32, word: impl Fn(u32) -> u32) {
    for figure in [0, ceiling.min(most), most] {
        let number = if figure > ceiling { 43 } else { 0 };
        let given = word(figure);
        assert_eq!(checked(rating, given), said(number, 0), "{rating} {given:08X}");
    }
    if ceiling < most {
        let given = word(ceiling + 1);
        assert_eq!(checked(rating, given), said(43, 0), "{rating} {given:08X}");
    }
}

/// The most that 100 W leave a current in 10 mA, within its field.
fn most_current(volts: u32) -> u32 {
    (200_000 / volts).min(1023)
}

/// "1000 R / v in 10 mA, v in 50 mV", at every rating and every voltage.
#[test]
fn fixed_and_variable() {
    for rating in 1..=200 {
        // The first object is at 5 V, where 10 R passes the field for R above 102.
        let ceiling = 1000 * rating / 100;
        for current in [0, ceiling.min(1023), (ceiling + 1).min(1023), 1023] {
            let number = if current > ceiling { 43 } else { 0 };
            let list = list_of(&[FIVE | current]);
            assert_eq!(sink_check(rating as u16, &list), said(number, 0), "{rating} {current}");
        }
        for volts in 101..=400 {
            let ceiling = 1000 * rating / volts;
            at_ceiling(rating, ceiling, most_current(volts), |current| steps(volts, current));
        }
        for max in 1..=420 {
            let ceiling = 1000 * rating / max;
            // "its maximum voltage": the minimum is free.
            for min in [0, max / 2, max] {
                at_ceiling(rating, ceiling, most_current(max), |current| {
                    variable(max, min, current)
                });
            }
        }
    }
}

/// "the rating itself: 2 R in 250 mW", whatever the voltages, zero too.
#[test]
fn batteries() {
    for rating in 1..=200 {
        for (max, min) in [(0, 0), (1, 0), (100, 100), (420, 0), (420, 420)] {
            at_ceiling(rating, 2 * rating, 400, |power| battery(max, min, power));
        }
    }
}

/// "PPS from 5.0 V to 11.0 V", and the two others.
#[test]
fn named_supplies() {
    for rating in 1..=200 {
        at_ceiling(rating, 10 * rating / 9, 127, |current| prog(110, 50, current));
        at_ceiling(rating, 10 * rating / 15, 127, |current| prog(160, 50, current));
        at_ceiling(rating, 10 * rating / 20, 127, |current| prog(210, 50, current));
    }
    // 9 V Prog at 3 A needs 27 W, 15 V Prog at 3 A 45 W, 20 V Prog at 5 A 100 W.
    for (rating, word) in
        [(54, prog(110, 50, 60)), (90, prog(160, 50, 60)), (200, prog(210, 50, 100))]
    {
        assert_eq!(checked(rating, word), said(0, 0));
        assert_eq!(checked(rating, word + 1), said(43, 0));
        assert_eq!(checked(rating - 1, word), said(43, 0));
    }
}

/// "any other PPS": "100 R / v in 50 mA, v in 100 mV". Every range, so the neighbours of the three
/// too.
#[test]
fn other_supplies() {
    for rating in [1, 2, 3, 31, 54, 55, 67, 90, 91, 120, 199, 200] {
        for max in 1..=210 {
            for min in 0..=max {
                if min == 50 && matches!(max, 110 | 160 | 210) {
                    continue;
                }
                at_ceiling(rating, 100 * rating / max, 127, |current| prog(max, min, current));
            }
        }
    }
    // At 27 W 9 V Prog has 3 A; one step beside it 27 W at 11 V or so are 2.45 A or less.
    for (max, min, ceiling) in
        [(110, 50, 60), (110, 49, 49), (110, 51, 49), (109, 50, 49), (111, 50, 48), (110, 0, 49)]
    {
        assert_eq!(checked(54, prog(max, min, ceiling)), said(0, 0), "{max} {min}");
        assert_eq!(checked(54, prog(max, min, ceiling + 1)), said(43, 0), "{max} {min}");
    }
}

/// "A voltage of zero sets no ceiling."
#[test]
fn no_voltage() {
    for rating in 1..=200 {
        assert_eq!(checked(rating, variable(0, 0, 1023)), said(0, 0));
        assert_eq!(checked(rating, prog(0, 0, 127)), said(0, 0));
    }
}

/// "refuses a rating outside 1 to 200 (1), then what the shape of the list refuses, and then" 43.
#[test]
fn ratings_and_order() {
    for rating in 0..=u16::MAX {
        let number = if (1..=200).contains(&rating) { 0 } else { 1 };
        assert_eq!(sink_check(rating, &list_of(&[FIVE])), said(number, 0));
    }
    for rating in [0, 201, 256, 257, 65535] {
        assert_eq!(sink_check(rating, &Words::default()), said(1, 0));
        assert_eq!(sink_check(rating, &list_of(&[0xF000_0000])), said(1, 0));
        assert_eq!(sink_check(rating, &list_of(&[FIVE | 11])), said(1, 0));
    }
    // Half a watt at 5 V is 0.1 A.
    assert_eq!(sink_check(1, &list_of(&[FIVE | 10])), said(0, 0));
    assert_eq!(sink_check(1, &list_of(&[FIVE | 11])), said(43, 0));
    // Above the ceiling in the first word, and bad in a later one.
    let over = FIVE | 11;
    assert_eq!(sink_check(1, &list_of(&[over, 0xF000_0000])), said(12, 2));
    assert_eq!(sink_check(1, &list_of(&[over, fixed(9, 1) | 1 << 20])), said(13, 2));
    assert_eq!(sink_check(1, &list_of(&[over, fixed(21, 0)])), said(15, 2));
    assert_eq!(sink_check(1, &list_of(&[over, fixed(20, 501)])), said(16, 2));
    assert_eq!(sink_check(1, &list_of(&[over, FIVE])), said(14, 2));
    // 43 has no place, wherever the figure stands, and however many there are.
    let good = [
        FIVE | 1,
        fixed(9, 1),
        fixed(15, 1),
        battery(400, 100, 1),
        variable(400, 100, 1),
        prog(110, 50, 0),
        prog(210, 50, 0),
    ];
    assert_eq!(sink_check(1, &list_of(&good)), said(0, 0));
    for at in 0..7 {
        let mut list = list_of(&good);
        list.words[at] += 100;
        assert_eq!(sink_check(1, &list), said(43, 0), "{at}");
        // Past the count it is not looked at.
        list.count = at as u8;
        assert_eq!(sink_check(1, &list), said(if at == 0 { 10 } else { 0 }, 0), "{at}");
    }
    assert_eq!(sink_check(1, &list_of(&good.map(|word| word + 100))), said(43, 0));
}

/// Every figure, not only those next to a ceiling, by exact microwatts.
#[test]
fn by_microwatts() {
    for rating in [1, 7, 30, 54, 90, 100, 133, 199, 200] {
        for volts in [101, 180, 299, 300, 301, 400] {
            for current in 0..=most_current(volts) {
                exact(rating, steps(volts, current));
                exact(rating, variable(volts, 100, current));
            }
        }
        for power in 0..=400 {
            exact(rating, battery(420, 100, power));
        }
        for current in 0..=127 {
            for max in 50..=210 {
                exact(rating, prog(max, 50, current));
                exact(rating, prog(max, 49, current));
            }
        }
    }
}

fn exact(rating: u16, word: u32) {
    let list = list_of(&[FIVE, word]);
    assert_eq!(sink_check(rating, &list), page_check(rating, &list), "{rating} {word:08X}");
}
