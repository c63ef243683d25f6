//! Every cable from 1 A to 5 A, by the page in products.

use super::*;

/// P beside M: all of it, almost, and less.
fn presents(max: u16) -> [u16; 5] {
    [max, max - 1, max / 2, max / 3, 15].map(|present| present.clamp(1, max))
}

/// "No built current, fixed, AVS or programmable, passes the cable", and what is built "has its
/// shape and passes the rule check of its profile".
#[test]
fn built_lists() {
    for cable in 100..=500 {
        for max in 1..=200 {
            for present in presents(max) {
                for (rounding, wanted) in [(0, 0), (1, 0), (0, 1), (1, 1)] {
                    if wanted == 1 && present < max {
                        continue;
                    }
                    let profile = profile(max, present, cable, rounding, wanted);
                    let list = built(profile);
                    assert_eq!(check(&profile, &list), said(0, 0), "{profile:?}");
                    for word in &list.words[..usize::from(list.count)] {
                        for current in milliamperes(*word) {
                            assert!(current <= 10 * u32::from(cable), "{profile:?}");
                        }
                    }
                }
            }
        }
    }
}

/// Every current that is built, by the page.
#[test]
fn built_currents() {
    for cable in 100..=500 {
        for max in [1, 19, 20, 30, 31, 36, 54, 55, 60, 72, 89, 90, 91, 100, 119, 120, 160, 200] {
            for present in presents(max) {
                for rounding in [0, 1] {
                    let wanted = u8::from(present == max);
                    let profile = profile(max, present, cable, rounding, wanted);
                    assert_eq!(built(profile), page_list(&profile), "{profile:?}");
                }
            }
        }
    }
}

fn page_list(profile: &Profile) -> Words {
    let (present, cable) = (u32::from(profile.present), u32::from(profile.cable));
    let currents = VOLTS.map(|volts| page_fixed(volts, present, cable, profile.rounding));
    let count = [0, 30, 54, 90].iter().filter(|above| profile.max > **above).count();
    let mut progs = [0; 3];
    for (current, prog) in progs.iter_mut().zip(progs_of(profile.max)) {
        *current = page_prog(prog, profile.max, cable);
    }
    let progs = if profile.pps == 1 { &progs[..] } else { &[] };
    list_with(profile.max, &currents[..count], progs)
}

/// Every current of each object is allowed or not, by the page, with every cable.
#[test]
fn allowed_currents() {
    for (max, present) in
        [(19, 19), (31, 31), (72, 72), (89, 89), (100, 100), (119, 119), (200, 200), (200, 60)]
    {
        for cable in 100..=500 {
            let profile = profile(max, present, cable, 0, u8::from(present == max));
            let list = built(profile);
            let judged = |place, current, allowed| {
                let expected = if allowed { said(0, 0) } else { said(19, place) };
                let given = changed(list, place, current);
                assert_eq!(check(&profile, &given), expected, "{profile:?} {place} {current}");
            };
            let (present, cable) = (u32::from(present), u32::from(cable));
            for place in 1..=list.count {
                let word = list.words[usize::from(place) - 1];
                if word >> 28 == 0b1110 {
                    continue;
                }
                if word >> 28 == 0b1100 {
                    let max_volts = word >> 17 & 0xFF;
                    let prog = PROGS.into_iter().find(|prog| prog.max == max_volts).unwrap();
                    for current in 0..=127 {
                        judged(place, current, page_allows_prog(prog, max, cable, current));
                    }
                    continue;
                }
                // At 20 V none is a second AVS current of zero (18), and 5.01 A are above 100 W.
                let volts = VOLTS[usize::from(place) - 1];
                let (least, most) = if volts == 20 { (1, 500) } else { (0, 510) };
                for current in least..=most {
                    judged(place, current, page_allows_fixed(volts, present, cable, current));
                }
            }
        }
    }
}

/// "With a cable of 3 A or more, nothing of the fixed objects of 5, 9 and 15 V is cut to it but the
/// upper end of that row".
#[test]
fn three_amperes_or_more() {
    for cable in 300..=500 {
        for present in 1..=200 {
            let [down, up] = [0, 1].map(|rounding| profile(200, present, cable, rounding, 0));
            let (list, list_up) = (built(down), built(up));
            for (at, volts) in [5, 9, 15].into_iter().enumerate() {
                let power = 50 * u32::from(present);
                let (down_figure, up_figure) = (power / volts, power.div_ceil(volts));
                // "the quotient rounded as R says and at most 3 A"
                assert_eq!(list.words[at] % 1024, down_figure.min(300), "{down:?}");
                assert_eq!(list_up.words[at] % 1024, up_figure.min(300), "{up:?}");
                let most = u32::from(cable).min(up_figure);
                for near in [down_figure, 300, u32::from(cable)] {
                    for current in near.saturating_sub(1)..=near + 2 {
                        if current > 510 {
                            continue;
                        }
                        let allowed = if u32::from(present) > 6 * volts {
                            (300..=most).contains(&current)
                        } else {
                            current == down_figure || current == up_figure
                        };
                        let place = at as u8 + 1;
                        let expected = if allowed { said(0, 0) } else { said(19, place) };
                        let given = changed(list, place, current);
                        assert_eq!(check(&down, &given), expected, "{down:?} {place} {current}");
                    }
                }
            }
        }
    }
}
