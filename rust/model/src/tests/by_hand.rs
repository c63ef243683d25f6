//! The cases of the statement, "Worked by hand", with table 10-4 of the change notice, and what is
//! read, written and held.

use super::*;

#[test]
fn listing_36_watts() {
    let list = [0x0001912C, 0x0002D12C, 0x0004B0F0, 0xE003C000, 0xC8DC323C, 0xC9403230];
    assert_eq!(built(profile(72, 72, 300, 0, 1)), list_of(&list));
}

#[test]
fn built_by_hand() {
    let list = [fixed(5, 300), fixed(9, 300), fixed(15, 267), fixed(20, 200)];
    let up = built(profile(160, 80, 500, 1, 0));
    assert_eq!(up.words[..4], list);
    assert_eq!((up.words[4], up.count), (0xE0042CC8, 5));
    let list = [fixed(5, 300), fixed(9, 300), fixed(15, 266), avs(266, 0)];
    assert_eq!(by_max(80), list_of(&list));
    let list = [fixed(5, 300), fixed(9, 300), fixed(15, 300), fixed(20, 325)];
    assert_eq!(l().words[..4], list);
    assert_eq!((l().words[4], l().count), (avs(300, 325), 5));
    assert_eq!(by_max(30), list_of(&[fixed(5, 300)]));
    assert_eq!(by_max(31), list_of(&[fixed(5, 300), fixed(9, 172)]));
    assert_eq!(by_max(54).count, 2);
    assert_eq!(by_max(55).words[2], fixed(15, 183));
    assert_eq!(by_max(90).count, 4);
    assert_eq!(by_max(91).words[3], fixed(20, 227));
    let flagged = Profile { flags: 63, ..profile(30, 30, 300, 0, 0) };
    assert_eq!(built(flagged).words[0], 0x3F01_912C);
}

/// The notice's table 10-4: maximum, cable in 10 mA, present power in half watts, rounding, currents
/// (0: not there).
#[test]
fn table_10_4() {
    let rows = [
        (160, 500, 130, 0, [300, 300, 300, 325]),
        (160, 500, 80, 1, [300, 300, 267, 200]),
        (160, 300, 80, 1, [300, 300, 267, 200]),
        (80, 500, 80, 1, [300, 300, 267, 0]),
        (80, 300, 80, 1, [300, 300, 267, 0]),
        (160, 500, 40, 0, [300, 222, 133, 100]),
        (160, 300, 40, 0, [300, 222, 133, 100]),
        (80, 500, 40, 0, [300, 222, 133, 0]),
        (80, 300, 40, 0, [300, 222, 133, 0]),
    ];
    for (max, cable, present, rounding, [a, b, c, d]) in rows {
        let all = [fixed(5, a), fixed(9, b), fixed(15, c), fixed(20, d), avs(c, d)];
        let short = [all[0], all[1], all[2], all[4]];
        let expected = list_of(if d == 0 { &short } else { &all });
        assert_eq!(built(profile(max, present, cable, rounding, 0)), expected);
    }
}

#[test]
fn requests_on_l() {
    assert_eq!(answer(&l(), ask_volts(5, 600, 65)), said(0, 0));
    let reserved = 1 << 27 | 1 << 21 | 1 << 8 | 1 << 7;
    assert_eq!(answer(&l(), ask_volts(5, 600, 65) | reserved), said(0, 0));
    assert_eq!(answer(&l(), ask_volts(5, 600, 66)), said(24, 0));
    assert_eq!(answer(&l(), ask_volts(5, 596, 65)), said(24, 0));
    assert_eq!(answer(&l(), ask_volts(5, 602, 65)), said(23, 0));
    assert_eq!(answer(&l(), ask_volts(5, 356, 60)), said(22, 0));
    assert_eq!(answer(&l(), ask_volts(6, 600, 60)), said(20, 0));
}

#[test]
fn two_ports_share() {
    let ninth = |current| ask_figures(2, current, current);
    let twentieth = ask_figures(4, 325, 325);
    let mut rows = [Row { max: 130, ..Row::default() }; 2];
    assert_eq!(set_up(&mut rows, 200), said(0, 0));
    let first = attach(&mut rows, 200, 1, 500);
    assert_eq!((first.verdict, rows[0].present), (said(0, 0), 130));
    assert_eq!(request(&mut rows, 200, 1, twentieth), said(0, 0));
    assert_eq!(rows[0].held, 130);
    let second = attach(&mut rows, 200, 2, 500).list;
    let list = [fixed(5, 300), fixed(9, 300), fixed(15, 233), fixed(20, 175)];
    assert_eq!(second.words[..4], list);
    assert_eq!((rows[1].present, rows[1].held), (70, 15));
    assert_eq!(remaining(&rows, 200).power, 55);

    assert_eq!(request(&mut rows, 200, 1, ninth(200)), said(0, 0));
    assert_eq!((rows[0].held, rows[0].present), (36, 130));
    assert_eq!(advertise(&mut rows, 200, 2).verdict, said(0, 0));
    assert_eq!(rows[1].present, 130);
    assert_eq!(request(&mut rows, 200, 2, twentieth), said(0, 0));
    assert_eq!(request(&mut rows, 200, 1, twentieth), said(36, 1));
    assert_eq!(rows[0].held, 36);
    assert_eq!(request(&mut rows, 200, 1, ninth(300)), said(0, 0));
    assert_eq!(rows[0].held, 54);
    assert_eq!(detach(&mut rows, 200, 1), said(0, 0));
    assert_eq!(remaining(&rows, 200).power, 55);
}

#[test]
fn every_built_list_passes() {
    for max in 1..=200 {
        for present in 1..=max {
            for (cable, rounding) in [(300, 0), (300, 1), (500, 0), (500, 1)] {
                let wanted = u8::from(present == max);
                let profile = profile(max, present, cable, rounding, wanted);
                assert_eq!(check(&profile, &built(profile)), said(0, 0));
            }
        }
    }
}

#[test]
fn steps() {
    assert_eq!(convert(65, 50, 10), Some(325));
    assert_eq!(convert(602, 25, 100), None);
    assert_eq!(convert(u16::MAX, 50, 10), None);
    assert_eq!((round_down(7, 2), round_up(7, 2)), (3, 4));
    assert_eq!(round_up(u32::MAX, 2), 1 << 31);
    assert_eq!((round_down(7, 0), round_up(7, 0)), (0, 0));
    assert_eq!(round_both(7, 2), (3, 4));
}

#[test]
fn words_read_back() {
    let words = [
        fixed(5, 300) | 0x7F << 23,
        battery(400, 100, 200),
        battery(420, 100, 400),
        variable(300, 60, 100),
        avs(0, 0) | 3 << 26,
        pps(110, 50, 60),
        pps(210, 50, 100),
    ];
    for word in words {
        let object = decode(word).unwrap();
        assert_eq!(encode(&object), Some(word));
        assert_eq!(raise(&flatten(&object)), Some(object));
        assert!(!reserved_bit_set(&object, true, word));
    }
    assert_eq!((decode(0xD000_0000), decode(0xF000_0000)), (None, None));
    let flat = flatten(&decode(words[5]).unwrap());
    let expected = FlatObject {
        kind: 3,
        limited: 1,
        max100: 110,
        min100: 50,
        current50: 60,
        ..FlatObject::default()
    };
    assert_eq!(flat, expected);
}

#[test]
fn reading_and_writing() {
    let reading = read(&l());
    assert_eq!(reading.verdict, said(0, 0));
    assert_eq!(reading.list.places[5], lists::NOTHING);
    assert_eq!(write(&reading.list).list, l());
    let flat = flat_read(&l());
    assert_eq!(flat_write(&flat.list).list, l());

    let mut list = reading.list;
    list.places[3] = Object::Avs { peak: 4, low: 0, high: 0 };
    let expected = Listing { verdict: said(7, 4), list: Words::default() };
    assert_eq!(write(&list), expected);
    list.count = 0;
    assert_eq!(write(&list).verdict, said(10, 0));
    let refused = read(&list_of(&[fixed(9, 300)]));
    assert_eq!((refused.verdict, refused.list.count), (said(11, 1), 0));
}

#[test]
fn held_power_of_pps_and_avs() {
    let mut rows = [Row { max: 72, pps: 1, ..Row::default() }];
    assert_eq!(set_up(&mut rows, 72), said(0, 0));
    assert_eq!(attach(&mut rows, 72, 1, 300).list.count, 6);
    // 11 V at 3 A is 33 W, 16 V at 2.4 A is 38.4 W of 36, 15 V at 2.4 A is 36 W, 9 V at 0.05 A
    // is under 7.5 W.
    for (word, held) in [
        (ask_volts(5, 550, 60), 66),
        (ask_volts(6, 800, 48), 72),
        (ask_volts(4, 600, 48), 72),
        (ask_volts(4, 360, 1), 15),
        (ask_volts(4, 396, 41), 41),
    ] {
        assert_eq!(request(&mut rows, 72, 1, word), said(0, 0));
        assert_eq!(rows[0].held, held);
    }
}
