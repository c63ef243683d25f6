//! Shape, reading and writing of sink lists, each refusal by hand.

use super::*;

/// What the console's page shows of these calls.
#[test]
fn on_the_console() {
    let list = list_of(&[0x1201_912C, 0xC0DC_323C]);
    both_ways(&list);
    let objects = objects_of(&[
        SinkObject::Fixed { flags: 36, volts: 100, current: 300 },
        SinkObject::Pps { max: 110, min: 50, current: 60 },
    ]);
    assert_eq!(sink_read(&list).list, objects);
    assert_eq!(sink_write(&objects).list, list);
    assert_eq!(sink_check(54, &list), said(0, 0));
    assert_eq!(sink_check(53, &list), said(43, 0));
    refused(13, 2, &list_of(&[0x1201_912C, 0xC8DC_323C]));
    refused(12, 2, &list_of(&[0x1201_912C, 0xE003_C000]));
    let wide = objects_of(&[SinkObject::Fixed { flags: 128, volts: 100, current: 300 }]);
    assert_eq!(sink_write(&wide), Listing { verdict: said(7, 1), list: Words::default() });
}

#[test]
fn counts() {
    for count in [0, 8, 9, 128, 255] {
        refused(10, 0, &Words { words: [FIVE; 7], count });
        refused(10, 0, &Words { words: [0xF000_0000; 7], count });
        let wide = SinkObject::Fixed { flags: 255, volts: 1024, current: 1024 };
        let list = SinkObjects { places: [wide; 7], count };
        assert_eq!(sink_write(&list), Listing { verdict: said(10, 0), list: Words::default() });
    }
    // "Only the places up to the count are looked at."
    let rising = [100, 110, 120, 130, 140, 150, 160].map(|volts| steps(volts, 1));
    for count in 1..=7 {
        for junk in [0, FIVE, 0xF000_0000, u32::MAX] {
            let mut list = Words { words: [junk; 7], count };
            list.words[..usize::from(count)].copy_from_slice(&rising[..usize::from(count)]);
            both_ways(&list);
            assert_eq!(sink_check(200, &list), said(0, 0));
            let wide = SinkObject::Battery { max: 1024, min: 0, power: 0 };
            let mut objects = sink_read(&list).list;
            objects.places[usize::from(count)..].fill(wide);
            assert_eq!(sink_write(&objects), sink_write(&sink_read(&list).list));
        }
    }
}

#[test]
fn first_object() {
    for word in [0, steps(99, 1), steps(101, 1), fixed(9, 300), fixed(9, 300) | 1 << 20] {
        refused(11, 1, &list_of(&[word]));
        refused(11, 1, &list_of(&[word, 0xF000_0000]));
    }
    for word in [battery(100, 100, 1), variable(100, 100, 1), prog(50, 50, 1), avs(0, 0)] {
        refused(11, 1, &list_of(&[word, FIVE]));
    }
    // 5 V where another kind has its fields: still not fixed.
    for kind in [0x4000_0000, 0x8000_0000, 0xC000_0000, 0xD000_0000, 0xE000_0000, 0xF000_0000] {
        refused(11, 1, &list_of(&[kind | FIVE]));
    }
    // "Its other fields are free."
    for flags in 0..=127 {
        both_ways(&list_of(&[FIVE | flags << 23 | 300]));
    }
    both_ways(&list_of(&[fixed(5, 1023)]));
}

/// Each bit of a first fixed word, and of a later word of each kind.
#[test]
fn reserved_bits() {
    for bit in 20..30 {
        let list = list_of(&[FIVE | 1 << bit]);
        if bit <= 22 {
            refused(13, 1, &list);
        } else {
            both_ways(&list);
        }
        refused(13, 2, &list_of(&[FIVE, fixed(9, 1) | 1 << bit]));
        refused(13, 3, &list_of(&[FIVE, fixed(9, 1), fixed(15, 1) | 1 << bit]));
    }
    for bit in [27, 26, 25, 16, 7] {
        refused(13, 2, &list_of(&[FIVE, prog(110, 50, 1) | 1 << bit]));
        refused(13, 3, &list_of(&[FIVE, prog(110, 50, 1), prog(110, 50, 1) | 1 << bit]));
    }
    // "flags in a later object are not too wide, but make a word with a reserved bit set (13)"
    for flags in [1, 64, 127, 128] {
        let objects = objects_of(&[
            SinkObject::Fixed { flags: 127, volts: 100, current: 1 },
            SinkObject::Fixed { flags, volts: 180, current: 1 },
        ]);
        let number = if flags == 128 { 7 } else { 13 };
        let expected = Listing { verdict: said(number, 2), list: Words::default() };
        assert_eq!(sink_write(&objects), expected);
    }
}

#[test]
fn voltages() {
    both_ways(&list_of(&[FIVE, steps(400, 1)]));
    refused(15, 2, &list_of(&[FIVE, steps(401, 1)]));
    refused(15, 2, &list_of(&[FIVE, steps(420, 1)]));
    for kind in [battery, variable] {
        for (max, min) in [(0, 0), (1, 0), (420, 0), (420, 419), (420, 420), (100, 100)] {
            both_ways(&list_of(&[FIVE, kind(max, min, 1)]));
        }
        for (max, min) in [(421, 0), (421, 421), (1023, 0), (0, 1), (100, 101), (420, 421)] {
            refused(15, 2, &list_of(&[FIVE, kind(max, min, 1)]));
        }
    }
    for (max, min) in [(0, 0), (1, 0), (210, 0), (210, 209), (210, 210), (50, 50)] {
        both_ways(&list_of(&[FIVE, prog(max, min, 127)]));
    }
    for (max, min) in [(211, 0), (211, 211), (255, 0), (0, 1), (50, 51), (210, 211)] {
        refused(15, 2, &list_of(&[FIVE, prog(max, min, 1)]));
    }
}

#[test]
fn a_hundred_watts() {
    both_ways(&list_of(&[FIVE, steps(400, 500)]));
    refused(16, 2, &list_of(&[FIVE, steps(400, 501)]));
    both_ways(&list_of(&[FIVE, steps(200, 1000)]));
    refused(16, 2, &list_of(&[FIVE, steps(200, 1001)]));
    // 300 times 666 is 199800, and 667 makes 200100.
    both_ways(&list_of(&[FIVE, steps(300, 666)]));
    refused(16, 2, &list_of(&[FIVE, steps(300, 667)]));
    both_ways(&list_of(&[FIVE, battery(420, 0, 400)]));
    both_ways(&list_of(&[FIVE, battery(0, 0, 400)]));
    refused(16, 2, &list_of(&[FIVE, battery(0, 0, 401)]));
    // The maximum voltage counts, not the minimum.
    both_ways(&list_of(&[FIVE, variable(420, 0, 476)]));
    refused(16, 2, &list_of(&[FIVE, variable(420, 0, 477)]));
    both_ways(&list_of(&[FIVE, variable(400, 100, 500)]));
    refused(16, 2, &list_of(&[FIVE, variable(400, 100, 501)]));
    both_ways(&list_of(&[FIVE, variable(0, 0, 1023)]));
    // 409 times 489 is 200001, the least above 100 W.
    both_ways(&list_of(&[FIVE, variable(409, 0, 488)]));
    refused(16, 2, &list_of(&[FIVE, variable(409, 0, 489)]));
    // "PPS has no such bound": 21 V at 6.35 A.
    both_ways(&list_of(&[FIVE, prog(210, 50, 127)]));
}

#[test]
fn order() {
    let all = [FIVE, fixed(9, 1), battery(400, 100, 1), variable(400, 100, 1), prog(110, 50, 1)];
    both_ways(&list_of(&all));
    for first in 1..5 {
        for second in first + 1..5 {
            both_ways(&list_of(&[FIVE, all[first], all[second]]));
            refused(14, 3, &list_of(&[FIVE, all[second], all[first]]));
        }
    }
    refused(14, 2, &list_of(&[FIVE, FIVE]));
    refused(14, 2, &list_of(&[FIVE, steps(99, 1)]));
    refused(14, 2, &list_of(&[FIVE, 0]));
    both_ways(&list_of(&[FIVE, steps(101, 1)]));
    refused(14, 3, &list_of(&[FIVE, fixed(9, 1), fixed(9, 1)]));
    for kind in [battery, variable] {
        // The minimum does not fall; the maximum may.
        both_ways(&list_of(&[FIVE, kind(400, 100, 1), kind(400, 100, 1)]));
        both_ways(&list_of(&[FIVE, kind(400, 100, 1), kind(101, 101, 1)]));
        refused(14, 3, &list_of(&[FIVE, kind(400, 100, 1), kind(420, 99, 1)]));
    }
    // The maximum of PPS does not fall; its minimum may.
    both_ways(&list_of(&[FIVE, prog(110, 50, 1), prog(110, 50, 1)]));
    both_ways(&list_of(&[FIVE, prog(110, 50, 1), prog(111, 0, 1)]));
    refused(14, 3, &list_of(&[FIVE, prog(110, 50, 1), prog(109, 60, 1)]));
    // A kind begins anew, whatever stood before it.
    both_ways(&list_of(&[FIVE, fixed(20, 1), battery(1, 0, 1), variable(1, 0, 1), prog(0, 0, 1)]));
    // "Each word is compared with the one right before it."
    let falling = [FIVE, battery(400, 100, 1), battery(400, 200, 1), battery(400, 150, 1)];
    refused(14, 4, &list_of(&falling));
}

/// "then for each word in turn 12, 13, 15, 16, 14"
#[test]
fn the_first_that_applies() {
    let high = battery(400, 200, 1);
    let bad_14 = battery(400, 100, 1);
    let bad_16_14 = battery(400, 100, 401);
    let bad_15_16_14 = battery(99, 100, 401);
    let bad_13_15_16_14 = fixed(21, 1023) | 1 << 20;
    refused(14, 3, &list_of(&[FIVE, high, bad_14]));
    refused(16, 3, &list_of(&[FIVE, high, bad_16_14]));
    refused(15, 3, &list_of(&[FIVE, high, bad_15_16_14]));
    refused(13, 3, &list_of(&[FIVE, high, bad_13_15_16_14]));
    refused(12, 3, &list_of(&[FIVE, high, 0xFFFF_FFFF]));
    // "14 of the second word comes before 12 of the third."
    refused(14, 2, &list_of(&[FIVE, FIVE, 0xF000_0000]));
    refused(16, 2, &list_of(&[FIVE, fixed(20, 501), 0xF000_0000]));
    refused(13, 1, &list_of(&[FIVE | 1 << 20, 0xF000_0000]));
    // "There is no 17, since there is no AVS."
    refused(12, 3, &list_of(&[FIVE, fixed(15, 300), avs(300, 0)]));
    refused(12, 2, &list_of(&[FIVE, avs(0, 0), avs(0, 0)]));
}

/// "10; 7 at the first such object; then as sink shape from 11 on"
#[test]
fn writing() {
    let five = SinkObject::Fixed { flags: 0, volts: 100, current: 0 };
    let nine = SinkObject::Fixed { flags: 0, volts: 180, current: 0 };
    let wide = SinkObject::Pps { max: 110, min: 50, current: 128 };
    let high = SinkObject::Pps { max: 211, min: 50, current: 1 };
    let strong = SinkObject::Battery { max: 400, min: 100, power: 401 };
    let refused = |number, place, objects: &[SinkObject]| {
        let expected = Listing { verdict: said(number, place), list: Words::default() };
        assert_eq!(sink_write(&objects_of(objects)), expected, "{objects:?}");
    };
    refused(7, 1, &[wide]);
    refused(7, 2, &[nine, wide]);
    refused(7, 2, &[five, wide, wide]);
    refused(7, 3, &[five, five, wide]);
    refused(7, 7, &[five, five, five, five, five, five, wide]);
    refused(11, 1, &[nine]);
    refused(11, 1, &[high, high]);
    refused(14, 2, &[five, five]);
    refused(15, 2, &[five, high]);
    refused(16, 2, &[five, strong]);
    refused(14, 3, &[five, strong_enough(), nine]);
    let written = sink_write(&objects_of(&[five, nine, strong_enough()]));
    assert_eq!(written.list, list_of(&[FIVE, fixed(9, 0), battery(400, 100, 400)]));
}

fn strong_enough() -> SinkObject {
    SinkObject::Battery { max: 400, min: 100, power: 400 }
}
