//! What a built list offers against the power that it is built for, every M with every P. Rounded down, no fixed current is above what the power
//! gives at its voltage; rounded up, each is less than 10 mA above that. So are those of AVS, the first at 15 V and the second at 20 V.
//! Programmable supplies do not go by the rounding.

mod common;

use arinduleu::board::{arin_attach, arin_set_up};
use arinduleu::lists::{self, Words};
use arinduleu::objects::Object;
use arinduleu::ports::{Row, NO_ROW};
use arinduleu::rules::{build, Profile};
use arinduleu::steps::{HalfWatts, Ma10};
use common::random::Random;
use common::run::seed;

/// The rounding of a profile: 0 down, 1 up.
const ROUND_DOWN: u8 = 0;
const ROUND_UP: u8 = 1;

/// Both ends, beside 3 A, and leads as they are made.
const CABLES: [u16; 8] = [100, 200, 299, 300, 301, 400, 499, 500];

/// M, P and cable: every M from the least on with every P from it to M, on these cables and on one more.
fn ports(least: u16) -> impl Iterator<Item = (u16, u16, u16)> {
    println!("ARIN_SEED={}", seed());
    let mut random = Random::new(seed(), "cables of the ratings");
    let powers = (least..=200).flat_map(move |m| (least..=m).map(move |p| (m, p)));
    powers.flat_map(move |(m, p)| {
        let cables = CABLES.into_iter().chain([random.within(100..=500)]);
        cables.map(move |cable| (m, p, cable))
    })
}

fn built((max, present, cable): (u16, u16, u16), rounding: u8, pps: u8) -> Words {
    let profile = Profile {
        max: HalfWatts(max),
        present: HalfWatts(present),
        cable: Ma10(cable),
        rounding,
        pps,
        flags: 0,
    };
    build(profile).ok().unwrap()
}

fn objects(list: Words) -> Vec<Object> {
    let read = lists::read(list).ok().unwrap();
    read.as_slice().iter().map(|place| place.object).collect()
}

/// The volts and the current in 10 mA of each fixed object, and of AVS where each range ends.
fn offered(list: Words) -> Vec<(u32, u32)> {
    let mut all = Vec::new();
    for object in objects(list) {
        match object {
            Object::Fixed { volts, current, .. } => all.push((volts.0 / 20, current.0)),
            Object::Avs { low, high, .. } => all.extend([(15, low.0), (20, high.0)]),
            other => panic!("{other:?} in a list without PPS"),
        }
    }
    let wide = all.into_iter().map(|(v, i)| (u32::from(v), u32::from(i)));
    wide.collect()
}

/// Half a watt is 50 times a volt and 10 mA.
fn keeps_to(list: Words, power: u16) -> bool {
    let most = 50 * u32::from(power);
    offered(list).iter().all(|(v, i)| v * i <= most)
}

fn keeps_within_a_step_of(list: Words, power: u16) -> bool {
    let most = 50 * u32::from(power);
    offered(list).iter().all(|(v, i)| v * i < most + v)
}

#[test]
fn rounded_down_nothing_is_above_the_power() {
    for port in ports(1) {
        let list = built(port, ROUND_DOWN, 0);
        assert!(keeps_to(list, port.1), "{port:?} {list:?}");
    }
}

#[test]
fn rounded_up_it_is_above_the_power_by_less_than_a_step() {
    let (mut lists, mut above) = (0, 0);
    for port in ports(1) {
        let list = built(port, ROUND_UP, 0);
        assert!(keeps_within_a_step_of(list, port.1), "{port:?} {list:?}");
        lists += 1;
        above += u32::from(!keeps_to(list, port.1));
    }
    println!("{above} of {lists} lists are above the power");
    assert!(above > lists / 4 && above < lists);
}

/// Another port leaves P to this one.
#[test]
fn the_list_of_a_shared_port_is_rounded_down() {
    for port in ports(15) {
        let (max, present, cable) = port;
        let row = |max| Row {
            max: HalfWatts(max),
            ..NO_ROW
        };
        let mut rows = [row(max), row(15)];
        let capacity = present + 15;
        arin_set_up(&mut rows, capacity).ok().unwrap();
        let list = arin_attach(&mut rows, capacity, 1, cable).ok().unwrap();
        assert_eq!(rows[0].present, HalfWatts(present));
        assert_eq!(list, built(port, ROUND_DOWN, 0), "{port:?}");
        assert!(keeps_to(list, present), "{port:?} {list:?}");
    }
}

/// Word for word, on every cable. At 9, 15 or 20 V none is above the power; further up one can be, and nothing is said of that.
#[test]
fn programmable_supplies_are_the_same_with_either_rounding() {
    let mut supplies = 0;
    let ports = (1..=200).flat_map(|m| (100..=500).map(move |cable| (m, m, cable)));
    for port in ports {
        let [down, up] = [ROUND_DOWN, ROUND_UP].map(|rounding| built(port, rounding, 1));
        assert_eq!(down.count, up.count, "{port:?}");
        for (at, object) in objects(down).into_iter().enumerate() {
            let Object::Pps { max, current, .. } = object else {
                continue;
            };
            assert_eq!(down.words[at], up.words[at], "{port:?}");
            let volts = match max.0 {
                110 => 9,
                160 => 15,
                _ => 20,
            };
            assert!(volts * current.0 <= 10 * port.0, "{port:?} {object:?}");
            supplies += 1;
        }
    }
    // M 31 to 89, 55 to 119, and from 91 on.
    assert_eq!(supplies, (59 + 65 + 110) * 401);
}
