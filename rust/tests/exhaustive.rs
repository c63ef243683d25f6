//! The builder over every profile, and the rule check over every current of every list that is built. Cables are few where every field is
//! gone through, all of them where rounding, PPS wanted and the powers are, and all of them with every current at the edges of M.

mod common;

use arinduleu::rules;
use common::convert::{ToLibrary, ToModel};
use common::random::Random;
use common::run::seed;
use model::{Object, Profile, Words};

/// Every M with every P up to one past it, and some far out.
fn powers() -> impl Iterator<Item = (u16, u16)> {
    let far = [256, 257, 456, 32768, u16::MAX];
    let maxima = (0..=201).chain(far);
    maxima.flat_map(move |m| (0..=m.min(201) + 1).chain(far).map(move |p| (m, p)))
}

/// None, amperes, both ends and one past them, whole amperes and one beside 3 A.
const SOME_CABLES: [u16; 14] = [
    0, 3, 5, 99, 100, 200, 299, 300, 301, 400, 499, 500, 501, 65535,
];

#[test]
fn every_profile_is_built_as_the_model_builds_it() {
    let (mut calls, mut lists) = (0, 0);
    for (max, present) in powers() {
        for cable in SOME_CABLES {
            for rounding in 0..=2 {
                for pps in 0..=2 {
                    for flags in [0, 1, 63, 64] {
                        let profile = Profile {
                            max,
                            present,
                            cable,
                            rounding,
                            pps,
                            flags,
                        };
                        calls += 1;
                        lists += built(profile);
                    }
                }
            }
        }
    }
    println!("{calls} profiles, {lists} lists");
    // 200 M with every P, eight cables, two roundings, three sets of flags; with PPS only where P = M.
    assert_eq!(lists, (20_100 + 200) * 8 * 2 * 3);
}

#[test]
fn every_cable_is_built_as_the_model_builds_it() {
    let mut lists = 0;
    for max in 1..=200 {
        for present in 1..=max {
            for cable in 99..=501 {
                for (rounding, pps) in [(0, 0), (0, 1), (1, 0), (1, 1)] {
                    lists += built(Profile {
                        max,
                        present,
                        cable,
                        rounding,
                        pps,
                        flags: 0,
                    });
                }
            }
        }
    }
    println!("{lists} lists");
    // 401 cables, and the rest as above.
    assert_eq!(lists, (20_100 + 200) * 401 * 2);
}

fn built(profile: Profile) -> u64 {
    let library = rules::build(profile.library()).model();
    let model = model::build(&profile);
    assert_eq!(library, model, "build of {profile:?}");
    if model.verdict.number != 0 {
        return 0;
    }
    let library = rules::check(profile.library(), model.list.library()).model();
    let verdict = model::check(&profile, &model.list);
    assert_eq!(library, verdict, "check of {profile:?} {:x?}", model.list);
    assert_eq!(
        verdict.number, 0,
        "its own list fails {profile:?} {:x?}",
        model.list
    );
    1
}

/// Each current of the list that is built, in turn set to each figure that its bits can hold. AVS takes those of its fixed objects along,
/// or 17 would hide 19. Gives how many lists were compared, and how many of them passed.
fn swept(max: u16, present: u16, cable: u16) -> (u64, u64) {
    let profile = Profile {
        max,
        present,
        cable,
        rounding: 0,
        pps: u8::from(present == max),
        flags: 0,
    };
    let built = model::build(&profile).list;
    let (mut calls, mut passed) = (0, 0);
    for at in 0..usize::from(built.count) {
        let Some(object) = model::decode(built.words[at]) else {
            panic!("a built word of no kind");
        };
        let figures = match object {
            Object::Fixed { .. } => 0..=1023,
            Object::Pps { .. } => 0..=127,
            _ => continue,
        };
        for figure in figures {
            let list = with_current(&built, at, object, figure);
            let library = rules::check(profile.library(), list.library()).model();
            let model = model::check(&profile, &list);
            assert_eq!(library, model, "check of {profile:?} {list:x?}");
            calls += 1;
            passed += u64::from(model.number == 0);
        }
    }
    (calls, passed)
}

fn with_current(built: &Words, at: usize, object: Object, figure: u32) -> Words {
    let mut list = *built;
    let Object::Fixed { volts, .. } = object else {
        list.words[at] = list.words[at] & !0x7F | figure;
        return list;
    };
    list.words[at] = list.words[at] & !0x3FF | figure;
    for word in &mut list.words {
        // Only AVS words begin with 1110b; 15 V is 300 steps and 20 V is 400.
        match (*word >> 28, volts) {
            (0xE, 300) => *word = *word & !(0x3FF << 10) | figure << 10,
            (0xE, 400) => *word = *word & !0x3FF | figure,
            _ => {}
        }
    }
    list
}

/// Some figures pass and most do not, or the sweep would show nothing.
fn report(calls: u64, passed: u64) {
    println!("{calls} lists checked, {passed} passed");
    assert!(passed > calls / 1000 && passed < calls / 2);
}

/// Where M decides something.
const EDGES: [u16; 13] = [1, 15, 30, 31, 54, 55, 89, 90, 91, 119, 120, 121, 200];

#[test]
fn every_current_of_some_lists() {
    println!("ARIN_SEED={}", seed());
    let mut random = Random::new(seed(), "sweep");
    let (mut calls, mut passed) = (0, 0);
    let mut cables = Random::new(seed(), "cables of the sweep");
    let edges = EDGES.map(|m| (m, m));
    let some = (0..1000).map(|n| {
        let max = random.within(1..=200);
        let present = if n % 3 == 0 {
            max
        } else {
            random.within(1..=max)
        };
        (max, present)
    });
    for (max, present) in edges.into_iter().chain(some) {
        for cable in [200, 300, 400, 500, cables.within(100..=500)] {
            let (c, p) = swept(max, present, cable);
            (calls, passed) = (calls + c, passed + p);
        }
    }
    report(calls, passed);
}

#[test]
fn every_current_on_every_cable() {
    let (mut calls, mut passed) = (0, 0);
    for max in EDGES {
        for cable in 100..=500 {
            let (c, p) = swept(max, max, cable);
            (calls, passed) = (calls + c, passed + p);
        }
    }
    report(calls, passed);
}

fn every_list(cable: u16) {
    let (mut calls, mut passed) = (0, 0);
    for max in 1..=200 {
        for present in 1..=max {
            let (c, p) = swept(max, present, cable);
            (calls, passed) = (calls + c, passed + p);
        }
    }
    report(calls, passed);
}

#[test]
#[ignore = "long: every current of every list, 2 A lead"]
fn every_current_of_every_list_2_a() {
    every_list(200);
}

#[test]
#[ignore = "long: every current of every list, 3 A cable"]
fn every_current_of_every_list_3_a() {
    every_list(300);
}

#[test]
#[ignore = "long: every current of every list, 4 A lead"]
fn every_current_of_every_list_4_a() {
    every_list(400);
}

#[test]
#[ignore = "long: every current of every list, 5 A cable"]
fn every_current_of_every_list_5_a() {
    every_list(500);
}
