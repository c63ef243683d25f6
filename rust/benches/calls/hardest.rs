//! Inputs that ask for the most work: every full port with its own list, on a lead that cuts most currents, on one that cuts the highest and on
//! cables that cut none or few, and for the rule check with a step past 3 A; lists of seven objects in every mix of kinds, of a source and of
//! a sink; and eight rows that are all in use. They stand beside the seeded ones where the most that a
//! call takes is looked for.

use crate::inputs::Turn;
use crate::lists::{fixed, push};
use crate::messages::{lent, Lent, ROOM};
use crate::sinks;
use crate::tables::NO_ROW;
use crate::wrappers::library::{attach, build, decode, detach, flat_read, request, set_up, shape};
use crate::wrappers::library::{flat_take_request, sink_flat_read, sink_shape, summarize};
use arinduleu::flat::{FlatObjects, FlatRequest};
use arinduleu::lists::Words;
use arinduleu::messages::{Header, Message};
use arinduleu::objects::Object;
use arinduleu::ports::Row;
use arinduleu::rules::Profile;
use arinduleu::sinks::SinkObject;
use arinduleu::steps::{HalfWatts, Ma10, Ma50, Mv100, Mv50, Mw250};
use arinduleu::summaries::Summary;
use arinduleu::verdicts;

/// P = M for every M, with each of these cables, rounding and wish for PPS.
fn full_ports(cables: &[u16]) -> Vec<Profile> {
    let mut all = Vec::new();
    for max in 1..=200 {
        for (cable, rounding, pps) in cables
            .iter()
            .flat_map(|c| (0..4).map(move |n| (*c, n % 2, n / 2)))
        {
            all.push(Profile {
                max: HalfWatts(max),
                present: HalfWatts(max),
                cable: Ma10(cable),
                rounding,
                pps,
                flags: 63,
            });
        }
    }
    all
}

/// 2 A cuts most currents, and 4 A lies between the 3 A that is built below 20 V and what a list may have there.
pub fn profiles() -> Vec<Profile> {
    full_ports(&[200, 300, 400, 500])
}

/// The shape of a list and a request to it do not ask for the cable: two are enough there.
fn built() -> Vec<Words> {
    let ports = full_ports(&[300, 500]);
    ports.into_iter().map(|p| build(p).list).collect()
}

/// Seven objects: so many fixed, battery and variable, an AVS or none, and PPS for the rest.
fn mix(fixed_ones: usize, batteries: usize, variables: usize, avs: usize) -> Words {
    let mut list = Words {
        words: [0; 7],
        count: 0,
    };
    // 5, 15 and 20 V first, which AVS goes by.
    let mut volts = [100, 300, 400, 180, 200, 240, 360][..fixed_ones].to_vec();
    volts.sort_unstable();
    volts.iter().for_each(|v| push(&mut list, fixed(*v, 250)));
    for _ in 0..batteries {
        push(
            &mut list,
            Object::Battery {
                max: Mv50(420),
                min: Mv50(60),
                power: Mw250(400),
            },
        );
    }
    for _ in 0..variables {
        push(
            &mut list,
            Object::Variable {
                max: Mv50(400),
                min: Mv50(60),
                current: Ma10(500),
            },
        );
    }
    for _ in 0..avs {
        let current = |v| Ma10(if volts.contains(&v) { 250 } else { 0 });
        push(
            &mut list,
            Object::Avs {
                peak: 0,
                low: current(300),
                high: current(400),
            },
        );
    }
    while list.count < 7 {
        push(
            &mut list,
            Object::Pps {
                limited: 1,
                max: Mv100(210),
                min: Mv100(50),
                current: Ma50(60),
            },
        );
    }
    list
}

/// Every mix whose shape passes.
fn mixed() -> Vec<Words> {
    let mut all = Vec::new();
    for fixed_ones in 1..=7 {
        for batteries in 0..=7 - fixed_ones {
            for variables in 0..=7 - fixed_ones - batteries {
                for avs in 0..=1.min(7 - fixed_ones - batteries - variables) {
                    all.push(mix(fixed_ones, batteries, variables, avs));
                }
            }
        }
    }
    all.retain(|list| shape(*list).number == verdicts::SUCCESS);
    all
}

pub fn lists() -> Vec<Words> {
    [built(), mixed()].concat()
}

/// A step more where the list has 3 A below 20 V. With a cable above 3 A the rule check has to divide for it, and at 3 A it need not.
fn past_3_a(list: Words) -> Words {
    let words = list.words.map(|word| match decode(word) {
        Some(Object::Fixed { volts, current, .. }) if volts.0 < 400 && current.0 == 300 => word + 1,
        Some(Object::Pps { max, current, .. }) if max.0 < 210 && current.0 == 60 => word + 1,
        Some(Object::Avs { low, .. }) if low.0 == 300 => word + (1 << 10),
        _ => word,
    });
    Words { words, ..list }
}

pub fn checks() -> Vec<(Profile, Words)> {
    let own: Vec<_> = profiles().into_iter().map(|p| (p, build(p).list)).collect();
    let above_3_a = own.iter().filter(|(profile, _)| profile.cable.0 > 300);
    let past = above_3_a
        .map(|(profile, list)| (*profile, past_3_a(*list)))
        .collect();
    [own, past].concat()
}

pub fn flat_lists() -> Vec<FlatObjects> {
    lists().into_iter().map(|l| flat_read(l).list).collect()
}

/// Seven objects of a sink: so many fixed, battery and variable, and PPS for the rest, first of the ranges that have volts of their own.
fn sink_mix(fixed_ones: usize, batteries: usize, variables: usize) -> Words {
    let mut list = Words::default();
    let volts = [100, 180, 200, 240, 300, 360, 400];
    for (at, volts) in volts[..fixed_ones].iter().enumerate() {
        let flags = if at == 0 { 127 } else { 0 };
        sinks::push(&mut list, sinks::fixed(flags, *volts, 500));
    }
    for _ in 0..batteries {
        sinks::push(
            &mut list,
            SinkObject::Battery {
                max: Mv50(420),
                min: Mv50(60),
                power: Mw250(400),
            },
        );
    }
    for _ in 0..variables {
        sinks::push(
            &mut list,
            SinkObject::Variable {
                max: Mv50(400),
                min: Mv50(60),
                current: Ma10(500),
            },
        );
    }
    for max in [110, 160, 210, 210, 210, 210] {
        sinks::push(
            &mut list,
            SinkObject::Pps {
                max: Mv100(max),
                min: Mv100(50),
                current: Ma50(100),
            },
        );
    }
    list
}

/// Every mix whose shape passes.
pub fn sink_lists() -> Vec<Words> {
    let mut all = Vec::new();
    for fixed_ones in 1..=7 {
        for batteries in 0..=7 - fixed_ones {
            for variables in 0..=7 - fixed_ones - batteries {
                all.push(sink_mix(fixed_ones, batteries, variables));
            }
        }
    }
    all.retain(|list| sink_shape(*list).number == verdicts::SUCCESS);
    all
}

/// At the highest rating every figure is judged, and none is above its ceiling.
pub fn sink_checks() -> Vec<(u16, Words)> {
    sink_lists().into_iter().map(|list| (200, list)).collect()
}

/// With something in the fields that no sink has.
pub fn sink_flat_lists() -> Vec<FlatObjects> {
    let flat = |list| {
        let mut flat = sink_flat_read(list).list;
        for place in &mut flat.places {
            (place.peak, place.limited) = (255, 255);
        }
        flat
    };
    sink_lists().into_iter().map(flat).collect()
}

/// All that an object has, at its highest voltage; of AVS at 15.0 V, which belongs to both ranges.
fn most_of(list: Words, at: u8) -> u32 {
    let figures = |operating: u16, volts: u16, current: u16| {
        u32::from(operating) << 10 | u32::from(volts) << 9 | u32::from(current)
    };
    let asked = match decode(list.words[usize::from(at)]) {
        Some(Object::Fixed { current, .. } | Object::Variable { current, .. }) => {
            figures(current.0, 0, current.0)
        }
        Some(Object::Battery { power, .. }) => figures(power.0, 0, power.0),
        Some(Object::Pps { max, current, .. }) => figures(0, 5 * max.0, current.0),
        Some(Object::Avs { low, .. }) => figures(0, 600, low.0 / 5),
        None => unreachable!("these lists pass the shape check"),
    };
    u32::from(at + 1) << 28 | asked
}

/// A request for each place of each list.
fn requests(list: Words) -> impl Iterator<Item = (Words, u32)> {
    (0..list.count).map(move |at| (list, most_of(list, at)))
}

pub fn answers() -> Vec<(Words, u32)> {
    lists().into_iter().flat_map(requests).collect()
}

/// The same from summaries, a battery's too, which are refused.
pub fn flat_summary_answers() -> Vec<(Summary, FlatRequest)> {
    let flat = |(list, word)| {
        (
            summarize(list).summary,
            flat_take_request(list, word).request,
        )
    };
    answers().into_iter().map(flat).collect()
}

/// Every field of the header that is carried has all its bits.
pub fn messages() -> Vec<(Message, u8)> {
    let header = Header {
        id: 7,
        power_role: 1,
        revision: 3,
        data_role: 1,
        ..Header::default()
    };
    let message = |list| (Message::source_capabilities(header, list), ROOM as u8);
    lists().into_iter().map(message).collect()
}

pub fn bytes() -> Vec<Lent> {
    messages().into_iter().map(|(m, _)| lent(m)).collect()
}

/// Eight ports of every maximum that all have a cable of 2, 4 or 5 A and hold what the last of their list gives. The last port is asked for each
/// place of its list.
pub fn with_all_ports_in_use() -> Vec<Turn> {
    let cables = [200, 400, 500];
    cables.into_iter().flat_map(all_in_use_by).collect()
}

fn all_in_use_by(cable: u16) -> Vec<Turn> {
    let mut turns = Vec::new();
    for max in 15..=200 {
        let row = Row {
            max: HalfWatts(max),
            pps: 1,
            ..NO_ROW
        };
        let mut rows = [NO_ROW; 9];
        rows[..8].fill(row);
        set_up(&mut rows[..8], 1600);
        for port in 1..=8 {
            let list = attach(&mut rows[..8], 1600, port, cable).list;
            request(&mut rows[..8], 1600, port, most_of(list, list.count - 1));
        }
        let list = build(Profile {
            max: row.max,
            present: row.max,
            cable: Ma10(cable),
            rounding: 0,
            pps: 1,
            flags: 0,
        })
        .list;
        turns.extend(requests(list).map(|(_, word)| Turn {
            rows,
            count: 8,
            capacity: 1600,
            port: 8,
            cable,
            word,
        }));
    }
    turns
}

/// The same with the last port empty, so that a cable can come to it.
pub fn with_seven_ports_in_use() -> Vec<Turn> {
    let mut turns = with_all_ports_in_use();
    for turn in &mut turns {
        detach(&mut turn.rows[..8], turn.capacity, turn.port);
    }
    turns
}
