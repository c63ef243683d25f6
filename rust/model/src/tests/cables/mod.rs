//! A cable is a rating in 10 mA (T-05): its range in every call, and what it cuts. What is expected
//! is worked by hand, or told from the page once more below: by products in place of quotients, and
//! with none of the model's own code.

mod by_hand;
mod every_cable;
mod ports;
mod ranges;

use super::*;

const VOLTS: [u32; 4] = [5, 9, 15, 20];

/// A programmable supply of the page. Its current before its limit is n M / d in 50 mA; with M above
/// `more` it may be more than what is built.
#[derive(Clone, Copy)]
struct Prog {
    max: u32,
    above: u16,
    below: u16,
    n: u32,
    d: u32,
    limit: u32,
    more: u16,
}

/// Their limits are 3 A, 3 A and none.
const PROGS: [Prog; 3] = [
    Prog { max: 110, above: 30, below: 90, n: 10, d: 9, limit: 60, more: 54 },
    Prog { max: 160, above: 54, below: 120, n: 2, d: 3, limit: 60, more: 90 },
    Prog { max: 210, above: 90, below: 201, n: 1, d: 2, limit: 127, more: 201 },
];

fn progs_of(max: u16) -> impl Iterator<Item = Prog> {
    PROGS.into_iter().filter(move |prog| prog.above < max && max < prog.below)
}

/// The objects of M with these currents, the fixed in 10 mA and the programmable in 50 mA. AVS
/// agrees with the fixed ones.
fn list_with(max: u16, currents: &[u32], progs: &[u32]) -> Words {
    let mut list = Words::default();
    let mut add = |word| {
        list.words[usize::from(list.count)] = word;
        list.count += 1;
    };
    for (volts, current) in VOLTS.iter().zip(currents) {
        add(fixed(*volts, *current));
    }
    match currents {
        [_, _, low, high] => add(avs(*low, *high)),
        [_, _, low] => add(avs(*low, 0)),
        _ => {}
    }
    for (prog, current) in progs_of(max).zip(progs) {
        add(pps(prog.max, 50, *current));
    }
    list
}

/// The list with another current at a place; AVS goes on agreeing.
fn changed(mut list: Words, place: u8, current: u32) -> Words {
    let count = usize::from(list.count);
    let at = usize::from(place) - 1;
    let step = if list.words[at] >> 30 == 3 { 128 } else { 1024 };
    list.words[at] = list.words[at] / step * step + current;
    if let Some(avs) = list.words[..count].iter().position(|word| word >> 28 == 0b1110) {
        let current_of = |at: usize| if at < avs { list.words[at] % 1024 } else { 0 };
        list.words[avs] = super::avs(current_of(2), current_of(3));
    }
    list
}

/// What each current of a word carries, in milliamperes: one, or two of AVS.
fn milliamperes(word: u32) -> [u32; 2] {
    match word / 0x1000_0000 {
        0..=3 => [word % 1024 * 10, 0],
        0b1100 => [word % 128 * 50, 0],
        0b1110 => [word / 1024 % 1024 * 10, word % 1024 * 10],
        _ => panic!("{word:08X}"),
    }
}

/// "the quotient rounded as R says, but at most 3 A at 5, 9 and 15 V, and at every voltage at most
/// the cable": the quotient times the volts is 50 P.
fn page_fixed(volts: u32, present: u32, cable: u32, rounding: u8) -> u32 {
    let most = if volts == 20 { cable } else { cable.min(300) };
    let quotient = match rounding {
        0 => (0..=most).rev().find(|current| current * volts <= 50 * present),
        _ => (0..=most).find(|current| current * volts >= 50 * present),
    };
    quotient.unwrap_or(most)
}

/// The rows of fixed objects in the table of what is allowed.
fn page_allows_fixed(volts: u32, present: u32, cable: u32, current: u32) -> bool {
    let power = 50 * present;
    // One step above the quotient rounded up, a step less is enough for all the power.
    let above_up = current > 0 && (current - 1) * volts >= power;
    if current > cable || above_up {
        return false;
    }
    if volts != 20 && present > 6 * volts {
        return current >= 300 || current == cable;
    }
    // A figure that is cut is the cable itself, and only has to be within what it was cut from.
    let down = current * volts <= power && (current == cable || (current + 1) * volts > power);
    let up = current == cable || current * volts >= power;
    down || up
}

/// In 50 mA, by what the cable carries in milliamperes.
fn page_carried(prog: Prog, max: u16, cable: u32, current: u32) -> bool {
    current * prog.d <= prog.n * u32::from(max) && current * 50 <= cable * 10
}

/// "the figure of the table, rounded down whatever R says, at most its limit, and at most the cable
/// in whole 50 mA"
fn page_prog(prog: Prog, max: u16, cable: u32) -> u32 {
    (0..=prog.limit).rev().find(|current| page_carried(prog, max, cable, *current)).unwrap()
}

/// "the figure that is built" and, for two of them, "in addition" those up to the cable.
fn page_allows_prog(prog: Prog, max: u16, cable: u32, current: u32) -> bool {
    let built = page_prog(prog, max, cable);
    current == built
        || (max > prog.more && current > built && page_carried(prog, max, cable, current))
}
