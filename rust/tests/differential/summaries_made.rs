//! Summaries of lists, summaries that are changed or of any numbers, and requests to them at their limits and beside them.

use crate::common::random::Random;
use crate::lists_made;
use model::{DecodedRequest, Figures, FlatRequest, Summary, Words};

/// Most have their shape, or the summary is all zero.
pub fn list(random: &mut Random) -> Words {
    match random.below(8) {
        0 => lists_made::any(random),
        1..=3 => lists_made::built(random),
        _ => lists_made::composed(random),
    }
}

pub fn summary(random: &mut Random) -> Summary {
    let mut summary = model::summarize(&list(random)).summary;
    match random.below(4) {
        0 => any_numbers(random),
        1 => {
            summary.count = random.pick(&[0, 1, 6, 7, 8, 255]);
            summary
        }
        2 => {
            let limit = limit(random);
            summary.rows[random.below(7)][random.below(4)] = limit;
            summary
        }
        _ => summary,
    }
}

fn any_numbers(random: &mut Random) -> Summary {
    Summary {
        count: random.pick(&[0, 1, 3, 6, 7, 7, 7, 8, 9, 128, 255]),
        rows: std::array::from_fn(|_| std::array::from_fn(|_| limit(random))),
    }
}

/// Around both ends of 16 bits, around 15.0 V, and anything.
fn limit(random: &mut Random) -> u16 {
    match random.below(4) {
        0 => random.pick(&[0, 1, 65534, 65535]),
        1 => random.within(14990..=15010),
        2 => random.within(0..=22000),
        _ => random.u16(),
    }
}

/// A figure in steps of so many units that lies at the limit or beside it; or any at all.
fn figure(random: &mut Random, limit: u16, step: u16) -> u16 {
    match random.below(8) {
        0 => random.u16(),
        1 => random.pick(&[0, 1, 65535]),
        _ => (limit / step)
            .wrapping_add(random.within(0..=2))
            .wrapping_sub(1),
    }
}

/// In steps of so many mV: at 15.0 V, at an end of the row, between them, or anywhere.
fn volts(random: &mut Random, row: [u16; 4], step: u16) -> u16 {
    match random.below(4) {
        0 => figure(random, 15000, step),
        1 => figure(random, row[0], step),
        2 => figure(random, row[1], step),
        _ => random.within(row[0].min(row[1])..=row[1]) / step,
    }
}

/// A voltage of AVS that is a whole number of 100 mV, three times of four.
fn avs_volts(random: &mut Random, row: [u16; 4]) -> u16 {
    let volts = volts(random, row, 25);
    match random.one_in(4) {
        true => volts,
        false => volts & !3,
    }
}

fn figures(random: &mut Random, row: [u16; 4]) -> Figures {
    let limit = row[random.pick(&[2, 3])];
    match random.below(4) {
        0 => Figures::Fixed {
            operating: figure(random, limit, 10),
            maximum: figure(random, limit, 10),
        },
        1 => Figures::Variable {
            operating: figure(random, limit, 10),
            maximum: figure(random, limit, 10),
        },
        2 => Figures::Pps {
            volts: volts(random, row, 20),
            current: figure(random, limit, 50),
        },
        _ => Figures::Avs {
            volts: avs_volts(random, row),
            current: figure(random, limit, 50),
        },
    }
}

/// The kind is any, whatever object the row was made from.
pub fn request(random: &mut Random, summary: &Summary) -> DecodedRequest {
    let at = random.below(usize::from(summary.count.clamp(1, 7)));
    DecodedRequest {
        position: match random.below(16) {
            0 => random.pick(&[
                0,
                1,
                summary.count,
                summary.count.wrapping_add(1),
                7,
                8,
                255,
            ]),
            _ => at as u8 + 1,
        },
        mismatch: random.one_in(4),
        figures: figures(random, summary.rows[at]),
    }
}

/// With any number in the fields that the kind does not have, for a bit that is set, and now and then for the kind.
pub fn flat_request(random: &mut Random, summary: &Summary) -> FlatRequest {
    let own = model::flatten_request(&request(random, summary));
    let mut flat = FlatRequest {
        operating: random.u16(),
        maximum: random.u16(),
        volts20: random.u16(),
        volts25: random.u16(),
        current50: random.u16(),
        ..own
    };
    match own.kind {
        0 | 2 => (flat.operating, flat.maximum) = (own.operating, own.maximum),
        3 => (flat.volts20, flat.current50) = (own.volts20, own.current50),
        _ => (flat.volts25, flat.current50) = (own.volts25, own.current50),
    }
    if own.mismatch == 1 {
        flat.mismatch = random.pick(&[1, 2, 128, 255]);
    }
    if random.one_in(16) {
        flat.kind = random.pick(&[1, 5, 9, 128, 255]);
    }
    flat
}
