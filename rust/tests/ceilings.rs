//! The sink check at both sides of every ceiling: every rating with every voltage and every range. The ceiling is divided here, as the
//! statement has it ("The design rating"); the library multiplies.

mod common;

use arinduleu::lists::Words;
use arinduleu::sinks::{sink_check, SinkObject, SinkObjects};
use arinduleu::steps::{HalfWatts, Ma10, Ma50, Mv100, Mv50, Mw250};
use arinduleu::{sinks, verdicts};
use common::convert::ToModel;

/// 5 V at no current, which every rating allows.
const FIRST: SinkObject = SinkObject::Fixed {
    flags: 0,
    volts: Mv50(100),
    current: Ma10(0),
};

fn list_of(object: SinkObject) -> Words {
    let both = [FIRST, object];
    let alone = matches!(object, SinkObject::Fixed { volts: Mv50(v), .. } if v <= 100);
    let objects = SinkObjects::try_from(&both[usize::from(alone)..]).unwrap();
    sinks::sink_write(objects).ok().unwrap()
}

/// How many lists were checked, and how many of them were kept to.
#[derive(Default)]
struct Tally {
    checked: u64,
    kept: u64,
}

impl Tally {
    /// Nothing, the ceiling, one step past it, and the most that a list may have.
    fn sweep(
        &mut self,
        rating: u16,
        ceiling: Option<u32>,
        most: u16,
        object: impl Fn(u16) -> SinkObject,
    ) {
        let edge = ceiling.map_or(most, |c| c.min(most.into()) as u16);
        for figure in [0, edge, (edge + 1).min(most), most] {
            let list = list_of(object(figure));
            let library = sink_check(HalfWatts(rating), list);
            let kept = !ceiling.is_some_and(|c| c < u32::from(figure));
            let number = match kept {
                true => verdicts::SUCCESS,
                false => verdicts::ABOVE_CEILING,
            };
            let given = (rating, object(figure));
            assert_eq!((library.number, library.place), (number, 0), "{given:?}");
            let model = model::sink_check(rating, &list.model());
            assert_eq!(library.model(), model, "{given:?}");
            self.checked += 1;
            self.kept += u64::from(kept);
        }
    }

    fn report(self) {
        println!("{} lists checked, {} kept to", self.checked, self.kept);
        assert!(self.kept > self.checked / 4 && self.kept < self.checked);
    }
}

/// A quotient of the table; a voltage of zero sets no ceiling.
fn quotient(numerator: u32, volts: u16) -> Option<u32> {
    numerator.checked_div(volts.into())
}

/// What fits its bits and is no more than 100 W.
fn most_at(volts: u16) -> u16 {
    quotient(200_000, volts).map_or(1023, |most| most.min(1023) as u16)
}

#[test]
fn every_voltage_of_a_fixed_object() {
    let mut tally = Tally::default();
    for rating in 1..=200 {
        for volts in 100..=400 {
            let ceiling = quotient(1000 * u32::from(rating), volts);
            tally.sweep(rating, ceiling, most_at(volts), |current| {
                SinkObject::Fixed {
                    flags: 0,
                    volts: Mv50(volts),
                    current: Ma10(current),
                }
            });
        }
    }
    tally.report();
}

#[test]
fn every_maximum_of_a_variable_object() {
    let mut tally = Tally::default();
    for rating in 1..=200 {
        for max in 0..=420 {
            let ceiling = quotient(1000 * u32::from(rating), max);
            for min in [0, max / 2, max] {
                tally.sweep(rating, ceiling, most_at(max), |current| {
                    SinkObject::Variable {
                        max: Mv50(max),
                        min: Mv50(min),
                        current: Ma10(current),
                    }
                });
            }
        }
    }
    tally.report();
}

/// The three ranges go by the volts of their name, and only with a minimum of exactly 5 V.
#[test]
fn every_range_of_a_programmable_supply() {
    let mut tally = Tally::default();
    for rating in 1..=200 {
        for max in 0..=210 {
            for min in [0, 33, 49, 50, 51, max].into_iter().filter(|m| *m <= max) {
                let ceiling = match (max, min) {
                    (110, 50) => Some(10 * u32::from(rating) / 9),
                    (160, 50) => Some(10 * u32::from(rating) / 15),
                    (210, 50) => Some(10 * u32::from(rating) / 20),
                    _ => quotient(100 * u32::from(rating), max),
                };
                tally.sweep(rating, ceiling, 127, |current| SinkObject::Pps {
                    max: Mv100(max),
                    min: Mv100(min),
                    current: Ma50(current),
                });
            }
        }
    }
    tally.report();
}

#[test]
fn every_power_of_a_battery() {
    let mut tally = Tally::default();
    for rating in 1..=200 {
        for max in [0, 100, 420] {
            let ceiling = Some(2 * u32::from(rating));
            tally.sweep(rating, ceiling, 400, |power| SinkObject::Battery {
                max: Mv50(max),
                min: Mv50(0),
                power: Mw250(power),
            });
        }
    }
    tally.report();
}

/// 1 comes first, whatever the list, and every other number of 16 bits is no rating.
#[test]
fn every_rating() {
    let good = list_of(FIRST);
    for rating in 0..=u16::MAX {
        let number = match rating {
            1..=200 => verdicts::SUCCESS,
            _ => verdicts::PORT_MAXIMUM,
        };
        assert_eq!(sink_check(HalfWatts(rating), good).number, number);
        let none = sink_check(HalfWatts(rating), Words::default()).number;
        assert_eq!(none, if number == 0 { verdicts::COUNT } else { number });
    }
}
