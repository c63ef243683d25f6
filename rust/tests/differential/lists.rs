//! Lists: their shape, reading and writing, with objects and with flat objects, and the same under the names of `board`.

use crate::common::convert::{ToLibrary, ToModel};
use crate::common::random::Random;
use crate::common::run::Run;
use crate::{lists_made, objects_made, words};
use arinduleu::objects::Side;
use arinduleu::{board, flat, lists};
use model::{FlatObjects, Object, Objects, Verdict};

pub const NUMBERS: &[u8] = &[0, 7, 10, 11, 12, 13, 14, 15, 16, 17];

#[test]
fn lists_read() {
    let mut run = Run::new("lists read");
    while run.going() {
        let list = lists_made::any(&mut run.random);
        let shape = model::shape(&list);
        let words = list.library();
        run.same("shape", &list, lists::shape(words).model(), shape);
        run.same("arin_shape", &list, board::arin_shape(words).model(), shape);
        let by_side = lists::shape_for(Side::Source, words).model();
        run.same("shape_for a source", &list, by_side, shape);
        run.same(
            "read",
            &list,
            lists::read(words).model(),
            model::read(&list),
        );
        let flat = model::flat_read(&list);
        run.same("flat_read", &list, flat::flat_read(words).model(), flat);
        run.same("arin_read", &list, board::arin_read(words).model(), flat);
        let by_side = flat::flat_read_for(Side::Source, words).model();
        run.same("flat_read_for a source", &list, by_side, flat);
        run.saw(shape.number);
    }
    // 7 is for writing only.
    let numbers: Vec<u8> = NUMBERS.iter().copied().filter(|n| *n != 7).collect();
    run.finish(&numbers, &[]);
}

#[test]
fn every_refusal_has_an_empty_list() {
    let mut run = Run::new("refusals");
    for number in 0..=u8::MAX {
        for place in 0..=u8::MAX {
            let empty = model::Listing {
                verdict: model::Verdict { number, place },
                list: model::Words::default(),
            };
            run.same(
                "refuse",
                &(number, place),
                lists::refuse(number, place).model(),
                empty,
            );
        }
    }
    run.finish(&[], &[]);
}

/// The objects of a list of words; a word of no kind becomes some object. Past the count lies what must not be read.
fn objects(random: &mut Random) -> Objects {
    let words = lists_made::any(random);
    let places = words.words.map(|w| match model::decode(w) {
        Some(object) => object,
        None => objects_made::plausible(random),
    });
    let mut list = Objects {
        places,
        count: words.count,
    };
    if random.one_in(4) {
        let at = random.below(7);
        list.places[at] = objects_made::widened(random, list.places[at]);
    }
    list
}

#[test]
fn lists_written() {
    let mut run = Run::new("lists written");
    while run.going() {
        let list = objects(&mut run.random);
        let written = model::write(&list);
        run.same(
            "write",
            &list,
            lists::write(list.library()).model(),
            written,
        );
        run.saw(written.verdict.number);

        let flat = flat_objects(&mut run.random, &list);
        let written = model::flat_write(&flat);
        run.same(
            "flat_write",
            &flat,
            flat::flat_write(flat.library()).model(),
            written,
        );
        run.same(
            "arin_write",
            &flat,
            board::arin_write(flat.library()).model(),
            written,
        );
        let by_side = flat::flat_write_for(Side::Source, flat.library()).model();
        run.same("flat_write_for a source", &flat, by_side, written);
        run.saw(written.verdict.number);
        if let Some(case) = no_kind(&flat, written.verdict) {
            run.reached(case);
        }
    }
    let before_12 = BEFORE_12.map(|case| case.2);
    run.finish(NUMBERS, &[&before_12[..], &GIVEN_12].concat());
}

/// What a list with an object of no kind gets, whether at that object or behind it, and the case.
const BEFORE_12: [(u8, bool, &str); 8] = [
    (7, false, "too wide, then no kind: 7"),
    (7, true, "no kind, then too wide: 7"),
    (11, false, "first not 5 V, then no kind: 11"),
    (11, true, "first of no kind: 11"),
    (13, false, "reserved bit, then no kind: 13"),
    (14, false, "out of order, then no kind: 14"),
    (15, false, "past a voltage bound, then no kind: 15"),
    (16, false, "over 100 W, then no kind: 16"),
];
const GIVEN_12: [&str; 6] = [
    "no kind at 2: 12",
    "no kind at 3: 12",
    "no kind at 4: 12",
    "no kind at 5: 12",
    "no kind at 6: 12",
    "no kind at 7: 12",
];

/// The case of a list whose count is good and that has an object of no kind.
fn no_kind(list: &FlatObjects, said: Verdict) -> Option<&'static str> {
    let counted = list.places.get(..usize::from(list.count))?;
    let at = counted.iter().position(|object| object.kind > 4)?;
    let place = at as u8 + 1;
    if said == (Verdict { number: 12, place }) {
        return Some(GIVEN_12[at - 1]);
    }
    let given = (said.number, said.place >= place);
    let case = BEFORE_12.iter().find(|c| (c.0, c.1) == given);
    Some(case.unwrap_or_else(|| panic!("{said:?} for {list:?}")).2)
}

/// The same objects, with stale figures in the fields that their kinds do not have, and now and then a kind that is none.
fn flat_objects(random: &mut Random, list: &Objects) -> FlatObjects {
    let place = |object: &Object| {
        let mut flat = words::flat_object(random);
        let own = model::flatten(object);
        flat.kind = own.kind;
        match object {
            Object::Fixed { .. } => {
                (flat.flags, flat.peak) = (own.flags, own.peak);
                (flat.volts, flat.current) = (own.volts, own.current);
            }
            Object::Battery { .. } => {
                (flat.max, flat.min, flat.power) = (own.max, own.min, own.power)
            }
            Object::Variable { .. } => {
                (flat.max, flat.min, flat.current) = (own.max, own.min, own.current)
            }
            Object::Pps { .. } => {
                (flat.limited, flat.current50) = (own.limited, own.current50);
                (flat.max100, flat.min100) = (own.max100, own.min100);
            }
            Object::Avs { .. } => (flat.peak, flat.low, flat.high) = (own.peak, own.low, own.high),
        }
        flat
    };
    let mut flat = FlatObjects {
        places: list.places.each_ref().map(place),
        count: list.count,
    };
    for _ in 0..random.pick(&[0, 0, 0, 0, 0, 0, 1, 2]) {
        flat.places[random.below(7)].kind = random.pick(&[5, 6, 7, 128, 255]);
    }
    flat
}
