//! Sink lists: their shape, reading, writing and rating, with objects and with flat objects, by side, and under the names of `board`.

use crate::common::convert::{ToLibrary, ToModel};
use crate::common::random::Random;
use crate::common::run::Run;
use crate::{sinks_made, words};
use arinduleu::objects::Side;
use arinduleu::sinks::{sink_check, sink_read, sink_shape, sink_write};
use arinduleu::steps::HalfWatts;
use arinduleu::{board, flat, lists, sinks, verdicts};
use model::{FlatObjects, SinkObject, SinkObjects, Verdict, Words};

pub const NUMBERS: &[u8] = &[0, 1, 7, 10, 11, 12, 13, 14, 15, 16, 43];

const READ: &[u8] = &[0, 10, 11, 12, 13, 14, 15, 16];
const WRITTEN: &[u8] = &[0, 7, 10, 11, 12, 13, 14, 15, 16];
const CHECKED: &[u8] = &[0, 1, 10, 11, 12, 13, 14, 15, 16, 43];

#[test]
fn sink_lists_read() {
    let mut run = Run::new("sink lists read");
    while run.going() {
        let list = sinks_made::any(&mut run.random);
        let words = list.library();
        let shape = model::sink_shape(&list);
        let read = model::sink_read(&list);
        let flat = model::sink_flat_read(&list);
        run.same("sink_shape", &list, sink_shape(words).model(), shape);
        let of_board = board::arin_sink_shape(words).model();
        run.same("arin_sink_shape", &list, of_board, shape);
        let by_side = lists::shape_for(Side::Sink, words).model();
        run.same("shape_for a sink", &list, by_side, shape);
        run.same("sink_read", &list, sink_read(words).model(), read);
        let of_board = board::arin_sink_read(words).model();
        run.same("arin_sink_read", &list, of_board, flat);
        let by_side = flat::flat_read_for(Side::Sink, words).model();
        run.same("flat_read_for a sink", &list, by_side, flat);
        run.saw(shape.number);
        note_avs(&mut run, &list, shape);
    }
    run.finish(READ, &AVS);
}

const AVS: [&str; 3] = [
    "AVS, its shape passes for a source",
    "AVS with a reserved bit: 12",
    "AVS, refused before it",
];

/// A list with AVS is never a sink's, and its word is refused for its kind before all else that is wrong with it.
fn note_avs(run: &mut Run, list: &Words, shape: Verdict) {
    let Some(counted) = list.words.get(..usize::from(list.count)) else {
        return;
    };
    let Some(at) = counted.iter().position(|w| w >> 28 == 0xE) else {
        return;
    };
    assert_ne!(shape.number, 0, "{list:x?}");
    let place = at as u8 + 1;
    if model::shape(list).number == 0 {
        run.reached(AVS[0]);
    }
    if shape == (Verdict { number: 12, place }) && counted[at] & 0x03F0_0000 != 0 {
        run.reached(AVS[1]);
    }
    if shape.place < place {
        run.reached(AVS[2]);
    }
}

/// How reading begins and how writing ends, for either side. What writing hands in may be refused already, and stays so.
#[test]
fn lists_begun_and_finished_for_either_side() {
    let mut run = Run::new("lists begun and finished");
    while run.going() {
        let list = sinks_made::any(&mut run.random);
        let before = match run.random.one_in(4) {
            true => Verdict {
                number: 7,
                place: 3,
            },
            false => Verdict::default(),
        };
        for (side, verdict) in [
            (Side::Source, model::shape(&list)),
            (Side::Sink, model::sink_shape(&list)),
        ] {
            let readable = lists::readable(side, list.library());
            let count = if verdict.number == 0 { list.count } else { 0 };
            run.same(
                "readable",
                &(side, list),
                (readable.verdict.model(), readable.count),
                (verdict, count),
            );

            let made = model::Listing {
                verdict: before,
                list,
            };
            let finished = match (before.number, verdict.number) {
                (7, _) => made,
                (_, 0) => model::Listing { verdict, list },
                _ => model::Listing {
                    verdict,
                    ..model::Listing::default()
                },
            };
            let library = lists::finished(side, made.library()).model();
            run.same("finished", &(side, made), library, finished);
            run.reached(match (before.number, side, verdict.number) {
                (7, _, _) => "refused before",
                (_, Side::Source, 0) => "a source's",
                (_, Side::Sink, 0) => "a sink's",
                _ => "refused",
            });
        }
    }
    run.finish(
        &[],
        &["refused before", "a source's", "a sink's", "refused"],
    );
}

#[test]
fn every_count() {
    for count in 0..=u8::MAX {
        assert_eq!(
            lists::bad_count(count),
            !(1..=7).contains(&count),
            "{count}"
        );
    }
}

/// The objects of a list of words; a word of no kind becomes some object. Past the count lies what must not be read.
fn objects(random: &mut Random) -> SinkObjects {
    let words = sinks_made::any(random);
    let places = words.words.map(|w| match model::sink_decode(w) {
        Some(object) => object,
        None => sinks_made::plausible(random),
    });
    let mut list = SinkObjects {
        places,
        count: words.count,
    };
    if random.one_in(4) {
        let at = random.below(7);
        list.places[at] = sinks_made::widened(random, list.places[at]);
    }
    list
}

#[test]
fn sink_lists_written() {
    let mut run = Run::new("sink lists written");
    while run.going() {
        let list = objects(&mut run.random);
        let written = model::sink_write(&list);
        let library = sink_write(list.library()).model();
        run.same("sink_write", &list, library, written);
        run.saw(written.verdict.number);

        let flat = flat_objects(&mut run.random, &list);
        let written = model::sink_flat_write(&flat);
        let of_board = board::arin_sink_write(flat.library()).model();
        run.same("arin_sink_write", &flat, of_board, written);
        let by_side = flat::flat_write_for(Side::Sink, flat.library()).model();
        run.same("flat_write_for a sink", &flat, by_side, written);
        run.saw(written.verdict.number);
        note_kinds(&mut run, &flat, written.verdict);
    }
    run.finish(WRITTEN, &KINDS);
}

/// The same objects, with stale figures in the fields that their kinds do not have, peak current and power limited among them, and now and
/// then a kind that no sink has.
fn flat_objects(random: &mut Random, list: &SinkObjects) -> FlatObjects {
    let place = |object: &SinkObject| {
        let mut flat = words::flat_object(random);
        let own = model::sink_flatten(object);
        flat.kind = own.kind;
        match object {
            SinkObject::Fixed { .. } => {
                flat.flags = own.flags;
                (flat.volts, flat.current) = (own.volts, own.current);
            }
            SinkObject::Battery { .. } => {
                (flat.max, flat.min, flat.power) = (own.max, own.min, own.power)
            }
            SinkObject::Variable { .. } => {
                (flat.max, flat.min, flat.current) = (own.max, own.min, own.current)
            }
            SinkObject::Pps { .. } => {
                flat.current50 = own.current50;
                (flat.max100, flat.min100) = (own.max100, own.min100);
            }
        }
        flat
    };
    let mut flat = FlatObjects {
        places: list.places.each_ref().map(place),
        count: list.count,
    };
    for _ in 0..random.pick(&[0, 0, 0, 0, 0, 0, 1, 2]) {
        flat.places[random.below(7)].kind = random.pick(&[4, 4, 5, 6, 128, 255]);
    }
    flat
}

const KINDS: [&str; 8] = [
    "AVS first: 11",
    "AVS: 12",
    "no kind first: 11",
    "no kind: 12",
    "no such kind, then too wide: 7",
    "too wide, then no such kind: 7",
    "refused before it",
    "count before it: 10",
];

/// What a list with an object of a kind that no sink has gets.
fn note_kinds(run: &mut Run, list: &FlatObjects, said: Verdict) {
    let all = &list.places[..usize::from(list.count).min(7)];
    let Some(at) = all.iter().position(|object| object.kind > 3) else {
        return;
    };
    let place = at as u8 + 1;
    let avs = all[at].kind == 4;
    run.reached(match (said.number, said.place) {
        (10, _) => KINDS[7],
        (7, wide) if wide > place => KINDS[4],
        (7, _) => KINDS[5],
        (11, 1) if place == 1 => KINDS[if avs { 0 } else { 2 }],
        (12, given) if given == place => KINDS[if avs { 1 } else { 3 }],
        (11, 1) => KINDS[6],
        (_, given) if given < place => KINDS[6],
        _ => panic!("{said:?} for {list:?}"),
    });
}

const DECIDES: [&str; 7] = [
    "fixed",
    "variable",
    "battery",
    "PPS to 11 V",
    "PPS to 16 V",
    "PPS to 21 V",
    "another PPS",
];
const OTHERS: [&str; 4] = [
    "a half watt too little",
    "1 before the shape",
    "the shape before 43",
    "nothing is needed, rating 1",
];

/// The row that decides is noted where the rating is exactly what the list needs.
#[test]
fn ratings() {
    let mut run = Run::new("ratings");
    while run.going() {
        let list = match run.random.one_in(3) {
            true => sinks_made::any(&mut run.random),
            false => sinks_made::composed(&mut run.random),
        };
        let rating = sinks_made::rating(&mut run.random, &list);
        let said = model::sink_check(rating, &list);
        let words = list.library();
        let given = (rating, list);
        let library = sink_check(HalfWatts(rating), words).model();
        run.same("sink_check", &given, library, said);
        let of_board = board::arin_sink_check(rating, words).model();
        run.same("arin_sink_check", &given, of_board, said);
        run.saw(said.number);

        let shape = model::sink_shape(&list).number;
        let needed = sinks_made::needed(&list).map(|n| (n.0.cmp(&rating.into()), n));
        match (said.number, needed) {
            (1, _) if shape != 0 => run.reached(OTHERS[1]),
            (0, Some((order, (need, row)))) => {
                assert!(order.is_le(), "{given:x?}");
                if order.is_eq() {
                    run.reached(row);
                }
                if need == 0 && rating == 1 {
                    run.reached(OTHERS[3]);
                }
            }
            (43, Some((order, (need, _)))) => {
                assert!(order.is_gt(), "{given:x?}");
                if need == u32::from(rating) + 1 {
                    run.reached(OTHERS[0]);
                }
            }
            (number, Some((order, _))) if order.is_gt() && number == shape => {
                run.reached(OTHERS[2])
            }
            _ => {}
        }
    }
    run.finish(CHECKED, &[&DECIDES[..], &OTHERS].concat());
}

/// "Reading a sink list whose shape passes, and writing what was read, gives the same words; and the other way round for objects that can
/// be written." The library alone; what is refused is empty.
#[test]
fn sink_lists_there_and_back() {
    let mut run = Run::new("sink lists there and back");
    while run.going() {
        let list = sinks_made::any(&mut run.random).library();
        let read = sink_read(list);
        if read.verdict.number == verdicts::SUCCESS {
            let mut same = list;
            same.words[usize::from(list.count)..].fill(0);
            let again = sink_write(read.list).list;
            run.same("read, then written", &list, again, same);
            run.reached("read");
        } else {
            run.same("not read", &list, read.list, sinks::SinkObjects::default());
        }
        let objects = objects(&mut run.random).library();
        let written = sink_write(objects);
        if written.verdict.number == verdicts::SUCCESS {
            let mut same = objects;
            same.places[usize::from(objects.count)..].fill(sinks::EMPTY_SINK_PLACE);
            let again = sink_read(written.list).list;
            run.same("written, then read", &objects, again, same);
            run.reached("written");
        } else {
            run.same("not written", &objects, written.list, lists::NO_WORDS);
        }
    }
    run.finish(&[], &["read", "written"]);
}
