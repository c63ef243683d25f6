//! One word and one sink object, and what a word says for a side.

use crate::common::convert::{ToLibrary, ToModel};
use crate::common::run::Run;
use crate::{objects_made, sinks_made};
use arinduleu::objects::{decode_for, reserved_bit_set, Side};
use arinduleu::sinks::{sink_decode, sink_encode};
use model::{Object, SinkObject};

fn decoded(word: u32) -> Option<SinkObject> {
    Some(sink_decode(word)?.model())
}

fn decoded_for(side: Side, word: u32) -> Option<Object> {
    Some(decode_for(side, word)?.model())
}

fn encoded(object: SinkObject) -> Option<u32> {
    sink_encode(object.library())
}

#[test]
fn sink_words_and_objects() {
    let mut run = Run::new("sink words");
    while run.going() {
        let word = objects_made::word(&mut run.random);
        let known = model::sink_decode(word);
        run.same("sink_decode", &word, decoded(word), known);
        run.reached(match (known, model::decode(word)) {
            (Some(_), _) => "known",
            (None, Some(_)) => "a source's alone",
            (None, None) => "not allowed",
        });
        for side in [Side::Source, Side::Sink] {
            let stated = model::decode_for(side.model(), word);
            run.same("decode_for", &(side, word), decoded_for(side, word), stated);
        }

        let plausible = sinks_made::plausible(&mut run.random);
        let object = match run.random.below(3) {
            0 => sinks_made::widened(&mut run.random, plausible),
            _ => plausible,
        };
        let fits = model::sink_encode(&object);
        run.same("sink_encode", &object, encoded(object), fits);
        run.reached(if fits.is_some() { "fits" } else { "too wide" });
    }
    let cases = [
        "known",
        "a source's alone",
        "not allowed",
        "fits",
        "too wide",
    ];
    run.finish(&[], &cases);
}

const SINK_ALONE: &str = "set, reserved for a sink alone";

/// The object need not be that of the word: the call judges any two. One bit more or less, so that each reserved bit decides by itself.
#[test]
fn reserved_bits_by_side() {
    let mut run = Run::new("reserved bits by side");
    while run.going() {
        let word = objects_made::word(&mut run.random);
        let judged = match (model::decode(word), run.random.bool()) {
            (Some(own), true) => own,
            _ => objects_made::plausible(&mut run.random),
        };
        let spoiled = word ^ (1 << run.random.below(32));
        for w in [word, spoiled] {
            for first in [false, true] {
                let told = [Side::Source, Side::Sink].map(|side| {
                    let stated = model::reserved_bit_set_for(side.model(), &judged, first, w);
                    let library = reserved_bit_set(side, judged.library(), first, w);
                    let given = (side, judged, first, w);
                    run.same("reserved_bit_set", &given, library, stated);
                    stated
                });
                run.reached(match told {
                    [false, false] => "not reserved",
                    [false, true] => SINK_ALONE,
                    [true, true] => "reserved",
                    [true, false] => {
                        panic!("{judged:?}: a bit that is reserved for a source alone")
                    }
                });
            }
        }
    }
    run.finish(&[], &["not reserved", SINK_ALONE, "reserved"]);
}

/// What is written comes back; and a word that a sink has, without reserved bits (of a fixed word: 22..20), comes back too.
#[test]
fn sink_words_there_and_back() {
    let mut run = Run::new("sink words there and back");
    while run.going() {
        let object = sinks_made::plausible(&mut run.random);
        let word = encoded(object).expect("plausible fields fit");
        run.same("decode after encode", &object, decoded(word), Some(object));

        let word = objects_made::word(&mut run.random);
        let clean = match word >> 28 {
            0..=3 => word & !0x0070_0000,
            0xC => word & !0x0E01_0080,
            _ => word,
        };
        let again = decoded(clean).map(encoded);
        match again {
            Some(again) => run.same("encode after decode", &clean, again, Some(clean)),
            None => run.reached("not a sink's"),
        }
    }
    run.finish(&[], &["not a sink's"]);
}
