//! One word, one object and one flat object.

use crate::common::convert::{ToLibrary, ToModel};
use crate::common::random::Random;
use crate::common::run::Run;
use crate::objects_made;
use arinduleu::flat::{flatten, raise};
use arinduleu::objects::{
    avs_word, decode, encode, fixed_word, is_kind, pps_word, reserved_bit_set, Side, BITS_AVS,
    BITS_BATTERY, BITS_EPR_AVS, BITS_FIXED, BITS_PPS, BITS_UNASSIGNED, BITS_VARIABLE,
};
use arinduleu::steps::{Ma10, Ma50, Mv100, Mv50};
use model::{FlatObject, Object};

fn decoded(word: u32) -> Option<Object> {
    Some(decode(word)?.model())
}

const KINDS: [u32; 7] = [
    BITS_FIXED,
    BITS_BATTERY,
    BITS_VARIABLE,
    BITS_PPS,
    BITS_EPR_AVS,
    BITS_AVS,
    BITS_UNASSIGNED,
];

/// The bits of a kind that the model knows.
fn bits_of(object: Object) -> u32 {
    match object {
        Object::Fixed { .. } => BITS_FIXED,
        Object::Battery { .. } => BITS_BATTERY,
        Object::Variable { .. } => BITS_VARIABLE,
        Object::Pps { .. } => BITS_PPS,
        Object::Avs { .. } => BITS_AVS,
    }
}

fn encoded(object: Object) -> Option<u32> {
    encode(object.library())
}

/// By the word maker of its own kind; two kinds have none.
fn encoded_by_kind(object: Object) -> Option<u32> {
    match object {
        Object::Fixed {
            flags,
            peak,
            volts,
            current,
        } => fixed_word(flags, peak, Mv50(volts), Ma10(current)),
        Object::Pps {
            limited,
            max,
            min,
            current,
        } => pps_word(limited, Mv100(max), Mv100(min), Ma50(current)),
        Object::Avs { peak, low, high } => avs_word(peak, Ma10(low), Ma10(high)),
        Object::Battery { .. } | Object::Variable { .. } => encoded(object),
    }
}

fn raised(flat: FlatObject) -> Option<Object> {
    Some(raise(flat.library())?.model())
}

#[test]
fn words_and_objects() {
    let mut run = Run::new("words");
    while run.going() {
        let word = objects_made::word(&mut run.random);
        let known = model::decode(word);
        run.same("decode", &word, decoded(word), known);
        let kinds = KINDS.iter().filter(|kind| is_kind(word, **kind));
        let kinds: Vec<u32> = kinds.copied().collect();
        run.same(
            "is_kind",
            &word,
            match known {
                Some(object) => kinds == [bits_of(object)],
                None => kinds == [BITS_EPR_AVS] || kinds == [BITS_UNASSIGNED],
            },
            true,
        );
        let other = match run.random.below(2) {
            0 => run.random.below(16) as u32,
            _ => run.random.u32(),
        };
        let is_none = !KINDS.contains(&other) && is_kind(word, other);
        run.same("is_kind of no kind", &(word, other), is_none, false);
        run.reached(if known.is_some() {
            "known"
        } else {
            "not allowed"
        });

        let plausible = objects_made::plausible(&mut run.random);
        let object = match run.random.below(3) {
            0 => objects_made::widened(&mut run.random, plausible),
            _ => plausible,
        };
        let fits = model::encode(&object);
        run.same("encode", &object, encoded(object), fits);
        run.same("its word maker", &object, encoded_by_kind(object), fits);
        run.reached(if fits.is_some() { "fits" } else { "too wide" });

        // The object need not be that of the word: the call judges any two.
        let judged = match (known, run.random.bool()) {
            (Some(own), true) => own,
            _ => object,
        };
        // One bit more or less, so that each reserved bit decides by itself.
        let spoiled = word ^ (1 << run.random.below(32));
        for w in [word, spoiled] {
            for first in [false, true] {
                let reserved = model::reserved_bit_set(&judged, first, w);
                let library = reserved_bit_set(Side::Source, judged.library(), first, w);
                run.same("reserved_bit_set", &(judged, first, w), library, reserved);
                run.reached(if reserved { "reserved" } else { "not reserved" });
            }
        }
    }
    run.finish(
        &[],
        &[
            "known",
            "not allowed",
            "fits",
            "too wide",
            "reserved",
            "not reserved",
        ],
    );
}

/// What is written comes back, and what is read is written again as the same word where no reserved bit is set.
#[test]
fn words_there_and_back() {
    let mut run = Run::new("there and back");
    while run.going() {
        let object = objects_made::plausible(&mut run.random);
        let word = encoded(object).expect("plausible fields fit");
        run.same("decode after encode", &object, decoded(word), Some(object));
        let flat = flatten(object.library());
        run.same(
            "raise after flatten",
            &object,
            raise(flat),
            Some(object.library()),
        );
    }
    run.finish(&[], &[]);
}

/// Every field anything, for a kind that may be none.
pub fn flat_object(random: &mut Random) -> FlatObject {
    let field = |random: &mut Random| match random.below(3) {
        0 => random.u16(),
        _ => random.u16() & 0x3FF,
    };
    FlatObject {
        kind: match random.below(8) {
            0 => random.pick(&[5, 6, 7, 8, 128, 255]),
            _ => random.within(0..=4) as u8,
        },
        flags: random.u8(),
        peak: random.u8(),
        limited: random.u8(),
        volts: field(random),
        max: field(random),
        min: field(random),
        power: field(random),
        current: field(random),
        max100: field(random),
        min100: field(random),
        current50: field(random),
        low: field(random),
        high: field(random),
    }
}

#[test]
fn flat_objects() {
    let mut run = Run::new("flat objects");
    while run.going() {
        let plausible = objects_made::plausible(&mut run.random);
        let object = objects_made::widened(&mut run.random, plausible);
        run.same(
            "flatten",
            &object,
            flatten(object.library()).model(),
            model::flatten(&object),
        );

        let flat = flat_object(&mut run.random);
        let model = model::raise(&flat);
        run.same("raise", &flat, raised(flat), model);
        run.reached(if model.is_some() { "a kind" } else { "no kind" });
    }
    run.finish(&[], &["a kind", "no kind"]);
}
