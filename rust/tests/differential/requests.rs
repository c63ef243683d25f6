//! Requests: taken apart, judged by an object, and answered on a list.

use crate::common::convert::{ToLibrary, ToModel};
use crate::common::run::Run;
use crate::{lists_made, objects_made, requests_made};
use arinduleu::{board, requests};
use model::{Object, Request, Verdict, Words};

pub const NUMBERS: &[u8] = &[0, 10, 11, 12, 13, 14, 15, 16, 17, 20, 22, 23, 24, 25];

const JUDGED: &[u8] = &[0, 22, 23, 24, 25];

pub const CASES: [&str; 6] = [
    "fixed",
    "battery",
    "variable",
    "pps",
    "avs",
    "avs at 15.0 V by the second current alone",
];

#[test]
fn requests_taken_apart() {
    let mut run = Run::new("requests taken apart");
    while run.going() {
        let word = run.random.u32();
        run.same(
            "position",
            &word,
            requests::position(word),
            model::position(word),
        );
        let object = objects_made::plausible(&mut run.random);
        let library = requests::take_apart(object.library(), word).model();
        run.same(
            "take_apart",
            &(object, word),
            library,
            model::take_apart(&object, word),
        );
    }
    run.finish(&[], &[]);
}

#[test]
fn requests_judged() {
    let mut run = Run::new("requests judged");
    while run.going() {
        let object = objects_made::plausible(&mut run.random);
        // A field may be wider than its bits: an object is judged as it stands.
        let object = match run.random.below(4) {
            0 => objects_made::widened(&mut run.random, object),
            _ => object,
        };
        for _ in 0..8 {
            let word = match run.random.below(8) {
                0 => run.random.u32(),
                _ => requests_made::of_object(&mut run.random, &object),
            };
            let verdict = model::judge(&object, word);
            run.same(
                "judge",
                &(object, word),
                requests::judge(object.library(), word).model(),
                verdict,
            );
            run.saw(verdict.number);
            if verdict == Verdict::default() {
                run.reached(accepted_of(object, word));
            }
        }
    }
    run.finish(JUDGED, &CASES);
}

#[test]
fn requests_answered() {
    let mut run = Run::new("requests answered");
    while run.going() {
        let list = match run.random.below(4) {
            0 => lists_made::any(&mut run.random),
            1 => lists_made::built(&mut run.random),
            _ => lists_made::composed(&mut run.random),
        };
        for _ in 0..8 {
            let word = requests_made::any(&mut run.random, &list);
            let verdict = model::answer(&list, word);
            let words = list.library();
            run.same(
                "answer",
                &(list, word),
                requests::answer(words, word).model(),
                verdict,
            );
            run.same(
                "arin_answer",
                &(list, word),
                board::arin_answer(words, word).model(),
                verdict,
            );
            run.saw(verdict.number);
            if verdict == Verdict::default() {
                run.reached(accepted(&list, word));
            }
        }
    }
    run.finish(NUMBERS, &CASES);
}

/// What was accepted, so that no kind goes without.
pub fn accepted(list: &Words, word: u32) -> &'static str {
    let at = usize::from(model::position(word)) - 1;
    let object = model::decode(list.words[at]).expect("an accepted request names an object");
    accepted_of(object, word)
}

fn accepted_of(object: Object, word: u32) -> &'static str {
    let asked = model::take_apart(&object, word).request;
    match (object, asked) {
        // 600 steps of 25 mV; a step of 50 mA is five of 10 mA.
        (
            Object::Avs { low, .. },
            Request::Avs {
                volts: 600,
                current,
            },
        ) if low < current * 5 => CASES[5],
        (Object::Fixed { .. }, _) => CASES[0],
        (Object::Battery { .. }, _) => CASES[1],
        (Object::Variable { .. }, _) => CASES[2],
        (Object::Pps { .. }, _) => CASES[3],
        (Object::Avs { .. }, _) => CASES[4],
    }
}
