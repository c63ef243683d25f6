//! Summaries made, requests decoded, and answers from both, also under the names of `board`; and that these are the answers from the list.

use crate::common::convert::{ToLibrary, ToModel};
use crate::common::run::Run;
use crate::{lists_made, requests_made, summaries_made};
use arinduleu::lists::shape;
use arinduleu::summaries::{answer_summary, rows_of, summarize, take_request, TakenRequest};
use arinduleu::{board, flat, requests};
use model::{Figures, FlatRequest, Summary, Taken, Verdict, Words};

pub const NUMBERS: &[u8] = &[0, 10, 11, 12, 13, 14, 15, 16, 17, 20, 22, 23, 24, 25];

const MADE: &[u8] = &[0, 10, 11, 12, 13, 14, 15, 16, 17];
const TAKEN: &[u8] = &[0, 10, 12, 20];
const ANSWERED: &[u8] = &[0, 10, 20, 22, 23, 24, 25];
const FLAT_ANSWERED: &[u8] = &[0, 10, 12, 20, 22, 23, 24, 25];

const KINDS: [&str; 5] = ["fixed", "battery", "variable", "pps", "avs"];

#[test]
fn summaries_made_of_lists() {
    let mut run = Run::new("summaries made");
    while run.going() {
        let list = lists_made::any(&mut run.random);
        let stated = model::summarize(&list);
        let made = summarize(list.library());
        run.same("summarize", &list, made.model(), stated);
        let of_board = board::arin_summarize(list.library()).model();
        run.same("arin_summarize", &list, of_board, stated);
        let rows = rows_of(made.summary);
        run.same("rows_of", &list, rows, stated.summary.rows);
        run.same(
            "shape",
            &list,
            shape(list.library()).model(),
            stated.verdict,
        );
        run.saw(stated.verdict.number);
    }
    run.finish(MADE, &[]);
}

/// A battery's position and mismatch bit are the word's.
#[test]
fn requests_decoded() {
    let mut run = Run::new("requests decoded");
    while run.going() {
        let list = summaries_made::list(&mut run.random);
        for _ in 0..8 {
            let word = requests_made::any(&mut run.random, &list);
            let input = (list, word);
            let stated = model::take_request(&list, word);
            let taken = take_request(list.library(), word);
            run.same("take_request", &input, taken.model(), stated);
            if let Ok(TakenRequest::Battery { position, mismatch }) = taken {
                let of_word = (requests::position(word), word >> 26 & 1 == 1);
                run.same("of a battery", &input, (position, mismatch), of_word);
            }

            let stated_flat = model::flat_take_request(&list, word);
            let flat = flat::flat_take_request(list.library(), word).model();
            run.same("flat_take_request", &input, flat, stated_flat);
            let of_board = board::arin_take_request(list.library(), word).model();
            run.same("arin_take_request", &input, of_board, stated_flat);
            run.saw(stated_flat.verdict.number);
            if stated_flat.verdict.number == 0 {
                run.reached(KINDS[usize::from(stated_flat.request.kind)]);
            }
        }
    }
    run.finish(TAKEN, &KINDS);
}

const CASES: [&str; 5] = [
    "fixed",
    "variable",
    "pps",
    "avs",
    "15.0 V by the current above it alone",
];

fn accepted(summary: &Summary, request: &model::DecodedRequest) -> &'static str {
    let row = summary.rows[usize::from(request.position) - 1];
    let by_above = |current: u16| u32::from(row[2]) < 50 * u32::from(current);
    match request.figures {
        Figures::Pps {
            volts: 750,
            current,
        }
        | Figures::Avs {
            volts: 600,
            current,
        } if by_above(current) => CASES[4],
        Figures::Fixed { .. } => CASES[0],
        Figures::Variable { .. } => CASES[1],
        Figures::Pps { .. } => CASES[2],
        Figures::Avs { .. } => CASES[3],
    }
}

/// Of lists, changed, and of any numbers.
#[test]
fn requests_answered_from_summaries() {
    let mut run = Run::new("requests answered from summaries");
    while run.going() {
        let summary = summaries_made::summary(&mut run.random);
        for _ in 0..8 {
            let request = summaries_made::request(&mut run.random, &summary);
            let stated = model::answer_summary(&summary, &request);
            let answer = answer_summary(summary.library(), request.library()).model();
            run.same("answer_summary", &(summary, request), answer, stated);
            run.saw(stated.number);
            if stated == Verdict::default() {
                run.reached(accepted(&summary, &request));
            }
        }
    }
    run.finish(ANSWERED, &CASES);
}

const FLAT_CASES: [&str; 2] = ["25 but for the mismatch", "a count above 7 and no kind: 12"];

#[test]
fn flat_requests_answered_from_summaries() {
    let mut run = Run::new("flat requests answered from summaries");
    while run.going() {
        let summary = summaries_made::summary(&mut run.random);
        for _ in 0..8 {
            let request = summaries_made::flat_request(&mut run.random, &summary);
            let input = (summary, request);
            let stated = model::flat_answer_summary(&summary, &request);
            let answer = flat::flat_answer_summary(summary.library(), request.library()).model();
            run.same("flat_answer_summary", &input, answer, stated);
            let of_board = board::arin_answer_summary(summary.library(), request.library());
            run.same("arin_answer_summary", &input, of_board.model(), stated);
            run.saw(stated.number);
            if stated.number == 0 && clear(&summary, request) == 25 {
                run.reached(FLAT_CASES[0]);
            }
            if stated.number == 12 && summary.count > 7 {
                run.reached(FLAT_CASES[1]);
            }
        }
    }
    run.finish(FLAT_ANSWERED, &FLAT_CASES);
}

/// The answer where the sink does not say that it needs more.
fn clear(summary: &Summary, request: FlatRequest) -> u8 {
    let without = FlatRequest {
        mismatch: 0,
        ..request
    };
    model::flat_answer_summary(summary, &without).number
}

/// As firmware does it: a refusal of decoding is the answer, a battery's request goes to the list, the rest to the summary.
fn by_the_summary(list: &Words, summary: Summary, word: u32) -> Verdict {
    let (words, summary) = (list.library(), summary.library());
    match take_request(words, word) {
        Err(verdict) => verdict.model(),
        Ok(TakenRequest::Battery { .. }) => requests::answer(words, word).model(),
        Ok(TakenRequest::Quick(asked)) => answer_summary(summary, asked).model(),
    }
}

fn flat_by_the_summary(list: &Words, summary: Summary, word: u32) -> Verdict {
    let words = list.library();
    let taken = board::arin_take_request(words, word);
    if taken.verdict.number != 0 {
        return taken.verdict.model();
    }
    if taken.request.kind == flat::KIND_BATTERY {
        return board::arin_answer(words, word).model();
    }
    board::arin_answer_summary(summary.library(), taken.request).model()
}

/// For every list that has its shape, number and place.
#[test]
fn answers_from_the_summary_are_those_from_the_list() {
    let mut run = Run::new("answers from the summary and from the list");
    while run.going() {
        let list = summaries_made::list(&mut run.random);
        let summarized = model::summarize(&list);
        if summarized.verdict != Verdict::default() {
            continue;
        }
        for _ in 0..8 {
            let word = requests_made::any(&mut run.random, &list);
            let input = (list, word);
            let stated = model::answer(&list, word);
            let quick = by_the_summary(&list, summarized.summary, word);
            run.same("by way of the summary", &input, quick, stated);
            let flat = flat_by_the_summary(&list, summarized.summary, word);
            run.same("the same from C", &input, flat, stated);
            run.saw(stated.number);
            run.reached(match model::take_request(&list, word) {
                Taken::Refused(_) => "refused in decoding",
                Taken::Battery => "for the list",
                Taken::Decoded(_) => "for the summary",
            });
        }
    }
    run.finish(
        &[0, 20, 22, 23, 24, 25],
        &["refused in decoding", "for the list", "for the summary"],
    );
}
