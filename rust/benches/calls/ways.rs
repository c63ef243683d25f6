//! The answer to a request two ways, both of them the library's: from the summary, and from the list. Of a row of these, "library" is the first and
//! "model" the second. A name says what is called to answer from the summary.

use crate::measure::{two_ways, Call, Row};
use crate::summaries::{all_asked, of_seven, Asked};
use crate::wrappers::library;
use arinduleu::flat::{FlatRequest, FlatTaken, KIND_BATTERY};
use arinduleu::lists::Words;
use arinduleu::summaries::{QuickAsked, Summary, TakenRequest};
use arinduleu::verdicts::{Verdict, SUCCESS};
use std::hint::black_box;

pub fn all() -> Vec<Row> {
    vec![
        Row {
            name: "summaries::answer_summary for answer",
            make: || decoded(all_asked()),
        },
        Row {
            name: "arin_answer_summary for arin_answer",
            make: || flat_decoded(all_asked()),
        },
        Row {
            name: "summaries::take_request and answer_summary for answer",
            make: || each_word(all_asked()),
        },
        Row {
            name: "arin_take_request and arin_answer_summary for arin_answer",
            make: || flat_each_word(all_asked()),
        },
        Row {
            name: "summaries::answer_summary for answer, seven objects",
            make: || decoded(of_seven()),
        },
        Row {
            name: "arin_answer_summary for arin_answer, seven objects",
            make: || flat_decoded(of_seven()),
        },
        Row {
            name: "summaries::take_request and answer_summary for answer, seven objects",
            make: || each_word(of_seven()),
        },
        Row {
            name: "arin_take_request and arin_answer_summary for arin_answer, seven objects",
            make: || flat_each_word(of_seven()),
        },
    ]
}

type Answer = fn(Words, u32) -> Verdict;

fn against_the_list(
    inputs: Vec<Asked>,
    quick: impl Fn(&Asked) -> Verdict + Copy + 'static,
) -> Call {
    let answer: Answer = black_box(library::answer);
    two_ways(inputs, quick, move |a| answer(a.list, a.word))
}

/// The request was decoded before the clock runs.
fn decoded(inputs: Vec<Asked>) -> Call {
    let quick: fn(Summary, QuickAsked) -> Verdict = black_box(library::answer_summary);
    against_the_list(inputs, move |a| quick(a.summary, a.request))
}

fn flat_decoded(inputs: Vec<Asked>) -> Call {
    let quick: fn(Summary, FlatRequest) -> Verdict = black_box(library::flat_answer_summary);
    against_the_list(inputs, move |a| quick(a.summary, a.flat))
}

/// The request is decoded with each answer, and what is for the list goes there, as whoever gets words has it.
fn each_word(inputs: Vec<Asked>) -> Call {
    let take: fn(Words, u32) -> Result<TakenRequest, Verdict> = black_box(library::take_request);
    let quick: fn(Summary, QuickAsked) -> Verdict = black_box(library::answer_summary);
    let answer: Answer = black_box(library::answer);
    against_the_list(inputs, move |a| match take(a.list, a.word) {
        Err(verdict) => verdict,
        Ok(TakenRequest::Battery { .. }) => answer(a.list, a.word),
        Ok(TakenRequest::Quick(request)) => quick(a.summary, request),
    })
}

fn flat_each_word(inputs: Vec<Asked>) -> Call {
    let take: fn(Words, u32) -> FlatTaken = black_box(library::flat_take_request);
    let quick: fn(Summary, FlatRequest) -> Verdict = black_box(library::flat_answer_summary);
    let answer: Answer = black_box(library::answer);
    against_the_list(inputs, move |a| {
        let taken = take(a.list, a.word);
        if taken.verdict.number != SUCCESS {
            return taken.verdict;
        }
        if taken.request.kind == KIND_BATTERY {
            return answer(a.list, a.word);
        }
        quick(a.summary, taken.request)
    })
}
