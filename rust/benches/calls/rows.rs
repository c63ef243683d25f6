//! The rows of the table: each call with its inputs, and how either side is called.

use crate::inputs;
use crate::lists;
use crate::measure::{call, port_call, writing_call, Row};
use crate::messages;
use crate::objects;
use crate::sinks;
use crate::summaries;
use crate::tables;
use crate::wrappers::{library, plain};
use std::hint::black_box;

/// A row of a call, or of both names where a call of `board` only hands over to the floor below.
macro_rules! row {
    ($name:literal, $inputs:expr, $wrapper:ident as $ours:ty | $theirs:ty, |$a:pat_param| $args:tt, |$b:pat_param| $plain_args:tt) => {
        Row {
            name: $name,
            make: || {
                let ours: $ours = black_box(library::$wrapper);
                let theirs: $theirs = black_box(plain::$wrapper);
                call($inputs, move |$a| ours $args, move |$b| theirs $plain_args)
            },
        }
    };
}

macro_rules! port_row {
    ($name:literal, $inputs:expr, $wrapper:ident as $ours:ty | $theirs:ty, |$rows:ident, $t:ident| $args:tt) => {
        Row {
            name: $name,
            make: || {
                let ours: $ours = black_box(library::$wrapper);
                let theirs: $theirs = black_box(plain::$wrapper);
                port_call($inputs, move |$rows, $t| ours $args, move |$rows, $t| theirs $args)
            },
        }
    };
}

pub fn all() -> Vec<Row> {
    let mut rows = of_the_loop();
    rows.extend(of_lists());
    rows.extend(of_summaries());
    rows.extend(of_sinks());
    rows.extend(of_messages());
    rows.extend(of_ports());
    rows.extend(of_objects());
    rows.extend(of_steps());
    rows
}

fn of_the_loop() -> Vec<Row> {
    vec![
        row!("(loop and an empty call)", objects::words(), nothing as fn(u32) -> _ | fn(u32) -> _, |w| (*w), |w| (*w)),
        port_row!("(the same with rows copied)", tables::any(), no_call as fn(&mut _, _) -> _ | fn(&mut _, _) -> _,
            |rows, t| (rows, t.capacity)),
    ]
}

fn of_lists() -> Vec<Row> {
    vec![
        row!("arin_default_profile", inputs::maxima(), default_profile as fn(u16) -> _ | fn(u16) -> _, |m| (*m), |m| (*m)),
        row!("arin_build", inputs::profiles(), build as fn(_) -> _ | fn(&_) -> _, |p| (*p), |p| (p)),
        row!("arin_check", lists::checks(), check as fn(_, _) -> _ | fn(&_, &_) -> _, |(p, l)| (*p, *l), |(p, l)| (p, l)),
        row!("arin_shape", lists::lists(), shape as fn(_) -> _ | fn(&_) -> _, |l| (*l), |l| (l)),
        row!("arin_read", lists::lists(), flat_read as fn(_) -> _ | fn(&_) -> _, |l| (*l), |l| (l)),
        row!("arin_write", lists::flat_lists(), flat_write as fn(_) -> _ | fn(&_) -> _, |l| (*l), |l| (l)),
        row!("arin_answer", objects::answers(), answer as fn(_, _) -> _ | fn(&_, _) -> _, |(l, w)| (*l, *w), |(l, w)| (l, *w)),
        row!("lists::read", lists::lists(), read as fn(_) -> _ | fn(&_) -> _, |l| (*l), |l| (l)),
        row!("lists::write", lists::object_lists(), write as fn(_) -> _ | fn(&_) -> _, |l| (*l), |l| (l)),
    ]
}

fn of_summaries() -> Vec<Row> {
    vec![
        row!("arin_summarize", lists::lists(), summarize as fn(_) -> _ | fn(&_) -> _, |l| (*l), |l| (l)),
        row!("arin_take_request", objects::answers(), flat_take_request as fn(_, _) -> _ | fn(&_, _) -> _, |(l, w)| (*l, *w), |(l, w)| (l, *w)),
        row!("arin_answer_summary", summaries::flat_answers(), flat_answer_summary as fn(_, _) -> _ | fn(&_, &_) -> _,
            |(s, r)| (*s, *r), |(s, r)| (s, r)),
        row!("summaries::take_request", objects::answers(), take_request as fn(_, _) -> _ | fn(&_, _) -> _, |(l, w)| (*l, *w), |(l, w)| (l, *w)),
        row!("summaries::answer_summary", summaries::answers(), answer_summary as fn(_, _) -> _ | fn(&_, &_) -> _,
            |(s, r)| (*s, *r), |(s, r)| (s, r)),
    ]
}

fn of_sinks() -> Vec<Row> {
    vec![
        row!("arin_sink_shape", sinks::lists(), sink_shape as fn(_) -> _ | fn(&_) -> _, |l| (*l), |l| (l)),
        row!("arin_sink_read", sinks::lists(), sink_flat_read as fn(_) -> _ | fn(&_) -> _, |l| (*l), |l| (l)),
        row!("arin_sink_write", sinks::flat_lists(), sink_flat_write as fn(_) -> _ | fn(&_) -> _, |l| (*l), |l| (l)),
        row!("arin_sink_check", sinks::checks(), sink_check as fn(_, _) -> _ | fn(_, &_) -> _, |(r, l)| (*r, *l), |(r, l)| (*r, l)),
        row!("sinks::sink_read", sinks::lists(), sink_read as fn(_) -> _ | fn(&_) -> _, |l| (*l), |l| (l)),
        row!("sinks::sink_write", sinks::object_lists(), sink_write as fn(_) -> _ | fn(&_) -> _, |l| (*l), |l| (l)),
        row!("sinks::sink_decode", sinks::words(), sink_decode as fn(u32) -> _ | fn(u32) -> _, |w| (*w), |w| (*w)),
        row!("sinks::sink_encode", sinks::objects(), sink_encode as fn(_) -> _ | fn(&_) -> _, |o| (*o), |o| (o)),
    ]
}

fn of_messages() -> Vec<Row> {
    vec![
        row!("arin_read_message", messages::bytes(), read_message as fn(&_) -> _ | fn(&_) -> _, |b| (b.first()), |b| (b.first())),
        row!("arin_take_message", messages::bytes(), take_message as fn(&_) -> _ | fn(&_) -> _, |b| (b.first()), |b| (b.first())),
        Row {
            name: "arin_write_message",
            make: || {
                let ours: fn(&mut _, _) -> _ = black_box(library::write_message);
                let theirs: fn(&mut _, &_) -> _ = black_box(plain::write_message);
                writing_call(
                    messages::messages(),
                    move |buffer, m| ours(buffer, *m),
                    theirs,
                )
            },
        },
    ]
}

fn of_ports() -> Vec<Row> {
    vec![
        port_row!("arin_set_up", tables::fresh(), set_up as fn(&mut _, _) -> _ | fn(&mut _, _) -> _, |rows, t| (rows, t.capacity)),
        port_row!("arin_attach", tables::with_an_empty_port(), attach as fn(&mut _, _, _, _) -> _ | fn(&mut _, _, _, _) -> _,
            |rows, t| (rows, t.capacity, t.port, t.cable)),
        port_row!("arin_advertise", tables::with_a_port_in_use(), advertise as fn(&mut _, _, _) -> _ | fn(&mut _, _, _) -> _,
            |rows, t| (rows, t.capacity, t.port)),
        port_row!("arin_request", tables::with_a_port_in_use(), request as fn(&mut _, _, _, _) -> _ | fn(&mut _, _, _, _) -> _,
            |rows, t| (rows, t.capacity, t.port, t.word)),
        port_row!("arin_detach", tables::with_a_port_in_use(), detach as fn(&mut _, _, _) -> _ | fn(&mut _, _, _) -> _,
            |rows, t| (rows, t.capacity, t.port)),
        port_row!("arin_remaining", tables::any(), remaining as fn(&_, _) -> _ | fn(&_, _) -> _, |rows, t| (rows, t.capacity)),
    ]
}

fn of_objects() -> Vec<Row> {
    vec![
        row!("objects::decode", objects::words(), decode as fn(u32) -> _ | fn(u32) -> _, |w| (*w), |w| (*w)),
        row!("objects::encode", objects::objects(), encode as fn(_) -> _ | fn(&_) -> _, |o| (*o), |o| (o)),
        row!("objects::decode_for", objects::words_of_a_side(), decode_for as fn(_, u32) -> _ | fn(_, u32) -> _,
            |(s, w)| (*s, *w), |(s, w)| (*s, *w)),
        row!("objects::reserved_bit_set", objects::placed_words(), reserved_bit_set as fn(_, _, _, _) -> _ | fn(_, &_, _, _) -> _,
            |((s, o), first, w)| (*s, *o, *first, *w), |((s, o), first, w)| (*s, o, *first, *w)),
        row!("flat::flatten", objects::objects(), flatten as fn(_) -> _ | fn(&_) -> _, |o| (*o), |o| (o)),
        row!("flat::raise", objects::flat_objects(), raise as fn(_) -> _ | fn(&_) -> _, |o| (*o), |o| (o)),
        row!("requests::position", objects::request_words(), position as fn(u32) -> _ | fn(u32) -> _, |w| (*w), |w| (*w)),
        row!("requests::take_apart", objects::asked(), take_apart as fn(_, _) -> _ | fn(&_, _) -> _, |(o, w)| (*o, *w), |(o, w)| (o, *w)),
    ]
}

fn of_steps() -> Vec<Row> {
    vec![
        row!("Mv20::to_mv100", inputs::figures(), mv20_to_mv100 as fn(u16) -> _ | fn(u16) -> _, |f| (*f), |f| (*f)),
        row!("Mv25::to_mv50", inputs::figures(), mv25_to_mv50 as fn(u16) -> _ | fn(u16) -> _, |f| (*f), |f| (*f)),
        row!("Mv50::to_mv20", inputs::figures(), mv50_to_mv20 as fn(u16) -> _ | fn(u16) -> _, |f| (*f), |f| (*f)),
        row!("Mv100::to_mv50", inputs::figures(), mv100_to_mv50 as fn(u16) -> _ | fn(u16) -> _, |f| (*f), |f| (*f)),
        row!("Ma10::to_ma50", inputs::figures(), ma10_to_ma50 as fn(u16) -> _ | fn(u16) -> _, |f| (*f), |f| (*f)),
        row!("Ma50::to_ma10", inputs::figures(), ma50_to_ma10 as fn(u16) -> _ | fn(u16) -> _, |f| (*f), |f| (*f)),
        row!("steps::round_down", inputs::quotients(), round_down as fn(_, _) -> _ | fn(_, _) -> _, |(n, d)| (*n, *d), |(n, d)| (*n, *d)),
        row!("steps::round_up", inputs::quotients(), round_up as fn(_, _) -> _ | fn(_, _) -> _, |(n, d)| (*n, *d), |(n, d)| (*n, *d)),
        row!("steps::round_both", inputs::quotients(), round_both as fn(_, _) -> _ | fn(_, _) -> _, |(n, d)| (*n, *d), |(n, d)| (*n, *d)),
    ]
}
