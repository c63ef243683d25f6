//! The inputs of the `arin_` calls and the library's answers as bytes, field by field, low byte first, for a program on a board:
//! `bench/board/bytes.h` reads the ones and writes the others.

use crate::inputs::{self, Turn};
use crate::messages::{self, Lent, ROOM};
use crate::wrappers::library;
use crate::{hardest, lists, objects, sinks, summaries, tables};
use arinduleu::flat::{FlatObject, FlatObjects, FlatReading, FlatRequest, FlatTaken};
use arinduleu::lists::{Listing, Words};
use arinduleu::messages::{Header, Message, MessageReading, Written};
use arinduleu::ports::{RemainingPower, Row};
use arinduleu::rules::{Profile, Profiled};
use arinduleu::summaries::{Summarized, Summary};
use arinduleu::verdicts::Verdict;

trait Bytes {
    fn put(&self, out: &mut Vec<u8>);
}

macro_rules! figures {
    ($($type:ty)*) => {$(
        impl Bytes for $type {
            fn put(&self, out: &mut Vec<u8>) {
                out.extend(self.to_le_bytes());
            }
        }
    )*};
}

figures! { u8 u16 u32 }

/// Measures go by their number, and a pattern has no `..`: a field that is not named here does not compile.
macro_rules! fields {
    ($($type:ident { $($field:ident $(. $number:tt)?),* })*) => {$(
        impl Bytes for $type {
            fn put(&self, out: &mut Vec<u8>) {
                let $type { $($field),* } = self;
                $($field $(. $number)?.put(out);)*
            }
        }
    )*};
}

fields! {
    Verdict { number, place }
    Words { words, count }
    Listing { verdict, list }
    Header { extended, count, id, power_role, revision, data_role, message_type }
    Message { header, words }
    MessageReading { verdict, message }
    Written { verdict, length }
    Lent { bytes, length }
    Profile { max.0, present.0, cable.0, rounding, pps, flags }
    Profiled { verdict, profile }
    Row { max.0, pps, cable.0, present.0, held.0 }
    RemainingPower { verdict, power.0 }
    FlatObject {
        kind, flags, peak, limited, volts.0, max.0, min.0, power.0, current.0, max100.0, min100.0, current50.0, low.0, high.0
    }
    FlatObjects { places, count }
    FlatReading { verdict, list }
    Summary { count, rows }
    Summarized { verdict, summary }
    FlatRequest { kind, position, mismatch, operating.0, maximum.0, volts20.0, volts25.0, current50.0 }
    FlatTaken { verdict, request }
}

impl<A: Bytes, const N: usize> Bytes for [A; N] {
    fn put(&self, out: &mut Vec<u8>) {
        self.iter().for_each(|a| a.put(out));
    }
}

impl<A: Bytes, B: Bytes> Bytes for (A, B) {
    fn put(&self, out: &mut Vec<u8>) {
        self.0.put(out);
        self.1.put(out);
    }
}

impl Bytes for Turn {
    fn put(&self, out: &mut Vec<u8>) {
        self.rows.put(out);
        (self.count as u8).put(out);
        self.capacity.put(out);
        self.port.put(out);
        self.cable.put(out);
        self.word.put(out);
    }
}

/// All inputs of all calls, and all answers. Each call has its seeded inputs behind their number, and then its hardest behind theirs.
#[derive(Default)]
pub struct Streams {
    pub inputs: Vec<u8>,
    pub answers: Vec<u8>,
}

impl Streams {
    fn add<A: Bytes, R: Bytes>(&mut self, seeded: Vec<A>, hardest: Vec<A>, call: impl Fn(&A) -> R) {
        for inputs in [seeded, hardest] {
            (inputs.len() as u16).put(&mut self.inputs);
            for input in inputs {
                input.put(&mut self.inputs);
                call(&input).put(&mut self.answers);
            }
        }
    }

    fn add_port_call<R: Bytes>(
        &mut self,
        seeded: Vec<Turn>,
        hardest: Vec<Turn>,
        call: impl Fn(&mut [Row], &Turn) -> R,
    ) {
        self.add(seeded, hardest, |turn| {
            let mut rows = turn.rows;
            let answer = call(&mut rows[..turn.count], turn);
            (answer, rows)
        });
    }
}

/// In the order in which the program on the board has the calls.
pub fn of_all_calls() -> Streams {
    use hardest::{with_all_ports_in_use as full, with_seven_ports_in_use as one_free};
    let mut all = Streams::default();
    all.add(inputs::maxima(), vec![0, 1, 200, u16::MAX], |m| {
        library::default_profile(*m)
    });
    all.add(inputs::profiles(), hardest::profiles(), |p| {
        library::build(*p)
    });
    all.add(lists::checks(), hardest::checks(), |(p, l)| {
        library::check(*p, *l)
    });
    all.add(lists::lists(), hardest::lists(), |l| library::shape(*l));
    all.add(lists::lists(), hardest::lists(), |l| library::flat_read(*l));
    all.add(lists::flat_lists(), hardest::flat_lists(), |l| {
        library::flat_write(*l)
    });
    all.add(objects::answers(), hardest::answers(), |(l, w)| {
        library::answer(*l, *w)
    });
    all.add(lists::lists(), hardest::lists(), |l| library::summarize(*l));
    all.add(objects::answers(), hardest::answers(), |(l, w)| {
        library::flat_take_request(*l, *w)
    });
    all.add(
        summaries::flat_answers(),
        hardest::flat_summary_answers(),
        |(s, r)| library::flat_answer_summary(*s, *r),
    );
    all.add(sinks::lists(), hardest::sink_lists(), |l| {
        library::sink_shape(*l)
    });
    all.add(sinks::lists(), hardest::sink_lists(), |l| {
        library::sink_flat_read(*l)
    });
    all.add(sinks::flat_lists(), hardest::sink_flat_lists(), |l| {
        library::sink_flat_write(*l)
    });
    all.add(sinks::checks(), hardest::sink_checks(), |(r, l)| {
        library::sink_check(*r, *l)
    });
    all.add(messages::bytes(), hardest::bytes(), |b| {
        library::read_message(b.first())
    });
    all.add(messages::bytes(), hardest::bytes(), |b| {
        library::take_message(b.first())
    });
    all.add(messages::messages(), hardest::messages(), |(m, room)| {
        let mut buffer = [0xAA; ROOM];
        let written = library::write_message(&mut buffer[..usize::from(*room)], *m);
        (written, buffer)
    });
    all.add_port_call(tables::fresh(), full(), |rows, t| {
        library::set_up(rows, t.capacity)
    });
    all.add_port_call(tables::with_an_empty_port(), one_free(), |rows, t| {
        library::attach(rows, t.capacity, t.port, t.cable)
    });
    all.add_port_call(tables::with_a_port_in_use(), full(), |rows, t| {
        library::advertise(rows, t.capacity, t.port)
    });
    all.add_port_call(tables::with_a_port_in_use(), full(), |rows, t| {
        library::request(rows, t.capacity, t.port, t.word)
    });
    all.add_port_call(tables::with_a_port_in_use(), full(), |rows, t| {
        library::detach(rows, t.capacity, t.port)
    });
    all.add_port_call(tables::any(), full(), |rows, t| {
        library::remaining(rows, t.capacity)
    });
    all
}
