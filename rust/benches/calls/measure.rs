//! How a call is measured: the same inputs on both sides, in rounds by turns.

use crate::inputs::Turn;
use crate::messages::ROOM;
use crate::translate::{Plain, PlainTurn};
use arinduleu::messages::{Message, Written};
use arinduleu::ports::Row as PortRow;
use arinduleu::verdicts::Verdict;
use std::hint::black_box;
use std::time::{Duration, Instant};

/// What a round takes at least: far above the grain of the clock, and short enough that both sides meet the same machine.
const ROUND: Duration = Duration::from_millis(1);
const ROUNDS: usize = 101;

pub struct Row {
    pub name: &'static str,
    pub make: fn() -> Call,
}

impl Row {
    /// A name in brackets is a cost of the measurement itself.
    pub fn is_call(&self) -> bool {
        !self.name.starts_with('(')
    }
}

/// Both sides of a call, each over all inputs once.
pub struct Call {
    pub inputs: usize,
    pub library: Box<dyn Fn()>,
    pub model: Box<dyn Fn()>,
    /// The first input on which the two sides differ.
    pub differs: Box<dyn Fn() -> Option<usize>>,
}

/// The argument is hidden behind a reference, so that neither side pays for a copy that its call does not ask for.
fn over<A, R>(inputs: &[A], call: impl Fn(&A) -> R) {
    for input in inputs {
        black_box(&call(black_box(input)));
    }
}

pub fn call<A, R>(
    inputs: Vec<A>,
    library: impl Fn(&A) -> R + Copy + 'static,
    model: impl Fn(&A::Model) -> R::Model + Copy + 'static,
) -> Call
where
    A: Plain + 'static,
    R: Plain,
    A::Model: 'static,
    R::Model: PartialEq,
{
    let plain: Vec<A::Model> = inputs.iter().map(Plain::plain).collect();
    let (ours, theirs) = (inputs.clone(), plain.clone());
    Call {
        inputs: inputs.len(),
        library: Box::new(move || over(&inputs, library)),
        model: Box::new(move || over(&plain, model)),
        differs: Box::new(move || {
            let mut pairs = ours.iter().zip(&theirs);
            pairs.position(|(a, b)| library(a).plain() != model(b))
        }),
    }
}

/// Two ways of the library to one answer. The first stands on its side, the second on the model's.
pub fn two_ways<A: Clone + 'static>(
    inputs: Vec<A>,
    one: impl Fn(&A) -> Verdict + Copy + 'static,
    other: impl Fn(&A) -> Verdict + Copy + 'static,
) -> Call {
    let (first, second, both) = (inputs.clone(), inputs.clone(), inputs);
    Call {
        inputs: both.len(),
        library: Box::new(move || over(&first, one)),
        model: Box::new(move || over(&second, other)),
        differs: Box::new(move || both.iter().position(|a| one(a) != other(a))),
    }
}

/// A call over lent rows has rows to write to, copied anew from the prepared table each time: 90 bytes on either side.
fn over_rows<T, P: Copy, R>(
    turns: &[T],
    rows_of: impl Fn(&T) -> ([P; 9], usize),
    call: impl Fn(&mut [P], &T) -> R,
) {
    for turn in turns {
        let turn = black_box(turn);
        let (mut rows, count) = rows_of(turn);
        black_box(&call(&mut rows[..count], turn));
        black_box(&rows);
    }
}

pub fn port_call<R>(
    turns: Vec<Turn>,
    library: impl Fn(&mut [PortRow], &Turn) -> R + Copy + 'static,
    model: impl Fn(&mut [model::Row], &PlainTurn) -> R::Model + Copy + 'static,
) -> Call
where
    R: Plain,
    R::Model: PartialEq,
{
    let plain: Vec<PlainTurn> = turns.iter().map(Plain::plain).collect();
    let (ours, theirs) = (turns.clone(), plain.clone());
    Call {
        inputs: turns.len(),
        library: Box::new(move || over_rows(&turns, |t| (t.rows, t.count), library)),
        model: Box::new(move || over_rows(&plain, |t| (t.rows, t.count), model)),
        differs: Box::new(move || {
            let mut pairs = ours.iter().zip(&theirs);
            pairs.position(|(a, b)| {
                let (mut own, mut other) = (a.rows, b.rows);
                let answer = library(&mut own[..a.count], a).plain();
                answer != model(&mut other[..b.count], b) || own.plain() != other
            })
        }),
    }
}

/// A call that writes a message has one buffer for all of them: what stands in it does not matter.
fn over_buffer<M, R>(messages: &[(M, u8)], call: impl Fn(&mut [u8], &M) -> R) {
    let mut buffer = [0; ROOM];
    for input in messages {
        let (message, room) = black_box(input);
        let lent = &mut buffer[..usize::from(*room)];
        black_box(&call(lent, message));
        black_box(&buffer);
    }
}

pub fn writing_call(
    messages: Vec<(Message, u8)>,
    library: impl Fn(&mut [u8], &Message) -> Written + Copy + 'static,
    model: impl Fn(&mut [u8], &model::Message) -> model::Written + Copy + 'static,
) -> Call {
    let plain: Vec<(model::Message, u8)> = messages.iter().map(Plain::plain).collect();
    let (ours, theirs) = (messages.clone(), plain.clone());
    Call {
        inputs: messages.len(),
        library: Box::new(move || over_buffer(&messages, library)),
        model: Box::new(move || over_buffer(&plain, model)),
        differs: Box::new(move || {
            let mut pairs = ours.iter().zip(&theirs);
            pairs.position(|((a, room), (b, _))| {
                let (mut own, mut other) = ([0xAA; ROOM], [0xAA; ROOM]);
                let lent = usize::from(*room);
                let answer = library(&mut own[..lent], a).plain();
                answer != model(&mut other[..lent], b) || own != other
            })
        }),
    }
}

pub struct Timed {
    /// On each side.
    pub calls: usize,
    pub library: f64,
    pub model: f64,
}

fn once(run: &dyn Fn(), passes: usize) -> Duration {
    let start = Instant::now();
    for _ in 0..passes {
        run();
    }
    start.elapsed()
}

/// Doubled until a round is long enough; the passes made here warm both sides up.
fn passes_for(call: &Call) -> usize {
    let mut passes = 1;
    while once(&call.library, passes).min(once(&call.model, passes)) < ROUND {
        passes *= 2;
    }
    passes
}

/// The least of many rounds: whatever else the machine does only ever adds.
pub fn time(call: &Call) -> Timed {
    let passes = passes_for(call);
    let mut least = [Duration::MAX; 2];
    let sides = [&call.library, &call.model];
    for round in 0..ROUNDS {
        for turn in 0..2 {
            let side = (round + turn) % 2;
            least[side] = least[side].min(once(sides[side], passes));
        }
    }
    let each = (call.inputs * passes) as f64;
    Timed {
        calls: call.inputs * passes * ROUNDS,
        library: least[0].as_nanos() as f64 / each,
        model: least[1].as_nanos() as f64 / each,
    }
}
