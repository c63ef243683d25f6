//! What each sharing call decides by value, of a standing and a row that can be anything. Those of a caller's own rows are in `ports`.

use crate::common::convert::{ToLibrary, ToModel};
use crate::common::run::Run;
use crate::{by_value_stated as stated, profiles, requests_made, standings_made};
use arinduleu::ports::{self, Change, Standing};
use arinduleu::steps::{HalfWatts, Ma10};
use model::{Row, Verdict};

const STAYS: &str = "a refusal that stays";
const ZERO_WITH_A_PLACE: &str = "accepted, number 0 with a place";
const PAST_16_BITS: &str = "accepted, more is left than 16 bits hold";
const PAST_EIGHT: &str = "accepted, past the eighth row";
const NO_LIST: &str = "accepted, a row that has no list";

/// What a call is given. None takes all of it.
#[derive(Clone, Copy, Debug)]
struct Given {
    standing: Standing,
    row: Row,
    capacity: u16,
    port: u8,
    cable: u16,
    word: u32,
}

impl Given {
    fn any(run: &mut Run) -> Given {
        let random = &mut run.random;
        let capacity = standings_made::capacity(random);
        let standing = standings_made::standing(random, capacity);
        let row = standings_made::row(random);
        Given {
            standing,
            row,
            capacity,
            port: standings_made::port(random, standing.count),
            cable: profiles::any_cable(random),
            word: requests_made::any(random, &stated::rule_list(row)),
        }
    }

    fn watts(&self) -> HalfWatts {
        HalfWatts(self.capacity)
    }
}

fn compare(
    call: &'static str,
    numbers: &[u8],
    library: impl Fn(Given, ports::Row) -> Change,
    stated: impl Fn(Given) -> Change,
) {
    let mut run = Run::new(call);
    while run.going() {
        let given = Given::any(&mut run);
        let change = stated(given);
        run.same(call, &given, library(given, given.row.library()), change);
        note(&mut run, given, change);
    }
    let cases = [STAYS, ZERO_WITH_A_PLACE, PAST_16_BITS, PAST_EIGHT];
    run.finish(numbers, &cases);
}

fn note(run: &mut Run, given: Given, change: Change) {
    let Given {
        standing,
        row,
        capacity,
        port,
        ..
    } = given;
    if standing.fault.number != 0 {
        run.reached(STAYS);
        return;
    }
    run.saw(change.answer.number);
    if change.answer.number != 0 {
        return;
    }
    if standing.fault.place != 0 {
        run.reached(ZERO_WITH_A_PLACE);
    }
    if stated::left(standing, row, capacity) > u32::from(u16::MAX) {
        run.reached(PAST_16_BITS);
    }
    if port > 8 {
        run.reached(PAST_EIGHT);
    }
}

#[test]
fn attach_by_value() {
    compare(
        "attach",
        &[0, 3, 33, 34, 37],
        |g, row| ports::attach(g.standing, row, g.watts(), g.port, Ma10(g.cable)),
        |g| stated::attach(g.standing, g.row, g.capacity, g.port, g.cable),
    );
}

#[test]
fn advertise_by_value() {
    compare(
        "advertise",
        &[0, 33, 35, 37],
        |g, row| ports::advertise(g.standing, row, g.watts(), g.port),
        |g| stated::advertise(g.standing, g.row, g.capacity, g.port),
    );
}

/// A row that has no list gets 10: the list is empty.
#[test]
fn request_by_value() {
    compare(
        "request",
        &[0, 10, 20, 22, 23, 24, 25, 33, 35, 36, 37],
        |g, row| ports::request(g.standing, row, g.watts(), g.port, g.word),
        |g| stated::request(g.standing, g.row, g.capacity, g.port, g.word),
    );
}

#[test]
fn detach_by_value() {
    compare(
        "detach",
        &[0, 33, 35, 37],
        |g, row| ports::detach(g.standing, row, g.watts(), g.port),
        |g| stated::detach(g.standing, g.row, g.capacity, g.port),
    );
}

/// Of changes that a call has decided, and of any other.
#[test]
fn offers_of_any_change() {
    let mut run = Run::new("offers");
    while run.going() {
        let given = Given::any(&mut run);
        let Given { standing, row, .. } = given;
        let change = match run.random.below(3) {
            0 => stated::attach(standing, row, given.capacity, given.port, given.cable),
            1 => stated::advertise(standing, row, given.capacity, given.port),
            _ => Change {
                answer: standing.fault,
                at: standing.count,
                row: row.library(),
            },
        };
        let offer = stated::offer(change);
        run.same("offer", &change, ports::offer(change).model(), offer);
        match (change.answer.model(), offer.verdict) {
            (Verdict { number: 1.., .. }, _) => run.reached(STAYS),
            (_, Verdict { number: 0, .. }) => run.reached("a list"),
            (_, _) => run.reached(NO_LIST),
        }
    }
    run.finish(&[], &[STAYS, "a list", NO_LIST]);
}
