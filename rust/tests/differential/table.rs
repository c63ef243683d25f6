//! One table of rows, twice: the library writes one copy and the model the other. Each call goes to both, by value and over the lent
//! rows, and every answer and every row is compared.

use crate::common::by_value;
use crate::common::convert::{ToLibrary, ToModel};
use crate::common::run::Run;
use arinduleu::steps::{HalfWatts, Ma10};
use arinduleu::{board, ports};
use model::{Listing, RemainingPower, Row, Verdict};
use std::fmt::Debug;

pub struct Table {
    /// One row more than the model has: past the count lies what must not be looked at.
    library: Vec<ports::Row>,
    model: Vec<Row>,
}

impl Table {
    pub fn new(rows: Vec<Row>) -> Table {
        let past = [ports::NO_ROW];
        Table {
            library: rows.iter().map(|r| r.library()).chain(past).collect(),
            model: rows,
        }
    }

    pub fn rows(&self) -> &[Row] {
        &self.model
    }

    pub fn set(&mut self, at: usize, row: Row) {
        self.library[at] = row.library();
        self.model[at] = row;
    }

    pub fn set_up(&mut self, run: &mut Run, capacity: u16) -> Verdict {
        let input = (self.before(run), capacity);
        let answer = model::set_up(&mut self.model, capacity);
        let standing = self.stand(capacity, true);
        let value = (standing.fault.model(), ports::all_or_none(standing));
        let emptied = match answer.number {
            0 => self.model.len(),
            _ => 0,
        };
        run.same("set-up by value", &input, value, (answer, emptied));
        let lent = board::arin_set_up(self.lent(), capacity).model();
        run.same("arin_set_up", &input, lent, answer);
        self.rows_same(run, "arin_set_up", &input);
        run.saw(answer.number);
        answer
    }

    pub fn attach(&mut self, run: &mut Run, capacity: u16, port: u8, cable: u16) -> Listing {
        let input = (self.before(run), capacity, port, cable);
        let answer = model::attach(&mut self.model, capacity, port, cable);
        let (standing, own) = self.own(capacity, port);
        let change = ports::attach(standing, own, HalfWatts(capacity), port, Ma10(cable));
        self.change_same(run, "ports::attach", &input, change, answer.verdict, port);
        let value = ports::offer(change).model();
        run.same("the offer of attach", &input, value, answer);
        let lent = board::arin_attach(self.lent(), capacity, port, cable).model();
        run.same("arin_attach", &input, lent, answer);
        self.rows_same(run, "arin_attach", &input);
        run.saw(answer.verdict.number);
        answer
    }

    pub fn advertise(&mut self, run: &mut Run, capacity: u16, port: u8) -> Listing {
        let input = (self.before(run), capacity, port);
        let answer = model::advertise(&mut self.model, capacity, port);
        let (standing, own) = self.own(capacity, port);
        let change = ports::advertise(standing, own, HalfWatts(capacity), port);
        self.change_same(
            run,
            "ports::advertise",
            &input,
            change,
            answer.verdict,
            port,
        );
        let value = ports::offer(change).model();
        run.same("the offer of advertise", &input, value, answer);
        let lent = board::arin_advertise(self.lent(), capacity, port).model();
        run.same("arin_advertise", &input, lent, answer);
        self.rows_same(run, "arin_advertise", &input);
        run.saw(answer.verdict.number);
        answer
    }

    pub fn request(&mut self, run: &mut Run, capacity: u16, port: u8, word: u32) -> Verdict {
        let input = (self.before(run), capacity, port, word);
        let answer = model::request(&mut self.model, capacity, port, word);
        let (standing, own) = self.own(capacity, port);
        let change = ports::request(standing, own, HalfWatts(capacity), port, word);
        self.change_same(run, "ports::request", &input, change, answer, port);
        let lent = board::arin_request(self.lent(), capacity, port, word).model();
        run.same("arin_request", &input, lent, answer);
        self.rows_same(run, "arin_request", &input);
        run.saw(answer.number);
        answer
    }

    pub fn detach(&mut self, run: &mut Run, capacity: u16, port: u8) -> Verdict {
        let input = (self.before(run), capacity, port);
        let answer = model::detach(&mut self.model, capacity, port);
        let (standing, own) = self.own(capacity, port);
        let change = ports::detach(standing, own, HalfWatts(capacity), port);
        self.change_same(run, "ports::detach", &input, change, answer, port);
        let lent = board::arin_detach(self.lent(), capacity, port).model();
        run.same("arin_detach", &input, lent, answer);
        self.rows_same(run, "arin_detach", &input);
        run.saw(answer.number);
        answer
    }

    pub fn remaining(&mut self, run: &mut Run, capacity: u16) -> RemainingPower {
        let input = (self.before(run), capacity);
        let answer = model::remaining(&self.model, capacity);
        let standing = self.stand(capacity, false);
        let value = ports::remaining(standing, HalfWatts(capacity)).model();
        run.same("ports::remaining", &input, value, answer);
        let lent = board::arin_remaining(self.lent(), capacity).model();
        run.same("arin_remaining", &input, lent, answer);
        self.rows_same(run, "arin_remaining", &input);
        run.saw(answer.verdict.number);
        answer
    }

    /// All rows of the library, as they are before a call. What lies past the count is something else each time.
    fn before(&mut self, run: &mut Run) -> Vec<ports::Row> {
        let past = Row {
            max: run.random.u16(),
            pps: 1,
            cable: 300,
            present: 15,
            held: run.random.u16(),
        };
        let count = self.model.len();
        self.library[count] = past.library();
        self.library.clone()
    }

    fn lent(&mut self) -> &mut [ports::Row] {
        let count = self.model.len();
        &mut self.library[..count]
    }

    /// By value: how the rows stand.
    fn stand(&self, capacity: u16, fresh: bool) -> ports::Standing {
        by_value::stand(&self.library, self.model.len(), capacity, fresh)
    }

    /// .. and the row of a port.
    fn own(&self, capacity: u16, port: u8) -> (ports::Standing, ports::Row) {
        let standing = self.stand(capacity, false);
        let own = by_value::row_of(&self.library, self.model.len(), standing, port);
        (standing, own)
    }

    fn rows_same(&self, run: &mut Run, call: &str, input: &dyn Debug) {
        assert_eq!(self.library.len(), self.model.len() + 1);
        for (at, (library, model)) in self.library.iter().zip(&self.model).enumerate() {
            if library.model() != *model {
                let row = format!("row {} after {call}", at + 1);
                run.same(&row, input, library.model(), *model);
            }
        }
    }

    fn change_same(
        &self,
        run: &mut Run,
        call: &str,
        input: &dyn Debug,
        change: ports::Change,
        answer: Verdict,
        port: u8,
    ) {
        let library = (change.answer.model(), change.at, change.row.model());
        let (at, row) = self.written(answer, port);
        run.same(call, input, library, (answer, at, row));
    }

    /// The place and the row that a call by value gives back to be written, once the model has written its own. On a refusal the place is
    /// no row's.
    fn written(&self, answer: Verdict, port: u8) -> (usize, Row) {
        if answer.number == 0 {
            let at = usize::from(port) - 1;
            (at, self.model[at])
        } else {
            (self.model.len(), Row::default())
        }
    }
}
