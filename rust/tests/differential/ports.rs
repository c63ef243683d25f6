//! Long runs of sharing calls on the same rows.

use crate::by_value_stated::{asked, rule_list};
use crate::common::convert::{ToLibrary, ToModel};
use crate::common::run::Run;
use crate::table::Table;
use crate::{profiles, requests, requests_made, rows_made};
use model::{Listing, Row, Words};

pub const NUMBERS: &[u8] = &[
    0, 3, 4, 20, 22, 23, 24, 25, 30, 31, 32, 33, 34, 35, 36, 37,
];

const BELOW_15: &str = "less than 7.5 W asked, 15 held";
const CUT: &str = "PPS cut to P";
const LESS_THAN_M: &str = "a list for less than M";
const LATER_ROW: &str = "37 behind the first row";
const SUM_ALONE: &str = "37 by the sum alone";

#[test]
fn long_runs_on_the_same_rows() {
    let mut run = Run::new("ports");
    while run.going() {
        let mut charger = Charger::new(&mut run);
        charger.run(&mut run);
    }
    let own = [BELOW_15, CUT, LESS_THAN_M, LATER_ROW, SUM_ALONE];
    let accepted = requests::CASES
        .into_iter()
        .filter(|c| !["battery", "variable"].contains(c));
    run.finish(NUMBERS, &accepted.chain(own).collect::<Vec<_>>());
}

#[test]
fn a_row_is_emptied() {
    let mut run = Run::new("emptied");
    while run.going() {
        let row = rows_made::stray(&mut run.random);
        let empty = Row {
            cable: 0,
            present: 0,
            held: 15,
            ..row
        };
        let library = arinduleu::ports::emptied(row.library()).model();
        run.same("emptied", &row, library, empty);
    }
    run.finish(&[], &[]);
}

/// The rows, and what each port was offered last.
struct Charger {
    capacity: u16,
    table: Table,
    lists: Vec<Words>,
}

impl Charger {
    fn new(run: &mut Run) -> Charger {
        let rows = rows_made::lent(&mut run.random);
        Charger {
            capacity: rows_made::capacity(&mut run.random, &rows),
            lists: vec![Words::default(); rows.len()],
            table: Table::new(rows),
        }
    }

    fn run(&mut self, run: &mut Run) {
        let ready = self.table.set_up(run, self.capacity).number == 0;
        // Rows that cannot be set up give 30, 32 or 37 for ever.
        let calls = if ready {
            run.random.pick(&[30, 30, 30, 300, 300, 5000])
        } else {
            10
        };
        for _ in 0..calls {
            if !self.lists.is_empty() && run.random.one_in(40) {
                self.calls_on_damage(run);
            } else {
                self.any_call(run);
            }
        }
    }

    fn any_call(&mut self, run: &mut Run) {
        let capacity = rows_made::other_capacity(&mut run.random, self.lists.len(), self.capacity);
        let port = rows_made::port(&mut run.random, self.lists.len());
        match run.random.below(256) {
            0..48 => {
                let cable = profiles::any_cable(&mut run.random);
                let given = self.table.attach(run, capacity, port, cable);
                self.keep(run, port, given);
            }
            48..88 => {
                let given = self.table.advertise(run, capacity, port);
                self.keep(run, port, given);
            }
            88..216 => self.request(run, capacity, port),
            216..232 => {
                self.table.detach(run, capacity, port);
            }
            232..255 => {
                let verdict = self.table.remaining(run, capacity).verdict;
                match (verdict.number, verdict.place) {
                    (37, 0) => run.reached(SUM_ALONE),
                    (37, 2..) => run.reached(LATER_ROW),
                    _ => {}
                }
            }
            _ => {
                self.table.set_up(run, capacity);
            }
        }
    }

    /// The next requests of a port are aimed at the list that it was given last.
    fn keep(&mut self, run: &mut Run, port: u8, given: Listing) {
        if given.verdict.number == 0 {
            let at = usize::from(port) - 1;
            self.lists[at] = given.list;
            let row = self.table.rows()[at];
            if row.present < row.max {
                run.reached(LESS_THAN_M);
            }
        }
    }

    fn request(&mut self, run: &mut Run, capacity: u16, port: u8) {
        let at = usize::from(port).wrapping_sub(1);
        let aim = self.lists.get(at).copied().unwrap_or_default();
        let word = requests_made::any(&mut run.random, &aim);
        if self.table.request(run, capacity, port, word).number == 0 {
            let row = self.table.rows()[at];
            let list = rule_list(row);
            run.reached(requests::accepted(&list, word));
            match asked(&list, word).1 {
                0..15 => run.reached(BELOW_15),
                asked if asked > u32::from(row.present) => run.reached(CUT),
                _ => {}
            }
        }
    }

    /// A few calls on rows of which one or two are damaged, then the rows as they were.
    fn calls_on_damage(&mut self, run: &mut Run) {
        let before = self.table.rows().to_vec();
        for _ in 0..run.random.pick(&[1, 1, 2]) {
            let at = run.random.below(before.len());
            let row = rows_made::damaged(&mut run.random, before[at]);
            self.table.set(at, row);
        }
        for _ in 0..run.random.pick(&[1, 2, 4]) {
            self.any_call(run);
        }
        if run.random.one_in(4) {
            self.table.set_up(run, self.capacity);
        }
        for (at, row) in before.into_iter().enumerate() {
            self.table.set(at, row);
        }
    }
}
