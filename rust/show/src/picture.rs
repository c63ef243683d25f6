//! Volts across and amperes up, in plain ASCII. A fixed supply is the number of its place; the others are lines.

use std::fmt::Write;

use crate::figures;
use crate::supplies::{Kind, Limit, Range, Supply, AVS_TURN};

/// Where the picture ends, and where it begins unless something lies below: whole volts.
const LEFT: u32 = 5;
const RIGHT: u32 = 21;
const MOST_COLUMNS: u32 = 64;

/// What a row may stand for, in milliamperes. The first is taken with which the picture stays small.
const ROW_STEPS: [u32; 4] = [100, 250, 500, 1000];
const MOST_ROWS: u32 = 13;

/// Drawn in this order, so that what comes later is seen where two meet.
const LINES: [(Kind, char); 4] =
    [(Kind::Pps, '~'), (Kind::Battery, 'b'), (Kind::Variable, 'v'), (Kind::Avs, '=')];

struct Picture {
    left: u32,
    columns_per_volt: u32,
    row_step: u32,
    /// Whether something lies above the picture.
    left_out: bool,
    /// From 0 A upwards.
    rows: Vec<Vec<char>>,
}

pub fn picture(supplies: &[Supply]) -> String {
    let mut picture = empty(supplies);
    for (kind, mark) in LINES {
        for supply in supplies.iter().filter(|supply| supply.kind == kind) {
            supply.ranges.iter().for_each(|range| picture.draw(range, mark));
            if kind == Kind::Avs {
                picture.join_at_15_v(&supply.ranges);
            }
        }
    }
    for (at, supply) in supplies.iter().enumerate() {
        if supply.kind == Kind::Fixed {
            picture.draw(&supply.ranges[0], char::from(b'1' + at as u8));
        }
    }
    picture.text() + &legend(supplies) + &picture.nearest()
}

fn empty(supplies: &[Supply]) -> Picture {
    let ranges = || supplies.iter().flat_map(|supply| &supply.ranges);
    let left = ranges().map(|range| range.from / 1000).fold(LEFT, u32::min);
    let columns_per_volt = MOST_COLUMNS / (RIGHT - left);
    // A battery's amperes at its lowest volts may be past any picture, and are then left out.
    let most = ranges()
        .map(|range| milliamperes(range, range.from))
        .max()
        .unwrap_or(0)
        .min(ROW_STEPS[3] * MOST_ROWS);
    let row_step =
        ROW_STEPS.into_iter().find(|step| most <= step * MOST_ROWS).unwrap_or(ROW_STEPS[3]);
    let rows = most.div_ceil(row_step).clamp(1, MOST_ROWS);
    let columns = (RIGHT - left) * columns_per_volt;
    Picture {
        left,
        columns_per_volt,
        row_step,
        left_out: false,
        rows: vec![vec![' '; columns as usize + 1]; rows as usize + 1],
    }
}

fn milliamperes(range: &Range, mv: u32) -> u32 {
    match range.limit {
        Limit::Milliamperes(ma) => ma,
        Limit::Milliwatts(mw) => (1000 * mw).checked_div(mv).unwrap_or(u32::MAX),
    }
}

impl Picture {
    /// The nearest column, and the other way.
    fn column(&self, mv: u32) -> u32 {
        ((mv - 1000 * self.left) * self.columns_per_volt + 500) / 1000
    }

    fn millivolts(&self, column: u32) -> u32 {
        1000 * self.left + 1000 * column / self.columns_per_volt
    }

    fn row(&self, ma: u32) -> u32 {
        ma / self.row_step + (ma % self.row_step + self.row_step / 2) / self.row_step
    }

    fn put(&mut self, row: u32, column: u32, mark: char) {
        match self.rows.get_mut(row as usize) {
            Some(row) => row[column as usize] = mark,
            None => self.left_out = true,
        }
    }

    fn draw(&mut self, range: &Range, mark: char) {
        for column in self.column(range.from)..=self.column(range.to) {
            self.put(self.row(milliamperes(range, self.millivolts(column))), column, mark);
        }
    }

    /// The step between the two currents of AVS.
    fn join_at_15_v(&mut self, ranges: &[Range]) {
        if let [first, second] = ranges {
            let ends = [first, second].map(|range| self.row(milliamperes(range, AVS_TURN)));
            for row in ends[0].min(ends[1]) + 1..ends[0].max(ends[1]) {
                self.put(row, self.column(AVS_TURN), '|');
            }
        }
    }

    fn nearest(&self) -> String {
        let step = figures::amperes(self.row_step);
        let mut text = format!("  (each at the nearest 1/{} V and {step})\n", self.columns_per_volt);
        if self.left_out {
            text.push_str("  (what lies above the picture is not drawn)\n");
        }
        text
    }

    fn text(&self) -> String {
        let mut text = String::new();
        for (row, marks) in self.rows.iter().enumerate().rev() {
            let marks: String = marks.iter().collect();
            let line = format!("{:>7} |{marks}", figures::amperes(row as u32 * self.row_step));
            writeln!(text, "{}", line.trim_end()).unwrap();
        }
        let (mut axis, mut volts) = (String::new(), String::new());
        let width = self.columns_per_volt as usize;
        for volt in self.left..RIGHT {
            write!(axis, "+{}", "-".repeat(width - 1)).unwrap();
            write!(volts, "{volt:<width$}").unwrap();
        }
        write!(text, "         {axis}+\n         {volts}{RIGHT} V\n").unwrap();
        text
    }
}

fn legend(supplies: &[Supply]) -> String {
    let places = |kind: Kind| {
        let at = supplies.iter().enumerate().filter(|(_, supply)| supply.kind == kind);
        at.map(|(at, _)| (at + 1).to_string()).collect::<Vec<_>>().join(" ")
    };
    let mut parts = vec![format!("{} fixed", places(Kind::Fixed))];
    for (kind, mark) in LINES.into_iter().rev() {
        let at = places(kind);
        if !at.is_empty() {
            parts.push(format!("{} {} ({at})", mark.to_string().repeat(3), kind.name()));
        }
    }
    format!("\n  {}\n", parts.join("   "))
}
