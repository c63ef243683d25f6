//! The sharing calls of `tests/cases` once more: by value and over lent rows, with something past the count, where the
//! console shows nothing.

use crate::sharing::{by_value, lent, places, row, Answer, Call};
use arinduleu::ports::Row;
use std::fs::{read_dir, read_to_string};

/// The lines of `tests/cases` that call the sharing calls, with `PAST` in every place past the count.
#[test]
fn what_lies_past_a_count_is_not_looked_at_and_not_written() {
    let mut calls = 0;
    for file in read_dir(concat!(env!("CARGO_MANIFEST_DIR"), "/../tests/cases")).unwrap() {
        let path = file.unwrap().path();
        let text = read_to_string(&path).unwrap();
        let mut rows = Vec::new();
        for (at, line) in text.lines().enumerate() {
            let place = format!("{}:{}: {line}", path.display(), at + 1);
            let Some((asked, said)) = line.split_once(" -> ") else {
                continue;
            };
            let fields: Vec<&str> = asked.split(' ').collect();
            let answer: Vec<&str> = said.split(' ').collect();
            match (fields[0], answer[0]) {
                (_, "?") => {}
                ("rows", _) => rows = rows_of(&fields[1..]),
                ("table", _) => assert_eq!(rows, rows_of(&answer[2..]), "{place}"),
                _ => {
                    if let Some((capacity, call)) = call_of(&fields) {
                        rows = expect(&place, &rows, capacity, call, said);
                        calls += 1;
                    }
                }
            }
        }
    }
    assert!(calls > 0);
}

/// By value, and over the first rows of a longer table. Gives the rows afterwards.
fn expect(place: &str, rows: &[Row], capacity: u16, call: Call, said: &str) -> Vec<Row> {
    let count = rows.len();
    let (answer, after) = by_value(places(rows), count, capacity, call);
    assert_eq!(told(call, &answer), said, "{place}");
    let listed = usize::from(answer.list.count);
    assert_eq!(answer.list.words[listed..], [0; 7][listed..], "{place}");
    assert_eq!(after[count..], places(&[])[count..], "{place}");
    let mut all = places(rows);
    let lent = lent(&mut all[..count], capacity, call);
    assert_eq!((lent, all), (answer, after), "{place}, lent");
    after[..count].to_vec()
}

fn rows_of(fields: &[&str]) -> Vec<Row> {
    let figures: Vec<u16> = fields.iter().map(|f| f.parse().unwrap()).collect();
    let row = |r: &[u16]| row(r[0], r[1] as u8, r[2], r[3], r[4]);
    figures.chunks(5).map(row).collect()
}

fn call_of(fields: &[&str]) -> Option<(u16, Call)> {
    let figure = |at: usize| fields[at].parse::<u16>().unwrap();
    let byte = |at: usize| fields[at].parse::<u8>().unwrap();
    let call = match fields[0] {
        "setup" => Call::SetUp,
        "attach" => Call::Attach(byte(2), figure(3)),
        "advertise" => Call::Advertise(byte(2)),
        "request" => Call::Request(byte(2), u32::from_str_radix(fields[3], 16).unwrap()),
        "detach" => Call::Detach(byte(2)),
        "remaining" => Call::Remaining,
        _ => return None,
    };
    Some((figure(1), call))
}

fn told(call: Call, answer: &Answer) -> String {
    let Answer {
        verdict,
        list,
        power,
    } = answer;
    let mut told = format!("{} {}", verdict.number, verdict.place);
    match call {
        Call::Attach(..) | Call::Advertise(_) => {
            told += &format!(" {}", list.count);
            for word in &list.words[..usize::from(list.count)] {
                told += &format!(" {word:08X}");
            }
        }
        Call::Remaining => told += &format!(" {power}"),
        _ => {}
    }
    told
}
