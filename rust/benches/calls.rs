//! Each public call of the library against the plain model's, in time and in instructions.
//!
//! `cargo bench --offline` prints the table of times, and one of answers from a summary against answers from the list; a word behind `--`
//! selects calls by name. `--list`, `--list-ways` and `--count` are for `tools/instructions.sh`, `--bytes` for the tools for boards.

#[path = "calls/bytes.rs"]
mod bytes;
#[path = "calls/hardest.rs"]
mod hardest;
#[path = "calls/inputs.rs"]
mod inputs;
#[path = "calls/lists.rs"]
mod lists;
#[path = "calls/measure.rs"]
mod measure;
#[path = "calls/messages.rs"]
mod messages;
#[path = "calls/objects.rs"]
mod objects;
#[path = "calls/rows.rs"]
mod rows;
#[path = "calls/sinks.rs"]
mod sinks;
#[path = "calls/summaries.rs"]
mod summaries;
#[path = "calls/tables.rs"]
mod tables;
#[path = "calls/translate.rs"]
mod translate;
#[path = "calls/ways.rs"]
mod ways;
#[path = "calls/wrappers.rs"]
mod wrappers;

use measure::{Row, Timed};
use std::process::exit;

fn main() {
    let words: Vec<String> = std::env::args()
        .skip(1)
        .filter(|word| word != "--bench")
        .collect();
    let words: Vec<&str> = words.iter().map(String::as_str).collect();
    match words[..] {
        [] => tables(""),
        ["--list"] => list(&rows::all()),
        ["--list-ways"] => list(&ways::all()),
        ["--count", name, side, passes] => count(name, side, passes),
        ["--bytes", inputs, answers] => write_bytes(inputs, answers),
        [word] if !word.starts_with('-') => tables(word),
        _ => usage(),
    }
}

fn usage() -> ! {
    eprintln!(
        "usage: calls [WORD] | --list | --list-ways | --count NAME library|model PASSES | --bytes INPUTS ANSWERS"
    );
    exit(2)
}

fn list(rows: &[Row]) {
    rows.iter().for_each(|row| println!("{}", row.name));
}

fn tables(word: &str) {
    let named = |mut rows: Vec<Row>| {
        rows.retain(|row| row.name.contains(word));
        rows
    };
    let (calls, two_ways) = (named(rows::all()), named(ways::all()));
    if calls.is_empty() && two_ways.is_empty() {
        eprintln!("calls: no call has '{word}' in its name");
        exit(2);
    }
    if !calls.is_empty() {
        against_the_model(&calls);
    }
    if !two_ways.is_empty() {
        from_a_summary(&two_ways);
    }
}

fn timed(row: &Row, other: &str) -> Timed {
    let call = (row.make)();
    if let Some(at) = (call.differs)() {
        eprintln!("calls: {} and {other} differ on input {at}", row.name);
        exit(1);
    }
    measure::time(&call)
}

fn against_the_model(rows: &[Row]) {
    println!("| call | calls timed | library, ns | model, ns | library / model |");
    println!("|---|--:|--:|--:|--:|");
    let mut within = 0;
    let mut counted = 0;
    let mut worst = ("", 0.0);
    for row in rows {
        let timed = timed(row, "the model");
        let ratio = timed.library / timed.model;
        println!(
            "| {} | {} | {:.2} | {:.2} | {ratio:.2} |",
            row.name, timed.calls, timed.library, timed.model
        );
        if row.is_call() {
            counted += 1;
            within += usize::from(ratio <= 1.10);
            if ratio > worst.1 {
                worst = (row.name, ratio);
            }
        }
    }
    println!();
    println!(
        "{within} of {counted} calls are within 1.10 of the model; the worst ratio is {:.2} ({}).",
        worst.1, worst.0
    );
    println!();
}

/// The loop is in these times too: it is the first row of the other table.
fn from_a_summary(rows: &[Row]) {
    println!("| answered by | answers timed | from the summary, ns | from the list, ns | summary / list |");
    println!("|---|--:|--:|--:|--:|");
    for row in rows {
        let timed = timed(row, "the answer from the list");
        let ratio = timed.library / timed.model;
        println!(
            "| {} | {} | {:.2} | {:.2} | {ratio:.3} |",
            row.name, timed.calls, timed.library, timed.model
        );
    }
}

/// Runs one side alone, and says how often: the rest of the program costs the same whatever the passes.
fn count(name: &str, side: &str, passes: &str) {
    let mut rows = rows::all();
    rows.extend(ways::all());
    let (Some(row), Ok(passes)) = (
        rows.iter().find(|row| row.name == name),
        passes.parse::<usize>(),
    ) else {
        usage()
    };
    let call = (row.make)();
    let run = match side {
        "library" => &call.library,
        "model" => &call.model,
        _ => usage(),
    };
    for _ in 0..passes {
        run();
    }
    println!("{}", call.inputs * passes);
}

fn write_bytes(inputs: &str, answers: &str) {
    let all = bytes::of_all_calls();
    for (file, bytes) in [(inputs, all.inputs), (answers, all.answers)] {
        if let Err(error) = std::fs::write(file, bytes) {
            eprintln!("calls: {file}: {error}");
            exit(1);
        }
    }
}
