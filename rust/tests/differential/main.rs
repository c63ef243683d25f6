//! Every public call of the library against the model, on random inputs that reach deep. `../common/mod.rs` tells how to run it.

#[path = "../common/mod.rs"]
mod common;

mod by_value_stated;
mod changes;
mod lists;
mod lists_made;
mod messages;
mod messages_made;
mod names;
mod objects_made;
mod ports;
mod profiles;
mod requests;
mod requests_made;
mod rows_made;
mod rules;
mod sink_words;
mod sinks;
mod sinks_made;
mod standings;
mod standings_made;
mod steps;
mod summaries;
mod summaries_made;
mod table;
mod words;

/// Each part holds its own numbers to have come up; together they are all those of the statement that a call can give. 9 is a program's.
#[test]
fn every_number_of_the_statement_belongs_to_a_part() {
    let mut all: Vec<u8> = [
        lists::NUMBERS,
        rules::NUMBERS,
        requests::NUMBERS,
        summaries::NUMBERS,
        messages::NUMBERS,
        sinks::NUMBERS,
        ports::NUMBERS,
    ]
    .concat();
    all.sort();
    all.dedup();
    let stated: Vec<u8> = (0..=7)
        .chain(10..=20)
        .chain(22..=25)
        .chain(30..=37)
        .chain(40..=43)
        .chain(51..=53)
        .collect();
    assert_eq!(all, stated);
}
