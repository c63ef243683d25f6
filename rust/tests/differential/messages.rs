//! Whole messages: read, taken apart and written, under both names of each call, and there and back.

use crate::common::convert::{ToLibrary, ToModel};
use crate::common::run::Run;
use crate::messages_made;
use arinduleu::messages::{read_message, take_message, write_message};
use arinduleu::{board, messages, verdicts};
use model::{Header, Message, Words};

pub const NUMBERS: &[u8] = &[0, 10, 11, 12, 13, 14, 15, 16, 17, 40, 41, 42, 51, 52, 53];

const READ: &[u8] = &[0, 10, 11, 12, 13, 14, 15, 16, 17, 40, 41, 42, 53];
const TAKEN: &[u8] = &[0, 40, 41, 42, 53];
const WRITTEN: &[u8] = &[0, 10, 11, 12, 13, 14, 15, 16, 17, 41, 42, 51, 52, 53];

const REQUEST: &str = "accepted, a Request";
const LISTS: [&str; 8] = [
    "accepted, a list of no word",
    "accepted, a list of one word",
    "accepted, a list of two words",
    "accepted, a list of three words",
    "accepted, a list of four words",
    "accepted, a list of five words",
    "accepted, a list of six words",
    "accepted, a list of seven words",
];

const LENGTH_IN_8_BITS: &str = "a number of bytes that is right in 8 bits";
const ROOM_IN_8_BITS: &str = "accepted, a buffer that is too short in 8 bits";

/// The number that is given, and one that applies too and comes later. 10 stands for all those of the shape.
const BOTH: [(u8, u8, &str); 16] = [
    (40, 42, "40 before 42"),
    (40, 41, "40 before 41"),
    (40, 53, "40 before 53"),
    (40, 10, "40 before the shape"),
    (51, 42, "51 before 42"),
    (51, 41, "51 before 41"),
    (51, 53, "51 before 53"),
    (51, 52, "51 before 52"),
    (51, 10, "51 before the shape"),
    (42, 41, "42 before 41"),
    (42, 53, "42 before 53"),
    (42, 52, "42 before 52"),
    (42, 10, "42 before the shape"),
    (41, 52, "41 before 52"),
    (53, 52, "53 before 52"),
    (52, 10, "52 before the shape"),
];

/// Those of a call that can give both numbers.
fn both_of(numbers: &[u8]) -> Vec<&'static str> {
    let own = BOTH
        .iter()
        .filter(|b| numbers.contains(&b.0) && numbers.contains(&b.1));
    own.map(|b| b.2).collect()
}

/// Whether this refusal applies to a message, be another before it or not.
fn applies(number: u8, message: &Message, room: usize) -> bool {
    let Header {
        extended,
        count,
        message_type,
        ..
    } = message.header;
    let list = Words {
        words: message.words,
        count,
    };
    match number {
        42 => extended != 0,
        41 => message_type != 1 && message_type != 2,
        53 => message_type == 2 && count != 1,
        52 => room < 2 + 4 * usize::from(count),
        _ => message_type == 1 && model::shape(&list).number != 0,
    }
}

fn note(run: &mut Run, number: u8, message: &Message, room: usize) {
    run.saw(number);
    if number == 0 {
        run.reached(match message.header.message_type {
            1 => LISTS[usize::from(message.header.count)],
            _ => REQUEST,
        });
    }
    for (given, other, case) in BOTH {
        if number == given && applies(other, message, room) {
            run.reached(case);
        }
    }
}

type Reader = fn(&[u8]) -> messages::MessageReading;

fn compare(
    part: &'static str,
    numbers: &[u8],
    lists: &[&'static str],
    library: [(&str, Reader); 2],
    stated: fn(&[u8]) -> model::MessageReading,
) {
    let mut run = Run::new(part);
    while run.going() {
        let bytes = messages_made::any_bytes(&mut run.random);
        let reading = stated(&bytes);
        for (name, call) in library {
            run.same(name, &bytes, call(&bytes).model(), reading);
        }
        let number = reading.verdict.number;
        match messages_made::looked_at(&bytes) {
            Some(message) => {
                note(&mut run, number, &message, usize::MAX);
                let right = 2 + 4 * usize::from(message.header.count);
                if bytes.len() == right + 256 {
                    run.reached(LENGTH_IN_8_BITS);
                }
            }
            None => {
                run.saw(number);
                run.reached("no header");
            }
        }
    }
    let others = [REQUEST, LENGTH_IN_8_BITS, "no header"];
    run.finish(numbers, &[lists, &others, &both_of(numbers)].concat());
}

#[test]
fn messages_read() {
    compare(
        "messages read",
        READ,
        &LISTS[1..],
        [
            ("read_message", read_message),
            ("arin_read_message", board::arin_read_message),
        ],
        model::read_message,
    );
}

/// A list of no word is taken apart as it stands.
#[test]
fn messages_taken_apart() {
    compare(
        "messages taken apart",
        TAKEN,
        &LISTS,
        [
            ("take_message", take_message),
            ("arin_take_message", board::arin_take_message),
        ],
        model::take_message,
    );
}

type Writer = fn(&mut [u8], messages::Message) -> messages::Written;

const WRITERS: [(&str, Writer); 2] = [
    ("write_message", write_message),
    ("arin_write_message", board::arin_write_message),
];

/// The answer, and every byte of the buffer afterwards.
#[test]
fn messages_written() {
    let mut run = Run::new("messages written");
    while run.going() {
        let message = messages_made::any(&mut run.random);
        let room = messages_made::room(&mut run.random, &message);
        let before = messages_made::noise(&mut run.random, room);
        let mut stated = before.clone();
        let written = model::write_message(&mut stated, &message);
        for (name, call) in WRITERS {
            let mut buffer = before.clone();
            let answer = call(&mut buffer, message.library()).model();
            let given = (message, &before);
            run.same(name, &given, (answer, &buffer), (written, &stated));
        }
        note(&mut run, written.verdict.number, &message, room);
        if room > 255 && room % 256 < usize::from(written.length) {
            run.reached(ROOM_IN_8_BITS);
        }
    }
    let others = [REQUEST, ROOM_IN_8_BITS];
    run.finish(WRITTEN, &[&LISTS[1..], &others, &both_of(WRITTEN)].concat());
}

const NOT_WRITTEN: &str = "refused in writing";
const NOT_TAKEN: &str = "refused in taking apart";
const TAKEN_ALONE: &str = "taken apart, refused in reading and in writing";

/// "Reading what was written gives the same header and the same words up to the count." The library alone.
#[test]
fn what_was_written_is_read() {
    let mut run = Run::new("written, then read");
    while run.going() {
        let given = messages_made::any(&mut run.random);
        let room = messages_made::room(&mut run.random, &given);
        let before = messages_made::noise(&mut run.random, room);
        let mut after = before.clone();
        let written = write_message(&mut after, given.library());
        let length = usize::from(written.length);
        let past = (&after[length..], &before[length..]);
        run.same("the bytes past the length", &given, past.0, past.1);
        if written.verdict.number != verdicts::SUCCESS {
            run.same("the length", &given, length, 0);
            run.reached(NOT_WRITTEN);
            continue;
        }
        let mut same = given.library();
        same.words[usize::from(same.header.count)..].fill(0);
        let reading = messages::MessageReading {
            verdict: written.verdict,
            message: same,
        };
        let bytes = &after[..length];
        run.same("read", &given, read_message(bytes), reading);
        run.same("taken apart", &given, take_message(bytes), reading);
        run.reached("read again");
    }
    run.finish(&[], &[NOT_WRITTEN, "read again"]);
}

/// "Writing what was read gives the same bytes, whatever stood in the buffer, where there is room for them." The library alone.
#[test]
fn what_was_read_is_written() {
    let mut run = Run::new("read, then written");
    while run.going() {
        let bytes = messages_made::any_bytes(&mut run.random);
        let (read, taken) = (read_message(&bytes), take_message(&bytes));
        if taken.verdict.number != verdicts::SUCCESS {
            run.same("read", &bytes, read, taken);
            run.reached(NOT_TAKEN);
            continue;
        }
        let past = run.random.pick(&[0, 0, 1, 4, 40]);
        let mut after = messages_made::noise(&mut run.random, bytes.len() + past);
        let mut same = after.clone();
        let written = write_message(&mut after, taken.message);
        run.same("the verdict", &bytes, written.verdict, read.verdict);
        if read.verdict.number == verdicts::SUCCESS {
            run.same("taken apart", &bytes, taken, read);
            run.same("length", &bytes, usize::from(written.length), bytes.len());
            same[..bytes.len()].copy_from_slice(&bytes);
            run.reached("written again");
        } else {
            run.reached(TAKEN_ALONE);
        }
        run.same("the buffer", &bytes, after, same);
    }
    run.finish(&[], &[NOT_TAKEN, TAKEN_ALONE, "written again"]);
}
