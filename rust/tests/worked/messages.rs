//! Messages: the whole answer in all seven places, what lies past the count and past the bytes that are lent, and more bytes than a line of
//! the console has.

use arinduleu::board;
use arinduleu::messages::{read_message, take_message, write_message};
use arinduleu::messages::{Header, Message, MessageReading, Written, NO_MESSAGE};
use arinduleu::verdicts::Verdict;

/// Extended, count, id, power role, revision, data role, type.
type Fields = [u8; 7];

/// These words first, and behind them this one.
fn message(fields: Fields, first: &[u32], past: u32) -> Message {
    let [extended, count, id, power_role, revision, data_role, message_type] = fields;
    let mut words = [past; 7];
    words[..first.len()].copy_from_slice(first);
    Message {
        header: Header {
            extended,
            count,
            id,
            power_role,
            revision,
            data_role,
            message_type,
        },
        words,
    }
}

fn reading(number: u8, place: u8, message: Message) -> MessageReading {
    let verdict = Verdict { number, place };
    MessageReading { verdict, message }
}

/// By both names of each call.
fn expect_reading(name: &str, bytes: &[u8], read: MessageReading, taken: MessageReading) {
    assert_eq!(read_message(bytes), read, "read_message: {name}");
    assert_eq!(board::arin_read_message(bytes), read, "arin: {name}");
    assert_eq!(take_message(bytes), taken, "take_message: {name}");
    assert_eq!(board::arin_take_message(bytes), taken, "arin: {name}");
}

/// By both names of the call, into the first bytes of a longer buffer, whatever stands in it.
fn expect_writing(name: &str, given: Message, room: usize, verdict: Verdict, bytes: &[u8]) {
    for fill in [0x00, 0xAA, 0xFF] {
        let mut after = vec![fill; room + 8];
        after[..bytes.len()].copy_from_slice(bytes);
        let length = bytes.len() as u8;
        let answer = Written { verdict, length };
        for call in [write_message, board::arin_write_message] {
            let mut buffer = vec![fill; room + 8];
            let written = call(&mut buffer[..room], given);
            assert_eq!(written, answer, "{name}, room {room}");
            assert_eq!(buffer, after, "{name}, room {room}, on {fill:02X}");
        }
    }
}

const SUCCESS: Verdict = Verdict {
    number: 0,
    place: 0,
};

const BYTES_36_W: [u8; 26] = [
    0xA1, 0x61, 0x2C, 0x91, 0x01, 0x00, 0x2C, 0xD1, 0x02, 0x00, 0xF0, 0xB0, 0x04, 0x00, 0x00, 0xC0,
    0x03, 0xE0, 0x3C, 0x32, 0xDC, 0xC8, 0x30, 0x32, 0x40, 0xC9,
];
const WORDS_36_W: [u32; 6] = [
    0x0001912C, 0x0002D12C, 0x0004B0F0, 0xE003C000, 0xC8DC323C, 0xC9403230,
];

/// 45.5 W with PPS: fixed 5, 9 and 15 V at 3 A, 20 V at 2.27 A; AVS; PPS to 16 V at 3 A and to 21 V at 2.25 A.
const BYTES_OF_SEVEN: [u8; 30] = [
    0xA1, 0x71, 0x2C, 0x91, 0x01, 0x00, 0x2C, 0xD1, 0x02, 0x00, 0x2C, 0xB1, 0x04, 0x00, 0xE3, 0x40,
    0x06, 0x00, 0xE3, 0xB0, 0x04, 0xE0, 0x3C, 0x32, 0x40, 0xC9, 0x2D, 0x32, 0xA4, 0xC9,
];
const WORDS_OF_SEVEN: [u32; 7] = [
    0x0001912C, 0x0002D12C, 0x0004B12C, 0x000640E3, 0xE004B0E3, 0xC940323C, 0xC9A4322D,
];

/// Name, bytes, and the message that they are.
type Good = (&'static str, &'static [u8], Fields, &'static [u32]);

#[rustfmt::skip]
const GOOD: [Good; 7] = [
    ("the 36 W list", &BYTES_36_W, [0, 6, 0, 1, 2, 1, 1], &WORDS_36_W),
    ("20 V at 3.25 A", &[0x82, 0x12, 0x45, 0x15, 0x05, 0x40], [0, 1, 1, 0, 2, 0, 2], &[0x40051545]),
    ("seven words", &BYTES_OF_SEVEN, [0, 7, 0, 1, 2, 1, 1], &WORDS_OF_SEVEN),
    ("5 V alone", &[0xA1, 0x11, 0x2C, 0x91, 0x01, 0x00], [0, 1, 0, 1, 2, 1, 1], &[0x0001912C]),
    // Bits 11..5 of the header set, then clear.
    ("all that is carried is set", &[0xE2, 0x1F, 0x45, 0x15, 0x05, 0x40], [0, 1, 7, 1, 3, 1, 2], &[0x40051545]),
    ("nothing that is carried is set", &[0x01, 0x10, 0x2C, 0x91, 0x01, 0x00], [0, 1, 0, 0, 0, 0, 1], &[0x0001912C]),
    // Position 15 and every figure at its most: no list has that, and no list is there.
    ("the word of a Request is not judged", &[0x02, 0x10, 0xFF, 0xFF, 0xFF, 0xFF], [0, 1, 0, 0, 0, 0, 2], &[0xFFFFFFFF]),
];

/// What lies past the count is zero in what is read, and not read in what is written.
#[test]
fn messages_read_and_written() {
    for (name, bytes, fields, words) in GOOD {
        let good = reading(0, 0, message(fields, words, 0));
        expect_reading(name, bytes, good, good);
        for past in [0, !0] {
            for room in [bytes.len(), 30, 31, 255, 256, 65536] {
                expect_writing(name, message(fields, words, past), room, SUCCESS, bytes);
            }
        }
    }
}

/// Every number of bytes but its own is refused, and every buffer that is shorter. In 8 or 16 bits the last two would be none more.
#[test]
fn lengths_and_rooms() {
    let short = Verdict {
        number: 52,
        place: 0,
    };
    for (name, bytes, fields, words) in GOOD {
        let mut many = vec![0; bytes.len() + 65536];
        many[..bytes.len()].copy_from_slice(bytes);
        let n = bytes.len();
        for length in (0..=40).chain([n + 256, n + 65536]).filter(|l| *l != n) {
            let refused = reading(40, 0, NO_MESSAGE);
            expect_reading(name, &many[..length], refused, refused);
        }
        for room in 0..n {
            expect_writing(name, message(fields, words, 0), room, short, &[]);
        }
    }
}

/// Name, bytes and number. All are without a place.
type Refused = (&'static str, &'static [u8], u8);

#[rustfmt::skip]
const REFUSED: [Refused; 18] = [
    ("no byte", &[], 40),
    ("one byte", &[0x82], 40),
    ("a header that says one word, and none there", &[0x82, 0x12], 40),
    ("a header that says none, and a word there", &[0x82, 0x02, 0x45, 0x15, 0x05, 0x40], 40),
    ("extended and too short: 40 before 42", &[0x82, 0x92, 0x45, 0x15, 0x05], 40),
    ("type 3 and too long: 40 before 41", &[0x83, 0x02, 0x00], 40),
    ("extended", &[0x82, 0x92, 0x45, 0x15, 0x05, 0x40], 42),
    ("extended, a good list", &[0xA1, 0x91, 0x2C, 0x91, 0x01, 0x00], 42),
    ("extended of type 3: 42 before 41", &[0x83, 0x82], 42),
    ("extended Request of no word: 42 before 53", &[0x82, 0x82], 42),
    ("extended list of no word: 42 before 10", &[0xA1, 0x81], 42),
    ("type 0", &[0x80, 0x12, 0x2C, 0x91, 0x01, 0x00], 41),
    ("type 3 of no word, which is Accept", &[0x83, 0x02], 41),
    // In four bits they would be types 1 and 2.
    ("type 17", &[0x91, 0x12, 0x2C, 0x91, 0x01, 0x00], 41),
    ("type 18", &[0x92, 0x12, 0x2C, 0x91, 0x01, 0x00], 41),
    ("type 31", &[0x9F, 0x12, 0x2C, 0x91, 0x01, 0x00], 41),
    ("Request of no word", &[0x82, 0x02], 53),
    ("Request of two words", &[0x82, 0x22, 0x45, 0x15, 0x05, 0x40, 0x45, 0x15, 0x05, 0x40], 53),
];

#[test]
fn bytes_refused_in_order() {
    for (name, bytes, number) in REFUSED {
        let refused = reading(number, 0, NO_MESSAGE);
        expect_reading(name, bytes, refused, refused);
    }
}

/// Name, the words of a Source_Capabilities, number and place.
type List = (&'static str, &'static [u32], u8, u8);

#[rustfmt::skip]
const LISTS: [List; 9] = [
    // In USB PD this is a GoodCRC; here "the type field alone tells".
    ("no word gets 10", &[], 10, 0),
    ("first 9 V gets 11", &[0x0002D12C, 0x0001912C], 11, 1),
    ("second of kind 1101b gets 12 at 2", &[0x0001912C, 0xD0000000], 12, 2),
    ("second with bit 22 gets 13 at 2", &[0x0001912C, 0x0042D12C], 13, 2),
    ("fixed falling gets 14 at 3", &[0x0001912C, 0x0004B0F0, 0x0002D12C], 14, 3),
    ("20.05 V gets 15 at 2", &[0x0001912C, 0x00064464], 15, 2),
    ("20 V at 5.01 A gets 16 at 2", &[0x0001912C, 0x000641F5], 16, 2),
    ("AVS with no 15 V gets 17 at 2", &[0x0001912C, 0xE003C000], 17, 2),
    ("seven, the last of kind 1111b, get 12 at 7",
        &[0x0001912C, 0x0002D12C, 0x0004B12C, 0x000640E3, 0xE004B0E3, 0xC940323C, 0xF0000000], 12, 7),
];

/// A list whose shape fails is refused in reading, with its place; taken apart it is as it stands. A buffer that is too short comes before.
#[test]
fn lists_refused() {
    for (name, words, number, place) in LISTS {
        let count = words.len() as u8;
        let mut bytes = vec![0xA1, 0x01 | count << 4];
        bytes.extend(words.iter().flat_map(|w| w.to_le_bytes()));
        let taken = message([0, count, 0, 1, 2, 1, 1], words, 0);
        let read = reading(number, place, NO_MESSAGE);
        expect_reading(name, &bytes, read, reading(0, 0, taken));
        let refused = Verdict { number, place };
        expect_writing(name, taken, bytes.len(), refused, &[]);
        let short = Verdict {
            number: 52,
            place: 0,
        };
        expect_writing(name, taken, bytes.len() - 1, short, &[]);
    }
}

/// Name, the fields, the room and the number. The word is good as a request, and no list.
type Unwritten = (&'static str, Fields, usize, u8);

#[rustfmt::skip]
const UNWRITTEN: [Unwritten; 26] = [
    ("extended: 1 fits, 2 does not", [2, 1, 1, 0, 2, 0, 2], 6, 51),
    ("count: 7 fits, 8 does not", [0, 8, 1, 0, 2, 0, 2], 40, 51),
    ("id: 7 fits, 8 does not", [0, 1, 8, 0, 2, 0, 2], 6, 51),
    ("power role: 1 fits, 2 does not", [0, 1, 1, 2, 2, 0, 2], 6, 51),
    ("revision: 3 fits, 4 does not", [0, 1, 1, 0, 4, 0, 2], 6, 51),
    ("data role: 1 fits, 2 does not", [0, 1, 1, 0, 2, 2, 2], 6, 51),
    ("type: 31 fits, 32 does not", [0, 1, 1, 0, 2, 0, 32], 6, 51),
    ("extended 255", [255, 1, 1, 0, 2, 0, 2], 6, 51),
    ("count 255", [0, 255, 1, 0, 2, 0, 2], 2000, 51),
    ("a list of 8 words: 51 before 10", [0, 8, 1, 0, 2, 0, 1], 40, 51),
    ("id 8, extended: 51 before 42", [1, 1, 8, 0, 2, 0, 2], 6, 51),
    ("id 8, type 3: 51 before 41", [0, 1, 8, 0, 2, 0, 3], 6, 51),
    ("id 8, two words: 51 before 53", [0, 2, 8, 0, 2, 0, 2], 10, 51),
    ("id 8, no room: 51 before 52", [0, 1, 8, 0, 2, 0, 2], 0, 51),
    ("extended", [1, 1, 1, 0, 2, 0, 2], 6, 42),
    ("extended, type 31: 42 before 41", [1, 1, 1, 0, 2, 0, 31], 6, 42),
    ("extended, two words: 42 before 53", [1, 2, 1, 0, 2, 0, 2], 10, 42),
    ("extended, no room: 42 before 52", [1, 1, 1, 0, 2, 0, 2], 0, 42),
    ("type 0", [0, 1, 1, 0, 2, 0, 0], 6, 41),
    ("type 3", [0, 1, 1, 0, 2, 0, 3], 6, 41),
    ("type 31, no room: 41 before 52", [0, 1, 1, 0, 2, 0, 31], 0, 41),
    ("Request of no word", [0, 0, 1, 0, 2, 0, 2], 6, 53),
    ("Request of seven words", [0, 7, 1, 0, 2, 0, 2], 30, 53),
    ("Request of two words, no room: 53 before 52", [0, 2, 1, 0, 2, 0, 2], 0, 53),
    ("no room", [0, 1, 1, 0, 2, 0, 2], 0, 52),
    ("a bad list in a short buffer: 52 before 11", [0, 1, 1, 0, 2, 0, 1], 5, 52),
];

#[test]
fn messages_refused_in_order() {
    for (name, fields, room, number) in UNWRITTEN {
        let given = message(fields, &[0x40051545], 0x40051545);
        let refused = Verdict { number, place: 0 };
        expect_writing(name, given, room, refused, &[]);
    }
}

/// What was read goes to the writer, and what was written to the reader.
#[test]
fn there_and_back() {
    for (name, bytes, fields, words) in GOOD {
        let mut buffer = [0xAA; 30];
        let written = write_message(&mut buffer, take_message(bytes).message);
        let length = usize::from(written.length);
        assert_eq!(&buffer[..length], bytes, "{name}");
        let read = read_message(&buffer[..length]);
        assert_eq!(read.message, message(fields, words, 0), "{name}");
    }
}
