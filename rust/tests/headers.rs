//! Messages of every header, as bytes and in hand, and every figure of every field.

mod common;

use arinduleu::messages::{read_message, take_message, write_message};
use common::convert::{ToLibrary, ToModel};
use model::{Header, Message, Profile};

/// 45.5 W with PPS: seven words, and as many of the first of them as one likes are a list.
fn seven_words() -> [u32; 7] {
    let default = model::default_profile(91).profile;
    let built = model::build(&Profile { pps: 1, ..default }).list;
    assert_eq!(built.count, 7);
    built.words
}

/// How often each number came up.
struct Tally([u64; 256]);

const NONE: Tally = Tally([0; 256]);

impl Tally {
    fn saw(&mut self, number: u8) {
        self.0[usize::from(number)] += 1;
    }

    fn seen(&self) -> Vec<(u8, u64)> {
        let all = (0..=255).map(|n| (n, self.0[usize::from(n)]));
        all.filter(|s| s.1 > 0).collect()
    }
}

/// Taken apart and read, and what is accepted is written again.
fn message_of(bytes: &[u8]) -> u8 {
    let library = read_message(bytes).model();
    assert_eq!(library, model::read_message(bytes), "read {bytes:x?}");
    let taken = take_message(bytes);
    let model = model::take_message(bytes);
    assert_eq!(taken.model(), model, "taken apart {bytes:x?}");
    if library.verdict.number == 0 {
        let mut buffer = [0xAA; 30];
        let written = write_message(&mut buffer, taken.message);
        assert_eq!(usize::from(written.length), bytes.len(), "{bytes:x?}");
        assert_eq!(&buffer[..bytes.len()], bytes);
    }
    model.verdict.number
}

/// Of two bytes, of as many as its count makes, and of one more and one fewer.
#[test]
fn every_header_of_a_message() {
    let words = seven_words().map(u32::to_le_bytes).concat();
    let (mut alone, mut whole, mut beside) = (NONE, NONE, NONE);
    for half in 0..=u16::MAX {
        let length = 2 + 4 * usize::from(half >> 12 & 7);
        let bytes = [&half.to_le_bytes(), &words[..], &[0]].concat();
        alone.saw(message_of(&bytes[..2]));
        whole.saw(message_of(&bytes[..length]));
        beside.saw(message_of(&bytes[..length - 1]));
        beside.saw(message_of(&bytes[..length + 1]));
    }
    // 128 headers have one count and one type and are not extended; 30 types are not handled.
    let (one, all) = (128, 65536);
    assert_eq!(
        alone.seen(),
        [
            (0, one),
            (40, all / 8 * 7),
            (41, 30 * one),
            (42, all / 16),
            (53, one)
        ]
    );
    assert_eq!(
        whole.seen(),
        [
            (0, 9 * one),
            (41, 8 * 30 * one),
            (42, all / 2),
            (53, 7 * one)
        ]
    );
    assert_eq!(beside.seen(), [(40, 2 * all)]);
}

/// The library's answer and its buffer against the model's, in buffers of no byte, of one too few, of just enough and of more.
fn written(message: Message) -> u8 {
    let length = 2 + 4 * usize::from(message.header.count);
    let mut number = 0;
    for room in [0, length - 1, length, length + 9] {
        let mut library = vec![0xAA; room];
        let mut model = library.clone();
        let answer = write_message(&mut library, message.library()).model();
        let stated = model::write_message(&mut model, &message);
        assert_eq!(answer, stated, "written {message:x?}, room {room}");
        assert_eq!(library, model, "written {message:x?}, room {room}");
        number = stated.verdict.number;
    }
    number
}

/// All that fit their bits.
#[test]
fn every_header_in_hand() {
    let words = seven_words();
    let mut seen = NONE;
    for half in 0..=u16::MAX {
        let header = Header {
            extended: (half & 1) as u8,
            count: (half >> 1 & 7) as u8,
            id: (half >> 4 & 7) as u8,
            power_role: (half >> 7 & 1) as u8,
            revision: (half >> 8 & 3) as u8,
            data_role: (half >> 10 & 1) as u8,
            message_type: (half >> 11) as u8,
        };
        seen.saw(written(Message { header, words }));
    }
    // As above; a list of no word is refused.
    let one = 128;
    assert_eq!(
        seen.seen(),
        [
            (0, 8 * one),
            (10, one),
            (41, 8 * 30 * one),
            (42, 32768),
            (53, 7 * one)
        ]
    );
}

/// Each field in turn is all that 8 bits hold, in a good message of either type.
#[test]
fn every_figure_of_every_field() {
    let words = seven_words();
    let mut seen = NONE;
    for message_type in [1, 2] {
        for figure in 0..=u8::MAX {
            let good = Header {
                count: 1,
                message_type,
                ..Header::default()
            };
            let mut headers = [good; 7];
            headers[0].extended = figure;
            headers[1].count = figure;
            headers[2].id = figure;
            headers[3].power_role = figure;
            headers[4].revision = figure;
            headers[5].data_role = figure;
            headers[6].message_type = figure;
            for header in headers {
                seen.saw(written(Message { header, words }));
            }
        }
    }
    // Fitting: 2 and 8 and 8 and 2 and 4 and 2 and 32 figures, for either type.
    let fitting = 2 * 58;
    assert_eq!(seen.0[51], 2 * 7 * 256 - fitting);
    assert_eq!(
        [0, 10, 41, 42, 53].map(|n| seen.0[n]).iter().sum::<u64>(),
        fitting
    );
}
