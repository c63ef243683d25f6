//! Whole messages (T-02): the table of the header, the length, the order of refusals, and both ways
//! round. Bytes and headers are worked by hand or by division, not by shifts as in the model.

mod by_hand;
mod seeded;

use super::*;

/// 5, 9, 15 and 20 V, AVS, 9 V Prog and 15 V Prog. Each start of it is a list with its shape.
const LIST: [u32; 7] =
    [0x0001_912C, 0x0002_D12C, 0x0004_B0F0, 0x0006_40B4, 0xE003_C0B4, 0xC8DC_323C, 0xC940_3230];

#[rustfmt::skip]
const LIST_BYTES: [u8; 28] = [
    0x2C, 0x91, 0x01, 0x00,
    0x2C, 0xD1, 0x02, 0x00,
    0xF0, 0xB0, 0x04, 0x00,
    0xB4, 0x40, 0x06, 0x00,
    0xB4, 0xC0, 0x03, 0xE0,
    0x3C, 0x32, 0xDC, 0xC8,
    0x30, 0x32, 0x40, 0xC9,
];

/// The largest buffer of these tests but one.
const ROOM: usize = 40;

/// A Source_Capabilities of one word and a Request, with all that is carried zero.
const CAPABILITIES: Header = Header {
    extended: 0,
    count: 1,
    id: 0,
    power_role: 0,
    revision: 0,
    data_role: 0,
    message_type: 1,
};
const REQUEST: Header = Header { message_type: 2, ..CAPABILITIES };

/// The table of the header, by division.
fn numbers(bits: u16) -> Header {
    let field = |lowest, numbers| (bits / lowest % numbers) as u8;
    Header {
        extended: field(32768, 2),
        count: field(4096, 8),
        id: field(512, 8),
        power_role: field(256, 2),
        revision: field(64, 4),
        data_role: field(32, 2),
        message_type: field(1, 32),
    }
}

/// The header and then as many bytes of `LIST_BYTES` as there is room for, zeros after them.
fn bytes_with(bits: u16) -> [u8; ROOM] {
    let mut bytes = [0; ROOM];
    bytes[0] = (bits % 256) as u8;
    bytes[1] = (bits / 256) as u8;
    bytes[2..30].copy_from_slice(&LIST_BYTES);
    bytes
}

fn length(count: u8) -> usize {
    [2, 6, 10, 14, 18, 22, 26, 30][usize::from(count)]
}

/// "the words past it [...] are zero where a message is given back".
fn cut(message: Message) -> Message {
    let count = usize::from(message.header.count);
    let words = core::array::from_fn(|at| if at < count { message.words[at] } else { 0 });
    Message { words, ..message }
}

fn given(header: Header, words: &[u32]) -> Message {
    Message { header, words: list_of(words).words }
}

fn refused(number: u8, place: u8) -> MessageReading {
    MessageReading { verdict: said(number, place), message: Message::default() }
}

fn accepted(message: Message) -> MessageReading {
    MessageReading { verdict: said(0, 0), message: cut(message) }
}

/// Writes twice, over two kinds of bytes. "The bytes of the buffer past that are as they were; on a
/// refusal every byte is, and the length is 0."
fn wrote(room: usize, message: &Message) -> (Written, [u8; ROOM]) {
    let [first, second] = [0xAA, 0x55].map(|fill| {
        let mut buffer = [fill; ROOM];
        let written = write_message(&mut buffer[..room], message);
        let length = usize::from(written.length);
        assert!(buffer[length..].iter().all(|&byte| byte == fill), "{message:?}");
        assert!(written.verdict == said(0, 0) || length == 0, "{message:?}");
        buffer[length..].fill(0);
        (written, buffer)
    });
    assert_eq!(first, second);
    first
}

fn not_written(number: u8, place: u8, room: usize, message: &Message) {
    let expected = Written { verdict: said(number, place), length: 0 };
    assert_eq!(wrote(room, message).0, expected, "{message:?}");
}

/// These bytes are read and taken apart as this message, and it is written as these bytes, into
/// just enough room and into more.
fn both_ways(bytes: &[u8], message: Message) {
    assert_eq!(read_message(bytes), accepted(message), "{bytes:02X?}");
    assert_eq!(take_message(bytes), accepted(message), "{bytes:02X?}");
    for room in [bytes.len(), bytes.len() + 1, ROOM] {
        let (written, buffer) = wrote(room, &message);
        assert_eq!(written, Written { verdict: said(0, 0), length: bytes.len() as u8 });
        assert_eq!(&buffer[..bytes.len()], bytes, "{message:?}");
    }
}

impl Seeded {
    /// A header that is accepted, but for the list.
    fn header(&mut self) -> Header {
        let message_type = 1 + self.below(2) as u8;
        let count = if message_type == 2 { 1 } else { self.below(8) as u8 };
        Header { extended: 0, count, message_type, ..numbers(self.next() as u16) }
    }

    /// `LIST`, often with a word that is another one or has a bit flipped.
    fn words(&mut self) -> [u32; 7] {
        let mut words = LIST;
        let at = self.below(7) as usize;
        match self.below(4) {
            0 => words[at] ^= 1 << self.below(32),
            1 => words[at] = LIST[self.below(7) as usize],
            2 => words[at] = self.next(),
            _ => {}
        }
        words
    }
}
