//! Messages that are accepted, and messages with damage, in hand and as bytes. Random bytes nearly always have a wrong number of bytes and
//! show nothing.

use crate::common::random::Random;
use crate::{lists_made, objects_made};
use model::{Header, Message, Words};

/// How wide each field of a header is, and its lowest bit: extended, count, id, power role, revision, data role, type.
const FIELDS: [(u32, u32); 7] = [(1, 15), (3, 12), (3, 9), (1, 8), (2, 6), (1, 5), (5, 0)];

fn header(fields: [u8; 7]) -> Header {
    let [extended, count, id, power_role, revision, data_role, message_type] = fields;
    Header {
        extended,
        count,
        id,
        power_role,
        revision,
        data_role,
        message_type,
    }
}

fn fields(header: Header) -> [u8; 7] {
    [
        header.extended,
        header.count,
        header.id,
        header.power_role,
        header.revision,
        header.data_role,
        header.message_type,
    ]
}

pub fn any(random: &mut Random) -> Message {
    let mut message = match random.below(8) {
        0 => scattered(random),
        1 | 2 => request(random),
        _ => source_capabilities(random),
    };
    for _ in 0..random.pick(&[0, 0, 0, 1, 1, 2]) {
        damage(random, &mut message);
    }
    on_list(&mut message, |list| lists_made::litter(random, list));
    message
}

/// What is carried and not examined may be anything; extended is not set.
fn carrying(random: &mut Random, message_type: u8, list: Words) -> Message {
    let carried = Header {
        extended: 0,
        count: list.count,
        message_type,
        ..any_header(random)
    };
    Message {
        header: carried,
        words: list.words,
    }
}

fn source_capabilities(random: &mut Random) -> Message {
    let list = match random.below(8) {
        0 | 1 => lists_made::any(random),
        2 | 3 => lists_made::built(random),
        _ => lists_made::composed(random),
    };
    carrying(random, 1, list)
}

fn request(random: &mut Random) -> Message {
    let mut list = Words {
        count: 1,
        ..Words::default()
    };
    list.words[0] = random.u32();
    carrying(random, 2, list)
}

/// Every field of the header anything that fits.
fn scattered(random: &mut Random) -> Message {
    Message {
        header: any_header(random),
        words: std::array::from_fn(|_| objects_made::word(random)),
    }
}

fn any_header(random: &mut Random) -> Header {
    header(FIELDS.map(|(width, _)| random.u8() >> (8 - width)))
}

fn on_list(message: &mut Message, change: impl FnOnce(&mut Words)) {
    let mut list = Words {
        words: message.words,
        count: message.header.count,
    };
    change(&mut list);
    (message.words, message.header.count) = (list.words, list.count);
}

/// One thing that is wrong with a message, or may be.
fn damage(random: &mut Random, message: &mut Message) {
    let header = &mut message.header;
    match random.below(8) {
        0 => header.extended = 1,
        1 => header.message_type = random.pick(&[0, 1, 2, 3, 17, 18, 31]),
        2 => header.message_type = random.below(32) as u8,
        3 => header.count = random.below(8) as u8,
        4 | 5 => *header = widened(random, *header),
        _ => on_list(message, |list| lists_made::damage(random, list)),
    }
}

/// One field too wide, mostly by a single step.
fn widened(random: &mut Random, wide: Header) -> Header {
    let mut fields = fields(wide);
    let (at, any) = (random.below(7), random.u8());
    let least = 1 << FIELDS[at].0;
    fields[at] = random.pick(&[least, least, least, least + 1, 0x80, u8::MAX, any]);
    header(fields)
}

/// As many bytes as the count says. A field that is too wide is cut.
pub fn bytes_of(message: &Message) -> Vec<u8> {
    let mut bits = 0;
    for (field, (width, low)) in fields(message.header).into_iter().zip(FIELDS) {
        bits |= (u16::from(field) & ((1 << width) - 1)) << low;
    }
    let count = usize::from(message.header.count & 7);
    let words = message.words[..count].iter().flat_map(|w| w.to_le_bytes());
    bits.to_le_bytes().into_iter().chain(words).collect()
}

/// The header of these bytes, and those of the words that are there.
pub fn looked_at(bytes: &[u8]) -> Option<Message> {
    let (first, rest) = bytes.split_first_chunk::<2>()?;
    let bits = u16::from_le_bytes(*first);
    let mut message = Message {
        header: header(FIELDS.map(|(width, low)| (bits >> low & ((1 << width) - 1)) as u8)),
        words: [0; 7],
    };
    for (word, four) in message.words.iter_mut().zip(rest.chunks_exact(4)) {
        *word = u32::from_le_bytes([four[0], four[1], four[2], four[3]]);
    }
    Some(message)
}

pub fn any_bytes(random: &mut Random) -> Vec<u8> {
    if random.one_in(32) {
        let most = random.pick(&[3, 40, 400]);
        let length = random.below(most);
        return noise(random, length);
    }
    let mut bytes = bytes_of(&any(random));
    for _ in 0..random.pick(&[0, 0, 0, 1, 1, 2]) {
        spoil(random, &mut bytes);
    }
    bytes
}

/// One thing that is wrong with bytes, or may be.
fn spoil(random: &mut Random, bytes: &mut Vec<u8>) {
    let length = bytes.len();
    if length == 0 {
        return;
    }
    match random.below(8) {
        0 | 1 => bytes[random.below(length.min(2))] ^= 1 << random.below(8),
        2 => bytes[random.below(length)] ^= 1 << random.below(8),
        3 => bytes[random.below(length)] = random.u8(),
        4 => bytes.truncate(random.below(length)),
        5 => bytes.truncate(length.saturating_sub(random.pick(&[1, 2, 3, 4, 8]))),
        6 => more(random, bytes),
        _ => {
            bytes.remove(0);
        }
    }
}

/// By 256 the number of bytes is the same in 8 bits.
fn more(random: &mut Random, bytes: &mut Vec<u8>) {
    let any = random.below(300);
    let length = random.pick(&[1, 2, 3, 4, 8, 256, any]);
    bytes.extend(noise(random, length));
}

/// How long a buffer for this message is: too short, just enough, or longer.
pub fn room(random: &mut Random, message: &Message) -> usize {
    let need = 2 + 4 * usize::from(message.header.count);
    match random.below(8) {
        0 => random.below(need),
        1 => need.saturating_sub(random.pick(&[1, 1, 2, 3, 4])),
        2 | 3 => need,
        4 => need + random.pick(&[1, 2, 3, 4]),
        5 => 30,
        6 => need + random.below(300),
        _ => random.below(40),
    }
}

pub fn noise(random: &mut Random, length: usize) -> Vec<u8> {
    (0..length).map(|_| random.u8()).collect()
}
