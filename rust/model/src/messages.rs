//! Whole messages: reading, taking apart and writing.

use crate::answers::*;
use crate::lists::try_shape;
use crate::words::{put, take};
use crate::{Header, Message, MessageReading, Verdict, Written};

/// The two types that are handled.
const SOURCE_CAPABILITIES: u8 = 1;
const REQUEST: u8 = 2;

/// "40, 42, 41, 53; then for type 1 as shape"
pub fn read_message(bytes: &[u8]) -> MessageReading {
    let mut reading = take_message(bytes);
    // A message that is refused already is all zeros, so its type is 0 and it has no list.
    if let Err(verdict) = check_list(&reading.message) {
        reading = MessageReading { verdict, message: Message::default() };
    }
    reading
}

/// "40, 42, 41, 53"
pub fn take_message(bytes: &[u8]) -> MessageReading {
    let mut reading = MessageReading::default();
    match split(bytes) {
        Ok((header, rest)) => {
            reading.message.header = header;
            for (word, four) in reading.message.words.iter_mut().zip(rest.chunks_exact(4)) {
                *word = u32::from_le_bytes([four[0], four[1], four[2], four[3]]);
            }
        }
        Err(verdict) => reading.verdict = verdict,
    }
    reading
}

pub fn write_message(bytes: &mut [u8], message: &Message) -> Written {
    match try_write(bytes, message) {
        Ok(length) => Written { verdict: Verdict::default(), length },
        Err(verdict) => Written { verdict, length: 0 },
    }
}

/// "51, 42, 41, 53, 52; then for type 1 as shape"; the length.
fn try_write(bytes: &mut [u8], message: &Message) -> Result<u8, Verdict> {
    let header = &message.header;
    let Some(bits) = encode_header(header) else {
        return refuse(HEADER_TOO_WIDE, 0);
    };
    check_header(header)?;
    let length = 2 + 4 * header.count;
    let lent = bytes.get_mut(..usize::from(length));
    let Some((first, rest)) = lent.and_then(|lent| lent.split_first_chunk_mut::<2>()) else {
        return refuse(BUFFER, 0);
    };
    check_list(message)?;
    *first = bits.to_le_bytes();
    for (four, word) in rest.chunks_exact_mut(4).zip(&message.words) {
        four.copy_from_slice(&word.to_le_bytes());
    }
    Ok(length)
}

/// Numbers 40, 42, 41 and 53; the header and the bytes of as many words as it counts.
fn split(bytes: &[u8]) -> Result<(Header, &[u8]), Verdict> {
    let Some((&first, rest)) = bytes.split_first_chunk::<2>() else {
        return refuse(LENGTH, 0);
    };
    let header = decode_header(u16::from_le_bytes(first));
    if rest.len() != 4 * usize::from(header.count) {
        return refuse(LENGTH, 0);
    }
    check_header(&header)?;
    Ok((header, rest))
}

/// Numbers 42, 41 and 53.
fn check_header(header: &Header) -> Result<(), Verdict> {
    if header.extended != 0 {
        return refuse(EXTENDED, 0);
    }
    match header.message_type {
        SOURCE_CAPABILITIES => Ok(()),
        REQUEST if header.count == 1 => Ok(()),
        REQUEST => refuse(REQUEST_COUNT, 0),
        _ => refuse(MESSAGE_TYPE, 0),
    }
}

/// "The word of a Request is not judged: there is no list here to judge it on."
fn check_list(message: &Message) -> Result<(), Verdict> {
    if message.header.message_type != SOURCE_CAPABILITIES {
        return Ok(());
    }
    try_shape(&message.words, message.header.count)
}

/// "The fields of the header", by their bits.
fn decode_header(bits: u16) -> Header {
    let field = |low, width| take(u32::from(bits), low, width) as u8;
    Header {
        extended: field(15, 1),
        count: field(12, 3),
        id: field(9, 3),
        power_role: field(8, 1),
        revision: field(6, 2),
        data_role: field(5, 1),
        message_type: field(0, 5),
    }
}

fn encode_header(header: &Header) -> Option<u16> {
    let bits = put(header.extended, 15, 1)?
        | put(header.count, 12, 3)?
        | put(header.id, 9, 3)?
        | put(header.power_role, 8, 1)?
        | put(header.revision, 6, 2)?
        | put(header.data_role, 5, 1)?
        | put(header.message_type, 0, 5)?;
    Some(bits as u16)
}
