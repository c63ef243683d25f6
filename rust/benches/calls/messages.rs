//! Seeded messages, and the bytes of such.

use crate::inputs::{many, Dice};
use crate::lists::good_list;
use crate::objects::request;
use crate::wrappers::library::write_message;
use arinduleu::messages::{Header, Message};

/// One more than the longest message has.
pub const ROOM: usize = 31;

/// Bytes as they are lent for reading.
#[derive(Clone, Copy)]
pub struct Lent {
    pub bytes: [u8; ROOM],
    pub length: u8,
}

impl Lent {
    pub fn first(&self) -> &[u8] {
        &self.bytes[..usize::from(self.length)]
    }
}

/// The bytes of a message that can be written.
pub fn lent(message: Message) -> Lent {
    let mut bytes = [0; ROOM];
    let length = write_message(&mut bytes, message).length;
    Lent { bytes, length }
}

/// Half are lists of a source, half requests of a sink, to a place of such a list.
fn good_message(dice: &mut Dice) -> Message {
    let list = good_list(dice);
    let of_source = dice.one_in(2);
    let header = Header {
        id: dice.below(8) as u8,
        power_role: of_source.into(),
        revision: 2,
        data_role: of_source.into(),
        ..Header::default()
    };
    match of_source {
        true => Message::source_capabilities(header, list),
        false => Message::request(header, request(dice, list)),
    }
}

/// One in eight has a bit turned, a byte too few or a byte too many; most of these are refused.
pub fn bytes() -> Vec<Lent> {
    many(24, |dice| {
        let mut lent = lent(good_message(dice));
        if dice.one_in(8) {
            match dice.below(4) {
                0 => lent.length -= 1,
                1 => lent.length += 1,
                _ => lent.bytes[dice.below(lent.length.into()) as usize] ^= 1 << dice.below(8),
            }
        }
        lent
    })
}

/// A message, and how many bytes are lent for it. One in eight has a wrong field, too short a buffer or a bit of its first word turned; most of
/// these are refused.
pub fn messages() -> Vec<(Message, u8)> {
    many(25, |dice| {
        let mut message = good_message(dice);
        let mut room = ROOM as u8;
        if dice.one_in(8) {
            match dice.below(6) {
                0 => message.header.id = 8,
                1 => message.header.extended = 1,
                2 => message.header.message_type = 3,
                3 => message.header.count = 0,
                4 => room = 4 * message.header.count,
                _ => message.words[0] ^= 1 << dice.below(32),
            }
        }
        (message, room)
    })
}
