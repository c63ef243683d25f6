//! A message from what it carries: its count and its type follow from that, and are not put down by hand.

use crate::lists::Words;
use crate::messages::{Header, Message, REQUEST, SOURCE_CAPABILITIES};

impl Message {
    /// The Source_Capabilities of a list. Message id, roles and revision are the header's; nothing else of it is looked at.
    #[must_use]
    pub const fn source_capabilities(header: Header, list: Words) -> Message {
        Message {
            header: Header {
                extended: 0,
                count: list.count,
                message_type: SOURCE_CAPABILITIES,
                ..header
            },
            words: list.words,
        }
    }

    /// The Request of a request word. Message id, roles and revision are the header's; nothing else of it is looked at.
    #[must_use]
    pub const fn request(header: Header, word: u32) -> Message {
        Message {
            header: Header {
                extended: 0,
                count: 1,
                message_type: REQUEST,
                ..header
            },
            words: [word, 0, 0, 0, 0, 0, 0],
        }
    }
}
