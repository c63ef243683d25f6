//! Words shown as people read them, in hex: `0x0001912C`.

use crate::lists::Words;
use crate::messages::Message;
use core::fmt::{Debug, Formatter, Result};

/// One word, shown so: `Word(0x0001912C)`. Calls take and give a plain `u32`; `encode(object).map(Word)` shows what it gives.
#[derive(Clone, Copy, PartialEq, Eq, Hash, Default, PartialOrd, Ord)]
pub struct Word(pub u32);

impl Debug for Word {
    fn fmt(&self, f: &mut Formatter) -> Result {
        f.debug_tuple("Word").field(&Hex(self.0)).finish()
    }
}

struct Hex(u32);

impl Debug for Hex {
    fn fmt(&self, f: &mut Formatter) -> Result {
        write!(f, "{:#010X}", self.0)
    }
}

/// All seven places, since all of them are compared.
impl Debug for Words {
    fn fmt(&self, f: &mut Formatter) -> Result {
        f.debug_struct("Words")
            .field("words", &self.words.map(Hex))
            .field("count", &self.count)
            .finish()
    }
}

/// All seven places here too.
impl Debug for Message {
    fn fmt(&self, f: &mut Formatter) -> Result {
        f.debug_struct("Message")
            .field("header", &self.header)
            .field("words", &self.words.map(Hex))
            .finish()
    }
}
