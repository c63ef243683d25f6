//! A refusal by itself, as an error.

use crate::verdicts::Verdict;
use core::error::Error;
use core::fmt;
use core::num::NonZeroU8;

include!(concat!(env!("OUT_DIR"), "/refusals.rs"));

/// Why a call refused: the number of [`verdicts`](crate::verdicts) and the place. It is never a success.
///
/// It shows itself with the sentence of its number: `the cable carries less than 1 A, or more than 5 A (refusal 3)`, or with its
/// place `the port is in use already (refusal 34, place 2)`.
#[derive(Clone, Copy, PartialEq, Eq, Hash, PartialOrd, Ord)]
pub struct Refusal {
    number: NonZeroU8,
    place: u8,
}

impl Refusal {
    /// The refusal of this number and place; none for number 0, which is success. Places count from 1, and 0 is none.
    #[must_use]
    pub const fn new(number: u8, place: u8) -> Option<Refusal> {
        match NonZeroU8::new(number) {
            Some(number) => Some(Refusal { number, place }),
            None => None,
        }
    }

    /// One that is known when this is compiled, without a place. Number 0 does not compile.
    pub(crate) const fn known(number: u8) -> Refusal {
        match Refusal::new(number, 0) {
            Some(refusal) => refusal,
            None => panic!("success is no refusal"),
        }
    }

    /// The number, one of the names in [`verdicts`](crate::verdicts).
    #[must_use]
    pub const fn number(self) -> u8 {
        self.number.get()
    }

    /// The word, the object or the row that is at fault, counted from 1. None where the refusal names no place.
    #[must_use]
    pub const fn place(self) -> Option<u8> {
        match self.place {
            0 => None,
            place => Some(place),
        }
    }

    /// The sentence of the number. A number that no call gives has none of its own.
    #[must_use]
    pub const fn text(self) -> &'static str {
        match text(self.number.get()) {
            Some(text) => text,
            None => "refused for a reason that has no sentence",
        }
    }
}

impl fmt::Display for Refusal {
    fn fmt(&self, f: &mut fmt::Formatter) -> fmt::Result {
        write!(f, "{} (refusal {}", self.text(), self.number)?;
        if let Some(place) = self.place() {
            write!(f, ", place {place}")?;
        }
        f.write_str(")")
    }
}

/// With the sentence, since this is what `unwrap` and a `main` that returns it print.
impl fmt::Debug for Refusal {
    fn fmt(&self, f: &mut fmt::Formatter) -> fmt::Result {
        f.debug_struct("Refusal")
            .field("number", &self.number)
            .field("place", &self.place)
            .field("text", &self.text())
            .finish()
    }
}

impl Error for Refusal {}

/// The error of a call that gives a `Result` of its own, so that `?` turns it into a refusal. A verdict that is a success, which no call has as its
/// error, is refusal 255: it has no sentence, and it is no success either.
impl From<Verdict> for Refusal {
    fn from(verdict: Verdict) -> Refusal {
        Refusal {
            number: NonZeroU8::new(verdict.number).unwrap_or(NonZeroU8::MAX),
            place: verdict.place,
        }
    }
}

impl From<Refusal> for Verdict {
    fn from(refusal: Refusal) -> Verdict {
        Verdict {
            number: refusal.number.get(),
            place: refusal.place,
        }
    }
}
