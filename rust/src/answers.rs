//! What is an `Option` or a `Result` by itself, as a `Result` whose error is a [`Refusal`], so that `?` can be used. One line brings the methods in:
//!
//! ```
//! use arinduleu::answers::*;
//! use arinduleu::objects::{decode, fixed_word};
//! use arinduleu::rules::{default_profile, word_at};
//! use arinduleu::steps::{HalfWatts, Ma10, Mv50};
//! use arinduleu::{verdicts, Refusal};
//!
//! fn main() -> Result<(), Refusal> {
//!     // 36 W: its third object, written again. It has no fifth.
//!     let profile = default_profile(HalfWatts(72)).ok()?;
//!     let object = decode(word_at(profile, 3).or_no_place()?).ok()?;
//!     assert_eq!(arinduleu::objects::encode(object).or_too_wide()?, 0x0004_B0F0);
//!     assert_eq!(word_at(profile, 5).or_no_place().unwrap_err().number(), verdicts::POSITION);
//!
//!     // No kind that a list may have, and a peak of three bits: no object, and no word.
//!     assert_eq!(decode(0xF000_0000).ok().unwrap_err().number(), verdicts::KIND_NOT_ALLOWED);
//!     let wide = fixed_word(0, 4, Mv50(100), Ma10(300)).or_too_wide();
//!     assert_eq!(wide.unwrap_err().number(), verdicts::FIELD_TOO_WIDE);
//!     Ok(())
//! }
//! ```

use crate::objects::Object;
use crate::refusal::Refusal;
use crate::sinks::SinkObject;
use crate::steps::{Ma10, Ma50, Mv100, Mv20, Mv25, Mv50};
use crate::summaries::{QuickAsked, TakenRequest};
use crate::verdicts::{self, Verdict};

const KIND_NOT_ALLOWED: Refusal = Refusal::known(verdicts::KIND_NOT_ALLOWED);
const FIELD_TOO_WIDE: Refusal = Refusal::known(verdicts::FIELD_TOO_WIDE);
const POSITION: Refusal = Refusal::known(verdicts::POSITION);

/// An answer of a call, whatever its type: for code that is generic over it. The types of this library have `ok` without this trait too.
pub trait Answer {
    /// What the call gives where it refuses nothing.
    type Value;

    /// The value where the call succeeded, else its refusal.
    fn ok(self) -> Result<Self::Value, Refusal>;
}

/// Of `decode`, `decode_for` and `raise`.
impl Answer for Option<Object> {
    type Value = Object;

    /// The object of the word or of the flat object, or refusal 12 without a place.
    fn ok(self) -> Result<Object, Refusal> {
        self.ok_or(KIND_NOT_ALLOWED)
    }
}

/// Of `sink_decode`.
impl Answer for Option<SinkObject> {
    type Value = SinkObject;

    /// The sink object of the word, or refusal 12 without a place.
    fn ok(self) -> Result<SinkObject, Refusal> {
        self.ok_or(KIND_NOT_ALLOWED)
    }
}

/// Of `take_request`. A `Result` has an `ok` of its own, which drops the error: this one is `take_request(list, word)?.ok()`, or
/// `Answer::ok(take_request(list, word))`.
impl Answer for Result<TakenRequest, Verdict> {
    type Value = Option<QuickAsked>;

    /// The decoded request where a summary can answer it, none where it is to a battery object, which the list has to answer; else its refusal.
    fn ok(self) -> Result<Option<QuickAsked>, Refusal> {
        match self {
            Ok(taken) => taken.ok(),
            // No call gives a refusal that is a success; one that was made by hand is for the list.
            Err(verdict) => verdict.ok().map(|()| None),
        }
    }
}

/// A word that is made or looked up, which two families of calls give for different reasons: so each method has the reason in its name.
pub trait WordAnswer {
    /// Of `encode`, `sink_encode`, `fixed_word`, `pps_word` and `avs_word`: the word of the object, or refusal 7 without a place.
    fn or_too_wide(self) -> Result<u32, Refusal>;

    /// Of `word_at`: the word at the place, or refusal 20.
    fn or_no_place(self) -> Result<u32, Refusal>;
}

impl WordAnswer for Option<u32> {
    fn or_too_wide(self) -> Result<u32, Refusal> {
        self.ok_or(FIELD_TOO_WIDE)
    }

    fn or_no_place(self) -> Result<u32, Refusal> {
        self.ok_or(POSITION)
    }
}

/// A measure in another step, which refuses without a number.
pub trait Conversion {
    /// The same measure, or none where no whole figure gives it.
    #[must_use]
    fn exact(self) -> Self;
}

macro_rules! exact {
    ($($step:ident)*) => {$(
        impl Conversion for Option<$step> {
            fn exact(self) -> Self {
                self
            }
        }
    )*};
}

exact!(Mv20 Mv25 Mv50 Mv100 Ma10 Ma50);
