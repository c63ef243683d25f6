//! Every answer of a type of its own as a `Result`, so that `?` can be used.

use crate::answers::Answer;
use crate::flat::{FlatObjects, FlatReading, FlatRequest, FlatTaken};
use crate::lists::{Listing, Objects, Reading, Words};
use crate::messages::{Message, MessageReading, Written};
use crate::ports::RemainingPower;
use crate::refusal::Refusal;
use crate::rules::{Profile, Profiled};
use crate::sinks::{SinkObjects, SinkReading};
use crate::steps::HalfWatts;
use crate::summaries::{QuickAsked, Summarized, Summary, TakenRequest};
use crate::verdicts::Verdict;

impl Verdict {
    /// Nothing where the call succeeded, else its refusal.
    pub const fn ok(self) -> Result<(), Refusal> {
        match Refusal::new(self.number, self.place) {
            None => Ok(()),
            Some(refusal) => Err(refusal),
        }
    }
}

impl From<Verdict> for Result<(), Refusal> {
    fn from(verdict: Verdict) -> Self {
        verdict.ok()
    }
}

// An answer with a verdict beside its value.
macro_rules! value_beside_verdict {
    ($($answer:ident { $field:ident: $value:ident } $what:literal;)*) => {$(
        impl $answer {
            #[doc = concat!("The ", $what, " where the call succeeded, else its refusal.")]
            pub const fn ok(self) -> Result<$value, Refusal> {
                match self.verdict.ok() {
                    Ok(()) => Ok(self.$field),
                    Err(refusal) => Err(refusal),
                }
            }
        }

        impl From<$answer> for Result<$value, Refusal> {
            fn from(answer: $answer) -> Self {
                answer.ok()
            }
        }
    )*};
}

value_beside_verdict! {
    Listing { list: Words } "list of words";
    Reading { list: Objects } "list of objects";
    FlatReading { list: FlatObjects } "list of flat objects";
    Summarized { summary: Summary } "summary";
    FlatTaken { request: FlatRequest } "decoded request";
    MessageReading { message: Message } "message";
    SinkReading { list: SinkObjects } "list of sink objects";
    Profiled { profile: Profile } "profile";
    RemainingPower { power: HalfWatts } "power that no port holds";
}

// A request to a battery object is no refusal: the list answers it. What is refused is the `Err` beside this.
impl TakenRequest {
    /// The decoded request where a summary can answer it, none where it is to a battery object, which the list has to answer.
    pub const fn ok(self) -> Result<Option<QuickAsked>, Refusal> {
        match self {
            TakenRequest::Quick(asked) => Ok(Some(asked)),
            TakenRequest::Battery { .. } => Ok(None),
        }
    }
}

impl From<TakenRequest> for Result<Option<QuickAsked>, Refusal> {
    fn from(taken: TakenRequest) -> Self {
        taken.ok()
    }
}

// The number as what ends a slice of the buffer.
impl Written {
    /// How many bytes were written where the call succeeded, else its refusal.
    pub const fn ok(self) -> Result<usize, Refusal> {
        match self.verdict.ok() {
            Ok(()) => Ok(self.length as usize),
            Err(refusal) => Err(refusal),
        }
    }
}

impl From<Written> for Result<usize, Refusal> {
    fn from(written: Written) -> Self {
        written.ok()
    }
}

macro_rules! answers {
    ($($answer:ident: $value:ty;)*) => {$(
        impl Answer for $answer {
            type Value = $value;

            fn ok(self) -> Result<$value, Refusal> {
                $answer::ok(self)
            }
        }
    )*};
}

answers! {
    Verdict: ();
    Listing: Words;
    Reading: Objects;
    FlatReading: FlatObjects;
    Summarized: Summary;
    TakenRequest: Option<QuickAsked>;
    FlatTaken: FlatRequest;
    MessageReading: Message;
    SinkReading: SinkObjects;
    Profiled: Profile;
    RemainingPower: HalfWatts;
    Written: usize;
}
