//! Arinduleu: source capabilities for USB-C ports with SPR AVS. It builds the list of supplies that a port advertises, checks such lists,
//! answers the requests that come back, from the list or from a summary that is kept beside it, takes apart, puts together and checks the
//! lists that a sink sends of what it needs, takes apart and puts together the messages that lists and requests travel in, and shares one
//! supply among up to eight ports.
//!
//! The modules are the crates of the proved source, with their own names: nothing here is written twice. The build script reads
//! `crates/*/src/*.rt` and takes the contracts away; what they promise for every input is in `docs/TRACE.md`.
//!
//! Firmware calls [`board`]; [`rules`], [`lists`], [`requests`], [`summaries`], [`messages`], [`sinks`] and [`objects`] are the floors below
//! it. Nothing panics, nothing is allocated, and there is no state but the rows that the caller lends.
//!
//! # Refusals
//!
//! A call answers a [`verdicts::Verdict`], a number and a place, or a struct with a verdict beside the value. `ok` makes a `Result` of
//! either, whose error is a [`Refusal`]: it says its sentence, and it is never a success. A call that gives a `Result` itself has the verdict as
//! its error, which `?` turns into a `Refusal`. What is refused for one reason alone is an `Option`, and [`answers`] makes the same `Result` of it:
//! `ok` of an object, `or_too_wide` or `or_no_place` of a word.
//!
//! ```
//! use arinduleu::answers::*;
//! use arinduleu::board::{arin_attach, arin_remaining, arin_request, arin_set_up};
//! use arinduleu::messages::{read_message, write_message, Header, Message, LONGEST_MESSAGE, REQUEST};
//! use arinduleu::objects::{decode, Object};
//! use arinduleu::ports::Row;
//! use arinduleu::rules::{build, default_profile, Profile};
//! use arinduleu::sinks::{sink_check, sink_write, SinkObject, SinkObjects};
//! use arinduleu::steps::{HalfWatts, Ma10, Mv50};
//! use arinduleu::{requests, verdicts, Refusal};
//!
//! fn main() -> Result<(), Refusal> {
//!     // A port of 36 W with programmable supplies.
//!     let default = default_profile(HalfWatts(72)).ok()?;
//!     let list = build(Profile { pps: 1, ..default }).ok()?;
//!     assert_eq!(list.as_slice()[0], 0x0001_912C);
//!
//!     // Its third object: 15 V at 2.4 A. A word of no kind that such a list holds is none, and refusal 12 for whoever wants one.
//!     let object = decode(list.as_slice()[2]).ok()?;
//!     assert!(matches!(object, Object::Fixed { volts: Mv50(300), current: Ma10(240), .. }));
//!     assert_eq!(decode(0xF000_0000), None);
//!     assert_eq!(decode(0xF000_0000).ok().unwrap_err().number(), verdicts::KIND_NOT_ALLOWED);
//!
//!     // 3 A of the object at position 1, and then of one that the list does not have.
//!     requests::answer(list, 0x1004_B12C).ok()?;
//!     let refusal = requests::answer(list, 0x7004_B12C).ok().unwrap_err();
//!     assert_eq!(refusal.number(), arinduleu::verdicts::POSITION);
//!     assert_eq!(refusal.to_string(), "the request names a position that the list does not have (refusal 20)");
//!
//!     // A sink that is designed for 45 W needs 5 V at 3 A, or 20 V at 2.25 A. For half a watt less that is too much.
//!     let fixed = |volts, current| SinkObject::Fixed { flags: 0, volts: Mv50(volts), current: Ma10(current) };
//!     let needs = SinkObjects::try_from(&[fixed(100, 300), fixed(400, 225)][..])?;
//!     let list = sink_write(needs).ok()?;
//!     sink_check(HalfWatts(90), list).ok()?;
//!     let refusal = sink_check(HalfWatts(89), list).ok().unwrap_err();
//!     assert_eq!(refusal.number(), arinduleu::verdicts::ABOVE_CEILING);
//!
//!     // The same port with a lead of its own that carries 2 A: no current is above that. A figure in amperes is refused.
//!     let own = build(Profile { cable: Ma10(200), ..default }).ok()?;
//!     assert_eq!(own.as_slice(), [0x0001_90C8, 0x0002_D0C8, 0x0004_B0C8, 0xE003_2000]);
//!     let refusal = build(Profile { cable: Ma10(2), ..default }).ok().unwrap_err();
//!     assert_eq!(refusal.number(), arinduleu::verdicts::CABLE);
//!
//!     // Two ports of 65 W that share 100 W: port 1 gets a 5 A cable, in 10 mA.
//!     let mut rows = [Row { max: HalfWatts(130), ..Row::default() }; 2];
//!     arin_set_up(&mut rows, 200).ok()?;
//!     let list = arin_attach(&mut rows, 200, 1, 500).ok()?;
//!     assert_eq!(list.as_slice()[3], 0x0006_4145);
//!
//!     // Its list as the bytes of a Source_Capabilities, to be sent.
//!     let header = Header { power_role: 1, revision: 2, data_role: 1, ..Header::default() };
//!     let mut buffer = [0; LONGEST_MESSAGE];
//!     let length = write_message(&mut buffer, Message::source_capabilities(header, list)).ok()?;
//!     let sent = &buffer[..length];
//!     assert_eq!(sent.len(), 22);
//!     assert_eq!(sent[..6], [0xA1, 0x51, 0x2C, 0x91, 0x01, 0x00]);
//!
//!     // A Request comes back, in bytes too: 20 V at 3.25 A.
//!     let message = read_message(&[0x82, 0x12, 0x45, 0x15, 0x05, 0x40]).ok()?;
//!     assert_eq!(message.header.message_type, REQUEST);
//!     arin_request(&mut rows, 200, 1, message.words[0]).ok()?;
//!     assert_eq!(arin_remaining(&rows, 200).ok()?, HalfWatts(55));
//!     Ok(())
//! }
//! ```
//!
//! # Summaries
//!
//! Whoever asks a list again and again, as a display does, keeps a [`summaries::Summary`] beside it: its limits in mV and mA. A request word
//! is decoded for the object that it names, and answered from the summary. The answer is that of [`requests::answer`], for every list that
//! [`summaries::summarize`] takes. A battery has a power, which no row has: a request to one goes to the list.
//!
//! ```
//! use arinduleu::rules::{build, default_profile, Profile};
//! use arinduleu::steps::{HalfWatts, Ma10};
//! use arinduleu::summaries::{answer_summary, summarize, take_request, ABOVE_15_V, BELOW_15_V, HIGHEST};
//! use arinduleu::{requests, verdicts, Refusal};
//!
//! fn main() -> Result<(), Refusal> {
//!     // A port of 65 W on a cable of 5 A. The summary is made once for each list.
//!     let default = default_profile(HalfWatts(130)).ok()?;
//!     let list = build(Profile { cable: Ma10(500), ..default }).ok()?;
//!     let summary = summarize(list).ok()?;
//!
//!     // The last row is that of AVS: 9 to 20 V, 3 A below 15 V and 3.25 A above.
//!     let avs = summary.as_slice()[4];
//!     assert_eq!(avs, [9000, 20000, 3000, 3250]);
//!     assert_eq!((avs[HIGHEST], avs[BELOW_15_V], avs[ABOVE_15_V]), (20000, 3000, 3250));
//!
//!     let answer = |word| match take_request(list, word)?.ok()? {
//!         Some(asked) => answer_summary(summary, asked).ok(),
//!         None => requests::answer(list, word).ok(),
//!     };
//!     // Of AVS 15.0 V at 3.25 A, where the larger of the two currents limits; then 3.30 A.
//!     answer(0x5004_B041)?;
//!     let refusal = answer(0x5004_B042).unwrap_err();
//!     assert_eq!(refusal.number(), verdicts::OPERATING_TOO_LARGE);
//!     Ok(())
//! }
//! ```
//!
//! # Traits
//!
//! Every type can be copied, compared, hashed and shown; words are shown in hex, a single one as a [`Word`]. `Default` is all zero: success, an
//! empty list or place, the summary of no list, no request, no message, a row before set-up, a measure of nothing. [`rules::Profile`] has none,
//! since one that is all zero is refused: see [`rules::default_profile`]. Measures are ordered by what they measure, verdicts and refusals by
//! number and then by place. The order of profiles, rows, objects of either side, lists of words and messages goes by their fields as they are
//! declared: it is for sorted collections, and says nothing of which is better.
#![no_std]
#![forbid(unsafe_code)]
#![deny(missing_docs, rustdoc::broken_intra_doc_links)]
// A parameter that only a contract reads is no slip.
#![allow(unused_variables)]
// The source is written for the prover, and stays as it is.
#![allow(
    clippy::manual_checked_ops,
    clippy::manual_range_contains,
    clippy::needless_range_loop
)]

pub mod answers;
mod defaults;
mod making;
mod refusal;
mod results;
mod slices;
mod words;

pub use refusal::Refusal;
pub use words::Word;

include!(concat!(env!("OUT_DIR"), "/library.rs"));
