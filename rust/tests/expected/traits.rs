//! The traits that every Rust user looks for, and `#[must_use]` on every call.

use arinduleu::flat::{self, FlatObject, FlatObjects, FlatRequest, KIND_FIXED};
use arinduleu::lists::{self, Objects, Place, Words, EMPTY_PLACE, NO_WORDS};
use arinduleu::messages::{Header, Message, NO_MESSAGE};
use arinduleu::objects::{self, Object, Side};
use arinduleu::ports::{Row, NO_ROW};
use arinduleu::rules::{self, Profile};
use arinduleu::sinks::{self, SinkObject, SinkObjects, SinkPlace, EMPTY_SINK_PLACE};
use arinduleu::steps::{HalfWatts, Ma10, Ma50, Mv100, Mv20, Mv25, Mv50, Mw250};
use arinduleu::summaries::{self, Summary};
use arinduleu::verdicts::{self, Verdict};
use arinduleu::{Refusal, Word};
use std::collections::{BTreeSet, HashSet};

#[test]
fn words_are_shown_in_hex() {
    let list = Words {
        words: [0x0001_912C, 0xE003_C000, 0, 0, 0, 0, 0],
        count: 2,
    };
    assert_eq!(
        format!("{list:?}"),
        "Words { words: [0x0001912C, 0xE003C000, 0x00000000, 0x00000000, 0x00000000, 0x00000000, 0x00000000], count: 2 }"
    );
    assert_eq!(
        format!("{:?}", Message::request(Header::default(), 0x4005_1545)),
        "Message { header: Header { extended: 0, count: 1, id: 0, power_role: 0, revision: 0, data_role: 0, message_type: 2 }, \
        words: [0x40051545, 0x00000000, 0x00000000, 0x00000000, 0x00000000, 0x00000000, 0x00000000] }"
    );
    let needs = sinks::sink_decode(0x0002_D0C8);
    assert_eq!(
        format!("{needs:?}"),
        "Some(Fixed { flags: 0, volts: Mv50(180), current: Ma10(200) })"
    );
    let list = Words { count: 1, ..list };
    assert_eq!(
        format!("{:?}", flat::flat_take_request(list, 0x1400_2803)),
        "FlatTaken { verdict: Verdict { number: 0, place: 0 }, request: FlatRequest { kind: 0, position: 1, mismatch: 1, \
        operating: Ma10(10), maximum: Ma10(3), volts20: Mv20(0), volts25: Mv25(0), current50: Ma50(0) } }"
    );
    assert_eq!(
        format!("{:?}", summaries::take_request(list, 0x1400_2803)),
        "Ok(Quick(QuickAsked { position: 1, mismatch: true, request: Fixed { operating: Ma10(10), maximum: Ma10(3) } }))"
    );
    assert_eq!(format!("{:?}", Word(0xC8DC_323C)), "Word(0xC8DC323C)");
    assert_eq!(format!("{:?}", Word(10)), "Word(0x0000000A)");
    let word = objects::encode(objects::decode(0xC8DC_323C).unwrap());
    assert_eq!(format!("{:?}", word.map(Word)), "Some(Word(0xC8DC323C))");
    let too_wide = objects::fixed_word(0, 4, Mv50(100), Ma10(300));
    assert_eq!(format!("{:?}", too_wide.map(Word)), "None");
    let listing = lists::refuse(verdicts::ORDER, 3);
    assert!(format!("{listing:?}").contains("Words { words: [0x00000000, "));
}

#[test]
fn defaults_are_all_zero() {
    assert_eq!(Verdict::default().ok(), Ok(()));
    assert_eq!(Words::default(), NO_WORDS);
    assert_eq!(Object::default(), EMPTY_PLACE.object);
    assert_eq!(objects::encode(Object::default()), Some(0));
    assert_eq!(Place::default(), EMPTY_PLACE);
    assert_eq!(Objects::default().places, [EMPTY_PLACE; 7]);
    assert_eq!(Objects::default().count, 0);
    assert_eq!(SinkObject::default(), EMPTY_SINK_PLACE.object);
    assert_eq!(sinks::sink_encode(SinkObject::default()), Some(0));
    assert_eq!(SinkPlace::default(), EMPTY_SINK_PLACE);
    assert_eq!(SinkObjects::default().places, [EMPTY_SINK_PLACE; 7]);
    assert_eq!(SinkObjects::default().count, 0);
    assert_eq!(Summary::default().count, 0);
    assert_eq!(Summary::default().rows, [[0; 4]; 7]);
    let refused = summaries::summarize(Words::default()).summary;
    assert_eq!(Summary::default(), refused);
    let refused = flat::flat_take_request(Words::default(), 0x1000_0000).request;
    assert_eq!(FlatRequest::default(), refused);
    assert_eq!(Message::default(), NO_MESSAGE);
    assert_eq!(Header::default(), NO_MESSAGE.header);
    assert_eq!(Row::default(), NO_ROW);
    assert_eq!(FlatObject::default().kind, KIND_FIXED);
    assert_eq!(
        FlatObject::default(),
        arinduleu::flat::flatten(Object::default())
    );
    assert_eq!(FlatObjects::default().count, 0);
    assert_eq!(FlatObjects::default().places, [FlatObject::default(); 7]);
}

#[test]
fn measures_are_ordered_by_what_they_measure() {
    macro_rules! ordered {
        ($($step:ident)*) => {$(
            assert!($step(9) < $step(10) && $step(255) < $step(256));
            assert_eq!($step::default(), $step(0));
            assert_eq!([$step(3), $step(1), $step(2)].into_iter().max(), Some($step(3)));
        )*};
    }
    ordered!(Mv20 Mv25 Mv50 Mv100 Ma10 Ma50 Mw250 HalfWatts);
}

#[test]
fn verdicts_are_ordered_by_number_and_then_by_place() {
    let verdict = |number, place| Verdict { number, place };
    let sorted = [
        verdict(0, 0),
        verdict(1, 0),
        verdict(14, 2),
        verdict(14, 3),
        verdict(15, 1),
    ];
    assert!(sorted.windows(2).all(|w| w[0] < w[1]));
    let refusals: Vec<Refusal> = sorted.iter().filter_map(|v| v.ok().err()).collect();
    assert_eq!(refusals.len(), 4);
    assert!(refusals.windows(2).all(|w| w[0] < w[1]));
}

/// Keys of a hashed and of a sorted collection.
#[test]
fn what_is_kept_in_collections() {
    let profiles = [60, 72, 60].map(|m| rules::default_profile(HalfWatts(m)).profile);
    let lists = profiles.map(|p| rules::build(p).list);
    let objects = lists.map(|l| objects::decode(l.words[2]).unwrap());
    let rows = [60, 72, 60].map(|max| Row {
        max: HalfWatts(max),
        ..Row::default()
    });
    assert_eq!(both::<Profile>(&profiles), 2);
    assert_eq!(both::<Words>(&lists), 2);
    let messages = lists.map(|l| Message::source_capabilities(Header::default(), l));
    assert_eq!(both::<Message>(&messages), 2);
    assert_eq!(both::<Header>(&messages.map(|m| m.header)), 1);
    assert_eq!(both::<Object>(&objects), 2);
    let needs = lists.map(|l| sinks::sink_decode(l.words[2]).unwrap());
    assert_eq!(both::<SinkObject>(&needs), 2);
    assert_eq!(both::<Row>(&rows), 2);
    assert_eq!(both(&objects.map(arinduleu::flat::flatten)), 2);
    let hashed = HashSet::from(lists.map(lists::read));
    assert_eq!(hashed.len(), 2);
    let hashed = HashSet::from(lists.map(summaries::summarize));
    assert_eq!(hashed.len(), 2);
    let taken = lists.map(|l| summaries::take_request(l, 0x3004_B12C));
    assert_eq!(HashSet::from(taken).len(), 1);
    let flat = lists.map(|l| flat::flat_take_request(l, 0x3004_B12C));
    assert_eq!(HashSet::from(flat).len(), 1);
    let sides = HashSet::from([Side::Source, Side::Sink, Side::Sink]);
    assert_eq!(sides.len(), 2);
}

fn both<T: Copy + Eq + Ord + std::hash::Hash>(from: &[T]) -> usize {
    let hashed: HashSet<T> = from.iter().copied().collect();
    let sorted: BTreeSet<T> = from.iter().copied().collect();
    assert_eq!(hashed.len(), sorted.len());
    sorted.len()
}

/// As rustc reads the proved source: each public function that returns something is marked, and there is one for each that the table of
/// public functions has.
#[test]
fn an_answer_must_be_used() {
    let library = include_str!(concat!(env!("OUT_DIR"), "/library.rs"));
    let lines: Vec<&str> = library.lines().map(str::trim_start).collect();
    let mut marked = 0;
    for (at, line) in lines.iter().enumerate() {
        if !line.starts_with("pub fn ") {
            continue;
        }
        assert!(line.contains(") -> "), "{line}");
        assert!(lines[at - 1].starts_with("#[inline"), "{line}");
        // A `Result` is marked itself.
        let marked_itself = line.contains(") -> Result<");
        assert_eq!(lines[at - 2] == "#[must_use]", !marked_itself, "{line}");
        marked += 1;
    }
    let table = include_str!("../../../docs/TRACE.md");
    let (_, table) = table.split_once("## Every public function").unwrap();
    let rows = table.lines().filter(|l| l.starts_with("| `")).count();
    // Those that only their own crate can reach are marked too.
    assert!(rows > 60 && marked >= rows, "{marked} marked, {rows} rows");
}
