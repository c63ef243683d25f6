//! Lists, and the rows of a summary, as slices, and slices as lists; a message from what it carries.

use arinduleu::flat::{FlatObject, FlatObjects};
use arinduleu::lists::{Objects, Place, Words, EMPTY_PLACE};
use arinduleu::messages::{Header, Message, REQUEST, SOURCE_CAPABILITIES};
use arinduleu::objects::Object;
use arinduleu::sinks::{SinkObject, SinkObjects, SinkPlace, EMPTY_SINK_PLACE};
use arinduleu::steps::{Ma10, Mv50};
use arinduleu::summaries::Summary;
use arinduleu::{verdicts, Refusal};

/// Every count, those above seven too.
#[test]
fn what_counts_is_a_slice() {
    let words = [1, 2, 3, 4, 5, 6, 7];
    let flat = words.map(|kind| FlatObject {
        kind: kind as u8,
        ..FlatObject::default()
    });
    let places = words.map(|volts| Place::from(fixed(volts as u16)));
    let needs = words.map(|volts| SinkPlace::from(needed(volts as u16)));
    for count in 0..=255 {
        let n = usize::from(count).min(7);
        let list = Words { words, count };
        assert_eq!(list.as_slice(), &words[..n]);
        assert_eq!(list.as_ref(), &words[..n]);
        let header = Header {
            count,
            ..Header::default()
        };
        assert_eq!(Message { header, words }.as_slice(), &words[..n]);
        let rows = words.map(|lowest| [lowest as u16, 2, 3, 4]);
        assert_eq!(Summary { count, rows }.as_slice(), &rows[..n]);
        assert_eq!(Objects { places, count }.as_slice(), &places[..n]);
        let places = needs;
        assert_eq!(SinkObjects { places, count }.as_slice(), &needs[..n]);
        let places = flat;
        assert_eq!(FlatObjects { places, count }.as_slice(), &flat[..n]);
    }
}

#[test]
fn a_slice_is_a_list() {
    let refused = Refusal::new(verdicts::COUNT, 0).unwrap();
    let words: Vec<u32> = (1..=9).collect();
    let objects: Vec<Object> = (1..=9).map(fixed).collect();
    let needs: Vec<SinkObject> = (1..=9).map(needed).collect();
    for n in 0..=7 {
        let list = Words::try_from(&words[..n]).unwrap();
        assert_eq!(list.as_slice(), &words[..n]);
        assert!(list.words[n..].iter().all(|w| *w == 0));
        let list = Objects::try_from(&objects[..n]).unwrap();
        assert_eq!(usize::from(list.count), n);
        assert!(list
            .places
            .iter()
            .zip(&objects[..n])
            .all(|(p, o)| p.object == *o));
        assert!(list.places[n..].iter().all(|p| *p == EMPTY_PLACE));
        let list = SinkObjects::try_from(&needs[..n]).unwrap();
        assert_eq!(usize::from(list.count), n);
        let own = list.as_slice().iter().map(|p| p.object);
        assert!(own.eq(needs[..n].iter().copied()));
        assert!(list.places[n..].iter().all(|p| *p == EMPTY_SINK_PLACE));
    }
    for n in 8..=9 {
        assert_eq!(Words::try_from(&words[..n]), Err(refused));
        assert_eq!(Objects::try_from(&objects[..n]), Err(refused));
        assert_eq!(SinkObjects::try_from(&needs[..n]), Err(refused));
    }
    assert_eq!(Words::try_from(&[0; 300][..]), Err(refused));
}

/// Id, roles and revision are kept, and nothing else of the header.
#[test]
fn a_message_is_made_of_what_it_carries() {
    let header = Header {
        extended: 1,
        count: 9,
        id: 3,
        power_role: 1,
        revision: 2,
        data_role: 1,
        message_type: 31,
    };
    let list = Words {
        words: [1, 2, 3, 4, 5, 6, 7],
        count: 5,
    };
    let message = Message::source_capabilities(header, list);
    let made = Header {
        extended: 0,
        count: 5,
        message_type: SOURCE_CAPABILITIES,
        ..header
    };
    assert_eq!((message.header, message.words), (made, list.words));
    assert_eq!(message.as_slice(), [1, 2, 3, 4, 5]);

    let message = Message::request(header, 0x4005_1545);
    let made = Header {
        extended: 0,
        count: 1,
        message_type: REQUEST,
        ..header
    };
    assert_eq!(message.header, made);
    assert_eq!(message.words, [0x4005_1545, 0, 0, 0, 0, 0, 0]);
}

fn fixed(volts: u16) -> Object {
    Object::Fixed {
        flags: 0,
        peak: 0,
        volts: Mv50(volts),
        current: Ma10(300),
    }
}

fn needed(volts: u16) -> SinkObject {
    SinkObject::Fixed {
        flags: 0,
        volts: Mv50(volts),
        current: Ma10(300),
    }
}
