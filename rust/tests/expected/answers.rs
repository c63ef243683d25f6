//! Every answer as a `Result` or an `Option`: `?` gives the value or the refusal of the call itself.

use arinduleu::answers::*;
use arinduleu::flat::{self, FlatObject, FlatObjects, FlatRequest};
use arinduleu::lists::{self, Objects, Words};
use arinduleu::messages::{self, Header, Message, LONGEST_MESSAGE};
use arinduleu::objects::{self, Object};
use arinduleu::ports::{Row, NO_ROW};
use arinduleu::rules::{self, Profile};
use arinduleu::sinks::{self, SinkObject, SinkObjects};
use arinduleu::steps::{HalfWatts, Ma10, Ma50, Mv100, Mv20, Mv25, Mv50};
use arinduleu::summaries::{self, QuickAsked, QuickRequest, Summary, TakenRequest};
use arinduleu::verdicts::Verdict;
use arinduleu::{board, requests, verdicts, Refusal};

fn refusal(number: u8, place: u8) -> Refusal {
    Refusal::new(number, place).unwrap()
}

/// 36 W with PPS and a 3 A cable.
fn example() -> Result<Words, Refusal> {
    let default = rules::default_profile(HalfWatts(72)).ok()?;
    rules::build(Profile { pps: 1, ..default }).ok()
}

#[test]
fn lists_and_profiles() {
    let list = example().unwrap();
    assert_eq!(list.count, 6);
    let read: Objects = lists::read(list).ok().unwrap();
    assert_eq!(lists::write(read).ok(), Ok(list));
    let flat: FlatObjects = flat::flat_read(list).ok().unwrap();
    assert_eq!(flat::flat_write(flat).ok(), Ok(list));

    let profile = rules::default_profile(HalfWatts(201));
    assert_eq!(profile.ok(), Err(refusal(verdicts::PORT_MAXIMUM, 0)));
    let twice = Words {
        words: [list.words[0]; 7],
        count: 2,
    };
    assert_eq!(lists::read(twice).ok(), Err(refusal(verdicts::ORDER, 2)));
    assert_eq!(
        flat::flat_read(twice).ok(),
        Err(refusal(verdicts::ORDER, 2))
    );
    assert_eq!(
        lists::write(Objects::default()).ok(),
        Err(refusal(verdicts::COUNT, 0))
    );
}

#[test]
fn messages_in_and_out() {
    fn sent(message: Message, buffer: &mut [u8]) -> Result<&[u8], Refusal> {
        let length = messages::write_message(buffer, message).ok()?;
        Ok(&buffer[..length])
    }
    let message = Message::source_capabilities(Header::default(), example().unwrap());
    let mut buffer = [0; LONGEST_MESSAGE];
    let bytes = sent(message, &mut buffer).unwrap();
    assert_eq!(bytes.len(), 26);
    assert_eq!(messages::read_message(bytes).ok(), Ok(message));
    assert_eq!(messages::take_message(bytes).ok(), Ok(message));
    let short = refusal(verdicts::MESSAGE_LENGTH, 0);
    assert_eq!(messages::read_message(&bytes[..25]).ok(), Err(short));
    assert_eq!(messages::take_message(&[]).ok(), Err(short));

    let no_room = refusal(verdicts::BUFFER_TOO_SHORT, 0);
    assert_eq!(sent(message, &mut [0; 25]), Err(no_room));
    let words = [message.words[0]; 7];
    let twice = Message { words, ..message };
    let order = refusal(verdicts::ORDER, 2);
    assert_eq!(sent(twice, &mut buffer), Err(order));
}

#[test]
fn sink_lists() {
    fn kept(rating: u16, needs: SinkObjects) -> Result<u8, Refusal> {
        let list = sinks::sink_write(needs).ok()?;
        sinks::sink_check(HalfWatts(rating), list).ok()?;
        Ok(list.count)
    }
    let list = Words::try_from(&[0x3F81_912C, 0x0002_D0C8][..]).unwrap();
    let needs = sinks::sink_read(list).ok().unwrap();
    assert_eq!(kept(36, needs), Ok(2));
    // 9 V at 2 A is 18 W.
    let above = refusal(verdicts::ABOVE_CEILING, 0);
    assert_eq!(kept(35, needs), Err(above));
    assert_eq!(kept(0, needs), Err(refusal(verdicts::PORT_MAXIMUM, 0)));
    let none = SinkObjects::default();
    assert_eq!(kept(36, none), Err(refusal(verdicts::COUNT, 0)));
    let twice = Words {
        words: [list.words[0]; 7],
        count: 2,
    };
    let flags = refusal(verdicts::RESERVED_BIT, 2);
    assert_eq!(sinks::sink_read(twice).ok(), Err(flags));

    let fixed = sinks::sink_decode(list.words[0]).ok().unwrap();
    assert_eq!(sinks::sink_encode(fixed).or_too_wide(), Ok(list.words[0]));
    let no_kind = refusal(verdicts::KIND_NOT_ALLOWED, 0);
    assert_eq!(sinks::sink_decode(0xE004_B12C), None);
    assert_eq!(sinks::sink_decode(0xE004_B12C).ok(), Err(no_kind));
    let wide = SinkObject::Fixed {
        flags: 128,
        volts: Mv50(100),
        current: Ma10(300),
    };
    assert_eq!(sinks::sink_encode(wide), None);
    let too_wide = refusal(verdicts::FIELD_TOO_WIDE, 0);
    assert_eq!(sinks::sink_encode(wide).or_too_wide(), Err(too_wide));
}

#[test]
fn summaries_and_decoded_requests() {
    fn answered(list: Words, word: u32) -> Result<bool, Refusal> {
        let summary = summaries::summarize(list).ok()?;
        let Some(asked) = summaries::take_request(list, word)?.ok()? else {
            return Ok(false);
        };
        summaries::answer_summary(summary, asked).ok()?;
        Ok(true)
    }
    fn flat_answered(list: Words, word: u32) -> Result<(), Refusal> {
        let summary: Summary = board::arin_summarize(list).ok()?;
        let request: FlatRequest = board::arin_take_request(list, word).ok()?;
        board::arin_answer_summary(summary, request).ok()
    }
    let list = example().unwrap();
    // AVS at 15.0 V and 2.4 A, and then a step more.
    assert_eq!(answered(list, 0x4004_B030), Ok(true));
    assert_eq!(flat_answered(list, 0x4004_B030), Ok(()));
    let too_large = refusal(verdicts::OPERATING_TOO_LARGE, 0);
    assert_eq!(answered(list, 0x4004_B031), Err(too_large));
    assert_eq!(flat_answered(list, 0x4004_B031), Err(too_large));
    let no_object = refusal(verdicts::POSITION, 0);
    assert_eq!(answered(list, 0x7000_0000), Err(no_object));
    assert_eq!(flat_answered(list, 0x7000_0000), Err(no_object));
    let none = refusal(verdicts::COUNT, 0);
    assert_eq!(answered(Words::default(), 0x1000_0000), Err(none));

    // A battery's request is no refusal, but from C: there its kind has no answer from a summary.
    let battery = Words::try_from(&[0x0001_912C, 0x5A41_90C8][..]).unwrap();
    assert_eq!(answered(battery, 0x2003_20C8), Ok(false));
    let no_kind = refusal(verdicts::KIND_NOT_ALLOWED, 0);
    assert_eq!(flat_answered(battery, 0x2003_20C8), Err(no_kind));
    // One that nobody gives: a refusal that is none.
    let success: Result<TakenRequest, Verdict> = Err(Verdict::default());
    assert_eq!(Answer::ok(success), Ok(None));
    assert_eq!(Refusal::from(Verdict::default()), refusal(255, 0));
}

#[test]
fn ports_that_share() {
    fn share(rows: &mut [Row], cable: u16) -> Result<HalfWatts, Refusal> {
        board::arin_set_up(rows, 200).ok()?;
        let list = board::arin_attach(rows, 200, 1, cable).ok()?;
        assert_eq!(list.count, 5);
        board::arin_request(rows, 200, 1, 0x4005_1545).ok()?;
        board::arin_remaining(rows, 200).ok()
    }
    let row = Row {
        max: HalfWatts(130),
        ..NO_ROW
    };
    assert_eq!(share(&mut [row; 2], 500), Ok(HalfWatts(55)));
    for cable in [0, 3, 5, 99, 501, 65535] {
        let answer = share(&mut [row; 2], cable);
        assert_eq!(answer, Err(refusal(verdicts::CABLE, 0)), "{cable}");
    }
    assert_eq!(
        share(&mut [row; 9], 500),
        Err(refusal(verdicts::ROW_COUNT, 0))
    );
    assert_eq!(
        board::arin_remaining(&[row], 200).ok(),
        Err(refusal(verdicts::ROWS_NOT_SOUND, 1))
    );
}

#[test]
fn one_object() {
    let list = example().unwrap();
    let fixed = objects::decode(list.words[0]).ok().unwrap();
    assert_eq!(objects::encode(fixed).or_too_wide(), Ok(list.words[0]));
    assert_eq!(flat::raise(flat::flatten(fixed)).ok(), Ok(fixed));
    let no_kind = refusal(verdicts::KIND_NOT_ALLOWED, 0);
    assert_eq!(objects::decode(0xF000_0000), None);
    assert_eq!(objects::decode(0xF000_0000).ok(), Err(no_kind));
    let wide = objects::fixed_word(0, 4, Mv50(100), Ma10(300));
    assert_eq!(wide, None);
    let too_wide = refusal(verdicts::FIELD_TOO_WIDE, 0);
    assert_eq!(wide.or_too_wide(), Err(too_wide));
    let of_no_kind = FlatObject {
        kind: 5,
        ..FlatObject::default()
    };
    assert_eq!(flat::raise(of_no_kind), None);
    assert_eq!(flat::raise(of_no_kind).ok(), Err(no_kind));
}

#[test]
fn one_word_of_a_list() {
    let list = example().unwrap();
    let default = rules::default_profile(HalfWatts(72)).ok().unwrap();
    let profile = Profile { pps: 1, ..default };
    for (at, word) in (1..).zip(list.as_slice()) {
        assert_eq!(rules::word_at(profile, at).or_no_place(), Ok(*word));
    }
    assert_eq!(rules::word_at(profile, 7), None);
    let no_place = refusal(verdicts::POSITION, 0);
    assert_eq!(rules::word_at(profile, 7).or_no_place(), Err(no_place));
    assert_eq!(
        requests::answer(list, 0x7000_0000).ok(),
        Err(refusal(verdicts::POSITION, 0))
    );
}

/// The same by `From` where the answer has a type of its own, and by `Answer`, for code that is generic over it.
#[test]
fn answers_are_turned_into_results() {
    let list = example().unwrap();
    let default = rules::default_profile(HalfWatts(72));
    let built: Result<Words, Refusal> = rules::build(default.profile).into();
    assert_eq!(built.unwrap().count, 4);
    let profile: Result<Profile, Refusal> = default.into();
    assert_eq!(profile, Ok(default.profile));
    let read: Result<Objects, Refusal> = lists::read(list).into();
    assert_eq!(read.unwrap().count, 6);
    let flat: Result<FlatObjects, Refusal> = flat::flat_read(list).into();
    assert_eq!(flat.unwrap().count, 6);
    let summary: Result<Summary, Refusal> = summaries::summarize(list).into();
    assert_eq!(summary.unwrap().as_slice().len(), 6);
    let taken: Result<TakenRequest, Verdict> = summaries::take_request(list, 0x1004_B12C);
    assert!(matches!(taken, Ok(TakenRequest::Quick(_))), "{taken:?}");
    let taken: Result<Option<QuickAsked>, Refusal> = taken.unwrap().into();
    let asked = taken.unwrap().unwrap();
    let (operating, maximum) = (Ma10(300), Ma10(300));
    assert_eq!(asked.request, QuickRequest::Fixed { operating, maximum });
    let request: Result<FlatRequest, Refusal> = flat::flat_take_request(list, 0).into();
    assert_eq!(request, Err(refusal(verdicts::POSITION, 0)));
    let none = Words::default();
    let needs: Result<SinkObjects, Refusal> = sinks::sink_read(none).into();
    assert_eq!(needs, Err(refusal(verdicts::COUNT, 0)));
    let object: Result<SinkObject, Refusal> = Answer::ok(sinks::sink_decode(0));
    assert_eq!(object, Ok(SinkObject::default()));
    let message = Message::request(Header::default(), 0x4005_1545);
    let length: Result<usize, Refusal> = messages::write_message(&mut [0; 6], message).into();
    assert_eq!(length, Ok(6));
    let message: Result<Message, Refusal> = messages::take_message(&[0]).into();
    assert_eq!(message, Err(refusal(verdicts::MESSAGE_LENGTH, 0)));
    let power: Result<HalfWatts, Refusal> = board::arin_remaining(&[], 15).into();
    assert_eq!(power, Err(refusal(verdicts::ROW_COUNT, 0)));
    let object: Result<Object, Refusal> = Answer::ok(objects::decode(0xD000_0000));
    assert_eq!(object, Err(refusal(verdicts::KIND_NOT_ALLOWED, 0)));
    let word: Result<u32, Refusal> = objects::encode(Object::default()).or_too_wide();
    assert_eq!(word, Ok(0));
    let word: Result<u32, Refusal> = rules::word_at(default.profile, 0).or_no_place();
    assert_eq!(word, Err(refusal(verdicts::POSITION, 0)));
    let object: Result<Object, Refusal> = Answer::ok(flat::raise(FlatObject::default()));
    assert_eq!(object, Ok(Object::default()));
}

/// One function over answers of any type.
#[test]
fn whatever_the_answer() {
    fn number<A: Answer>(answer: A) -> Option<u8> {
        answer.ok().err().map(Refusal::number)
    }
    let list = example().unwrap();
    let none = Words::default();
    let profile = rules::default_profile(HalfWatts(0));
    let message = Message::request(Header::default(), 0);
    assert_eq!(number(lists::shape(list)), None);
    assert_eq!(number(lists::shape(none)), Some(verdicts::COUNT));
    assert_eq!(number(profile), Some(verdicts::PORT_MAXIMUM));
    let built = rules::build(profile.profile);
    assert_eq!(number(built), Some(verdicts::PORT_MAXIMUM));
    assert_eq!(number(lists::read(none)), Some(verdicts::COUNT));
    assert_eq!(number(flat::flat_read(none)), Some(verdicts::COUNT));
    assert_eq!(number(sinks::sink_read(none)), Some(verdicts::COUNT));
    assert_eq!(number(summaries::summarize(none)), Some(verdicts::COUNT));
    let taken = summaries::take_request(list, 0x1004_B12C);
    assert_eq!(number(taken), None);
    assert_eq!(number(taken.unwrap()), None);
    let nowhere = summaries::take_request(list, 0x7000_0000);
    assert_eq!(number(nowhere), Some(verdicts::POSITION));
    let nowhere = flat::flat_take_request(list, 0x7000_0000);
    assert_eq!(number(nowhere), Some(verdicts::POSITION));
    let short = messages::read_message(&[]);
    assert_eq!(number(short), Some(verdicts::MESSAGE_LENGTH));
    let short = messages::write_message(&mut [], message);
    assert_eq!(number(short), Some(verdicts::BUFFER_TOO_SHORT));
    let no_rows = board::arin_remaining(&[], 15);
    assert_eq!(number(no_rows), Some(verdicts::ROW_COUNT));
    let no_kind = Some(verdicts::KIND_NOT_ALLOWED);
    assert_eq!(number(objects::decode(0xD000_0000)), no_kind);
    assert_eq!(number(sinks::sink_decode(0xD000_0000)), no_kind);
}

#[test]
fn conversions() {
    assert_eq!(Mv50(100).to_mv20().exact(), Some(Mv20(250)));
    assert_eq!(Mv50(1).to_mv20().exact(), None);
    assert_eq!(Mv50(100).to_mv25().exact(), Some(Mv25(200)));
    assert_eq!(Mv50(40000).to_mv25().exact(), None);
    assert_eq!(Mv100(50).to_mv50().exact(), Some(Mv50(100)));
    assert_eq!(Mv20(1).to_mv50().exact(), None);
    assert_eq!(Mv50(100).to_mv100().exact(), Some(Mv100(50)));
    assert_eq!(Mv50(101).to_mv100().exact(), None);
    assert_eq!(Ma50(60).to_ma10().exact(), Some(Ma10(300)));
    assert_eq!(Ma50(20000).to_ma10().exact(), None);
    assert_eq!(Ma10(300).to_ma50().exact(), Some(Ma50(60)));
    assert_eq!(Ma10(301).to_ma50().exact(), None);
}
