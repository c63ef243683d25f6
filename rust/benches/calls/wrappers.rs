//! One wrapper for each call, of the same shape on both sides: it takes what the call takes. None is inlined, and the rows take them
//! through pointers, so no side is fitted to the loop around it.

macro_rules! wrap {
    ($($name:ident($($arg:ident: $type:ty),*) -> $result:ty = $call:expr;)*) => {$(
        #[inline(never)]
        pub fn $name($($arg: $type),*) -> $result {
            $call
        }
    )*};
}

pub mod library {
    use arinduleu::board;
    use arinduleu::flat::{self, FlatObject, FlatObjects, FlatReading, FlatRequest, FlatTaken};
    use arinduleu::lists::{self, Listing, Objects, Reading, Words};
    use arinduleu::messages::{Message, MessageReading, Written};
    use arinduleu::objects::{self, Object, Side};
    use arinduleu::ports::{RemainingPower, Row};
    use arinduleu::requests::{self, Asked};
    use arinduleu::rules::{Profile, Profiled};
    use arinduleu::sinks::{self, SinkObject, SinkObjects, SinkReading};
    use arinduleu::steps::{self, Ma10, Ma50, Mv100, Mv20, Mv25, Mv50, Roundings};
    use arinduleu::summaries::{self, QuickAsked, Summarized, Summary, TakenRequest};
    use arinduleu::verdicts::Verdict;

    wrap! {
        nothing(word: u32) -> u32 = word;
        no_call(_rows: &mut [Row], capacity: u16) -> u16 = capacity;

        default_profile(max: u16) -> Profiled = board::arin_default_profile(max);
        build(profile: Profile) -> Listing = board::arin_build(profile);
        check(profile: Profile, list: Words) -> Verdict = board::arin_check(profile, list);
        shape(list: Words) -> Verdict = board::arin_shape(list);
        flat_read(list: Words) -> FlatReading = board::arin_read(list);
        flat_write(list: FlatObjects) -> Listing = board::arin_write(list);
        answer(list: Words, word: u32) -> Verdict = board::arin_answer(list, word);

        summarize(list: Words) -> Summarized = board::arin_summarize(list);
        flat_take_request(list: Words, word: u32) -> FlatTaken = board::arin_take_request(list, word);
        flat_answer_summary(summary: Summary, request: FlatRequest) -> Verdict = board::arin_answer_summary(summary, request);
        take_request(list: Words, word: u32) -> Result<TakenRequest, Verdict> = summaries::take_request(list, word);
        answer_summary(summary: Summary, asked: QuickAsked) -> Verdict = summaries::answer_summary(summary, asked);

        sink_shape(list: Words) -> Verdict = board::arin_sink_shape(list);
        sink_flat_read(list: Words) -> FlatReading = board::arin_sink_read(list);
        sink_flat_write(list: FlatObjects) -> Listing = board::arin_sink_write(list);
        sink_check(rating: u16, list: Words) -> Verdict = board::arin_sink_check(rating, list);

        read_message(bytes: &[u8]) -> MessageReading = board::arin_read_message(bytes);
        take_message(bytes: &[u8]) -> MessageReading = board::arin_take_message(bytes);
        write_message(bytes: &mut [u8], message: Message) -> Written = board::arin_write_message(bytes, message);

        set_up(rows: &mut [Row], capacity: u16) -> Verdict = board::arin_set_up(rows, capacity);
        attach(rows: &mut [Row], capacity: u16, port: u8, cable: u16) -> Listing = board::arin_attach(rows, capacity, port, cable);
        advertise(rows: &mut [Row], capacity: u16, port: u8) -> Listing = board::arin_advertise(rows, capacity, port);
        request(rows: &mut [Row], capacity: u16, port: u8, word: u32) -> Verdict = board::arin_request(rows, capacity, port, word);
        detach(rows: &mut [Row], capacity: u16, port: u8) -> Verdict = board::arin_detach(rows, capacity, port);
        remaining(rows: &[Row], capacity: u16) -> RemainingPower = board::arin_remaining(rows, capacity);

        decode(word: u32) -> Option<Object> = objects::decode(word);
        encode(object: Object) -> Option<u32> = objects::encode(object);
        decode_for(side: Side, word: u32) -> Option<Object> = objects::decode_for(side, word);
        reserved_bit_set(side: Side, object: Object, first: bool, word: u32) -> bool =
            objects::reserved_bit_set(side, object, first, word);
        read(list: Words) -> Reading = lists::read(list);
        write(list: Objects) -> Listing = lists::write(list);
        sink_decode(word: u32) -> Option<SinkObject> = sinks::sink_decode(word);
        sink_encode(object: SinkObject) -> Option<u32> = sinks::sink_encode(object);
        sink_read(list: Words) -> SinkReading = sinks::sink_read(list);
        sink_write(list: SinkObjects) -> Listing = sinks::sink_write(list);
        flatten(object: Object) -> FlatObject = flat::flatten(object);
        raise(object: FlatObject) -> Option<Object> = flat::raise(object);
        position(word: u32) -> u8 = requests::position(word);
        take_apart(object: Object, word: u32) -> Asked = requests::take_apart(object, word);

        mv20_to_mv100(figure: u16) -> Option<Mv100> = Mv20(figure).to_mv100();
        mv25_to_mv50(figure: u16) -> Option<Mv50> = Mv25(figure).to_mv50();
        mv50_to_mv20(figure: u16) -> Option<Mv20> = Mv50(figure).to_mv20();
        mv100_to_mv50(figure: u16) -> Option<Mv50> = Mv100(figure).to_mv50();
        ma10_to_ma50(figure: u16) -> Option<Ma50> = Ma10(figure).to_ma50();
        ma50_to_ma10(figure: u16) -> Option<Ma10> = Ma50(figure).to_ma10();
        round_down(numerator: u32, divisor: u32) -> u32 = steps::round_down(numerator, divisor);
        round_up(numerator: u32, divisor: u32) -> u32 = steps::round_up(numerator, divisor);
        round_both(numerator: u32, divisor: u32) -> Roundings = steps::round_both(numerator, divisor);
    }
}

pub mod plain {
    use model::{
        Asked, DecodedRequest, FlatObject, FlatObjects, FlatReading, FlatRequest, FlatTaken,
        Listing, Message, MessageReading, Object, Objects, Profile, Profiled, Reading,
        RemainingPower, Row, Side, SinkObject, SinkObjects, SinkReading, Summarized, Summary,
        Taken, Verdict, Words, Written,
    };

    wrap! {
        nothing(word: u32) -> u32 = word;
        no_call(_rows: &mut [Row], capacity: u16) -> u16 = capacity;

        default_profile(max: u16) -> Profiled = model::default_profile(max);
        build(profile: &Profile) -> Listing = model::build(profile);
        check(profile: &Profile, list: &Words) -> Verdict = model::check(profile, list);
        shape(list: &Words) -> Verdict = model::shape(list);
        flat_read(list: &Words) -> FlatReading = model::flat_read(list);
        flat_write(list: &FlatObjects) -> Listing = model::flat_write(list);
        answer(list: &Words, word: u32) -> Verdict = model::answer(list, word);

        summarize(list: &Words) -> Summarized = model::summarize(list);
        flat_take_request(list: &Words, word: u32) -> FlatTaken = model::flat_take_request(list, word);
        flat_answer_summary(summary: &Summary, request: &FlatRequest) -> Verdict = model::flat_answer_summary(summary, request);
        take_request(list: &Words, word: u32) -> Taken = model::take_request(list, word);
        answer_summary(summary: &Summary, request: &DecodedRequest) -> Verdict = model::answer_summary(summary, request);

        sink_shape(list: &Words) -> Verdict = model::sink_shape(list);
        sink_flat_read(list: &Words) -> FlatReading = model::sink_flat_read(list);
        sink_flat_write(list: &FlatObjects) -> Listing = model::sink_flat_write(list);
        sink_check(rating: u16, list: &Words) -> Verdict = model::sink_check(rating, list);

        read_message(bytes: &[u8]) -> MessageReading = model::read_message(bytes);
        take_message(bytes: &[u8]) -> MessageReading = model::take_message(bytes);
        write_message(bytes: &mut [u8], message: &Message) -> Written = model::write_message(bytes, message);

        set_up(rows: &mut [Row], capacity: u16) -> Verdict = model::set_up(rows, capacity);
        attach(rows: &mut [Row], capacity: u16, port: u8, cable: u16) -> Listing = model::attach(rows, capacity, port, cable);
        advertise(rows: &mut [Row], capacity: u16, port: u8) -> Listing = model::advertise(rows, capacity, port);
        request(rows: &mut [Row], capacity: u16, port: u8, word: u32) -> Verdict = model::request(rows, capacity, port, word);
        detach(rows: &mut [Row], capacity: u16, port: u8) -> Verdict = model::detach(rows, capacity, port);
        remaining(rows: &[Row], capacity: u16) -> RemainingPower = model::remaining(rows, capacity);

        decode(word: u32) -> Option<Object> = model::decode(word);
        encode(object: &Object) -> Option<u32> = model::encode(object);
        decode_for(side: Side, word: u32) -> Option<Object> = model::decode_for(side, word);
        reserved_bit_set(side: Side, object: &Object, first: bool, word: u32) -> bool =
            model::reserved_bit_set_for(side, object, first, word);
        read(list: &Words) -> Reading = model::read(list);
        write(list: &Objects) -> Listing = model::write(list);
        sink_decode(word: u32) -> Option<SinkObject> = model::sink_decode(word);
        sink_encode(object: &SinkObject) -> Option<u32> = model::sink_encode(object);
        sink_read(list: &Words) -> SinkReading = model::sink_read(list);
        sink_write(list: &SinkObjects) -> Listing = model::sink_write(list);
        flatten(object: &Object) -> FlatObject = model::flatten(object);
        raise(object: &FlatObject) -> Option<Object> = model::raise(object);
        position(word: u32) -> u8 = model::position(word);
        take_apart(object: &Object, word: u32) -> Asked = model::take_apart(object, word);

        mv20_to_mv100(figure: u16) -> Option<u16> = model::convert(figure, 20, 100);
        mv25_to_mv50(figure: u16) -> Option<u16> = model::convert(figure, 25, 50);
        mv50_to_mv20(figure: u16) -> Option<u16> = model::convert(figure, 50, 20);
        mv100_to_mv50(figure: u16) -> Option<u16> = model::convert(figure, 100, 50);
        ma10_to_ma50(figure: u16) -> Option<u16> = model::convert(figure, 10, 50);
        ma50_to_ma10(figure: u16) -> Option<u16> = model::convert(figure, 50, 10);
        round_down(numerator: u32, divisor: u32) -> u32 = model::round_down(numerator, divisor);
        round_up(numerator: u32, divisor: u32) -> u32 = model::round_up(numerator, divisor);
        round_both(numerator: u32, divisor: u32) -> (u32, u32) = model::round_both(numerator, divisor);
    }
}
