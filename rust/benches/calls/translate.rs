//! The library's values as the model's. All of it is done before the clock runs.

use crate::inputs::Turn;
use crate::messages::Lent;
use arinduleu::flat::{FlatObject, FlatObjects, FlatReading, FlatRequest, FlatTaken};
use arinduleu::lists::{Listing, Objects, Reading, Words};
use arinduleu::messages::{Header, Message, MessageReading, Written};
use arinduleu::objects::{Object, Side};
use arinduleu::ports::{RemainingPower, Row};
use arinduleu::requests::{Asked, Request};
use arinduleu::rules::{Profile, Profiled};
use arinduleu::sinks::{SinkObject, SinkObjects, SinkReading};
use arinduleu::steps::{Ma10, Ma50, Mv100, Mv20, Mv50, Roundings};
use arinduleu::summaries::{QuickAsked, QuickRequest, Summarized, Summary, TakenRequest};
use arinduleu::verdicts::Verdict;

pub trait Plain: Clone {
    type Model: Clone;
    fn plain(&self) -> Self::Model;
}

/// Types that both sides share.
macro_rules! same {
    ($($type:ty)*) => {$(
        impl Plain for $type {
            type Model = $type;
            fn plain(&self) -> $type {
                *self
            }
        }
    )*};
}

same! { bool u8 u16 u32 Lent }

impl<A: Plain> Plain for Option<A> {
    type Model = Option<A::Model>;
    fn plain(&self) -> Self::Model {
        self.as_ref().map(A::plain)
    }
}

impl<A: Plain, B: Plain> Plain for (A, B) {
    type Model = (A::Model, B::Model);
    fn plain(&self) -> Self::Model {
        (self.0.plain(), self.1.plain())
    }
}

impl<A: Plain, B: Plain, C: Plain> Plain for (A, B, C) {
    type Model = (A::Model, B::Model, C::Model);
    fn plain(&self) -> Self::Model {
        (self.0.plain(), self.1.plain(), self.2.plain())
    }
}

impl<A: Plain, const N: usize> Plain for [A; N] {
    type Model = [A::Model; N];
    fn plain(&self) -> Self::Model {
        std::array::from_fn(|i| self[i].plain())
    }
}

macro_rules! translate {
    ($($type:ty => $model:ty: |$it:ident| $body:expr;)*) => {$(
        impl Plain for $type {
            type Model = $model;
            fn plain(&self) -> $model {
                let $it = *self;
                $body
            }
        }
    )*};
}

/// The model's turn of a port call.
#[derive(Clone)]
pub struct PlainTurn {
    pub rows: [model::Row; 9],
    pub count: usize,
    pub capacity: u16,
    pub port: u8,
    pub cable: u16,
    pub word: u32,
}

translate! {
    Mv20 => u16: |it| it.0;
    Mv50 => u16: |it| it.0;
    Mv100 => u16: |it| it.0;
    Ma10 => u16: |it| it.0;
    Ma50 => u16: |it| it.0;
    Roundings => (u32, u32): |r| (r.down, r.up);
    Verdict => model::Verdict: |v| model::Verdict { number: v.number, place: v.place };
    Words => model::Words: |l| model::Words { words: l.words, count: l.count };
    Listing => model::Listing: |l| model::Listing { verdict: l.verdict.plain(), list: l.list.plain() };
    Header => model::Header: |h| model::Header {
        extended: h.extended, count: h.count, id: h.id, power_role: h.power_role, revision: h.revision, data_role: h.data_role,
        message_type: h.message_type,
    };
    Message => model::Message: |m| model::Message { header: m.header.plain(), words: m.words };
    MessageReading => model::MessageReading: |r| model::MessageReading { verdict: r.verdict.plain(), message: r.message.plain() };
    Written => model::Written: |w| model::Written { verdict: w.verdict.plain(), length: w.length };
    Profile => model::Profile: |p| model::Profile {
        max: p.max.0, present: p.present.0, cable: p.cable.0, rounding: p.rounding, pps: p.pps, flags: p.flags,
    };
    Profiled => model::Profiled: |p| model::Profiled { verdict: p.verdict.plain(), profile: p.profile.plain() };
    Row => model::Row: |r| model::Row { max: r.max.0, pps: r.pps, cable: r.cable.0, present: r.present.0, held: r.held.0 };
    RemainingPower => model::RemainingPower: |r| model::RemainingPower { verdict: r.verdict.plain(), power: r.power.0 };
    Object => model::Object: |o| match o {
        Object::Fixed { flags, peak, volts, current } => model::Object::Fixed { flags, peak, volts: volts.0, current: current.0 },
        Object::Battery { max, min, power } => model::Object::Battery { max: max.0, min: min.0, power: power.0 },
        Object::Variable { max, min, current } => model::Object::Variable { max: max.0, min: min.0, current: current.0 },
        Object::Pps { limited, max, min, current } => model::Object::Pps { limited, max: max.0, min: min.0, current: current.0 },
        Object::Avs { peak, low, high } => model::Object::Avs { peak, low: low.0, high: high.0 },
    };
    Objects => model::Objects: |l| model::Objects { places: l.places.map(|place| place.object.plain()), count: l.count };
    Reading => model::Reading: |r| model::Reading { verdict: r.verdict.plain(), list: r.list.plain() };
    Side => model::Side: |s| match s { Side::Source => model::Side::Source, Side::Sink => model::Side::Sink };
    SinkObject => model::SinkObject: |o| match o {
        SinkObject::Fixed { flags, volts, current } => model::SinkObject::Fixed { flags, volts: volts.0, current: current.0 },
        SinkObject::Battery { max, min, power } => model::SinkObject::Battery { max: max.0, min: min.0, power: power.0 },
        SinkObject::Variable { max, min, current } => model::SinkObject::Variable { max: max.0, min: min.0, current: current.0 },
        SinkObject::Pps { max, min, current } => model::SinkObject::Pps { max: max.0, min: min.0, current: current.0 },
    };
    SinkObjects => model::SinkObjects: |l| model::SinkObjects { places: l.places.map(|place| place.object.plain()), count: l.count };
    SinkReading => model::SinkReading: |r| model::SinkReading { verdict: r.verdict.plain(), list: r.list.plain() };
    FlatObject => model::FlatObject: |f| model::FlatObject {
        kind: f.kind, flags: f.flags, peak: f.peak, limited: f.limited, volts: f.volts.0, max: f.max.0, min: f.min.0,
        power: f.power.0, current: f.current.0, max100: f.max100.0, min100: f.min100.0, current50: f.current50.0,
        low: f.low.0, high: f.high.0,
    };
    FlatObjects => model::FlatObjects: |l| model::FlatObjects { places: l.places.plain(), count: l.count };
    FlatReading => model::FlatReading: |r| model::FlatReading { verdict: r.verdict.plain(), list: r.list.plain() };
    Request => model::Request: |r| match r {
        Request::Fixed { operating, maximum } => model::Request::Fixed { operating: operating.0, maximum: maximum.0 },
        Request::Battery { operating, maximum } => model::Request::Battery { operating: operating.0, maximum: maximum.0 },
        Request::Variable { operating, maximum } => model::Request::Variable { operating: operating.0, maximum: maximum.0 },
        Request::Pps { volts, current } => model::Request::Pps { volts: volts.0, current: current.0 },
        Request::Avs { volts, current } => model::Request::Avs { volts: volts.0, current: current.0 },
    };
    Asked => model::Asked: |a| model::Asked { position: a.position, mismatch: a.mismatch, request: a.request.plain() };
    Summary => model::Summary: |s| model::Summary { count: s.count, rows: s.rows };
    Summarized => model::Summarized: |s| model::Summarized { verdict: s.verdict.plain(), summary: s.summary.plain() };
    QuickRequest => model::Figures: |r| match r {
        QuickRequest::Fixed { operating, maximum } => model::Figures::Fixed { operating: operating.0, maximum: maximum.0 },
        QuickRequest::Variable { operating, maximum } => model::Figures::Variable { operating: operating.0, maximum: maximum.0 },
        QuickRequest::Pps { volts, current } => model::Figures::Pps { volts: volts.0, current: current.0 },
        QuickRequest::Avs { volts, current } => model::Figures::Avs { volts: volts.0, current: current.0 },
    };
    QuickAsked => model::DecodedRequest: |a| model::DecodedRequest {
        position: a.position, mismatch: a.mismatch, figures: a.request.plain(),
    };
    Result<TakenRequest, Verdict> => model::Taken: |t| match t {
        Err(verdict) => model::Taken::Refused(verdict.plain()),
        Ok(TakenRequest::Battery { .. }) => model::Taken::Battery,
        Ok(TakenRequest::Quick(asked)) => model::Taken::Decoded(asked.plain()),
    };
    FlatRequest => model::FlatRequest: |f| model::FlatRequest {
        kind: f.kind, position: f.position, mismatch: f.mismatch, operating: f.operating.0, maximum: f.maximum.0,
        volts20: f.volts20.0, volts25: f.volts25.0, current50: f.current50.0,
    };
    FlatTaken => model::FlatTaken: |t| model::FlatTaken { verdict: t.verdict.plain(), request: t.request.plain() };
    Turn => PlainTurn: |t| PlainTurn {
        rows: t.rows.plain(), count: t.count, capacity: t.capacity, port: t.port, cable: t.cable, word: t.word,
    };
}
