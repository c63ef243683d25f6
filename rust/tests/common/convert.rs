//! The library's values as the model's, which counts in plain numbers, and back.

use arinduleu::steps::{HalfWatts, Ma10, Ma50, Mv100, Mv20, Mv25, Mv50, Mw250};
use arinduleu::{
    flat, lists, messages, objects, ports, requests, rules, sinks, summaries, verdicts,
};

pub trait ToModel {
    type Model;
    fn model(self) -> Self::Model;
}

pub trait ToLibrary {
    type Library;
    fn library(self) -> Self::Library;
}

// A struct that has the same field names on both sides: first the fields of plain numbers, then those in steps, then the structs.
macro_rules! structs {
    ($($home:ident::$name:ident { $($plain:ident),* } { $($figure:ident: $step:ident),* } { $($inner:ident),* })*) => { $(
        impl ToModel for $home::$name {
            type Model = model::$name;
            fn model(self) -> model::$name {
                model::$name {
                    $($plain: self.$plain,)*
                    $($figure: self.$figure.0,)*
                    $($inner: self.$inner.model(),)*
                }
            }
        }

        impl ToLibrary for model::$name {
            type Library = $home::$name;
            fn library(self) -> $home::$name {
                $home::$name {
                    $($plain: self.$plain,)*
                    $($figure: $step(self.$figure),)*
                    $($inner: self.$inner.library(),)*
                }
            }
        }
    )* };
}

// An enum that has the same variants on both sides: the fields of plain numbers, then those in steps.
macro_rules! enums {
    ($($home:ident::$name:ident { $($variant:ident { $($plain:ident),* } { $($figure:ident: $step:ident),* })* })*) => { $(
        impl ToModel for $home::$name {
            type Model = model::$name;
            fn model(self) -> model::$name {
                match self {
                    $($home::$name::$variant { $($plain,)* $($figure),* } => {
                        model::$name::$variant { $($plain,)* $($figure: $figure.0),* }
                    })*
                }
            }
        }

        impl ToLibrary for model::$name {
            type Library = $home::$name;
            fn library(self) -> $home::$name {
                match self {
                    $(model::$name::$variant { $($plain,)* $($figure),* } => {
                        $home::$name::$variant { $($plain,)* $($figure: $step($figure)),* }
                    })*
                }
            }
        }
    )* };
}

structs! {
    verdicts::Verdict { number, place } {} {}
    lists::Words { words, count } {} {}
    lists::Listing {} {} { verdict, list }
    lists::Reading {} {} { verdict, list }
    rules::Profile { rounding, pps, flags } { max: HalfWatts, present: HalfWatts, cable: Ma10 } {}
    rules::Profiled {} {} { verdict, profile }
    ports::Row { pps } { max: HalfWatts, cable: Ma10, present: HalfWatts, held: HalfWatts } {}
    ports::RemainingPower {} { power: HalfWatts } { verdict }
    requests::Asked { position, mismatch } {} { request }
    flat::FlatObject { kind, flags, peak, limited } {
        volts: Mv50, max: Mv50, min: Mv50, power: Mw250, current: Ma10,
        max100: Mv100, min100: Mv100, current50: Ma50, low: Ma10, high: Ma10
    } {}
    flat::FlatReading {} {} { verdict, list }
    flat::FlatRequest { kind, position, mismatch } {
        operating: Ma10, maximum: Ma10, volts20: Mv20, volts25: Mv25, current50: Ma50
    } {}
    flat::FlatTaken {} {} { verdict, request }
    summaries::Summary { count, rows } {} {}
    summaries::Summarized {} {} { verdict, summary }
    messages::Header { extended, count, id, power_role, revision, data_role, message_type } {} {}
    messages::Message { words } {} { header }
    messages::MessageReading {} {} { verdict, message }
    messages::Written { length } {} { verdict }
    sinks::SinkReading {} {} { verdict, list }
}

enums! {
    objects::Object {
        Fixed { flags, peak } { volts: Mv50, current: Ma10 }
        Battery {} { max: Mv50, min: Mv50, power: Mw250 }
        Variable {} { max: Mv50, min: Mv50, current: Ma10 }
        Pps { limited } { max: Mv100, min: Mv100, current: Ma50 }
        Avs { peak } { low: Ma10, high: Ma10 }
    }
    objects::Side {
        Source {} {}
        Sink {} {}
    }
    sinks::SinkObject {
        Fixed { flags } { volts: Mv50, current: Ma10 }
        Battery {} { max: Mv50, min: Mv50, power: Mw250 }
        Variable {} { max: Mv50, min: Mv50, current: Ma10 }
        Pps {} { max: Mv100, min: Mv100, current: Ma50 }
    }
    requests::Request {
        Fixed {} { operating: Ma10, maximum: Ma10 }
        Battery {} { operating: Mw250, maximum: Mw250 }
        Variable {} { operating: Ma10, maximum: Ma10 }
        Pps {} { volts: Mv20, current: Ma50 }
        Avs {} { volts: Mv25, current: Ma50 }
    }
}

impl ToModel for lists::Objects {
    type Model = model::Objects;
    fn model(self) -> model::Objects {
        model::Objects {
            places: self.places.map(|p| p.object.model()),
            count: self.count,
        }
    }
}

impl ToLibrary for model::Objects {
    type Library = lists::Objects;
    fn library(self) -> lists::Objects {
        let place = |o: model::Object| lists::Place {
            object: o.library(),
        };
        lists::Objects {
            places: self.places.map(place),
            count: self.count,
        }
    }
}

impl ToModel for sinks::SinkObjects {
    type Model = model::SinkObjects;
    fn model(self) -> model::SinkObjects {
        model::SinkObjects {
            places: self.places.map(|p| p.object.model()),
            count: self.count,
        }
    }
}

impl ToLibrary for model::SinkObjects {
    type Library = sinks::SinkObjects;
    fn library(self) -> sinks::SinkObjects {
        let place = |o: model::SinkObject| sinks::SinkPlace {
            object: o.library(),
        };
        sinks::SinkObjects {
            places: self.places.map(place),
            count: self.count,
        }
    }
}

impl ToModel for flat::FlatObjects {
    type Model = model::FlatObjects;
    fn model(self) -> model::FlatObjects {
        model::FlatObjects {
            places: self.places.map(ToModel::model),
            count: self.count,
        }
    }
}

impl ToLibrary for model::FlatObjects {
    type Library = flat::FlatObjects;
    fn library(self) -> flat::FlatObjects {
        flat::FlatObjects {
            places: self.places.map(ToLibrary::library),
            count: self.count,
        }
    }
}

// What is decoded has other names in the model.
impl ToModel for summaries::QuickRequest {
    type Model = model::Figures;
    fn model(self) -> model::Figures {
        use summaries::QuickRequest::{Avs, Fixed, Pps, Variable};
        match self {
            Fixed { operating, maximum } => model::Figures::Fixed {
                operating: operating.0,
                maximum: maximum.0,
            },
            Variable { operating, maximum } => model::Figures::Variable {
                operating: operating.0,
                maximum: maximum.0,
            },
            Pps { volts, current } => model::Figures::Pps {
                volts: volts.0,
                current: current.0,
            },
            Avs { volts, current } => model::Figures::Avs {
                volts: volts.0,
                current: current.0,
            },
        }
    }
}

impl ToLibrary for model::Figures {
    type Library = summaries::QuickRequest;
    fn library(self) -> summaries::QuickRequest {
        use model::Figures::{Avs, Fixed, Pps, Variable};
        match self {
            Fixed { operating, maximum } => summaries::QuickRequest::Fixed {
                operating: Ma10(operating),
                maximum: Ma10(maximum),
            },
            Variable { operating, maximum } => summaries::QuickRequest::Variable {
                operating: Ma10(operating),
                maximum: Ma10(maximum),
            },
            Pps { volts, current } => summaries::QuickRequest::Pps {
                volts: Mv20(volts),
                current: Ma50(current),
            },
            Avs { volts, current } => summaries::QuickRequest::Avs {
                volts: Mv25(volts),
                current: Ma50(current),
            },
        }
    }
}

impl ToModel for summaries::QuickAsked {
    type Model = model::DecodedRequest;
    fn model(self) -> model::DecodedRequest {
        model::DecodedRequest {
            position: self.position,
            mismatch: self.mismatch,
            figures: self.request.model(),
        }
    }
}

impl ToLibrary for model::DecodedRequest {
    type Library = summaries::QuickAsked;
    fn library(self) -> summaries::QuickAsked {
        summaries::QuickAsked {
            position: self.position,
            mismatch: self.mismatch,
            request: self.figures.library(),
        }
    }
}

/// The model does not say the position and the mismatch bit of what is for the list: the flat forms have them on both sides.
impl ToModel for Result<summaries::TakenRequest, verdicts::Verdict> {
    type Model = model::Taken;
    fn model(self) -> model::Taken {
        match self {
            Err(verdict) => model::Taken::Refused(verdict.model()),
            Ok(summaries::TakenRequest::Battery { .. }) => model::Taken::Battery,
            Ok(summaries::TakenRequest::Quick(asked)) => model::Taken::Decoded(asked.model()),
        }
    }
}
