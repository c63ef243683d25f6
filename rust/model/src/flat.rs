//! Objects as one struct for all kinds.

use crate::answers::*;
use crate::lists::{scan, try_write, NOTHING};
use crate::{FlatObject, FlatObjects, FlatReading, Listing, Object, Objects, Verdict, Words};

pub fn flatten(object: &Object) -> FlatObject {
    let zero = FlatObject::default();
    match *object {
        Object::Fixed { flags, peak, volts, current } => {
            FlatObject { kind: 0, flags, peak, volts, current, ..zero }
        }
        Object::Battery { max, min, power } => FlatObject { kind: 1, max, min, power, ..zero },
        Object::Variable { max, min, current } => FlatObject { kind: 2, max, min, current, ..zero },
        Object::Pps { limited, max, min, current } => {
            FlatObject { kind: 3, limited, max100: max, min100: min, current50: current, ..zero }
        }
        Object::Avs { peak, low, high } => FlatObject { kind: 4, peak, low, high, ..zero },
    }
}

pub fn raise(flat: &FlatObject) -> Option<Object> {
    let object = match flat.kind {
        0 => Object::Fixed {
            flags: flat.flags,
            peak: flat.peak,
            volts: flat.volts,
            current: flat.current,
        },
        1 => Object::Battery { max: flat.max, min: flat.min, power: flat.power },
        2 => Object::Variable { max: flat.max, min: flat.min, current: flat.current },
        3 => Object::Pps {
            limited: flat.limited,
            max: flat.max100,
            min: flat.min100,
            current: flat.current50,
        },
        4 => Object::Avs { peak: flat.peak, low: flat.low, high: flat.high },
        _ => return None,
    };
    Some(object)
}

pub fn flat_read(list: &Words) -> FlatReading {
    let mut places = [FlatObject::default(); 7];
    match scan(&list.words, list.count, |at, object| places[at] = flatten(&object)) {
        Ok(()) => FlatReading {
            verdict: Verdict::default(),
            list: FlatObjects { places, count: list.count },
        },
        Err(verdict) => FlatReading { verdict, list: FlatObjects::default() },
    }
}

pub fn flat_write(list: &FlatObjects) -> Listing {
    // An object of no kind has no field that could be too wide; nor has `NOTHING` in its place.
    let mut objects = Objects { places: [NOTHING; 7], count: list.count };
    let mut no_kind = 0;
    let places = list.places.iter().zip(&mut objects.places);
    for (place, (flat, object)) in (1..=list.count).zip(places) {
        match raise(flat) {
            Some(known) => *object = known,
            None if no_kind == 0 => no_kind = place,
            None => {}
        }
    }
    listing(try_write(&objects, no_kind))
}
