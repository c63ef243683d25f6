//! Sink objects in C's struct: kind numbers, and fields that a kind does not have.

use super::*;

/// Every field at its most. A kind takes its own fields from the object that it is put over.
const STALE: FlatObject = FlatObject {
    kind: 255,
    flags: 255,
    peak: 255,
    limited: 255,
    volts: 65535,
    max: 65535,
    min: 65535,
    power: 65535,
    current: 65535,
    max100: 65535,
    min100: 65535,
    current50: 65535,
    low: 65535,
    high: 65535,
};

fn stale_fixed(flags: u8, volts: u16, current: u16) -> FlatObject {
    FlatObject { kind: 0, flags, volts, current, ..STALE }
}

fn given(objects: &[FlatObject]) -> FlatObjects {
    let mut list = FlatObjects { places: [STALE; 7], count: objects.len() as u8 };
    list.places[..objects.len()].copy_from_slice(objects);
    list
}

/// "Fields that the kind does not have are not looked at, and are zero in what is given back."
#[test]
fn stale_bytes() {
    let stale = [
        stale_fixed(127, 100, 300),
        stale_fixed(0, 180, 200),
        FlatObject { kind: 1, max: 400, min: 100, power: 9, ..STALE },
        FlatObject { kind: 2, max: 300, min: 60, current: 100, ..STALE },
        FlatObject { kind: 3, max100: 110, min100: 50, current50: 60, ..STALE },
    ];
    let clean = [
        SinkObject::Fixed { flags: 127, volts: 100, current: 300 },
        SinkObject::Fixed { flags: 0, volts: 180, current: 200 },
        SinkObject::Battery { max: 400, min: 100, power: 9 },
        SinkObject::Variable { max: 300, min: 60, current: 100 },
        SinkObject::Pps { max: 110, min: 50, current: 60 },
    ];
    for (stale, clean) in stale.iter().zip(&clean) {
        assert_eq!(sink_raise(stale), Some(*clean));
        assert_eq!(sink_flatten(clean), page_flat(clean));
        assert_eq!(sink_raise(&page_flat(clean)), Some(*clean));
    }
    let words = [
        0x3F81_912C,
        fixed(9, 200),
        battery(400, 100, 9),
        variable(300, 60, 100),
        prog(110, 50, 60),
    ];
    let written = sink_flat_write(&given(&stale));
    assert_eq!(written, Listing { verdict: said(0, 0), list: list_of(&words) });
    let reading = sink_flat_read(&written.list);
    let mut back = FlatObjects { places: [FlatObject::default(); 7], count: 5 };
    for (flat, object) in back.places.iter_mut().zip(&clean) {
        *flat = page_flat(object);
    }
    assert_eq!(reading, FlatReading { verdict: said(0, 0), list: back });
}

/// "4 is not a sink's kind, so it stands as a word of kind 1111b like any other number that is
/// none."
#[test]
fn kind_numbers() {
    for kind in 0..=u8::MAX {
        let zero = FlatObject { kind, ..FlatObject::default() };
        let raised = sink_raise(&zero);
        assert_eq!(raised.is_some(), kind < 4, "{kind}");
        if let Some(object) = raised {
            assert_eq!(sink_flatten(&object), zero);
            continue;
        }
        for none in [FlatObject { kind, ..STALE }, zero] {
            refusals(&none);
        }
    }
    // An AVS object that a source could send.
    let supply = FlatObject { kind: 4, low: 300, ..FlatObject::default() };
    assert!(raise(&supply).is_some());
    refusals(&supply);
}

/// "An object with another kind number has no field that could be too wide", so it gets "11 where
/// it is the first object and 12 in its turn elsewhere".
fn refusals(none: &FlatObject) {
    let none = *none;
    let (five, nine) = (stale_fixed(0, 100, 300), stale_fixed(0, 180, 300));
    let (wide, falling) = (stale_fixed(0, 180, 1024), stale_fixed(0, 66, 300));
    let (high, strong) = (stale_fixed(0, 401, 1), stale_fixed(0, 400, 501));
    let flagged = stale_fixed(1, 180, 300);
    let refused = |number, place, objects: &[FlatObject]| {
        let expected = Listing { verdict: said(number, place), list: Words::default() };
        assert_eq!(sink_flat_write(&given(objects)), expected, "{none:?}");
    };
    refused(11, 1, &[none]);
    refused(11, 1, &[none, none]);
    refused(11, 1, &[none, high]);
    refused(11, 1, &[nine, none]);
    refused(12, 2, &[five, none]);
    refused(12, 2, &[five, none, none]);
    refused(12, 2, &[five, none, falling]);
    refused(12, 3, &[five, nine, none, high]);
    refused(7, 2, &[none, wide]);
    refused(7, 3, &[five, none, wide]);
    refused(7, 2, &[five, wide, none, wide]);
    refused(13, 2, &[five, flagged, none]);
    refused(14, 2, &[five, falling, none]);
    refused(15, 2, &[five, high, none]);
    refused(16, 2, &[five, strong, none]);
    for place in 2..=7 {
        let mut rising: [_; 7] = core::array::from_fn(|at| stale_fixed(0, 100 + at as u16, 300));
        rising[place - 1] = none;
        refused(12, place as u8, &rising);
        let short = FlatObjects { count: place as u8 - 1, ..given(&rising) };
        assert_eq!(sink_flat_write(&short).verdict, said(0, 0));
    }
    for count in [0, 8, 255] {
        let list = FlatObjects { places: [none; 7], count };
        let expected = Listing { verdict: said(10, 0), list: Words::default() };
        assert_eq!(sink_flat_write(&list), expected);
    }
}

/// "7, the object's place", of each field of each kind in C's struct.
#[test]
fn too_wide() {
    let five = stale_fixed(0, 100, 300);
    let zero = FlatObject::default();
    let cases = [
        FlatObject { flags: 128, ..zero },
        FlatObject { volts: 1024, ..zero },
        FlatObject { current: 1024, ..zero },
        FlatObject { kind: 1, max: 1024, ..zero },
        FlatObject { kind: 1, min: 1024, ..zero },
        FlatObject { kind: 1, power: 1024, ..zero },
        FlatObject { kind: 2, max: 1024, ..zero },
        FlatObject { kind: 2, min: 1024, ..zero },
        FlatObject { kind: 2, current: 1024, ..zero },
        FlatObject { kind: 3, max100: 256, ..zero },
        FlatObject { kind: 3, min100: 256, ..zero },
        FlatObject { kind: 3, current50: 128, ..zero },
    ];
    for wide in cases {
        for place in 1..=7 {
            let mut places = [five; 7];
            places[place - 1] = wide;
            let expected = Listing { verdict: said(7, place as u8), list: Words::default() };
            assert_eq!(sink_flat_write(&FlatObjects { places, count: 7 }), expected, "{wide:?}");
        }
    }
}
