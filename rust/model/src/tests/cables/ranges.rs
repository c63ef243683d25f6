//! "cable outside 100 to 500" (3), and rows that are not sound for it (37).

use super::*;

/// The low byte of 612 is 100.
const OUTSIDE: [u16; 7] = [99, 501, 0, 3, 5, 612, 65535];

fn attached(cable: u16) -> Row {
    Row { max: 100, pps: 0, cable, present: 100, held: 15 }
}

fn empty() -> Row {
    Row { max: 100, pps: 0, cable: 0, present: 0, held: 15 }
}

#[test]
fn every_number_in_a_profile() {
    let list = by_max(30);
    let refused = Listing { verdict: said(3, 0), list: Words::default() };
    let judged = |cable, good| {
        // 1.5 W now: 0.3 A at 5 V, which no cable cuts.
        let profile = profile(30, 3, cable, 0, 0);
        let expected = Listing { verdict: said(0, 0), list: list_of(&[fixed(5, 30)]) };
        assert_eq!(build(&profile), if good { expected } else { refused }, "{cable}");
        assert_eq!(check(&profile, &list), said(if good { 19 } else { 3 }, u8::from(good)));
    };
    for cable in 0..=u16::MAX {
        judged(cable, (100..=500).contains(&cable));
    }
    for cable in OUTSIDE {
        judged(cable, false);
    }
}

/// "1, 2, 3, 4, 5, 6", and the list after them.
#[test]
fn order_in_a_profile() {
    for cable in OUTSIDE {
        let given = |number, max, present, rounding, pps, flags| {
            let profile = Profile { max, present, cable, rounding, pps, flags };
            assert_eq!(build(&profile).verdict, said(number, 0), "{profile:?}");
            assert_eq!(check(&profile, &Words::default()), said(number, 0), "{profile:?}");
        };
        given(1, 0, 0, 2, 2, 64);
        given(1, 201, 1, 0, 0, 0);
        given(2, 30, 0, 2, 2, 64);
        given(2, 30, 31, 0, 0, 0);
        given(3, 30, 30, 2, 0, 0);
        given(3, 30, 30, 0, 2, 0);
        given(3, 30, 30, 0, 0, 64);
        given(3, 30, 29, 0, 1, 0);
        given(3, 30, 30, 0, 0, 0);
    }
}

#[test]
fn every_number_in_attach() {
    for cable in 0..=u16::MAX {
        let mut rows = [empty(); 2];
        let listing = attach(&mut rows, 200, 2, cable);
        if (100..=500).contains(&cable) {
            assert_eq!(rows, [empty(), attached(cable)]);
            let expected = build(&profile(100, 100, cable, 0, 0));
            assert_eq!((listing, listing.verdict), (expected, said(0, 0)));
        } else {
            assert_eq!(rows, [empty(); 2], "{cable}");
            assert_eq!(listing, Listing { verdict: said(3, 0), list: Words::default() });
        }
    }
}

/// "30, 32, 37, 33, 3, 34"
#[test]
fn order_in_attach() {
    let rows = [attached(200), empty()];
    let refused = |number, place, mut rows: [Row; 2], capacity, port, cable| {
        let before = rows;
        let expected = Listing { verdict: said(number, place), list: Words::default() };
        assert_eq!(attach(&mut rows, capacity, port, cable), expected);
        assert_eq!(rows, before);
    };
    for cable in OUTSIDE {
        assert_eq!(attach(&mut [], 200, 1, cable).verdict, said(30, 0));
        refused(32, 0, rows, 29, 1, cable);
        refused(37, 2, [attached(200), attached(501)], 200, 0, cable);
        refused(33, 0, rows, 200, 0, cable);
        refused(33, 0, rows, 200, 3, cable);
        refused(3, 0, rows, 200, 1, cable);
        refused(3, 0, rows, 200, 2, cable);
    }
    for cable in [100, 200, 300, 400, 500] {
        refused(33, 0, rows, 200, 3, cable);
        refused(34, 1, rows, 200, 1, cable);
    }
}

/// A row with a cable is an attached port's, so the cable is 100 to 500.
#[test]
fn every_number_in_a_row() {
    for cable in 0..=u16::MAX {
        let number = if (100..=500).contains(&cable) { 0 } else { 37 };
        let expected = said(number, if number == 0 { 0 } else { 2 });
        let mut rows = [empty(), attached(cable)];
        assert_eq!(remaining(&rows, 200).verdict, expected, "{cable}");
        assert_eq!(detach(&mut rows, 200, 2), expected, "{cable}");
        // The figures of an empty port, whose cable is 0.
        let number = if cable == 0 { 0 } else { 37 };
        let rows = [Row { cable, ..empty() }];
        assert_eq!(remaining(&rows, 200).verdict, said(number, u8::from(number != 0)));
    }
}

#[test]
fn not_sound_in_every_call() {
    for cable in [1, 3, 5, 99, 501, 612, 65535] {
        for place in [1, 2, 3] {
            let mut rows = [empty(), attached(200), attached(500)];
            rows[place - 1] = attached(cable);
            let before = rows;
            let verdict = said(37, place as u8);
            let listing = Listing { verdict, list: Words::default() };
            for port in [0, 1, 2, 3, 4] {
                assert_eq!(attach(&mut rows, 400, port, 300), listing);
                assert_eq!(advertise(&mut rows, 400, port), listing);
                assert_eq!(request(&mut rows, 400, port, ask_figures(1, 1, 1)), verdict);
                assert_eq!(detach(&mut rows, 400, port), verdict);
            }
            assert_eq!(remaining(&rows, 400), RemainingPower { verdict, power: 0 });
            assert_eq!(rows, before);
            // "nothing else in the lent rows is looked at"
            assert_eq!(set_up(&mut rows, 400), said(0, 0));
            assert_eq!(rows, [empty(); 3]);
        }
    }
}
