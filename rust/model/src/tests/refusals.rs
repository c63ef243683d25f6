//! Each refusal number. Number 9 belongs to the listing program, which is no part of this package.

use super::*;

#[test]
fn profile_refusals() {
    let refused = |number, profile: Profile| {
        assert_eq!(build(&profile).verdict, said(number, 0));
        if number != 6 {
            assert_eq!(check(&profile, &l()), said(number, 0));
        }
    };
    refused(1, profile(0, 0, 0, 2, 0));
    refused(1, profile(201, 1, 300, 0, 0));
    refused(2, profile(30, 31, 0, 0, 0));
    refused(2, profile(30, 0, 300, 0, 0));
    refused(3, profile(30, 30, 99, 2, 0));
    refused(4, profile(30, 30, 300, 2, 0));
    refused(4, profile(30, 30, 300, 0, 2));
    refused(6, profile(30, 29, 300, 0, 1));
    let flags = Profile { flags: 64, ..profile(30, 29, 300, 0, 1) };
    refused(5, flags);
    assert_eq!(default_profile(201).verdict, said(1, 0));
    assert_eq!(default_profile(0).profile, Profile::default());
}

#[test]
fn shape_refusals() {
    let five = fixed(5, 300);
    let (nine, fifteen, twenty) = (fixed(9, 300), fixed(15, 300), fixed(20, 300));
    let refused = |number, place, words: &[u32]| {
        assert_eq!(shape(&list_of(words)), said(number, place));
    };
    assert_eq!(shape(&Words::default()), said(10, 0));
    let eight = Words { count: 8, words: [five; 7] };
    assert_eq!(shape(&eight), said(10, 0));
    refused(11, 1, &[0xD000_0000]);
    refused(11, 1, &[nine | 1 << 22]);
    refused(12, 2, &[five, 0xD000_0000]);
    refused(12, 3, &[five, nine, 0xF000_0000]);
    refused(13, 1, &[five | 1 << 22]);
    refused(13, 2, &[five, nine | 1 << 29]);
    refused(13, 2, &[five, pps(110, 50, 60) | 1 << 7]);
    refused(13, 2, &[five, avs(0, 0) | 1 << 20]);
    refused(14, 2, &[five, five]);
    refused(14, 3, &[five, battery(400, 100, 1), nine]);
    refused(14, 3, &[five, battery(400, 100, 1), battery(400, 99, 1)]);
    refused(14, 3, &[five, variable(400, 100, 1), battery(400, 99, 1)]);
    refused(14, 4, &[five, fifteen, avs(300, 0), avs(300, 0)]);
    refused(14, 3, &[five, pps(110, 50, 60), pps(109, 50, 60)]);
    refused(15, 2, &[five, fixed(21, 1023)]);
    refused(15, 2, &[five, battery(421, 100, 1)]);
    refused(15, 2, &[five, variable(100, 101, 1)]);
    refused(15, 2, &[five, pps(211, 50, 60)]);
    refused(16, 2, &[five, fixed(20, 501)]);
    refused(16, 2, &[five, battery(400, 100, 401)]);
    refused(16, 2, &[five, variable(420, 100, 477)]);
    refused(17, 2, &[five, avs(0, 0)]);
    refused(17, 3, &[five, fifteen, avs(299, 0), pps(110, 50, 60)]);
    refused(17, 4, &[five, fifteen, twenty, avs(300, 299)]);
    refused(0, 0, &[five, fifteen, twenty, avs(300, 0)]);
    refused(16, 4, &[five, fifteen, avs(299, 0), fixed(20, 501)]);
}

/// "10; 7 at the first such object; then as shape from 11 on", of objects that may be of no kind.
#[test]
fn flat_write_refusals() {
    let fixed = |volts, current| FlatObject { volts, current, ..FlatObject::default() };
    let (five, nine, falling) = (fixed(100, 300), fixed(180, 300), fixed(66, 300));
    let (high, strong, wide) = (fixed(401, 1), fixed(400, 501), fixed(180, 1024));
    let flagged = FlatObject { flags: 1, ..nine };
    let lonely = FlatObject { kind: 4, low: 300, ..FlatObject::default() };
    // Of no kind, so none of its fields is read.
    let none = FlatObject { kind: 5, flags: 255, current: 1024, max: 65535, ..five };
    let count = |count, places: [FlatObject; 7]| flat_write(&FlatObjects { places, count });
    assert_eq!(count(0, [none; 7]).verdict, said(10, 0));
    assert_eq!(count(8, [none; 7]).verdict, said(10, 0));
    assert_eq!(count(1, [five, none, none, none, none, none, wide]).list.words[0], 0x0001_912C);

    let refused = |number, place, given: &[FlatObject]| {
        let mut list = FlatObjects { places: [none; 7], count: given.len() as u8 };
        list.places[..given.len()].copy_from_slice(given);
        let expected = Listing { verdict: said(number, place), list: Words::default() };
        assert_eq!(flat_write(&list), expected);
    };
    refused(7, 2, &[none, wide]);
    refused(7, 3, &[five, none, wide]);
    refused(7, 2, &[five, wide, none, wide]);
    refused(11, 1, &[none]);
    refused(11, 1, &[none, high]);
    refused(11, 1, &[nine, nine, none]);
    refused(12, 2, &[five, none]);
    refused(12, 2, &[five, none, falling]);
    refused(12, 2, &[five, none, none]);
    refused(12, 3, &[five, lonely, none]);
    refused(13, 2, &[five, flagged, none]);
    refused(14, 2, &[five, falling, none]);
    refused(15, 2, &[five, high, none]);
    refused(16, 2, &[five, strong, none]);
    for place in 2..=7 {
        let mut rising: [_; 7] = core::array::from_fn(|at| fixed(100 + 10 * at as u16, 300));
        rising[place - 1].kind = 255;
        refused(12, place as u8, &rising);
    }
}

#[test]
fn rule_refusals() {
    let (five, nine) = (fixed(5, 300), fixed(9, 300));
    let checked = |max, present, cable, words: &[u32]| {
        check(&profile(max, present, cable, 0, 0), &list_of(words))
    };
    assert_eq!(checked(30, 30, 300, &[five, nine]), said(18, 0));
    assert_eq!(checked(31, 31, 300, &[five]), said(18, 0));
    assert_eq!(checked(30, 30, 300, &[five, pps(110, 50, 60)]), said(18, 0));
    assert_eq!(checked(30, 30, 300, &[five, battery(400, 100, 1)]), said(18, 0));
    let second_zero = [five, nine, fixed(15, 300), fixed(20, 227), avs(300, 0)];
    assert_eq!(checked(91, 91, 300, &second_zero), said(18, 0));

    let three = [five, nine, fixed(15, 240), avs(240, 0)];
    let with = |progs: [u32; 2]| [three[0], three[1], three[2], three[3], progs[0], progs[1]];
    let both = |nine, fifteen| with([pps(110, 50, nine), pps(160, 50, fifteen)]);
    assert_eq!(checked(72, 72, 300, &three), said(0, 0));
    assert_eq!(checked(72, 72, 300, &both(60, 48)), said(0, 0));
    assert_eq!(checked(72, 72, 500, &both(80, 48)), said(0, 0));
    assert_eq!(checked(72, 72, 500, &both(81, 48)), said(19, 5));
    assert_eq!(checked(72, 72, 300, &both(61, 48)), said(19, 5));
    assert_eq!(checked(72, 72, 500, &both(60, 47)), said(19, 6));
    assert_eq!(checked(72, 71, 500, &both(60, 48)), said(18, 0));
    assert_eq!(checked(72, 72, 500, &both(81, 48)[..5]), said(18, 0));

    assert_eq!(checked(30, 30, 500, &[fixed(5, 301)]), said(19, 1));
    assert_eq!(checked(31, 31, 500, &[fixed(5, 310), fixed(9, 173)]), said(0, 0));
    assert_eq!(checked(31, 31, 500, &[fixed(5, 311), fixed(9, 171)]), said(19, 1));
    assert_eq!(checked(31, 31, 300, &[fixed(5, 301), fixed(9, 172)]), said(19, 1));
    let mut list = built(profile(200, 200, 300, 0, 1));
    assert_eq!(list.words[5], pps(210, 50, 60));
    list.words[0] |= 0x7F << 23 | 3 << 20;
    list.words[5] &= !(1 << 27);
    assert_eq!(check(&profile(200, 200, 300, 1, 0), &list), said(0, 0));
}

#[test]
fn request_refusals() {
    let (volts, figures) = (list_of(&[fixed(5, 300), pps(110, 50, 60)]), l());
    assert_eq!(answer(&list_of(&[0]), 0), said(11, 1));
    assert_eq!(answer(&figures, ask_figures(0, 1, 1)), said(20, 0));
    assert_eq!(answer(&figures, ask_figures(1, 300, 300) | 0xF << 22), said(0, 0));
    assert_eq!(answer(&figures, ask_figures(1, 301, 301)), said(24, 0));
    assert_eq!(answer(&figures, ask_figures(1, 300, 301)), said(25, 0));
    assert_eq!(answer(&figures, ask_figures(1, 300, 301) | 1 << 26), said(0, 0));
    assert_eq!(answer(&volts, ask_volts(2, 249, 60)), said(22, 0));
    assert_eq!(answer(&volts, ask_volts(2, 250, 60)), said(0, 0));
    assert_eq!(answer(&volts, ask_volts(2, 550, 61)), said(24, 0));
    assert_eq!(answer(&volts, ask_volts(2, 551, 60)), said(22, 0));
    assert_eq!(answer(&by_max(80), ask_volts(4, 604, 1)), said(22, 0));
    assert_eq!(answer(&figures, ask_volts(5, 804, 1)), said(22, 0));
    // Out of range and not whole either: 23 comes first.
    assert_eq!(answer(&figures, ask_volts(5, 358, 1)), said(23, 0));
    assert_eq!(answer(&figures, ask_volts(5, 801, 1)), said(23, 0));
    let power = list_of(&[fixed(5, 300), battery(400, 100, 200)]);
    assert_eq!(answer(&power, ask_figures(2, 200, 200)), said(0, 0));
    assert_eq!(answer(&power, ask_figures(2, 201, 200)), said(24, 0));

    let asked = take_apart(&decode(figures.words[4]).unwrap(), ask_volts(15, 602, 66) | 1 << 26);
    let request = Request::Avs { volts: 602, current: 66 };
    assert_eq!((asked.position, asked.mismatch, asked.request), (15, true, request));
}

#[test]
fn sharing_refusals() {
    let row = Row { max: 100, held: 15, ..Row::default() };
    let mut none: [Row; 0] = [];
    assert_eq!(set_up(&mut none, 100), said(30, 0));
    assert_eq!(remaining(&[row; 9], 200).verdict, said(30, 0));
    let mut rows = [row; 2];
    assert_eq!(set_up(&mut rows, 29), said(32, 0));
    assert_eq!(attach(&mut rows, 1601, 1, 300).verdict, said(32, 0));
    rows[1].max = 14;
    assert_eq!(set_up(&mut rows, 200), said(31, 2));
    rows[0].pps = 2;
    assert_eq!(set_up(&mut rows, 200), said(4, 1));
    assert_eq!(attach(&mut rows, 200, 3, 99).verdict, said(37, 1));

    let mut rows = [row; 2];
    assert_eq!(attach(&mut rows, 200, 0, 99).verdict, said(33, 0));
    assert_eq!(detach(&mut rows, 200, 3), said(33, 0));
    assert_eq!(attach(&mut rows, 200, 1, 99).verdict, said(3, 0));
    assert_eq!(attach(&mut rows, 200, 1, 300).verdict, said(0, 0));
    assert_eq!(attach(&mut rows, 200, 1, 300).verdict, said(34, 1));
    assert_eq!(advertise(&mut rows, 200, 2).verdict, said(35, 2));
    assert_eq!(request(&mut rows, 200, 2, 0), said(35, 2));
    assert_eq!(detach(&mut rows, 200, 2), said(35, 2));
    assert_eq!(request(&mut rows, 200, 1, 0), said(20, 0));
    rows[0].held = 100;
    assert_eq!(remaining(&rows, 114).verdict, said(37, 0));
    rows[1].held = 16;
    assert_eq!(remaining(&rows, 114).verdict, said(37, 2));
    assert_eq!(remaining(&rows, 114).power, 0);
}
