//! Decoded requests in C's struct: kind numbers, bit 26 as a number, and fields that a kind does not
//! have.

use super::*;

const ZERO: FlatRequest = FlatRequest {
    kind: 0,
    position: 0,
    mismatch: 0,
    operating: 0,
    maximum: 0,
    volts20: 0,
    volts25: 0,
    current50: 0,
};

/// Every field at its most. A kind takes its own fields from the request that it is put over.
const STALE: FlatRequest = FlatRequest {
    kind: 255,
    position: 255,
    mismatch: 255,
    operating: 65535,
    maximum: 65535,
    volts20: 65535,
    volts25: 65535,
    current50: 65535,
};

/// The request in C's struct, over the fields that it does not have.
fn page_flat(request: &DecodedRequest, over: FlatRequest) -> FlatRequest {
    let mut flat = over;
    (flat.position, flat.mismatch) = (request.position, if request.mismatch { 1 } else { 0 });
    match request.figures {
        Figures::Fixed { operating, maximum } => {
            (flat.kind, flat.operating, flat.maximum) = (0, operating, maximum)
        }
        Figures::Variable { operating, maximum } => {
            (flat.kind, flat.operating, flat.maximum) = (2, operating, maximum)
        }
        Figures::Pps { volts, current } => {
            (flat.kind, flat.volts20, flat.current50) = (3, volts, current)
        }
        Figures::Avs { volts, current } => {
            (flat.kind, flat.volts25, flat.current50) = (4, volts, current)
        }
    }
    flat
}

/// By hand: one word for each kind.
#[test]
fn given_back() {
    let taken = |word, request| {
        let expected = FlatTaken { verdict: said(0, 0), request };
        assert_eq!(flat_take_request(&all_kinds(), word), expected, "{word:08X}");
    };
    let figures = 120 << 10 | 1023;
    let ends = FlatRequest { operating: 120, maximum: 1023, ..ZERO };
    taken(FIXED << 28 | figures, FlatRequest { kind: 0, position: 1, ..ends });
    taken(VARIABLE << 28 | figures, FlatRequest { kind: 2, position: 5, ..ends });
    let clear = FlatRequest { kind: 1, position: 4, ..ZERO };
    taken(BATTERY << 28 | figures, clear);
    taken(BATTERY << 28 | 0x0BFF_FFFF, clear);
    taken(BATTERY << 28 | 0x0FFF_FFFF, FlatRequest { mismatch: 1, ..clear });
    let word = ask_volts(PPS, 550, 60);
    taken(word, FlatRequest { kind: 3, position: 7, volts20: 550, current50: 60, ..ZERO });
    let avs = FlatRequest { kind: 4, position: 6, volts25: 602, current50: 65, ..ZERO };
    taken(ask_volts(AVS, 602, 65), avs);
    taken(ask_volts(AVS, 602, 65) | BESIDE_VOLTS, avs);
    taken(ask_volts(AVS, 602, 65) | MISMATCH, FlatRequest { mismatch: 1, ..avs });
}

/// "On a refusal everything else in the answer is zero".
#[test]
fn refused() {
    let refused = |number, place, list: &Words, word| {
        let expected = FlatTaken { verdict: said(number, place), request: ZERO };
        assert_eq!(flat_take_request(list, word), expected, "{word:08X}");
    };
    for position in 0..16 {
        let word = position << 28 | 0x0FFF_FFFF;
        refused(10, 0, &Words { count: 0, ..all_kinds() }, word);
        refused(10, 0, &Words { count: 8, ..all_kinds() }, word);
        if position == 0 || position > 7 {
            refused(20, 0, &all_kinds(), word);
        } else {
            refused(12, position as u8, &Words { count: 7, words: [0xD000_0000; 7] }, word);
        }
    }
}

/// "a decoded request whose kind number is not that of a fixed, a variable, a PPS or an AVS object
/// is refused with 12, before the summary is looked at"
#[test]
fn kind_numbers() {
    let summary = |count| Summary { count, rows: [[0, 65535, 65535, 65535]; 7] };
    for kind in 0..=u8::MAX {
        let known = matches!(kind, 0 | 2 | 3 | 4);
        for over in [ZERO, STALE] {
            let flat = FlatRequest { kind, ..over };
            assert_eq!(raise_request(&flat).is_some(), known, "{kind}");
            for count in [0, 1, 7, 8, 255] {
                for position in [0, 1, 7, 8, 255] {
                    let number = match (known, count) {
                        (false, _) => 12,
                        (true, 8..) => 10,
                        _ if position == 0 || position > count => 20,
                        _ if over == ZERO => 0,
                        _ => [24, 12, 24, 22, 23][usize::from(kind)],
                    };
                    let flat = FlatRequest { kind, position, ..over };
                    let answer = flat_answer_summary(&summary(count), &flat);
                    assert_eq!(answer, said(number, 0), "{count} {flat:?}");
                }
            }
        }
    }
}

/// "Bit 26 is a number there, [...] and any other than 0 counts as set."
#[test]
fn mismatch_is_a_number() {
    let summary = rows_of(&[[5000, 5000, 1000, 1000]]);
    for kind in [0, 2] {
        for mismatch in 0..=u8::MAX {
            let flat =
                FlatRequest { kind, position: 1, mismatch, operating: 100, maximum: 101, ..STALE };
            let number = if mismatch == 0 { 25 } else { 0 };
            assert_eq!(flat_answer_summary(&summary, &flat), said(number, 0), "{mismatch}");
            let raised = raise_request(&flat).unwrap();
            assert_eq!(raised.mismatch, mismatch != 0);
            assert_eq!(flatten_request(&raised).mismatch, u8::from(mismatch != 0));
        }
    }
}

/// "Fields that the kind does not have are not looked at, and are zero in what is given back."
#[test]
fn seeded() {
    let mut seeded = Seeded(66);
    let mut seen = [0; 32];
    for _ in 0..1 << 18 {
        let list = seeded.good_list();
        let summary = summary_of(&list);
        let position = seeded.of(&[1, 2, 3, 4, 5, 6, 7, 1, 2, 3, 4, 5, 6, 7, 0, 8, 15]);
        let word = position << 28 | seeded.next() >> 4;
        let taken = flat_take_request(&list, word);
        match page_taken(&list, word) {
            Taken::Refused(verdict) => assert_eq!(taken, FlatTaken { verdict, request: ZERO }),
            Taken::Battery => {
                let (position, mismatch) = ((word >> 28) as u8, (word >> 26 & 1) as u8);
                let request = FlatRequest { kind: 1, position, mismatch, ..ZERO };
                assert_eq!(taken, FlatTaken { verdict: said(0, 0), request });
                seen[12] += 1;
            }
            Taken::Decoded(request) => {
                let flat = page_flat(&request, ZERO);
                assert_eq!(taken, FlatTaken { verdict: said(0, 0), request: flat });
                assert_eq!(flatten_request(&request), flat);
                let junk = seeded.next() as u16;
                let over = FlatRequest {
                    operating: junk,
                    maximum: junk,
                    volts20: junk,
                    volts25: junk,
                    current50: junk,
                    ..STALE
                };
                let expected = page_answer(&summary, &request);
                for over in [ZERO, STALE, over] {
                    let flat = page_flat(&request, over);
                    assert_eq!(raise_request(&flat), Some(request), "{flat:?}");
                    assert_eq!(flat_answer_summary(&summary, &flat), expected, "{flat:?}");
                }
                seen[usize::from(expected.number)] += 1;
            }
        }
    }
    for number in [0, 12, 22, 23, 24, 25] {
        assert!(seen[number] > 100, "{number} {seen:?}");
    }
}
