//! The table of the four limits, the lists that have no summary, and answers, all worked by hand.

use super::*;

/// Row by row: an object with its row, standing behind what a list needs before it.
#[test]
fn the_table() {
    let (five, fifteen) = (fixed(5, 300), fixed(15, 300));
    let cases: [(&[u32], [u16; 4]); 19] = [
        (&[five], [5000, 5000, 3000, 3000]),
        (&[fixed(5, 0)], [5000, 5000, 0, 0]),
        (&[fixed(5, 1023) | 0x7F << 23 | 3 << 20], [5000, 5000, 10_230, 10_230]),
        (&[five, fixed(9, 1)], [9000, 9000, 10, 10]),
        (&[five, fifteen], [15_000, 15_000, 3000, 3000]),
        (&[five, fixed(20, 500) | 3 << 20], [20_000, 20_000, 5000, 5000]),
        (&[five, battery(400, 100, 200)], [5000, 20_000, 0, 0]),
        (&[five, battery(420, 0, 400)], [0, 21_000, 0, 0]),
        (&[five, variable(300, 60, 150)], [3000, 15_000, 1500, 1500]),
        (&[five, variable(420, 420, 476)], [21_000, 21_000, 4760, 4760]),
        (&[five, variable(0, 0, 1023)], [0, 0, 10_230, 10_230]),
        (&[five, pps(110, 33, 60)], [3300, 11_000, 3000, 3000]),
        (&[five, pps(210, 50, 127) ^ 1 << 27], [5000, 21_000, 6350, 6350]),
        (&[five, pps(0, 0, 0)], [0, 0, 0, 0]),
        (&[five, fifteen, avs(300, 0)], [9000, 15_000, 3000, 0]),
        (&[five, fixed(15, 0), avs(0, 0) | 3 << 26], [9000, 15_000, 0, 0]),
        (&[five, fifteen, fixed(20, 325), avs(300, 325)], [9000, 20_000, 3000, 3250]),
        (&[five, fixed(15, 666), fixed(20, 1), avs(666, 1)], [9000, 20_000, 6660, 10]),
        (&[five, fifteen, fixed(20, 325), avs(300, 0)], [9000, 15_000, 3000, 0]),
    ];
    for (words, row) in cases {
        let summary = summary_of(&list_of(words));
        assert_eq!(usize::from(summary.count), words.len());
        assert_eq!(summary.rows[words.len() - 1], row, "{words:08X?}");
        assert_eq!(summary.rows[words.len()..], [[0; 4]; 7][words.len()..]);
    }
}

/// Whole summaries: list L, and one of each kind.
#[test]
fn whole_lists() {
    let rows = [
        [5000, 5000, 3000, 3000],
        [9000, 9000, 3000, 3000],
        [15_000, 15_000, 3000, 3000],
        [20_000, 20_000, 3250, 3250],
        [9000, 20_000, 3000, 3250],
    ];
    assert_eq!(summary_of(&l()), rows_of(&rows));
    let rows = [
        [5000, 5000, 1200, 1200],
        [15_000, 15_000, 3000, 3000],
        [20_000, 20_000, 3250, 3250],
        [5000, 21_000, 0, 0],
        [3000, 20_000, 1500, 1500],
        [9000, 20_000, 3000, 3250],
        [5000, 16_000, 3000, 3000],
    ];
    assert_eq!(summary_of(&all_kinds()), rows_of(&rows));
}

/// "Only the places up to the count are looked at", and "Rows past the count are zero."
#[test]
fn past_the_count() {
    for count in 1..=7 {
        let mut list = Words { count, ..all_kinds() };
        for junk in [0xFFFF_FFFF, 0xD000_0000, fixed(20, 1023), 0] {
            list.words[usize::from(count)..].fill(junk);
            let mut expected = summary_of(&all_kinds());
            expected.count = count;
            expected.rows[usize::from(count)..].fill([0; 4]);
            assert_eq!(summary_of(&list), expected, "{count} {junk:08X}");
        }
    }
}

/// "the summary is then all zero, its count too"
#[test]
fn no_summary() {
    let five = fixed(5, 300);
    let refused = |number, place, list: &Words| {
        assert_eq!(shape(list), said(number, place), "{list:08X?}");
        let summary = Summary { count: 0, rows: [[0; 4]; 7] };
        assert_eq!(summarize(list), Summarized { verdict: said(number, place), summary });
    };
    for count in [0, 8, 255] {
        refused(10, 0, &Words { words: [five; 7], count });
    }
    refused(11, 1, &list_of(&[fixed(9, 300), five]));
    refused(11, 1, &list_of(&[0xF000_0000]));
    refused(12, 2, &list_of(&[five, 0xD000_0000]));
    refused(12, 3, &list_of(&[five, fixed(9, 300), 0xF000_0000, five]));
    refused(13, 1, &list_of(&[five | 1 << 22]));
    refused(13, 2, &list_of(&[five, pps(110, 50, 60) | 1 << 7]));
    refused(14, 2, &list_of(&[five, five]));
    refused(15, 2, &list_of(&[five, pps(211, 50, 60)]));
    refused(16, 2, &list_of(&[five, fixed(20, 501)]));
    // Found when all seven words have been seen, at the place of the AVS word.
    let mut list = all_kinds();
    list.words[5] = avs(300, 324);
    refused(17, 6, &list);
}

/// The cases of "Worked by hand" that ask list L, and the same once more of its summary alone.
#[test]
fn requests_on_l() {
    let summary = summary_of(&l());
    let asked = |number, word: u32| {
        let taken = take_request(&l(), word);
        let Taken::Decoded(request) = taken else { panic!("{word:08X} {taken:?}") };
        assert_eq!(answer_summary(&summary, &request), said(number, 0), "{word:08X}");
        assert_eq!(answer(&l(), word), said(number, 0), "{word:08X}");
    };
    asked(0, ask_volts(5, 600, 65));
    asked(0, ask_volts(5, 600, 65) | 1 << 27 | 1 << 21 | 1 << 8 | 1 << 7);
    asked(24, ask_volts(5, 600, 66));
    asked(24, ask_volts(5, 596, 65));
    asked(23, ask_volts(5, 602, 65));
    asked(22, ask_volts(5, 356, 60));
    asked(0, ask_figures(4, 325, 325));
    asked(24, ask_figures(4, 326, 325));
    asked(25, ask_figures(4, 325, 326));
    asked(0, ask_figures(4, 325, 1023) | MISMATCH);
    let sixth = request_for(6, Figures::Avs { volts: 600, current: 60 });
    assert_eq!(answer_summary(&summary, &sixth), said(20, 0));
    assert_eq!(take_request(&l(), ask_volts(6, 600, 60)), Taken::Refused(said(20, 0)));
    assert_eq!(answer(&l(), ask_volts(6, 600, 60)), said(20, 0));
}

/// The limit by the voltage, with the larger current below 15.0 V, and with it above.
#[test]
fn around_15_volts() {
    for (below, above) in [(3000, 2000), (2000, 3000)] {
        let summary = rows_of(&[[9000, 20_000, below, above]]);
        let asked = |figures, limit: u16| {
            let number = |current| {
                let figures = match figures {
                    Figures::Pps { volts, .. } => Figures::Pps { volts, current },
                    Figures::Avs { volts, .. } => Figures::Avs { volts, current },
                    _ => unreachable!(),
                };
                answer_summary(&summary, &request_for(1, figures)).number
            };
            assert_eq!((number(limit / 50), number(limit / 50 + 1)), (0, 24), "{figures:?}");
        };
        for (volts, limit) in [(360, below), (596, below), (600, 3000), (604, above), (800, above)]
        {
            asked(Figures::Avs { volts, current: 0 }, limit);
        }
        for (volts, limit) in [(450, below), (749, below), (750, 3000), (751, above), (1000, above)]
        {
            asked(Figures::Pps { volts, current: 0 }, limit);
        }
    }
}
