//! "A summary may hold any numbers, and so may a decoded request. The row of the position is taken
//! as it stands, whatever object it was made from".

use super::*;

const WIDEST: [u16; 4] = [0, 65535, 65535, 65535];

const NOTHING: [Figures; 4] = [
    Figures::Fixed { operating: 0, maximum: 0 },
    Figures::Variable { operating: 0, maximum: 0 },
    Figures::Pps { volts: 0, current: 0 },
    Figures::Avs { volts: 0, current: 0 },
];

fn asked(number: u8, row: [u16; 4], figures: Figures) {
    let request = request_for(1, figures);
    assert_eq!(answer_summary(&rows_of(&[row]), &request), said(number, 0), "{row:?} {figures:?}");
}

/// 10 for a count above 7, and before 20; a count of 0 has no position.
#[test]
fn counts_and_positions() {
    for figures in NOTHING {
        for count in 0..=u8::MAX {
            let summary = Summary { count, rows: [WIDEST; 7] };
            for position in 0..=u8::MAX {
                let number = match count {
                    8.. => 10,
                    _ if position == 0 || position > count => 20,
                    _ => 0,
                };
                let request = request_for(position, figures);
                assert_eq!(
                    answer_summary(&summary, &request),
                    said(number, 0),
                    "{count} {position} {figures:?}"
                );
            }
        }
    }
}

/// Each position has its own row, up to the count and not past it.
#[test]
fn rows_by_position() {
    for place in 1..=7 {
        let mut summary = Summary { count: 7, rows: [[0; 4]; 7] };
        summary.rows[place - 1] = [65_500, 65_500, 50, 50];
        for position in 1..=7 {
            for (figures, number) in [
                (Figures::Fixed { operating: 5, maximum: 0 }, 24),
                (Figures::Variable { operating: 5, maximum: 0 }, 24),
                (Figures::Pps { volts: 3275, current: 1 }, 22),
                (Figures::Avs { volts: 2620, current: 1 }, 22),
            ] {
                let number = if usize::from(position) == place { 0 } else { number };
                let request = request_for(position, figures);
                assert_eq!(answer_summary(&summary, &request), said(number, 0), "{figures:?}");
            }
        }
    }
}

/// A fixed or a variable request has the limit below 15.0 V, whatever the row says of voltages and
/// of the current above; a battery's row allows it nothing but 0.
#[test]
fn figures_on_any_row() {
    for figures in [
        |operating, maximum| Figures::Fixed { operating, maximum },
        |operating, maximum| Figures::Variable { operating, maximum },
    ] {
        for (lowest, highest) in [(0, 0), (20_000, 20_000), (65535, 0), (15_000, 15_000)] {
            for above in [0, 999, 5000, 65535] {
                let row = |below| [lowest, highest, below, above];
                asked(0, row(1000), figures(100, 100));
                asked(24, row(1000), figures(101, 100));
                asked(25, row(1000), figures(100, 101));
                asked(24, row(999), figures(100, 100));
                asked(24, row(1009), figures(101, 101));
                asked(0, row(0), figures(0, 0));
                asked(24, row(0), figures(1, 1));
                asked(25, row(0), figures(0, 1));
                // 65535 mA are 6553 steps and a half; 65535 steps are 655350 mA.
                asked(0, row(65535), figures(6553, 6553));
                asked(24, row(65535), figures(6554, 0));
                asked(25, row(65535), figures(6553, 6554));
                asked(24, row(65535), figures(65535, 65535));
                // In 16 bits this would be 0 mA and 4 mA.
                asked(24, row(100), figures(32768, 0));
                asked(25, row(100), figures(0, 6554));
            }
        }
    }
    let fixed = Figures::Fixed { operating: 1, maximum: 200 };
    asked(24, summary_of(&all_kinds()).rows[BATTERY as usize - 1], fixed);
}

/// Bit 26 lets a maximum figure pass, never an operating one; beside a voltage it counts nowhere.
#[test]
fn mismatch() {
    let row = [9000, 20_000, 1000, 1000];
    for (figures, clear, set) in [
        (Figures::Fixed { operating: 100, maximum: 65535 }, 25, 0),
        (Figures::Fixed { operating: 101, maximum: 65535 }, 24, 24),
        (Figures::Variable { operating: 100, maximum: 101 }, 25, 0),
        (Figures::Variable { operating: 101, maximum: 0 }, 24, 24),
        (Figures::Pps { volts: 450, current: 20 }, 0, 0),
        (Figures::Pps { volts: 450, current: 21 }, 24, 24),
        (Figures::Pps { volts: 449, current: 20 }, 22, 22),
        (Figures::Avs { volts: 360, current: 21 }, 24, 24),
        (Figures::Avs { volts: 361, current: 20 }, 23, 23),
    ] {
        for (mismatch, number) in [(false, clear), (true, set)] {
            let request = DecodedRequest { position: 1, mismatch, figures };
            assert_eq!(answer_summary(&rows_of(&[row]), &request), said(number, 0), "{request:?}");
        }
    }
}

/// Ends included; a lowest above the highest leaves no voltage.
#[test]
fn voltages_on_any_row() {
    let row = |lowest, highest| [lowest, highest, 65535, 65535];
    let pps = |volts| Figures::Pps { volts, current: 0 };
    let avs = |volts| Figures::Avs { volts, current: 0 };
    asked(0, row(5000, 5000), pps(250));
    asked(22, row(5000, 5000), pps(249));
    asked(22, row(5000, 5000), pps(251));
    asked(0, row(5000, 5000), avs(200));
    asked(22, row(5001, 65535), avs(200));
    asked(22, row(0, 4999), avs(200));
    asked(22, row(5000, 5000), avs(196));
    asked(22, row(5000, 5000), avs(204));
    asked(0, row(0, 0), pps(0));
    asked(0, row(0, 0), avs(0));
    asked(22, row(1, 65535), pps(0));
    asked(22, row(1, 65535), avs(0));
    for volts in [0, 248, 360, 600, 748, 752, 3276, 4092, 65532] {
        asked(22, row(15_001, 14_999), pps(volts));
        asked(22, row(15_001, 14_999), avs(volts));
        asked(22, row(65535, 0), pps(volts));
        asked(22, row(65535, 0), avs(volts));
    }
    // 65520 mV and 65540; 65500 mV and 65600; 4092 steps are 102300 mV.
    asked(0, row(0, 65535), pps(3276));
    asked(22, row(0, 65535), pps(3277));
    asked(0, row(0, 65535), avs(2620));
    asked(22, row(0, 65535), avs(2624));
    asked(22, row(0, 65535), pps(4095));
    asked(22, row(0, 65535), avs(4092));
    asked(22, row(0, 65535), pps(65535));
    asked(22, row(0, 65535), avs(65532));
    // 23 comes before 22.
    for volts in [1, 2, 3, 601, 602, 603, 4095, 65535] {
        asked(23, row(0, 65535), avs(volts));
        asked(23, row(65535, 0), avs(volts));
    }
}

/// PPS rows with two currents, limits that are no whole steps, and figures that 16 bits could not
/// hold.
#[test]
fn currents_on_any_row() {
    for figures in [
        |volts: u16, current| Figures::Pps { volts: volts / 20, current },
        |volts: u16, current| Figures::Avs { volts: volts / 25, current },
    ] {
        for (volts, below, above, most) in [
            (14_900, 1000, 2000, 20),
            (14_900, 2000, 1000, 40),
            (15_000, 1000, 2000, 40),
            (15_000, 2000, 1000, 40),
            (15_000, 0, 50, 1),
            (15_100, 1000, 2000, 40),
            (15_100, 2000, 1000, 20),
            (0, 1049, 0, 20),
            (20_000, 0, 1049, 20),
            (20_000, 65535, 49, 0),
            (15_000, 65535, 0, 1310),
            (15_000, 0, 65535, 1310),
        ] {
            let row = [0, 65535, below, above];
            asked(0, row, figures(volts, most));
            asked(24, row, figures(volts, most + 1));
            asked(24, row, figures(volts, 65535));
            // In 16 bits this would be 14 mA.
            asked(24, row, figures(volts, 1311));
        }
    }
}

/// Any summary and any request, near each other's numbers or not.
#[test]
fn seeded() {
    let mut seeded = Seeded(65);
    let mut seen = [0; 32];
    let limits = [0, 1, 49, 50, 1000, 3000, 3250, 5000, 8999, 9000, 14_900, 15_000, 15_001];
    for _ in 0..1 << 20 {
        let mut limit = || match seeded.below(4) {
            0 => seeded.next() as u16,
            1 => 65535 - seeded.below(100) as u16,
            _ => seeded.of(&limits),
        };
        let rows = core::array::from_fn(|_| core::array::from_fn(|_| limit()));
        let count = if seeded.below(8) == 0 { seeded.next() as u8 } else { seeded.below(8) as u8 };
        let position = if seeded.below(4) == 0 {
            seeded.next() as u8
        } else {
            1 + seeded.below(u32::from(count.clamp(1, 7))) as u8
        };
        let row = rows.get(usize::from(position).wrapping_sub(1)).copied().unwrap_or([0; 4]);
        let mut figure = |step: u16| match seeded.below(4) {
            0 => seeded.next() as u16,
            1 => seeded.of(&[360, 596, 600, 604, 749, 750, 751, 800, 4092, 4095]),
            _ => (seeded.of(&row) / step + seeded.below(3) as u16).saturating_sub(1),
        };
        let kind = position ^ count;
        let figures = match kind % 4 {
            0 => Figures::Fixed { operating: figure(10), maximum: figure(10) },
            1 => Figures::Variable { operating: figure(10), maximum: figure(10) },
            2 => Figures::Pps { volts: figure(20), current: figure(50) },
            _ => Figures::Avs { volts: figure(25), current: figure(50) },
        };
        let request = DecodedRequest { position, mismatch: seeded.below(2) == 1, figures };
        let summary = Summary { count, rows };
        let said = answer_summary(&summary, &request);
        assert_eq!(said, page_answer(&summary, &request), "{summary:?} {request:?}");
        seen[usize::from(said.number)] += 1;
    }
    for number in [0, 10, 20, 22, 23, 24, 25] {
        assert!(seen[number] > 1000, "{number} {seen:?}");
    }
    assert_eq!(seen.iter().sum::<i32>(), 1 << 20);
}
