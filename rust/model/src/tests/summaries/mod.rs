//! Summaries (T-06). What is expected is worked by hand, or told from the page once more below:
//! fields by division, measures in 64 bits, every condition on its own, and none of the model's own
//! code but the shape check and the answer from the list.

mod agreement;
mod by_hand;
mod decoding;
mod flat;
mod made_up;

use super::*;

/// The bits of a request that no kind of decoded request has: reserved or not examined beside two
/// figures, and beside a voltage, where bit 26 is taken along.
const BESIDE_FIGURES: u32 = 1 << 27 | 0xF << 22 | 1 << 21 | 1 << 20;
const BESIDE_VOLTS: u32 = 1 << 27 | 0xF << 22 | 1 << 21 | 1 << 8 | 1 << 7;
const MISMATCH: u32 = 1 << 26;

/// Every kind, with different currents below and above 15.0 V.
fn all_kinds() -> Words {
    list_of(&[
        fixed(5, 120),
        fixed(15, 300),
        fixed(20, 325),
        battery(420, 100, 200),
        variable(400, 60, 150),
        avs(300, 325),
        pps(160, 50, 60),
    ])
}

/// Where they stand there.
const FIXED: u32 = 1;
const BATTERY: u32 = 4;
const VARIABLE: u32 = 5;
const AVS: u32 = 6;
const PPS: u32 = 7;

fn summary_of(list: &Words) -> Summary {
    let made = summarize(list);
    assert_eq!(made.verdict, said(0, 0), "{list:08X?}");
    made.summary
}

fn rows_of(rows: &[[u16; 4]]) -> Summary {
    let mut summary = Summary { count: rows.len() as u8, rows: [[0; 4]; 7] };
    summary.rows[..rows.len()].copy_from_slice(rows);
    summary
}

fn request_for(position: u8, figures: Figures) -> DecodedRequest {
    DecodedRequest { position, mismatch: false, figures }
}

/// The number that the bits `high`..`low` make.
fn bits(word: u32, high: u32, low: u32) -> u16 {
    (u64::from(word) / 2u64.pow(low) % 2u64.pow(high - low + 1)) as u16
}

/// By its number in C; `None` is a kind that is not allowed.
fn page_kind(word: u32) -> Option<u8> {
    match (bits(word, 31, 30), bits(word, 29, 28)) {
        (3, 0) => Some(3),
        (3, 2) => Some(4),
        (3, _) => None,
        (kind, _) => Some(kind as u8),
    }
}

/// The table of the four limits.
fn page_row(word: u32) -> [u16; 4] {
    let (upper, middle, lower) = (bits(word, 29, 20), bits(word, 19, 10), bits(word, 9, 0));
    match page_kind(word).unwrap() {
        0 => [middle * 50, middle * 50, lower * 10, lower * 10],
        1 => [middle * 50, upper * 50, 0, 0],
        2 => [middle * 50, upper * 50, lower * 10, lower * 10],
        3 => {
            let current = bits(word, 6, 0) * 50;
            [bits(word, 15, 8) * 100, bits(word, 24, 17) * 100, current, current]
        }
        _ if lower == 0 => [9000, 15_000, middle * 10, 0],
        _ => [9000, 20_000, middle * 10, lower * 10],
    }
}

fn page_summary(list: &Words) -> Summarized {
    let verdict = shape(list);
    let mut summary = Summary { count: 0, rows: [[0; 4]; 7] };
    if verdict == said(0, 0) {
        summary.count = list.count;
        for at in 0..usize::from(list.count) {
            summary.rows[at] = page_row(list.words[at]);
        }
    }
    Summarized { verdict, summary }
}

/// "10, 20, 12"
fn page_taken(list: &Words, word: u32) -> Taken {
    let position = bits(word, 31, 28) as u8;
    if list.count == 0 || list.count > 7 {
        return Taken::Refused(said(10, 0));
    }
    if position == 0 || position > list.count {
        return Taken::Refused(said(20, 0));
    }
    let (operating, maximum) = (bits(word, 19, 10), bits(word, 9, 0));
    let (volts, current) = (bits(word, 20, 9), bits(word, 6, 0));
    let figures = match page_kind(list.words[usize::from(position - 1)]) {
        None => return Taken::Refused(said(12, position)),
        Some(0) => Figures::Fixed { operating, maximum },
        Some(1) => return Taken::Battery,
        Some(2) => Figures::Variable { operating, maximum },
        Some(3) => Figures::Pps { volts, current },
        Some(_) => Figures::Avs { volts, current },
    };
    Taken::Decoded(DecodedRequest { position, mismatch: bits(word, 26, 26) == 1, figures })
}

/// "10, 20, 23, 22, 24, 25": each condition on its own, in microvolts and microamperes, and of those
/// that fail the first.
fn page_answer(summary: &Summary, request: &DecodedRequest) -> Verdict {
    let at = usize::from(request.position).wrapping_sub(1);
    let row = summary.rows.get(at).copied().unwrap_or_default();
    let [lowest, highest, below, above] = row.map(|limit| u64::from(limit) * 1000);
    let scaled = |figure: u16, step: u64| u64::from(figure) * step * 1000;
    let (volts, operating, maximum, whole) = match request.figures {
        Figures::Fixed { operating, maximum } | Figures::Variable { operating, maximum } => {
            (None, scaled(operating, 10), scaled(maximum, 10), true)
        }
        Figures::Pps { volts, current } => (Some(scaled(volts, 20)), scaled(current, 50), 0, true),
        Figures::Avs { volts, current } => {
            (Some(scaled(volts, 25)), scaled(current, 50), 0, scaled(volts, 25) % 100_000 == 0)
        }
    };
    let limit = match volts {
        Some(15_000_000) => below.max(above),
        Some(volts) if volts > 15_000_000 => above,
        _ => below,
    };
    let faults = [
        (10, summary.count > 7),
        (20, request.position == 0 || request.position > summary.count),
        (23, !whole),
        (22, volts.is_some_and(|volts| !(lowest <= volts && volts <= highest))),
        (24, operating > limit),
        (25, maximum > limit && !request.mismatch),
    ];
    let first = faults.into_iter().find(|(_, fault)| *fault);
    said(first.map_or(0, |(number, _)| number), 0)
}

impl Seeded {
    /// One of these.
    fn of<T: Copy>(&mut self, choices: &[T]) -> T {
        choices[self.below(choices.len() as u32) as usize]
    }

    /// A list that has its shape, of objects of every kind.
    fn good_list(&mut self) -> Words {
        let first = fixed(5, self.most(100)) | self.below(128) << 23 | self.below(4) << 20;
        let mut list = list_of(&[first]);
        let mut add = |word| {
            if list.count < 7 {
                list.words[usize::from(list.count)] = word;
                list.count += 1;
            }
        };
        let (mut fifteen, mut twenty) = (None, None);
        for volts in [180, 300, 400] {
            if self.below(3) != 0 {
                let current = self.most(volts);
                add(self.below(4) << 20 | volts << 10 | current);
                match volts {
                    300 => fifteen = Some(current),
                    400 => twenty = Some(current),
                    _ => {}
                }
            }
        }
        if self.below(3) == 0 {
            let min = self.below(421);
            add(battery(min + self.below(421 - min), min, self.below(401)));
        }
        if self.below(2) == 0 {
            let min = self.below(421);
            let max = min + self.below(421 - min);
            add(variable(max, min, self.most(max)));
        }
        if let Some(low) = fifteen {
            let high = if self.below(3) == 0 { 0 } else { twenty.unwrap_or(0) };
            add(avs(low, high) | self.below(4) << 26);
        }
        let mut max = 0;
        for _ in 0..self.below(3) {
            max += self.below(211 - max);
            let min = if max >= 50 && self.below(2) == 0 { 50 } else { self.below(max + 1) };
            add(pps(max, min, self.below(128)) ^ self.below(2) << 27);
        }
        // What stands past the count stays there.
        if self.below(4) == 0 {
            list.count = 1 + self.below(u32::from(list.count)) as u8;
        }
        list
    }

    /// A current in 10 mA that is within 100 W at this voltage in 50 mV.
    fn most(&mut self, volts: u32) -> u32 {
        let most = (200_000 / volts.max(1)).min(1023);
        match self.below(8) {
            0 => 0,
            1 => most,
            _ => self.below(most + 1),
        }
    }
}
