//! The whole text: the port or the list, its objects one a line, the 15.0 V point and the picture; or the refusal.

use std::fmt::Write;

use arinduleu::lists::{self, Words};
use arinduleu::objects::Object;
use arinduleu::rules::{self, Profile};

use crate::figures;
use crate::picture::picture;
use crate::supplies::{supply, Limit, Range, Supply};

/// The list that the library builds for a port.
pub fn port(profile: Profile) -> Result<String, String> {
    let list = rules::build(profile)
        .ok()
        .map_err(|refusal| format!("refused ({}): {}", refusal.number(), refusal.text()))?;
    shown(&port_in_words(profile), list)
}

/// A list that is given word by word, where its shape passes.
pub fn list(given: &[u32]) -> Result<String, String> {
    // Of more than seven words the count alone is judged, and any count past seven is refused.
    let mut words = [0; 7];
    words.iter_mut().zip(given).for_each(|(place, word)| *place = *word);
    let count = u8::try_from(given.len()).unwrap_or(u8::MAX);
    shown("A list whose shape passes", Words { words, count })
}

fn port_in_words(profile: Profile) -> String {
    let mut text = format!("A {} port", figures::half_watts(profile.max.0));
    if profile.present != profile.max {
        write!(text, " that has {} now", figures::half_watts(profile.present.0)).unwrap();
    }
    write!(text, ", {} cable", figures::cable(profile.cable.0)).unwrap();
    text.push_str(if profile.rounding == 0 {
        ", currents rounded down"
    } else {
        ", currents rounded up"
    });
    text.push_str(if profile.pps == 0 { ", without PPS" } else { ", with PPS" });
    text
}

fn shown(whose: &str, list: Words) -> Result<String, String> {
    let reading = lists::read(list);
    if let Err(refusal) = reading.verdict.ok() {
        let refused = format!("refused ({})", refusal.number());
        return Err(match refusal.place() {
            None => format!("{refused}: {}", refusal.text()),
            Some(place) => {
                let word = list.words[usize::from(place) - 1];
                format!("{refused} at word {place}, {word:08X}: {}", refusal.text())
            }
        });
    }
    let count = usize::from(list.count);
    let objects: Vec<Object> =
        reading.list.places[..count].iter().map(|place| place.object).collect();
    let supplies: Vec<Supply> = objects.iter().map(|object| supply(*object)).collect();

    let mut text = format!("{whose}: {count} object{}\n\n", if count == 1 { "" } else { "s" });
    text.push_str("place  word      supply    volts             amperes\n");
    for (at, supply) in supplies.iter().enumerate() {
        text.push_str(&object_lines(at + 1, list.words[at], supply));
    }
    text.push('\n');
    for object in objects {
        text.push_str(&at_15_v(object));
    }
    text.push_str(&picture(&supplies));
    Ok(text)
}

fn object_lines(place: usize, word: u32, supply: &Supply) -> String {
    let mut text = String::new();
    for (i, range) in supply.ranges.iter().enumerate() {
        let (place, word, name, note) = match i {
            0 => {
                (place.to_string(), format!("{word:08X}"), supply.kind.name(), supply.note.as_str())
            }
            _ => Default::default(),
        };
        let line = format!(
            "{place:>5}  {word:8}  {name:8}  {:16}  {:>7}  {note}",
            volts_of(range),
            limit_of(range)
        );
        writeln!(text, "{}", line.trim_end()).unwrap();
    }
    if !supply.more.is_empty() {
        writeln!(text, "{:29}{}", "", supply.more.join(", ")).unwrap();
    }
    text
}

fn volts_of(range: &Range) -> String {
    if range.from == range.to {
        return format!("{:>5} V", figures::volts(range.from));
    }
    format!("{:>5} to {} V", figures::volts(range.from), figures::volts(range.to))
}

fn limit_of(range: &Range) -> String {
    match range.limit {
        Limit::Milliamperes(ma) => figures::amperes(ma),
        Limit::Milliwatts(mw) => figures::watts(1000 * u64::from(mw)),
    }
}

/// What an AVS object gives where its two ranges meet; nothing of any other object.
fn at_15_v(object: Object) -> String {
    let Object::Avs { low, high, .. } = object else {
        return String::new();
    };
    let current = |steps: u16| figures::amperes(10 * u32::from(steps));
    let why = if high.0 == 0 {
        "AVS ends there.".to_string()
    } else if low == high {
        "Both ranges have this current.".to_string()
    } else {
        format!(
            "Both ranges hold there, and the\nlarger of their currents, {} and {}, limits.",
            current(low.0),
            current(high.0)
        )
    };
    format!("At exactly 15.0 V the AVS limit is {}. {why}\n\n", current(low.0.max(high.0)))
}
