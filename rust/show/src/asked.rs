//! What the command line asks for. A figure that is well written and out of bounds is not judged here: the library refuses it.

use arinduleu::rules::Profile;
use arinduleu::steps::{HalfWatts, Ma10};

pub const HELP: &str = "\
usage: cargo run -p show -- WATTS [--present WATTS] [--cable AMPERES] [--up]
                                  [--pps] [--flags N]
       cargo run -p show -- --words WORD...

Prints the list of a port in words: each object with its volts and amperes, what
holds at exactly 15.0 V, and a picture of volts against amperes. Without any word
it is the list of `36 --pps`. `./arin show` takes the same words.

  WATTS            the port's maximum, 0.5 to 100 in halves: 36, 7.5, 22.5
  --present WATTS  what the port has now, up to its maximum; else its maximum
  --cable AMPERES  what the cable carries, 1 to 5, in hundredths: 3, 2.5, 2.25;
                   else 3
  --up             round currents up, not down
  --pps            with programmable supplies
  --flags N        0 to 63, for bits 29..24 of the first word; else 0
  --words WORD...  show this list instead: one to seven words of 8 hex digits

Ends with 0; with 1 where the library refuses, and says why; with 2 where the
command line cannot be read.
";

#[derive(Debug, PartialEq)]
pub enum Asked {
    Help,
    Port(Profile),
    List(Vec<u32>),
}

const CHOSEN: u8 = 1;
const NOT_CHOSEN: u8 = 0;
const UNMARKED_CABLE: Ma10 = Ma10(300);

// The port of the first listing that README shows.
const FIRST_LISTING: [&str; 2] = ["36", "--pps"];

/// What the words ask for, or why they cannot be read.
pub fn asked(words: &[String]) -> Result<Asked, String> {
    let words: Vec<&str> = words.iter().map(String::as_str).collect();
    if words.iter().any(|word| ["-h", "--help"].contains(word)) {
        return Ok(Asked::Help);
    }
    match words.as_slice() {
        [] => port(&FIRST_LISTING),
        ["--words", list @ ..] => {
            list.iter().map(|word| hex_word(word)).collect::<Result<_, _>>().map(Asked::List)
        }
        words => port(words),
    }
}

fn port(words: &[&str]) -> Result<Asked, String> {
    let (mut max, mut present, mut cable, mut flags) = (None, None, None, None);
    let (mut up, mut pps) = (None, None);
    let mut left = words.iter();
    while let Some(&word) = left.next() {
        let mut value = || left.next().copied().ok_or(format!("{word} lacks its value"));
        match word {
            "--present" => once(&mut present, word, half_watts(value()?)?)?,
            "--cable" => once(&mut cable, word, amperes(value()?)?)?,
            "--flags" => once(&mut flags, word, small_number(word, value()?)?)?,
            "--up" => once(&mut up, word, CHOSEN)?,
            "--pps" => once(&mut pps, word, CHOSEN)?,
            "--words" => return Err("--words stands alone, before its words".to_string()),
            _ if word.starts_with("--") => return Err(format!("unknown option '{word}'")),
            _ => once(&mut max, "the port's watts", half_watts(word)?)?,
        }
    }
    let max = max.ok_or("the port's watts are missing")?;
    Ok(Asked::Port(Profile {
        max,
        present: present.unwrap_or(max),
        cable: cable.unwrap_or(UNMARKED_CABLE),
        rounding: up.unwrap_or(NOT_CHOSEN),
        pps: pps.unwrap_or(NOT_CHOSEN),
        flags: flags.unwrap_or(0),
    }))
}

fn once<T>(place: &mut Option<T>, what: &str, value: T) -> Result<(), String> {
    match place.replace(value) {
        None => Ok(()),
        Some(_) => Err(format!("{what} given twice")),
    }
}

/// Decimal digits alone, at least one. What no 32 bits hold is as good as the largest number: both are past every bound.
fn digits(text: &str) -> Option<u32> {
    if text.is_empty() || !text.bytes().all(|b| b.is_ascii_digit()) {
        return None;
    }
    Some(text.parse().unwrap_or(u32::MAX))
}

/// Watts with no fraction, or with .0 or .5.
fn half_watts(text: &str) -> Result<HalfWatts, String> {
    let (whole, fraction) = text.split_once('.').unwrap_or((text, "0"));
    let half = match fraction {
        "0" => 0,
        "5" => 1,
        _ => return Err(format!("'{text}' is not a number of watts in halves, like 36 or 7.5")),
    };
    let whole = digits(whole)
        .ok_or(format!("'{text}' is not a number of watts in halves, like 36 or 7.5"))?;
    let all = whole.saturating_mul(2).saturating_add(half);
    Ok(HalfWatts(u16::try_from(all).unwrap_or(u16::MAX)))
}

/// Amperes with no fraction, or with one or two decimals.
fn amperes(text: &str) -> Result<Ma10, String> {
    let why = || format!("'{text}' is not a number of amperes in hundredths, like 3 or 2.25");
    let (whole, fraction) = text.split_once('.').unwrap_or((text, "0"));
    let step = match fraction.len() {
        1 => 10,
        2 => 1,
        _ => return Err(why()),
    };
    let hundredths = step * digits(fraction).ok_or_else(why)?;
    let all = digits(whole).ok_or_else(why)?.saturating_mul(100).saturating_add(hundredths);
    Ok(Ma10(u16::try_from(all).unwrap_or(u16::MAX)))
}

fn small_number(option: &str, text: &str) -> Result<u8, String> {
    let number = digits(text).ok_or(format!("{option} takes a number, not '{text}'"))?;
    Ok(u8::try_from(number).unwrap_or(u8::MAX))
}

fn hex_word(text: &str) -> Result<u32, String> {
    let bare = text.strip_prefix("0x").unwrap_or(text);
    if bare.len() != 8 || !bare.bytes().all(|b| b.is_ascii_hexdigit()) {
        return Err(format!("'{text}' is not a word of 8 hex digits, like 0001912C"));
    }
    u32::from_str_radix(bare, 16).map_err(|error| format!("'{text}': {error}"))
}
