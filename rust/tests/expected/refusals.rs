//! A refusal as an error: the table of sentences against the proved source, and what a refusal says of itself.

use crate::table::{function, rows};
use arinduleu::verdicts::{self, Verdict};
use arinduleu::Refusal;
use std::collections::BTreeSet;
use std::error::Error;

const TABLE: &str = include_str!("../../../include/arinduleu_refusals.inc");
const SOURCE: &str = include_str!("../../../crates/verdicts/src/lib.rt");

fn refusal(number: u8, place: u8) -> Refusal {
    Refusal::new(number, place).unwrap()
}

#[test]
fn every_number_has_its_sentence_and_its_name() {
    let named: BTreeSet<(String, u8)> = SOURCE
        .lines()
        .filter_map(|l| l.strip_prefix("pub const ")?.strip_suffix(';'))
        .filter_map(|l| l.split_once(": u8 = "))
        .map(|(name, number)| (name.to_string(), number.parse().unwrap()))
        .collect();
    let rows = rows(TABLE).unwrap();
    let told: BTreeSet<(String, u8)> = rows
        .iter()
        .map(|r| (r.name.to_string(), r.number))
        .collect();
    assert_eq!(told, named);
    assert_eq!(told.len(), rows.len());
    assert!(told.contains(&("NO_POWER_NOW".to_string(), verdicts::NO_POWER_NOW)));
    let texts: BTreeSet<&str> = rows.iter().map(|r| r.text).collect();
    assert_eq!(texts.len(), rows.len());
    for row in rows.iter().filter(|r| r.number != verdicts::SUCCESS) {
        assert_eq!(refusal(row.number, 0).text(), row.text);
    }
}

#[test]
fn a_number_that_no_call_gives_has_no_sentence_of_its_own() {
    let numbers: BTreeSet<u8> = rows(TABLE).unwrap().iter().map(|r| r.number).collect();
    let none = "refused for a reason that has no sentence";
    for number in 1..=255 {
        let has_one = refusal(number, 0).text() != none;
        assert_eq!(has_one, numbers.contains(&number), "{number}");
    }
    assert_eq!(refusal(8, 0).to_string(), format!("{none} (refusal 8)"));
}

#[test]
fn it_shows_its_sentence_its_number_and_its_place() {
    assert_eq!(
        refusal(verdicts::CABLE, 0).to_string(),
        "the cable carries less than 1 A, or more than 5 A (refusal 3)"
    );
    assert_eq!(
        refusal(verdicts::PORT_IN_USE, 2).to_string(),
        "the port is in use already (refusal 34, place 2)"
    );
    assert_eq!(
        format!("{:?}", refusal(verdicts::PORT_IN_USE, 2)),
        "Refusal { number: 34, place: 2, text: \"the port is in use already\" }"
    );
}

#[test]
fn it_is_never_a_success() {
    assert_eq!(Refusal::new(verdicts::SUCCESS, 0), None);
    assert_eq!(Refusal::new(verdicts::SUCCESS, 3), None);
    // There is room for "none" where the number of success would stand.
    assert_eq!(size_of::<Option<Refusal>>(), size_of::<Verdict>());
}

#[test]
fn every_verdict_is_success_or_its_refusal() {
    for number in 0..=255 {
        for place in 0..=255 {
            let verdict = Verdict { number, place };
            match verdict.ok() {
                Ok(()) => assert_eq!(number, verdicts::SUCCESS),
                Err(refusal) => {
                    assert_eq!(refusal.number(), number);
                    assert_eq!(refusal.place(), (place != 0).then_some(place));
                    assert_eq!(Verdict::from(refusal), verdict);
                }
            }
            assert_eq!(Result::from(verdict), verdict.ok());
        }
    }
}

#[test]
fn it_is_an_error_like_any_other() {
    fn fails() -> Result<(), Box<dyn Error>> {
        let verdict = Verdict {
            number: verdicts::ORDER,
            place: 3,
        };
        verdict.ok()?;
        Ok(())
    }
    assert_eq!(
        fails().unwrap_err().to_string(),
        "an object is out of order, or is a second AVS (refusal 14, place 3)"
    );
}

#[test]
fn a_line_that_is_no_row_of_the_table_is_told() {
    let good = "/*\n * Why.\n */\nARIN_REFUSAL(1, A_2, \"a sentence\")\n";
    let found = rows(good).unwrap();
    assert_eq!(found.len(), 1);
    assert_eq!(
        (found[0].number, found[0].name, found[0].text),
        (1, "A_2", "a sentence")
    );
    assert!(function(&found).contains("1 => Some(\"a sentence\"),\n"));
    assert!(function(&found).contains("assert!(crate::verdicts::A_2 == 1);\n"));
    for bad in [
        "ARIN_REFUSAL(256, A, \"a\")",
        "ARIN_REFUSAL(-1, A, \"a\")",
        "ARIN_REFUSAL(1, A)",
        "ARIN_REFUSAL(1, a, \"a\")",
        "ARIN_REFUSAL(1, , \"a\")",
        "ARIN_REFUSAL(1, A, \"\")",
        "ARIN_REFUSAL(1, A, \"a\\n\")",
        "ARIN_REFUSAL(1, A, \"a\" \"b\")",
        "ARIN_REFUSAL(1, A, \"a\"),",
        " ARIN_REFUSAL(1, A, \"a\")",
        "#define A",
    ] {
        let Err(said) = rows(&format!("{good}{bad}\n")) else {
            panic!("not refused: {bad}");
        };
        assert_eq!(said, format!("line 5: no row: {bad}"));
    }
}
