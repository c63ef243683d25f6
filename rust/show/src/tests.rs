//! The text against stored ones that were read and worked out by hand, and what is asked, word by word.

use arinduleu::rules::Profile;
use arinduleu::steps::{HalfWatts, Ma10};

use crate::asked::{asked, Asked};
use crate::{figures, told};

fn words(line: &str) -> Vec<String> {
    line.split_whitespace().map(String::from).collect()
}

fn text_of(line: &str) -> Result<String, String> {
    match asked(&words(line)) {
        Ok(Asked::Port(profile)) => told::port(profile),
        Ok(Asked::List(words)) => told::list(&words),
        other => panic!("{line}: {other:?}"),
    }
}

fn same_lines(line: &str, stored: &str) {
    let text = text_of(line).unwrap();
    for (at, (found, right)) in text.lines().zip(stored.lines()).enumerate() {
        assert_eq!(found, right, "{line}, line {} of the text", at + 1);
    }
    assert_eq!(text, stored, "{line}");
}

#[test]
fn of_36_w_with_pps() {
    same_lines("36 --pps", include_str!("../stored/36_w_pps.txt"));
}

#[test]
fn of_65_w_on_a_5_a_cable() {
    same_lines("65 --cable 5 --pps", include_str!("../stored/65_w_5_a_pps.txt"));
}

#[test]
fn of_100_w_on_a_lead_of_2_a() {
    same_lines("100 --cable 2 --pps", include_str!("../stored/100_w_2_a_pps.txt"));
}

#[test]
fn readme_shows_what_is_printed() {
    let readme = include_str!("../../../README.md");
    let stored = include_str!("../stored/65_w_5_a_pps.txt");
    let indented: String =
        stored.lines().map(|line| format!("    {line}").trim_end().to_string() + "\n").collect();
    assert!(readme.contains("cargo run -p show -- 65 --cable 5 --pps)\n"));
    assert!(readme.contains(&indented));
}

#[test]
fn of_every_kind_and_below_5_v() {
    let list = "--words 2A11912C 0004B0F0 4F0190C8 92C19096 E403C000 C8DC213C";
    same_lines(list, include_str!("../stored/every_kind.txt"));
}

#[test]
fn no_word_is_the_first_listing() {
    assert_eq!(asked(&[]), asked(&words("36 --pps")));
}

#[test]
fn at_15_v_the_larger_current_limits_whichever_it_is() {
    let upper = "At exactly 15.0 V the AVS limit is 3.25 A. Both ranges hold there, and the\n\
                 larger of their currents, 3.00 A and 3.25 A, limits.\n";
    let lower = "At exactly 15.0 V the AVS limit is 3.00 A. Both ranges hold there, and the\n\
                 larger of their currents, 3.00 A and 2.50 A, limits.\n";
    let same = "At exactly 15.0 V the AVS limit is 3.00 A. Both ranges have this current.\n";
    let first_alone = "At exactly 15.0 V the AVS limit is 2.40 A. AVS ends there.\n";
    for (line, right) in [("65 --cable 5", upper), ("50", lower), ("60", same), ("36", first_alone)]
    {
        let text = text_of(line).unwrap();
        assert!(text.contains(right), "{line}: {text}");
    }
    assert!(!text_of("27").unwrap().contains("15.0 V the AVS"));
}

#[test]
fn no_line_is_wider_than_a_terminal_and_no_picture_is_tall() {
    let cables = ["--cable 1 --pps", "--cable 2.25 --up", "--cable 4.99 --pps", "--cable 5 --pps"];
    for half_watts in 1..=200 {
        for options in ["", "--pps", "--cable 5 --up --flags 63"].into_iter().chain(cables) {
            let line = format!("{}.{} {options}", half_watts / 2, half_watts % 2 * 5);
            let text = text_of(&line).unwrap();
            for shown in text.lines() {
                assert!(
                    shown.is_ascii() && shown.len() <= 80 && shown.trim_end() == shown,
                    "{line}: '{shown}'"
                );
            }
            let rows = text.lines().filter(|shown| shown.contains(" A |")).count();
            assert!((2..=14).contains(&rows), "{line}: {rows} rows");
        }
    }
}

#[test]
fn each_word_is_asked_for_what_it_says() {
    let profile = Profile {
        max: HalfWatts(45),
        present: HalfWatts(15),
        cable: Ma10(500),
        rounding: 1,
        pps: 0,
        flags: 9,
    };
    let all = "--flags 9 --up 22.5 --present 7.5 --cable 5";
    assert_eq!(asked(&words(all)), Ok(Asked::Port(profile)));
    assert_eq!(
        asked(&words("--words 0x0001912c E003C000")),
        Ok(Asked::List(vec![0x0001_912C, 0xE003_C000]))
    );
    assert_eq!(asked(&words("36 --help")), Ok(Asked::Help));
}

/// From 1 A to 5 A, each hundredth, and as it is shown.
#[test]
fn a_cable_is_asked_for_in_amperes() {
    for (said, figure, shown) in [
        ("1", 100, "1 A"),
        ("1.0", 100, "1 A"),
        ("1.01", 101, "1.01 A"),
        ("2.04", 204, "2.04 A"),
        ("2.5", 250, "2.5 A"),
        ("2.50", 250, "2.5 A"),
        ("3", 300, "3 A"),
        ("4.99", 499, "4.99 A"),
        ("5.00", 500, "5 A"),
        ("05", 500, "5 A"),
    ] {
        let line = format!("36 --cable {said}");
        let Ok(Asked::Port(profile)) = asked(&words(&line)) else {
            panic!("{line}");
        };
        assert_eq!(profile.cable, Ma10(figure), "{line}");
        let text = text_of(&line).unwrap();
        assert!(text.starts_with(&format!("A 36 W port, {shown} cable, ")), "{line}: {text}");
    }
    for figure in 100..=500 {
        let line = format!("36 --cable {}.{:02}", figure / 100, figure % 100);
        let Ok(Asked::Port(profile)) = asked(&words(&line)) else {
            panic!("{line}");
        };
        assert_eq!(profile.cable, Ma10(figure), "{line}");
        assert!(text_of(&line).is_ok(), "{line}");
    }
}

#[test]
fn what_cannot_be_read_is_told() {
    for (line, why) in [
        ("7.3", "'7.3' is not a number of watts in halves, like 36 or 7.5"),
        ("36.", "'36.' is not"),
        (".5", "'.5' is not"),
        ("+36", "'+36' is not"),
        ("-36", "'-36' is not"),
        ("36W", "'36W' is not"),
        ("36 45", "the port's watts given twice"),
        ("--pps", "the port's watts are missing"),
        ("36 --cable", "--cable lacks its value"),
        ("36 --cable five", "'five' is not a number of amperes in hundredths, like 3 or 2.25"),
        ("36 --cable 2.255", "'2.255' is not"),
        ("36 --cable 2.000", "'2.000' is not"),
        ("36 --cable 2.", "'2.' is not"),
        ("36 --cable .5", "'.5' is not"),
        ("36 --cable 2,5", "'2,5' is not"),
        ("36 --cable 2.5.1", "'2.5.1' is not"),
        ("36 --cable +3", "'+3' is not"),
        ("36 --cable 3.-1", "'3.-1' is not"),
        ("36 --cable 3A", "'3A' is not"),
        ("36 --cable 3 --cable 3", "--cable given twice"),
        ("36 --pps --pps", "--pps given twice"),
        ("36 --watts", "unknown option '--watts'"),
        ("36 --words 0001912C", "--words stands alone"),
        ("--words 1912C", "'1912C' is not a word of 8 hex digits, like 0001912C"),
        ("--words 0001912G", "'0001912G' is not a word"),
    ] {
        let told = asked(&words(line)).unwrap_err();
        assert!(told.starts_with(why), "{line}: {told}");
    }
}

#[test]
fn the_library_refuses_in_a_sentence() {
    for (line, why) in [
        (
            "0",
            "refused (1): the port maximum or the rating of a sink is outside 1 to 200 half watts",
        ),
        ("99999999999999999999", "refused (1): the port maximum"),
        ("32768", "refused (1): the port maximum"),
        ("36 --present 36.5", "refused (2): the present power is outside"),
        ("36 --cable 0.99", "refused (3): the cable carries less than 1 A, or more than 5 A"),
        ("36 --cable 5.01", "refused (3): the cable carries less than 1 A"),
        ("36 --cable 0", "refused (3): the cable"),
        ("36 --cable 300", "refused (3): the cable"),
        // In 16 bits they would be 3.00 A.
        ("36 --cable 658.36", "refused (3): the cable"),
        ("36 --cable 42949675.96", "refused (3): the cable"),
        ("36 --cable 99999999999999999999", "refused (3): the cable"),
        ("36 --flags 64", "refused (5): the flags are above 63"),
        ("36 --present 27 --pps", "refused (6): PPS is wanted while"),
        ("--words", "refused (10): the count of a list is outside 1 to 7, or that of a summary above 7"),
        (
            "--words E003C000",
            "refused (11) at word 1, E003C000: the first object is not a fixed 5 V supply",
        ),
        (
            "--words 0001912C 0004B0F0 0002D12C",
            "refused (14) at word 3, 0002D12C: an object is out of order",
        ),
    ] {
        let told = text_of(line).unwrap_err();
        assert!(told.starts_with(why), "{line}: {told}");
    }
    let eight = format!("--words{}", " 0001912C".repeat(8));
    assert!(text_of(&eight).unwrap_err().starts_with("refused (10)"));
}

#[test]
fn what_lies_above_the_picture_is_said() {
    // A battery of 100 W from 5 V: 20 A there.
    let told = "  (what lies above the picture is not drawn)\n";
    assert!(text_of("--words 0001912C 46419190").unwrap().ends_with(told));
    assert!(!text_of("36 --pps").unwrap().contains(told));
}

#[test]
fn figures_are_exact() {
    assert_eq!(figures::half_watts(15), "7.5 W");
    assert_eq!(figures::half_watts(72), "36 W");
    assert_eq!(figures::volts(5000), "5.0");
    assert_eq!(figures::volts(5050), "5.05");
    assert_eq!(figures::amperes(2670), "2.67 A");
    assert_eq!(figures::amperes(50), "0.05 A");
    assert_eq!(figures::cable(100), "1 A");
    assert_eq!(figures::cable(300), "3 A");
    assert_eq!(figures::cable(250), "2.5 A");
    assert_eq!(figures::cable(204), "2.04 A");
    assert_eq!(figures::watts(15_000 * 2660), "39.9 W");
    assert_eq!(figures::watts(50 * 10), "0.0005 W");
    assert_eq!(figures::watts(20_000 * 5000), "100 W");
}
