//! The structs that C sees: their size, their alignment and where each field lies, against what C itself found.
//! A line of `tests/c/layout.txt` is a C name, the size, the alignment, then each field and its offset.

use arinduleu::flat::{FlatObject, FlatObjects, FlatReading, FlatRequest, FlatTaken};
use arinduleu::lists::{Listing, Words};
use arinduleu::messages::{Header, Message, MessageReading, Written};
use arinduleu::ports::{RemainingPower, Row};
use arinduleu::rules::{Profile, Profiled};
use arinduleu::summaries::{Summarized, Summary};
use arinduleu::verdicts::Verdict;
use std::collections::BTreeSet;
use std::mem::{align_of, offset_of, size_of};

const OF_C: &str = include_str!("../../tests/c/layout.txt");

// The pattern has no `..`, so that a field which is not named here does not compile.
macro_rules! line {
    ($name:literal $type:ident { $($field:ident),* }) => {{
        let _ = |$type { $($field: _),* }: $type| ();
        let mut line = format!("{} {} {}", $name, size_of::<$type>(), align_of::<$type>());
        $(line += &format!(" {} {}", stringify!($field), offset_of!($type, $field));)*
        line
    }};
}

#[test]
fn structs_lie_as_in_c() {
    let of_rust = [
        line!("arin_verdict" Verdict { number, place }),
        line!("arin_words" Words { words, count }),
        line!("arin_listing" Listing { verdict, list }),
        line!("arin_profile" Profile { max, present, cable, rounding, pps, flags }),
        line!("arin_profiled" Profiled { verdict, profile }),
        line!("arin_row" Row { max, pps, cable, present, held }),
        line!("arin_remaining_power" RemainingPower { verdict, power }),
        line!("arin_flat_object" FlatObject {
            kind, flags, peak, limited, volts, max, min, power, current, max100, min100, current50, low, high
        }),
        line!("arin_flat_objects" FlatObjects { places, count }),
        line!("arin_flat_reading" FlatReading { verdict, list }),
        line!("arin_summary" Summary { count, rows }),
        line!("arin_summarized" Summarized { verdict, summary }),
        line!("arin_flat_request" FlatRequest {
            kind, position, mismatch, operating, maximum, volts20, volts25, current50
        }),
        line!("arin_flat_taken" FlatTaken { verdict, request }),
        line!("arin_header" Header { extended, count, id, power_role, revision, data_role, message_type }),
        line!("arin_message" Message { header, words }),
        line!("arin_message_reading" MessageReading { verdict, message }),
        line!("arin_written" Written { verdict, length }),
    ];
    let of_rust: BTreeSet<&str> = of_rust.iter().map(String::as_str).collect();
    let of_c: BTreeSet<&str> = OF_C.lines().filter(|l| !l.is_empty()).collect();
    assert_eq!(of_rust, of_c);
}
