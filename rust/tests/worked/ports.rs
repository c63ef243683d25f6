//! The sharing calls: row counts that the console has no line for. By value it shows that no row is asked for after 30. Over lent rows
//! safe Rust cannot tell whether a row was read; there it is how `stand` and `row_of` are written.

use crate::sharing::{by_value, empty, judged, lent, places, row, Call};
use arinduleu::ports::{self, Row};
use arinduleu::steps::HalfWatts;
use arinduleu::verdicts::Verdict;

const EIGHT: &[Row] = &[
    empty(200, 1),
    empty(200, 1),
    empty(200, 1),
    empty(200, 1),
    empty(200, 1),
    empty(200, 1),
    empty(200, 1),
    empty(15, 0),
];

/// The first row is not fit for set-up, and not sound.
const BAD: &[Row] = &[row(14, 2, 99, 300, 0), empty(72, 1)];

/// The case, the count that is told, the capacity, and the rows that are there.
const COUNTS: &[(&str, usize, u16, &[Row])] = &[
    ("1 row passes, none gets 30", 0, 1600, &[empty(72, 1)]),
    ("8 rows pass, 9 get 30", 9, 1600, EIGHT),
    // In 8 bits it would be 1.
    ("257 rows get 30", 257, 1600, EIGHT),
    // In 32 bits it would be 1.
    ("4294967297 rows get 30", 4294967297, 1600, EIGHT),
    ("no rows, capacity 1601: 30 before 32", 0, 1601, BAD),
    ("9 rows, capacity 1601: 30 before 32", 9, 1601, BAD),
    (
        "9 rows, the first of M 14: 30 before 31 and 37",
        9,
        1600,
        BAD,
    ),
];

/// A port that is no row and a bad cable come later in the order.
const EVERY_CALL: &[Call] = &[
    Call::SetUp,
    Call::Attach(1, 300),
    Call::Advertise(1),
    Call::Request(1, 0x10002896),
    Call::Detach(1),
    Call::Attach(0, 300),
    Call::Advertise(0),
    Call::Request(0, 0x10002896),
    Call::Detach(0),
    Call::Attach(255, 99),
    Call::Remaining,
];

#[test]
fn a_count_that_is_not_1_to_8_gets_30() {
    for &(name, count, capacity, rows) in COUNTS {
        let standing = ports::begin(count, HalfWatts(capacity));
        assert!(!ports::goes_on(standing, 0), "{name}: a row is asked for");
        for &call in EVERY_CALL {
            let verdict = Verdict {
                number: 30,
                place: 0,
            };
            let all = places(rows);
            let value = by_value(all, count, capacity, call);
            assert_eq!(value, (judged(verdict), all), "{name}: {call:?}");
            // So many rows are lent where there is room for them.
            if count <= 257 {
                let before: Vec<Row> = rows.iter().copied().cycle().take(count).collect();
                let mut after = before.clone();
                let answer = lent(&mut after, capacity, call);
                let lent = (answer, after);
                assert_eq!(lent, (judged(verdict), before), "{name}: {call:?}, lent");
            }
        }
    }
}
