//! What a caller with rows of its own does around the sharing calls by value: one pass over the rows, and the port's own row.

use arinduleu::ports::{self, Row, Standing, NO_ROW};
use arinduleu::steps::HalfWatts;

/// How the first rows stand, so many as are told. There can be fewer: a row that is not there must not be asked for.
pub fn stand(rows: &[Row], count: usize, capacity: u16, fresh: bool) -> Standing {
    let mut standing = ports::begin(count, HalfWatts(capacity));
    let mut judged = 0;
    while ports::goes_on(standing, judged) {
        let row = rows[judged];
        judged += 1;
        standing = ports::take_row(standing, row, judged as u8, fresh);
    }
    standing
}

pub fn row_of(rows: &[Row], count: usize, standing: Standing, port: u8) -> Row {
    let at = ports::place_of(standing, port);
    if at < count {
        rows[at]
    } else {
        NO_ROW
    }
}
