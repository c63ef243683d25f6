//! How rows stand, by value: of counts, capacities, rows and standings that can be anything.

use crate::by_value_stated as stated;
use crate::common::convert::{ToLibrary, ToModel};
use crate::common::run::Run;
use crate::standings_made;
use arinduleu::ports;
use arinduleu::steps::HalfWatts;

const ZERO_WITH_A_PLACE: &str = "number 0 with a place";
const STAYS: &str = "a refusal that stays";
const CUT: &str = "a sum cut to 32 bits";

/// In 8, 16 or 32 bits some of these would be 1 or 8.
fn counts() -> impl Iterator<Item = usize> {
    let large = [255, 256, 257, 65544, (1 << 32) + 1, (1 << 60) + 8];
    (0..=10).chain(large).chain([usize::MAX])
}

#[test]
fn every_capacity_begins() {
    for count in counts() {
        for capacity in 0..=u16::MAX {
            assert_eq!(
                ports::begin(count, HalfWatts(capacity)),
                stated::begin(count, capacity),
                "{count} rows, capacity {capacity}"
            );
        }
    }
}

#[test]
fn one_row_more() {
    let mut run = Run::new("one row more");
    while run.going() {
        let capacity = standings_made::capacity(&mut run.random);
        let standing = standings_made::standing(&mut run.random, capacity);
        let row = standings_made::row(&mut run.random);
        let (place, fresh) = (run.random.u8(), run.random.bool());
        let input = (standing, row, place, fresh);
        let library = ports::take_row(standing, row.library(), place, fresh);
        let model = stated::take_row(standing, row, place, fresh);
        run.same("take_row", &input, library, model);
        if standing.fault.number != 0 {
            run.reached(STAYS);
            continue;
        }
        run.saw(model.fault.number);
        if standing.fault.place != 0 {
            run.reached(ZERO_WITH_A_PLACE);
        }
        if model.held < standing.held {
            run.reached(CUT);
        }
    }
    run.finish(&[0, 4, 31, 37], &[STAYS, ZERO_WITH_A_PLACE, CUT]);
}

#[test]
fn what_a_standing_says() {
    let mut run = Run::new("what a standing says");
    while run.going() {
        let capacity = standings_made::capacity(&mut run.random);
        let standing = standings_made::standing(&mut run.random, capacity);
        let judged = match run.random.below(4) {
            0 => standing.count,
            1 => standing.count.wrapping_sub(1),
            2 => run.random.u64() as usize,
            _ => run.random.below(10),
        };
        let input = (standing, judged);
        let library = ports::goes_on(standing, judged);
        run.same(
            "goes_on",
            &input,
            library,
            stated::goes_on(standing, judged),
        );
        let library = ports::all_or_none(standing);
        run.same(
            "all_or_none",
            &standing,
            library,
            stated::all_or_none(standing),
        );
        let port = standings_made::port(&mut run.random, standing.count);
        let input = (standing, port);
        let library = ports::place_of(standing, port);
        run.same(
            "place_of",
            &input,
            library,
            stated::place_of(standing, port),
        );
        let input = (standing, capacity);
        let library = ports::remaining(standing, HalfWatts(capacity)).model();
        let model = stated::remaining(standing, capacity);
        run.same("remaining", &input, library, model);
        match (standing.fault.number, standing.fault.place) {
            (0, 0) => run.saw(model.verdict.number),
            (0, _) => run.reached(ZERO_WITH_A_PLACE),
            _ => run.reached(STAYS),
        }
    }
    run.finish(&[0, 37], &[STAYS, ZERO_WITH_A_PLACE]);
}

/// Every port of each standing that a few counts and faults make.
#[test]
fn every_port_has_its_place() {
    for count in counts() {
        for (number, place) in [(0, 0), (0, 1), (30, 0), (37, 8), (255, 255), (1, 0)] {
            let fault = model::Verdict { number, place }.library();
            let standing = ports::Standing {
                fault,
                count,
                held: 0,
            };
            for port in 0..=255 {
                assert_eq!(
                    ports::place_of(standing, port),
                    stated::place_of(standing, port),
                    "{standing:?}, port {port}"
                );
            }
        }
    }
}
