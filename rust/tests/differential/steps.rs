//! Steps of measure: the fourteen conversions over every figure, and both roundings.

use crate::common::run::Run;
use arinduleu::steps::*;

type Conversion = (&'static str, fn(u16) -> Option<u16>, u16, u16);

// The name, the call, the step it converts from, and the step it converts to.
macro_rules! conversions {
    ($($step:ident $call:ident $from:literal $to:literal)*) => {
        [$((
            concat!(stringify!($step), "::", stringify!($call)),
            (|figure| $step(figure).$call().map(|it| it.0)) as fn(u16) -> Option<u16>,
            $from,
            $to,
        )),*]
    };
}

const CONVERSIONS: [Conversion; 14] = conversions! {
    Mv20 to_mv25 20 25
    Mv20 to_mv50 20 50
    Mv20 to_mv100 20 100
    Mv25 to_mv20 25 20
    Mv25 to_mv50 25 50
    Mv25 to_mv100 25 100
    Mv50 to_mv20 50 20
    Mv50 to_mv25 50 25
    Mv50 to_mv100 50 100
    Mv100 to_mv20 100 20
    Mv100 to_mv25 100 25
    Mv100 to_mv50 100 50
    Ma10 to_ma50 10 50
    Ma50 to_ma10 50 10
};

#[test]
fn conversions_of_every_figure() {
    let mut run = Run::new("conversions");
    for (name, convert, from, to) in CONVERSIONS {
        for figure in 0..=u16::MAX {
            let model = model::convert(figure, from, to);
            run.same(name, &figure, convert(figure), model);
            run.reached(if model.is_some() { "exact" } else { "refused" });
        }
    }
    run.finish(&[], &["exact", "refused"]);
}

#[test]
fn roundings() {
    const EDGES: [u32; 9] = [
        0,
        1,
        2,
        3,
        1000,
        0x7FFF_FFFF,
        0x8000_0000,
        u32::MAX - 1,
        u32::MAX,
    ];
    let mut run = Run::new("roundings");
    for n in EDGES {
        for d in EDGES {
            compare(&mut run, n, d);
        }
    }
    while run.going() {
        let divisor = run.random.any_width();
        let numerator = match run.random.below(4) {
            0 => run.random.pick(&EDGES),
            // A whole multiple, and one to either side of it.
            1 => {
                let times = run.random.any_width() >> 16;
                let side = run.random.pick(&[0, 1, u32::MAX]);
                divisor.wrapping_mul(times).wrapping_add(side)
            }
            _ => run.random.any_width(),
        };
        compare(&mut run, numerator, divisor);
    }
    run.finish(&[], &["divisor 0", "whole", "broken"]);
}

fn compare(run: &mut Run, n: u32, d: u32) {
    run.same(
        "round_down",
        &(n, d),
        round_down(n, d),
        model::round_down(n, d),
    );
    run.same("round_up", &(n, d), round_up(n, d), model::round_up(n, d));
    let both = round_both(n, d);
    run.same(
        "round_both",
        &(n, d),
        (both.down, both.up),
        model::round_both(n, d),
    );
    run.reached(match n.checked_rem(d) {
        None => "divisor 0",
        Some(0) => "whole",
        Some(_) => "broken",
    });
}
