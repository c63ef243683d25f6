//! Figures as people read them. All of it is whole numbers: what is shown is exact.

/// From millivolts: tenths of a volt, and hundredths where they are needed.
pub fn volts(mv: u32) -> String {
    match mv % 100 {
        0 => format!("{}.{}", mv / 1000, mv % 1000 / 100),
        _ => format!("{}.{:02}", mv / 1000, mv % 1000 / 10),
    }
}

/// From milliamperes, whole tens of them.
pub fn amperes(ma: u32) -> String {
    format!("{}.{:02} A", ma / 1000, ma % 1000 / 10)
}

/// From steps of 10 mA, with as many decimals as it takes.
pub fn cable(n: u16) -> String {
    let hundredths = format!("{}.{:02}", n / 100, n % 100);
    format!("{} A", hundredths.trim_end_matches('0').trim_end_matches('.'))
}

pub fn half_watts(n: u16) -> String {
    let half = match n % 2 {
        0 => "",
        _ => ".5",
    };
    format!("{}{half} W", n / 2)
}

/// From microwatts, with as many decimals as it takes. A step of 50 mV times a step of 10 mA is 500 of them.
pub fn watts(uw: u64) -> String {
    let fraction = format!("{:06}", uw % 1_000_000);
    let fraction = fraction.trim_end_matches('0');
    let point = if fraction.is_empty() { "" } else { "." };
    format!("{}{point}{fraction} W", uw / 1_000_000)
}
