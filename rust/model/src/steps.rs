//! "The conversion gives the exact figure, or refuses".

pub fn convert(figure: u16, from: u16, to: u16) -> Option<u16> {
    let measure = u32::from(figure) * u32::from(from);
    let to = u32::from(to);
    if to == 0 || measure % to != 0 {
        return None;
    }
    u16::try_from(measure / to).ok()
}

#[inline]
pub fn round_down(numerator: u32, divisor: u32) -> u32 {
    if divisor == 0 {
        return 0;
    }
    numerator / divisor
}

#[inline]
pub fn round_up(numerator: u32, divisor: u32) -> u32 {
    if divisor == 0 {
        return 0;
    }
    numerator.div_ceil(divisor)
}

/// Both, down first.
#[inline]
pub fn round_both(numerator: u32, divisor: u32) -> (u32, u32) {
    (round_down(numerator, divisor), round_up(numerator, divisor))
}
