"""Steps of measure, and the two roundings."""

# The powers of the table in "Steps of measure", and the bound of 100 W.
MICROWATTS_IN_250_MW = 250_000
MICROWATTS_IN_HALF_WATT = 500_000
MICROWATTS_IN_100_W = 100_000_000


def rounded_down(numerator, divisor):
    """The greatest whole number that is not above the quotient."""
    return numerator // divisor


def rounded_up(numerator, divisor):
    """The least whole number that is not below the quotient."""
    return -(-numerator // divisor)
