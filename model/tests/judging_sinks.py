"""A sink list judged by division and by fractions, for the tests to hold the model to."""

from fractions import Fraction

from tests.expecting import expect


def told(word):
    """What a word says, by division: its kind, minimum and maximum in volts, its
    operating figure and the step of it in amperes or watts. None where no sink has
    its kind."""
    low, middle, high = word % 1024, word // 1024 % 1024, word // 1048576 % 1024
    if word < 0x40000000:
        volts = Fraction(middle, 20)
        return "fixed", volts, volts, low, Fraction(1, 100)
    if word < 0xC0000000:
        step = Fraction(1, 4) if word < 0x80000000 else Fraction(1, 100)
        kind = "battery" if word < 0x80000000 else "variable"
        return kind, Fraction(middle, 20), Fraction(high, 20), low, step
    if word < 0xD0000000:
        return "pps", Fraction(word // 256 % 256, 10), Fraction(word // 131072 % 256, 10), word % 128, Fraction(1, 20)
    return None


def has_reserved(word, place):
    """The table of reserved bits, by division."""
    if word < 0x40000000:
        return word // 1048576 % 8 != 0 if place == 1 else word >= 1048576
    if word < 0xC0000000:
        return False
    return word // 33554432 % 8 != 0 or word // 65536 % 2 == 1 or word // 128 % 2 == 1


def is_out_of_order(before, word):
    order = ("fixed", "battery", "variable", "pps")
    (kind_before, min_before, max_before, *_), (kind, least, most, *_) = told(before), told(word)
    if kind != kind_before:
        return order.index(kind) < order.index(kind_before)
    if kind == "fixed":
        return most <= max_before
    return most < max_before if kind == "pps" else least < min_before


def of_the_word(words, place):
    """What applies to a word by itself or by the one before it, in the order 12,
    13, 15, 16, 14."""
    word = words[place - 1]
    if told(word) is None:
        return 12
    kind, least, most, figure, step = told(word)
    watts = {"battery": figure * step, "pps": 0}.get(kind, most * figure * step)
    applies = (
        (13, has_reserved(word, place)), (15, most > (20 if kind == "fixed" else 21) or least > most),
        (16, watts > 100), (14, place > 1 and is_out_of_order(words[place - 2], word)),
    )
    return ([number for number, wrong in applies if wrong] + [0])[0]


def of_the_shape(words):
    """Number and place, for one to seven words."""
    if words[0] >= 0x40000000 or words[0] // 1024 % 1024 != 100:
        return (11, 1)
    for place in range(1, len(words) + 1):
        number = of_the_word(words, place)
        if number:
            return (number, place)
    return (0, 0)


def volts_to_divide_by(word):
    """The second column of the table; none for a battery, and none of zero."""
    kind, least, most, *_ = told(word)
    by_range = {(5, 11): 9, (5, 16): 15, (5, 21): 20}
    if kind == "battery":
        return None
    return by_range.get((least, most), most) if kind == "pps" else most


def is_above(rating, word):
    """43, of one word: its figure is more than the exact quotient rounded down to
    its step. In exact milliwatts that is more than the rating."""
    kind, _, _, figure, step = told(word)
    volts = volts_to_divide_by(word)
    if volts == 0:
        return False
    quotient = Fraction(rating, 2) / (volts or 1)
    above = figure > quotient / step // 1
    milliwatts = 1000 * figure * step * (volts or 1)
    expect("the same in milliwatts", above, milliwatts > 500 * rating)
    return above
