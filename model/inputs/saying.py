"""How inputs are said on a line, and the figures at the bounds of the statement."""

import console
import charger
from inputs.seed import rng

# M at, below and above each bound of the statement
EDGES_OF_M = (1, 2, 14, 15, 16, 29, 30, 31, 32, 53, 54, 55, 56, 60, 72, 80, 89, 90, 91, 92, 100)
EDGES_OF_M += (110, 118, 119, 120, 121, 130, 160, 180, 199, 200)
# Cables at, below and above the bounds and the whole amperes, and about a whole 50 mA;
# 3 and 5 would be amperes, 10 and 50 the byte of a record; and the ends of 8 and 16 bits
EDGES_OF_CABLE = (0, 1, 3, 5, 10, 50, 99, 100, 101, 104, 105, 199, 200, 255, 256, 299, 300, 301, 400, 499, 500, 501)
EDGES_OF_CABLE += (65535,)
GOOD_CABLES = tuple(cable for cable in EDGES_OF_CABLE if 100 <= cable <= 500)
BAD_CABLES = tuple(cable for cable in EDGES_OF_CABLE if not 100 <= cable <= 500)
MARKED_PROFILES = ((72, 72, 300, 0, 1, 0), (160, 80, 500, 1, 0, 0), (80, 80, 300, 0, 0, 0), (160, 130, 500, 0, 0, 0))


def hex_of(word):
    """8 hex digits, small or capital."""
    return ("%08x" if rng.random() < 0.2 else "%08X") % word


def some_cable():
    """A cable in its range, often one of 3 A or 5 A."""
    return rng.choice((300, 500, rng.choice(GOOD_CABLES), rng.randint(100, 500)))


def past_the_count():
    """What stands in a place past the count, where nothing may look."""
    return rng.choice((0, 0, 0xFFFFFFFF, 0xD0000000, rng.getrandbits(32)))


def said_list(words, count=None):
    """A count and seven words."""
    count = len(words) if count is None else count
    seven = list(words) + [past_the_count() for _ in range(7 - len(words))]
    return " ".join([str(count)] + [hex_of(word) for word in seven])


def said_profile(profile):
    return " ".join(str(figure) for figure in profile)


def said_object(obj):
    return " ".join(str(part) for part in (console.LETTERS[type(obj)], *obj))


def said_write(objects, count=None, call="write"):
    count = len(objects) if count is None else count
    return " ".join([call, str(count)] + [said_object(obj) for obj in objects])


def said_bytes(some):
    """Two hex digits for each byte, small or capital or mixed; `-` for no byte."""
    digits = bytes(some).hex().upper() or "-"
    way = rng.random()
    if way < 0.2:
        return digits.lower()
    if way < 0.4:
        return "".join(rng.choice((digit, digit.lower())) for digit in digits)
    return digits


def said_write_message(header, room, words):
    """A header, a room and seven words."""
    seven = list(words) + [past_the_count() for _ in range(7 - len(words))]
    return " ".join(["writemsg"] + [str(figure) for figure in (*header, room)] + [hex_of(word) for word in seven])


def words_of(objects, side=charger.SOURCE):
    return [charger.encode(obj, side) for obj in objects]


def near(*figures):
    """Each figure, and one step to each side of it."""
    return sorted({side for figure in figures for side in (figure - 1, figure, figure + 1) if side >= 0})
