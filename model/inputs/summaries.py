"""summary and quick: lists of every kind and every refusal of a list; requests at and
beside every edge of a row.

What quick answers is held to what the model's `answer` says of the same line.
"""

import charger
import console
from charger import Avs, Battery, Fixed, Pps, Profile, Variable
from inputs.book import book
from inputs.lists import built, good_objects, good_words, said_damaged, some_profile
from inputs.requests import (
    NOT_EXAMINED, request_of, request_of_figures, request_of_voltage, reserved_with, with_bits,
)
from inputs.saying import EDGES_OF_M, hex_of, near, said_list, some_cable, words_of
from inputs.seed import SEED_OF_SUMMARIES, rng
from inputs.shapes import FIRST, reserved_edges, shape_edges
from inputs.sinks import number_in
from inputs.strange_summaries import strange_lines

# How often each refusal of a list is given, by each of the two.
OF_EACH = 21

# Each kind, and each behind each that may stand before it. Every shorter list that
# begins like it has its shape too.
SEVEN = [
    FIRST, Fixed(0, 0, 300, 233), Fixed(0, 0, 400, 174), Battery(400, 100, 200), Variable(400, 90, 150),
    Avs(0, 233, 174), Pps(1, 160, 50, 50),
]
PLACE_OF_AVS = 6
# asked of each of the seven and granted
GRANTED = [
    request_of_figures(1, 300, 300, 0), request_of_figures(2, 233, 0, 0), request_of_figures(3, 174, 174, 0),
    request_of_figures(4, 200, 200, 0), request_of_figures(5, 150, 150, 0), request_of_voltage(6, 600, 46),
    request_of_voltage(7, 800, 50),
]

ZEROS = " 00000000"
OF_THE_PAGE = (
    "summary 5 0001912C 0002D12C 0004B12C 00064145 E004B145" + ZEROS * 2,
    "summary 3 0A01912C 5A4190C8 99019096" + ZEROS * 4,
    "summary 1 0002D12C" + ZEROS * 6,
    "quick 5 0001912C 0002D12C 0004B12C 00064145 E004B145" + ZEROS * 2 + " 5004B041",
    "quick 5 0001912C 0002D12C 0004B12C 00064145 E004B145" + ZEROS * 2 + " 5004B042",
    "quick 3 0A01912C 5A4190C8 99019096" + ZEROS * 4 + " 200320C8",
    "quick 3 0A01912C 5A4190C8 99019096" + ZEROS * 4 + " 40000000",
)


def say_said(said_of_list, request):
    """A request to a list that is said: quick answers what answer does."""
    said = "%s %s" % (said_of_list, hex_of(request))
    answered = book.say("quick " + said)
    assert answered == console.answer_line(book.state, "answer " + said), said
    return number_in(answered)


def say_quick(objects, request, count=None):
    return say_said(said_list(words_of(objects), count), request)


def say_summary(words, count=None):
    return number_in(book.say("summary " + said_list(words, count)))


# -------------------------------------------------- refusals of the list

EDGES = [words_of(objects) for objects in shape_edges()] + list(reserved_edges())
BAD_COUNTS = (0, 8, 9, 10, 15, 16, 31, 32, 63, 64, 100, 127, 128, 129, 199, 200, 240, 247, 248, 249, 254, 255)


def said_faulty(number):
    """A list that is refused with the number, at an edge or by damage."""
    while True:
        said = said_list(rng.choice(EDGES)) if rng.random() < 0.5 else said_damaged(good_words())
        if number_in(console.answer_line(book.state, "shape " + said)) == number:
            return said


def some_request():
    """For a list that is refused whatever is asked."""
    return rng.choice((rng.choice(GRANTED), rng.randint(0, 8) << 28, rng.getrandbits(32)))


def faulty_lines():
    for number in range(11, 18):
        for _ in range(OF_EACH):
            assert number_in(book.say("summary " + said_faulty(number))) == number
            assert say_said(said_faulty(number), some_request()) == number
    for count in BAD_COUNTS:
        assert say_summary(words_of(rng.choice((SEVEN, good_objects()))), count) == 10
        assert say_quick(rng.choice((SEVEN, good_objects())), some_request(), count) == 10


# --------------------------------------------------------------- summaries


def good_summary_lines():
    """Every count of the seven, with what stands past it and without; lists as built,
    with PPS and without; lists at the bounds of the shape; and any others."""
    for count in range(1, 8):
        assert say_summary(words_of(SEVEN), count) == 0
        assert say_summary(words_of(SEVEN[:count])) == 0
    for at, m in enumerate(EDGES_OF_M):
        assert say_summary(built(Profile(m, m, some_cable(), rng.randint(0, 1), at % 2, 0))) == 0
    for _ in range(15):
        assert say_summary(built(some_profile(wanted=1))) == 0
    for words in EDGES:
        if charger.shape(charger.list_of_words(words)).number == 0:
            assert say_summary(words) == 0
    for _ in range(50):
        assert say_summary(words_of(good_objects())) == 0


# ---------------------------------------------------------------- voltages


def with_avs(low, high):
    """A list whose AVS has these currents, and a 20 V object where its range ends
    there."""
    fixed = [FIRST, Fixed(0, 0, 300, low)] + ([Fixed(0, 0, 400, high)] if high else [])
    return fixed + [Avs(1, low, high)]


# The larger current second, first, and neither; whole 50 mA and not; a current of zero;
# 15 V alone, and with a 20 V object beside.
LISTS_WITH_AVS = (
    with_avs(300, 325), with_avs(233, 174), with_avs(304, 304), with_avs(0, 325), with_avs(666, 500), with_avs(240, 0),
    [FIRST, Fixed(0, 0, 300, 250), Fixed(0, 0, 400, 325), Avs(0, 250, 0)],
)
ABOUT_15_V = (596, 600, 604)
# in 25 mV: a whole 100 mV at and beside 9 and 20 V, and none of it there, between and
# beyond, where 23 comes before 22
WHOLE_100_MV = (0, 4, 356, 360, 364, 796, 800, 804, 4092)
NOT_WHOLE = (1, 357, 359, 361, 362, 599, 601, 799, 801, 803, 4095)


def avs_lines():
    for objects in LISTS_WITH_AVS:
        place, avs = len(objects), objects[-1]
        for voltage in ABOUT_15_V:
            steps = {limit // 5 + more for limit in (avs.low, avs.high) for more in (0, 1)}
            for current in sorted(min(step, 127) for step in steps):
                say_quick(objects, request_of_voltage(place, voltage, current))
        for voltage in WHOLE_100_MV:
            limit = min(127, charger.limit_at(charger.limits_of(avs), voltage * 25) // 50)
            say_quick(objects, request_of_voltage(place, voltage, limit))
            if voltage in (356, 360, 800, 804):
                say_quick(objects, request_of_voltage(place, voltage, min(127, limit + 1)))
        for voltage in NOT_WHOLE:
            assert say_quick(objects, request_of_voltage(place, voltage, rng.choice((0, 10, 127)))) == 23


# Those that are built; one voltage alone, and 15.0 V too; none; from below 15.0 V to above
# it; and the greatest current.
RANGES_OF_PPS = (
    Pps(1, 110, 50, 60), Pps(1, 160, 50, 50), Pps(1, 210, 50, 65), Pps(0, 33, 33, 20), Pps(0, 150, 150, 40),
    Pps(0, 0, 0, 10), Pps(1, 151, 149, 30), Pps(0, 210, 0, 127),
)


def pps_lines():
    for pps in RANGES_OF_PPS:
        objects = [FIRST, pps]
        for voltage in near(pps.min * 5, pps.max * 5, 750) + [4095]:
            say_quick(objects, request_of_voltage(2, voltage, pps.current))
        for voltage in sorted({pps.min * 5, pps.max * 5, 749, 751, pps.max * 5 + 1}):
            say_quick(objects, request_of_voltage(2, voltage, min(127, pps.current + 1)))


# ----------------------------------------------------------------- figures


def figures_about(limit):
    """Operating and maximum figure and bit 26: at what is offered, and past it."""
    more = limit + 1
    yield from ((limit, limit, 0), (more, limit, 0), (more, more, 1), (limit, more, 0), (limit, more, 1))
    yield from ((0, 1023, 0), (0, 1023, 1), (1023, 0, 0), (1023, 1023, 1))


def figure_lines():
    """A fixed and a variable request are answered from the row, also above 15 V. A
    battery's is for the list, whose row has no current."""
    lists = [[Fixed(0, 0, 100, current)] for current in (0, 300, 1022)]
    lists += [[FIRST, Fixed(0, 0, 400, 500)], [FIRST, Fixed(0, 0, 301, 127)]]
    lists += [[FIRST, Variable(high, low, limit)] for high, low, limit in ((90, 80, 1022), (420, 310, 100), (0, 0, 0))]
    lists += [[FIRST, Battery(high, low, limit)] for high, low, limit in ((420, 310, 400), (100, 0, 1), (0, 0, 0))]
    for objects in lists:
        obj = objects[-1]
        for figures in figures_about(obj.power if isinstance(obj, Battery) else obj.current):
            say_quick(objects, request_of_figures(len(objects), *figures))


# --------------------------------------------------------- bits of a request


def position_lines():
    """Each position, where the words past the count would grant what is asked."""
    for count in (1, 3, 4, 6, 7):
        for position in range(16):
            asked = GRANTED[position - 1] if 1 <= position <= 7 else position << 28 | rng.getrandbits(28)
            number = say_quick(SEVEN, asked, count)
            assert number == (0 if 1 <= position <= count else 20), (count, position)


def bit_lines():
    """Each bit below the position flipped that is reserved or not examined with some
    kind, and those beside them; then all that are ignored at once."""
    for obj, granted in zip(SEVEN, GRANTED):
        if obj in SEVEN[1:3]:
            continue
        for bit in (27, 26, 25, 24, 23, 22, 21, 20, 19, 10, 9, 8, 7, 6):
            say_quick(SEVEN, granted ^ 1 << bit)
        ignored = reserved_with(obj) + NOT_EXAMINED
        assert say_quick(SEVEN, with_bits(granted, ignored)) == 0
        assert say_quick(SEVEN, with_bits(granted + 1, ignored)) in (24, 25)


def order_lines():
    """Two faults at once: 20, 23, 22, 24, 25."""
    for want, request in (
        (20, request_of_voltage(8, 357, 127)), (20, request_of_figures(0, 1023, 1023, 0)),
        (23, request_of_voltage(PLACE_OF_AVS, 357, 127)), (23, request_of_voltage(PLACE_OF_AVS, 802, 127)),
        (23, request_of_voltage(PLACE_OF_AVS, 602, 127)), (22, request_of_voltage(PLACE_OF_AVS, 356, 127)),
        (22, request_of_voltage(PLACE_OF_AVS, 804, 127)), (24, request_of_voltage(PLACE_OF_AVS, 360, 127)),
        (22, request_of_voltage(7, 249, 127)), (22, request_of_voltage(7, 801, 127)),
        (24, request_of_voltage(7, 800, 127)), (24, request_of_figures(1, 301, 301, 0)),
        (24, request_of_figures(1, 301, 301, 1)), (25, request_of_figures(1, 300, 301, 0)),
        (24, request_of_figures(4, 201, 201, 0)), (25, request_of_figures(4, 200, 201, 0)),
        (24, request_of_figures(5, 151, 151, 0)), (25, request_of_figures(5, 150, 151, 0)),
    ):
        assert say_quick(SEVEN, request) == want, (want, hex(request))


def any_lines():
    for _ in range(50):
        objects = [charger.decode(word) for word in built(some_profile())]
        say_quick(objects, request_of(objects, wild=True))
    for _ in range(110):
        objects = good_objects()
        say_quick(objects, request_of(objects, wild=rng.random() < 0.8))
    for _ in range(20):
        # whatever bits a request has
        say_quick(SEVEN, rng.getrandbits(32))


def summary_lines():
    rng.seed(SEED_OF_SUMMARIES)
    for line in OF_THE_PAGE:
        book.put(line)
    strange_lines()
    good_summary_lines()
    faulty_lines()
    avs_lines()
    pps_lines()
    figure_lines()
    position_lines()
    bit_lines()
    order_lines()
    any_lines()
