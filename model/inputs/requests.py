"""answer: requests of every kind around their limits."""

import charger
from charger import Avs, Battery, Fixed, Pps, Profile, Variable
from inputs.book import book
from inputs.lists import built, good_objects, said_damaged, some_profile
from inputs.saying import hex_of, near, said_list, words_of
from inputs.seed import rng
from inputs.shapes import FIRST, shape_edges

# The reserved rows of the request word, by the kind of the object that it names.
RESERVED_WITH_FIGURES = (27, 21, 20)
RESERVED_WITH_VOLTAGE = (27, 21, 8, 7)
NOT_EXAMINED = (25, 24, 23, 22)


def reserved_with(obj):
    return RESERVED_WITH_VOLTAGE if isinstance(obj, (Pps, Avs)) else RESERVED_WITH_FIGURES


def with_bits(request, places):
    for bit in places:
        request |= 1 << bit
    return request


def request_of_figures(position, operating, maximum, mismatch):
    return position << 28 | mismatch << 26 | (operating & 1023) << 10 | (maximum & 1023)


def request_of_voltage(position, voltage, current, mismatch=0):
    return position << 28 | mismatch << 26 | (voltage & 4095) << 9 | (current & 127)


# in 25 mV: around 9.0, 15.0 and 20.0 V, whole 100 mV and not
AVS_VOLTAGES = (0, 356, 359, 360, 361, 364, 480, 596, 598, 599, 600, 601, 602, 603, 604)
AVS_VOLTAGES += (700, 796, 799, 800, 801, 804, 4092)


def request_for(position, obj, wild):
    """A request for an object, its figures around their limits; when not wild
    mostly within them."""
    mismatch = int(rng.random() < 0.3)
    if isinstance(obj, Pps):
        # a list whose shape is refused may have the minimum above the maximum
        ends = sorted((obj.min * 5, obj.max * 5))
        inside = [*ends, rng.randint(*ends)]
        outside = [figure for figure in near(obj.min * 5, obj.max * 5)] + [0, 4095]
        voltage = rng.choice(inside + outside if wild else inside)
        current = rng.choice([obj.current, rng.randint(0, obj.current)] + ([obj.current + 1, 0, 127] if wild else []))
        word = request_of_voltage(position, voltage, min(current, 127), mismatch)
    elif isinstance(obj, Avs):
        end = 800 if obj.high else 600
        inside = [360, 364, 596, 600, min(604, end), end, rng.randint(90, end // 4) * 4]
        voltage = rng.choice([*AVS_VOLTAGES, *inside, *inside] if wild else inside)
        limit = min(127, charger.avs_limit(obj, voltage * 25) // 5)
        more = [limit, limit + 1, obj.low // 5, obj.high // 5] if wild else []
        current = rng.choice([limit, rng.randint(0, limit)] + more)
        word = request_of_voltage(position, voltage, min(current, 127), mismatch)
    else:
        limit = obj.power if isinstance(obj, Battery) else obj.current
        operating = rng.choice([limit, rng.randint(0, limit)] + ([limit - 1, limit + 1, 0, 1023] if wild else []))
        maximum = rng.choice([limit, operating] + ([limit + 1, limit - 1, 0, 1023] if wild else []))
        word = request_of_figures(position, max(0, min(operating, 1023)), max(0, min(maximum, 1023)), mismatch)
    if rng.random() < 0.3:
        word |= rng.randrange(16) << 22
    if rng.random() < 0.33:
        reserved = reserved_with(obj)
        word = with_bits(word, rng.sample(reserved, rng.randint(1, len(reserved))))
    # reserved with one kind, a bit of a figure or a voltage with the other
    if wild and rng.random() < 0.07:
        word ^= 1 << rng.choice((20, 8, 7))
    return word


def request_of(objects, wild):
    """A request to a list: mostly one of its positions."""
    if wild and rng.random() < 0.06:
        return request_for(rng.choice((0, len(objects) + 1, 7, 8, 15)), rng.choice(objects), wild)
    position = rng.randint(1, len(objects))
    return request_for(position, objects[position - 1], wild)


def say_answer(words, request, count=None):
    return book.say("answer %s %s" % (said_list(words, count), hex_of(request)))


def answer_avs_edges():
    """The AVS region, volts against amperes, by its corners."""
    for figures in (
        (160, 130, 500, 0, 0), (160, 80, 500, 1, 0), (80, 80, 300, 0, 0), (200, 200, 500, 0, 1), (91, 91, 300, 0, 0),
    ):
        words = built(Profile(*figures, 0))
        objects = [charger.decode(word) for word in words]
        (position,) = [place for place, obj in enumerate(objects, 1) if isinstance(obj, Avs)]
        avs = objects[position - 1]
        for voltage in AVS_VOLTAGES:
            limits = {avs.low // 5, avs.high // 5}
            for current in sorted({limit + more for limit in limits for more in (0, 1)}):
                if voltage in (356, 360, 596, 600, 604, 800, 804) or rng.random() < 0.25:
                    say_answer(words, request_of_voltage(position, voltage, current))


def answer_bits():
    """Every bit of a request by itself, set on an acceptable one."""
    objects = [FIRST, Fixed(0, 0, 300, 250), Battery(400, 100, 200), Variable(400, 100, 200)]
    words = words_of(objects + [Avs(0, 250, 0), Pps(1, 160, 50, 50)])
    for position in range(1, 7):
        if position < 5:
            good = request_of_figures(position, 100, 150, 0)
        else:
            good = request_of_voltage(position, 400, 20)
        assert say_answer(words, good) == "0 0"
        for bit in range(32):
            if position in (1, 5, 6) or bit >= 19:
                say_answer(words, good ^ (1 << bit))
    for word in (0, 0xFFFFFFFF, 0x10000000, 0x1FFFFFFF, 0x70000000):
        say_answer(words, word)


def say_alike(words, request, reserved):
    """A request, the same one with its reserved bits set, and with bits 25..22
    too: one answer for all three."""
    both = reserved + NOT_EXAMINED
    answers = {say_answer(words, word) for word in (request, with_bits(request, reserved), with_bits(request, both))}
    assert len(answers) == 1, answers


def answer_reserved():
    """The reserved bits of every kind, on requests accepted and refused by each
    number; and their neighbours, which count."""
    objects = [FIRST, Battery(400, 100, 200), Variable(400, 100, 200), Pps(1, 160, 50, 50)]
    words = words_of(objects)
    for position, limit in ((1, 300), (2, 200), (3, 200)):
        for operating, maximum in ((limit, limit), (limit + 1, limit), (limit, limit + 1)):
            say_alike(words, request_of_figures(position, operating, maximum, 0), RESERVED_WITH_FIGURES)
        for operating in (limit, limit + 1):
            say_alike(words, request_of_figures(position, operating, limit + 1, 1), RESERVED_WITH_FIGURES)
    for voltage, current in ((250, 50), (800, 50), (249, 50), (801, 51), (800, 51)):
        say_alike(words, request_of_voltage(4, voltage, current), RESERVED_WITH_VOLTAGE)
    for position in (0, 5, 8, 15):
        say_alike(words, request_of_figures(position, 0, 0, 0), (27, 21, 20, 8, 7))
    # list L of "Worked by hand": its cases, 23 before 22, and above 15 V
    of_l = built(Profile(160, 130, 500, 0, 0, 0))
    for voltage, current in ((600, 65), (600, 66), (596, 65), (602, 10), (356, 10), (357, 127), (800, 65), (804, 66)):
        say_alike(of_l, request_of_voltage(5, voltage, current), RESERVED_WITH_VOLTAGE)
    say_alike(of_l, request_of_voltage(6, 600, 10), RESERVED_WITH_VOLTAGE)
    # bit 20 is one of the voltage: 22
    say_alike(words, request_of_voltage(4, 250, 50) | 1 << 20, RESERVED_WITH_VOLTAGE)
    say_alike(of_l, request_of_voltage(5, 600, 65) | 1 << 20, RESERVED_WITH_VOLTAGE)
    # bits 8 and 7 are two of the maximum figure: 25
    words = words_of([Fixed(0, 0, 100, 127), Battery(400, 100, 127), Variable(400, 100, 127)])
    for position in (1, 2, 3):
        for maximum in (127, 1 << 7, 1 << 8):
            say_alike(words, request_of_figures(position, 127, maximum, 0), RESERVED_WITH_FIGURES)


def answer_orders():
    """Two faults at once: 20, 23, 22, 24, 25."""
    words = built(Profile(100, 100, 500, 0, 1, 0))
    say_answer(words, request_of_voltage(5, 357, 127))
    say_answer(words, request_of_voltage(5, 356, 127))
    say_answer(words, request_of_voltage(5, 360, 127))
    say_answer(words, request_of_voltage(6, 1000, 127))
    say_answer(words, request_of_voltage(6, 800, 127))
    say_answer(words, request_of_figures(1, 1023, 1023, 0))
    say_answer(words, request_of_figures(1, 1023, 1023, 1))
    say_answer(words, request_of_figures(1, 300, 1023, 0))
    say_answer(words, request_of_figures(1, 300, 1023, 1))
    say_answer(words, request_of_figures(8, 1023, 1023, 0))
    for count in (0, 1, 4, 5, 6, 7, 8, 255):
        say_answer(words, request_of_voltage(5, 360, 20), count)


def answer_lines():
    answer_avs_edges()
    answer_bits()
    answer_reserved()
    answer_orders()
    for _ in range(160):
        words = built(some_profile())
        say_answer(words, request_of([charger.decode(word) for word in words], wild=True))
    for _ in range(260):
        objects = good_objects()
        say_answer(words_of(objects), request_of(objects, wild=rng.random() < 0.8))
    for objects in shape_edges():
        if rng.random() < 0.25:
            say_answer(words_of(objects), request_of(objects, wild=True))
    for _ in range(50):
        objects = good_objects()
        book.say("answer %s %s" % (said_damaged(words_of(objects)), hex_of(request_of(objects, wild=True))))
