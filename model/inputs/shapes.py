"""shape, read and write: lists at every bound of "Shape of a list"."""

import charger
import console
from charger import Avs, Battery, Fixed, Pps, Profile, Variable
from inputs.book import book
from inputs.lists import built, good_objects, good_words, said_damaged
from inputs.saying import near, said_list, said_write, words_of
from inputs.seed import rng

FIRST = Fixed(0, 0, 100, 300)
FIRST_ALL_FLAGS = Fixed(127, 3, 100, 1023)


def shape_edges():
    """Lists at and past every bound of "Shape of a list", as objects."""
    yield [FIRST]
    yield [FIRST_ALL_FLAGS]
    yield [Fixed(0, 0, 100, 0)]
    for volts in (0, 1, 99, 101, 200, 1023):
        yield [Fixed(0, 0, volts, 100)]
    for first in (Battery(100, 100, 10), Variable(100, 100, 10), Pps(0, 100, 50, 10), Avs(0, 300, 0)):
        yield [first]
        yield [first, FIRST]
    for volts in near(100, 101, 400) + [0, 500, 1023]:
        yield [FIRST, Fixed(0, 0, volts, 10)]
    for flags in (1, 2, 64, 127):
        yield [FIRST, Fixed(flags, 0, 180, 300)]
        yield [FIRST, Fixed(0, 0, 180, 300), Fixed(flags, 0, 300, 300)]
    for volts, most in ((400, 500), (399, 501), (300, 666), (200, 1000), (196, 1020), (195, 1022)):
        yield [FIRST, Fixed(0, 0, volts, most)]
        yield [FIRST, Fixed(0, 0, volts, most + 1)]
    for volts, current in ((180, 1023), (300, 1023)):
        yield [FIRST, Fixed(0, 0, volts, current)]
    yield [FIRST, Fixed(0, 0, 180, 300), Fixed(0, 0, 180, 300)]
    yield [FIRST, Fixed(0, 0, 300, 300), Fixed(0, 0, 180, 300)]
    yield [FIRST, Fixed(0, 0, 300, 300), Fixed(0, 0, 299, 300)]
    for kind in (Battery, Variable):
        for high in near(420) + [1023]:
            yield [FIRST, kind(high, 100, 100)]
            yield [FIRST, kind(high, high, 100)]
        for low in near(200):
            yield [FIRST, kind(200, low, 100)]
            yield [FIRST, kind(300, 200, 10), kind(250, low, 10)]
        yield [FIRST, kind(0, 0, 0)]
        yield [FIRST, kind(200, 100, 1), kind(210, 100, 1), kind(190, 100, 1)]
        yield [FIRST, kind(200, 100, 1), Fixed(0, 0, 180, 300)]
    for power in near(400) + [1023]:
        yield [FIRST, Battery(400, 100, power)]
    for high, most in ((420, 476), (419, 477), (400, 500), (200, 1000), (100, 1022)):
        yield [FIRST, Variable(high, 100, most)]
        yield [FIRST, Variable(high, 100, most + 1)]
    yield [FIRST, Variable(200, 100, 1), Battery(200, 150, 1)]
    yield [FIRST, Battery(200, 150, 1), Variable(200, 100, 1)]
    yield [FIRST, Battery(200, 150, 1), Battery(200, 100, 1)]
    for high in near(210) + [255]:
        yield [FIRST, Pps(1, high, 50, 60)]
        yield [FIRST, Pps(0, high, high, 60)]
    for low in near(110):
        yield [FIRST, Pps(1, 110, low, 60)]
    for high in near(110):
        yield [FIRST, Pps(1, 110, 50, 60), Pps(1, high, 33, 127)]
    yield [FIRST, Pps(0, 0, 0, 0)]
    yield [FIRST, Pps(1, 210, 50, 127), Pps(1, 160, 50, 60)]
    for later in (Fixed(0, 0, 180, 300), Battery(200, 100, 1), Variable(200, 100, 1)):
        yield [FIRST, Pps(1, 110, 50, 60), later]
    fifteen, twenty = Fixed(0, 0, 300, 250), Fixed(0, 0, 400, 325)
    for low in near(250) + [0, 325]:
        yield [FIRST, fifteen, Avs(0, low, 0)]
        yield [FIRST, fifteen, twenty, Avs(3, low, 325)]
    for high in near(325) + [0, 250]:
        yield [FIRST, fifteen, twenty, Avs(0, 250, high)]
        yield [FIRST, fifteen, Avs(0, 250, high)]
    yield [FIRST, twenty, Avs(0, 325, 325)]
    yield [FIRST, twenty, Avs(0, 0, 325)]
    yield [FIRST, Fixed(0, 0, 300, 0), Avs(0, 0, 0)]
    yield [FIRST, Fixed(0, 0, 300, 0), Fixed(0, 0, 400, 0), Avs(0, 0, 0)]
    yield [FIRST, Avs(0, 250, 0)]
    yield [FIRST, Avs(0, 300, 0), fifteen]
    yield [FIRST, Fixed(0, 0, 299, 250), Avs(0, 250, 0)]
    avs = Avs(0, 250, 325)
    yield [FIRST, fifteen, twenty, avs, avs]
    yield [FIRST, fifteen, twenty, avs, Pps(1, 210, 50, 65), avs]
    yield [FIRST, fifteen, twenty, avs, Pps(1, 210, 50, 65)]
    for later in (Fixed(0, 0, 401, 1), Fixed(0, 0, 380, 1), Battery(200, 100, 1), Variable(200, 100, 1)):
        yield [FIRST, fifteen, twenty, avs, later]
    yield [FIRST, fifteen, twenty, Battery(200, 100, 1), Variable(200, 90, 1), avs, Pps(1, 210, 50, 65)]
    # two faults: the earlier word first, and within a word 12, 13, 15, 16, 14, then 17
    yield [FIRST, Fixed(1, 0, 401, 600)]
    yield [FIRST, Fixed(0, 0, 401, 600)]
    yield [FIRST, twenty, Fixed(0, 0, 300, 700)]
    yield [FIRST, twenty, Fixed(0, 0, 300, 300), Fixed(1, 0, 401, 600)]
    yield [FIRST, Avs(0, 1, 0), Fixed(0, 0, 300, 1)]
    yield [FIRST, Avs(0, 1, 0), Pps(0, 211, 50, 1)]
    yield [FIRST, Battery(100, 101, 401), Variable(421, 0, 1)]
    yield [FIRST, Battery(421, 0, 401)]
    yield [FIRST, Variable(210, 100, 1000), Battery(100, 10, 401)]
    yield [FIRST, Variable(210, 100, 100), Battery(100, 10, 401)]


def reserved_edges():
    """Every reserved bit by itself, and refused kinds, as words."""
    base = words_of([FIRST, Fixed(0, 0, 300, 250), Fixed(0, 0, 400, 325), Avs(0, 250, 325), Pps(1, 210, 50, 65)])
    for at, high, low in ((0, 22, 22), (1, 29, 22), (2, 29, 22), (3, 25, 20), (4, 26, 25), (4, 16, 16), (4, 7, 7)):
        for bit in range(low, high + 1):
            words = list(base)
            words[at] |= 1 << bit
            yield words
    for at in range(5):
        for kind in (0xD0000000, 0xF0000000, 0xDFFFFFFF, 0xFFFFFFFF):
            words = list(base)
            words[at] = kind
            yield words
    yield [base[0] | 0x3FF00000 & ~(1 << 22)]
    yield [base[0] | 0x3FF00000]


def shape_lines():
    for objects in shape_edges():
        book.say("shape " + said_list(words_of(objects)))
    for words in reserved_edges():
        book.say("shape " + said_list(words))
    for count in (0, 1, 2, 3, 4, 5, 6, 7, 8, 9, 127, 128, 255):
        words = built(Profile(100, 100, 500, 0, 1, 0))
        book.say("shape " + said_list(words, count))
        book.say("shape " + said_list([0xFFFFFFFF] * 7, count))
        book.say("shape " + said_list([words[0]], count))
    for _ in range(60):
        book.say("shape " + said_list(good_words()))
    for _ in range(420):
        book.say("shape " + said_damaged(good_words()))


def read_lines():
    for objects in shape_edges():
        if rng.random() < 0.5:
            book.say("read " + said_list(words_of(objects)))
    for words in reserved_edges():
        if rng.random() < 0.4:
            book.say("read " + said_list(words))
    for count in (0, 1, 4, 7, 8, 255):
        book.say("read " + said_list(built(Profile(100, 100, 500, 0, 1, 63)), count))
    for _ in range(150):
        book.say("read " + said_list(good_words()))
    for _ in range(110):
        book.say("read " + said_damaged(good_words()))


# ------------------------------------------------------------------- write


def width(kind, field):
    high, low = charger.PLACES[kind][field]
    return high - low + 1


WRITABLE = {
    Fixed: [FIRST, Fixed(0, 3, 300, 250), Fixed(0, 0, 400, 325)],
    Battery: [FIRST, Battery(400, 100, 40)],
    Variable: [FIRST, Variable(400, 100, 40)],
    Pps: [FIRST, Pps(1, 210, 50, 65)],
    Avs: [FIRST, Fixed(0, 0, 300, 250), Fixed(0, 0, 400, 325), Avs(0, 250, 325)],
}


def too_wide_lines():
    """Every field of every kind at its width, past it, and far past it."""
    for kind, objects in WRITABLE.items():
        for field, largest in enumerate(console.OBJECT_FORMS[console.LETTERS[kind]][1]):
            most = (1 << width(kind, field)) - 1
            for figure in (0, 1, most, most + 1, most + 2, 2 * most + 2, largest):
                if figure <= largest:
                    book.say(said_write(objects[:-1] + [with_field(objects[-1], field, figure)]))
                    if kind is Fixed:
                        book.say(said_write([with_field(objects[0], field, figure)]))
                        book.say(said_write([objects[0], with_field(objects[1], field, figure), objects[2]]))
            # past any 16-bit number the line cannot be read
            book.put(said_write(objects[:-1] + [with_field(objects[-1], field, 65536)]))


def with_field(obj, field, figure):
    return obj._replace(**{obj._fields[field]: figure})


def write_lines():
    for count in (0, 8, 9, 255):
        book.say("write %d" % count)
    too_wide_lines()
    for objects in shape_edges():
        book.say(said_write(objects))
    for _ in range(120):
        book.say(said_write(good_objects()))
    for _ in range(110):
        # one field anywhere made too wide, or at random, in a list good or out of order
        objects = good_objects()
        if rng.random() < 0.3:
            rng.shuffle(objects)
        for _ in range(rng.choice((1, 1, 2))):
            at = rng.randrange(len(objects))
            field = rng.randrange(len(objects[at]))
            largest = console.OBJECT_FORMS[console.LETTERS[type(objects[at])]][1][field]
            most = (1 << width(type(objects[at]), field)) - 1
            figure = rng.choice((most, most + 1, largest, rng.randint(0, most)))
            objects[at] = with_field(objects[at], field, figure)
        book.say(said_write(objects))
