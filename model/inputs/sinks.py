"""sinkshape, sinkread and sinkwrite: sink lists at every bound of their shape.

What the sink side shares with the source side is tried with the source's own edges,
without what no sink has. The ratings of sinkcheck are in ratings.py.
"""

from itertools import product

import charger
import console
from charger import SINK, Avs, Battery, Fixed, Pps, SinkFixed, SinkPps, Variable
from inputs.book import book
from inputs.lists import (
    field_changed, good_objects, one_bit_flipped, reserved_bit_set, said_damaged, two_words_swapped, word_at_random,
    word_doubled, word_dropped,
)
from inputs.saying import near, said_list, said_write, words_of
from inputs.seed import SEED_OF_SINKS, rng
from inputs.shapes import shape_edges, with_field
from inputs.strange_sinks import strange_lines

# The calls that take a list of words and no rating.
CALLS_ON_WORDS = ("sinkshape", "sinkread")

FIRST = SinkFixed(36, 100, 300)
NINE = SinkFixed(0, 180, 300)
FIFTEEN = SinkFixed(0, 300, 240)
TWENTY = SinkFixed(0, 400, 325)
BATTERY, VARIABLE, PPS = Battery(400, 100, 40), Variable(400, 100, 40), SinkPps(110, 50, 60)

# Each kind, and each behind each that may stand before it.
SEVEN = [FIRST, NINE, FIFTEEN, BATTERY, VARIABLE, PPS, SinkPps(210, 50, 65)]

# EPR AVS, SPR AVS, and no kind: none is a sink's.
REFUSED_KINDS = (0xD0000000, 0xE0000000, 0xF0000000)


def number_in(answer):
    return int(answer.split(" ")[0])


def as_sink(obj):
    """An object of a source, without what no sink has."""
    if isinstance(obj, Fixed):
        return SinkFixed(obj.flags, obj.volts, obj.current)
    if isinstance(obj, Pps):
        return SinkPps(obj.max, obj.min, obj.current)
    return obj


def sink_words(objects):
    return words_of(objects, SINK)


def sinks_of(objects):
    return [as_sink(obj) for obj in objects if not isinstance(obj, Avs)]


def good_sinks():
    """Sink objects of every kind whose list has its shape."""
    objects = sinks_of(good_objects())
    assert charger.sink_shape(charger.list_of_words(sink_words(objects))).number == 0, objects
    return objects


# ------------------------------------------------------------------ the page

OF_THE_PAGE = (
    "sinkshape 2 1201912C C0DC323C" + " 00000000" * 5,
    "sinkshape 2 1201912C C8DC323C" + " 00000000" * 5,
    "sinkread 2 1201912C C0DC323C" + " 00000000" * 5,
    "sinkread 2 1201912C E003C000" + " 00000000" * 5,
    "sinkwrite 2 F 36 100 300 P 110 50 60",
    "sinkwrite 1 F 128 100 300",
    "sinkwrite 1 A 0 240 0",
    "sinkcheck 54 2 1201912C C0DC323C" + " 00000000" * 5,
    "sinkcheck 53 2 1201912C C0DC323C" + " 00000000" * 5,
    "sinkcheck 0 2 1201912C C0DC323C" + " 00000000" * 5,
)

# ------------------------------------------------------------------- edges


def edges():
    """Sink lists at and past every bound, as objects."""
    for objects in shape_edges():
        if not any(isinstance(obj, Avs) for obj in objects):
            yield sinks_of(objects)
    for volts in near(100):
        yield [SinkFixed(127, volts, 1023)]
    # each flag in a later object
    for flag in range(7):
        yield [FIRST, NINE, SinkFixed(1 << flag, 300, 240)]
    # the order of kinds, each pair of them
    for before, after in product(SEVEN[2:6], repeat=2):
        yield [FIRST, before, after]
    # a voltage of zero is allowed
    for lowest in (Battery(0, 0, 400), Variable(0, 0, 1023), SinkPps(0, 0, 127)):
        yield [FIRST, lowest]
        yield [FIRST, lowest, lowest]
    # PPS has no bound of power
    for high in (*near(110, 160), 209, 210):
        yield [FIRST, SinkPps(high, 50, 127)]
        yield [FIRST, SinkPps(110, 50, 60), SinkPps(160, 50, 60), SinkPps(high, 50, 60)]


def source_lists():
    """The source's edges as they are, with peak currents, power limited and AVS."""
    for objects in shape_edges():
        words = words_of(objects)
        if words != sink_words(sinks_of(objects)):
            yield words


def reserved_edges():
    """Every reserved bit by itself, and refused kinds, as words. Bits 21 and 20
    of a fixed word and 27 of PPS are the source's peak current and power limited."""
    base = sink_words(SEVEN)
    reserved = [(0, 22, 20), (1, 29, 20), (2, 29, 20)]
    reserved += [(at, high, low) for at in (5, 6) for high, low in ((27, 25), (16, 16), (7, 7))]
    for at, high, low in reserved:
        for bit in range(low, high + 1):
            words = list(base)
            words[at] |= 1 << bit
            yield words
    for at, kind in product(range(7), REFUSED_KINDS):
        for rest in (base[at] & 0x0FFFFFFF, rng.getrandbits(28)):
            words = list(base)
            words[at] = kind | rest
            yield words[: rng.randint(at + 1, 7)]
    yield [base[0] | 0x3F800000]
    yield [base[0] | 0x3FF00000]


# ------------------------------------------------------------ faults together

ORDER_IN_A_WORD = (13, 15, 16, 14)


def faulty_fixed(faults):
    """A fixed word with these faults, and what stands before it."""
    volts = 401 if 15 in faults else 300
    obj = SinkFixed(0, volts, 1000 if 16 in faults else 1)
    word = sink_words([obj])[0] | (1 << rng.randint(20, 29) if 13 in faults else 0)
    return [BATTERY if 14 in faults else NINE], word


def faulty_range(kind, faults):
    """The same of a battery or variable object; 16 needs some volts."""
    low = 200 if 15 not in faults else 401
    obj = kind(400, low, 600 if 16 in faults else 1)
    return [kind(420, 402, 1) if 14 in faults else NINE], sink_words([obj])[0]


def faulty_pps(faults):
    obj = SinkPps(200, 201 if 15 in faults else 50, 127)
    word = sink_words([obj])[0] | (1 << rng.choice((27, 26, 25, 16, 7)) if 13 in faults else 0)
    return [SinkPps(210, 50, 1) if 14 in faults else NINE], word


def together():
    """Every set of faults that a word can have, the number that comes first, and
    behind the word another with any fault."""
    for some in product((0, 13), (0, 15), (0, 16), (0, 14)):
        faults = set(some) - {0}
        made = [faulty_fixed(faults)]
        if 13 not in faults:
            made += [faulty_range(Battery, faults), faulty_range(Variable, faults)]
        if 16 not in faults:
            made.append(faulty_pps(faults))
        first = ([number for number in ORDER_IN_A_WORD if number in faults] + [0])[0]
        for before, word in made:
            words = sink_words([FIRST] + before) + [word]
            if first and rng.random() < 0.5:
                words.append(rng.choice((0xE0000000, 0xFFFFFFFF, rng.getrandbits(32), words[1])))
            yield first, words


def first_word_lines():
    """11 before 12 and 13 of the first word, and before all that follows."""
    for call in CALLS_ON_WORDS:
        for word in (0xE004B0F0, 0xD001912C, 0xF001912C, 7 << 20 | 99 << 10, 7 << 20 | 101 << 10, 0xC8DC323C):
            assert number_in(book.say("%s %s" % (call, said_list([word, 0xFFFFFFFF])))) == 11, word
        for bit in (20, 21, 22):
            assert number_in(book.say("%s %s" % (call, said_list([0x0001912C | 1 << bit, 0xE0000000])))) == 13, bit


# --------------------------------------------------------- sinkshape, sinkread


def refused_kind(words):
    at = rng.randrange(len(words))
    words[at] = rng.choice(REFUSED_KINDS) | (words[at] & 0x0FFFFFFF)


def sink_reserved_bit_set(words):
    reserved_bit_set(words, SINK)


DAMAGES = (
    one_bit_flipped, one_bit_flipped, one_bit_flipped, two_words_swapped, refused_kind, sink_reserved_bit_set,
    field_changed, word_doubled, word_dropped, word_at_random,
)


def said_damaged_sinks():
    return said_damaged(sink_words(good_sinks()), DAMAGES)


def count_lines(call):
    """Counts in and out of bounds, with words that are good, bad, or there for
    the first place alone."""
    for count in (0, 1, 4, 7, 8, 9, 16, 64, 127, 128, 254, 255):
        book.say("%s %s" % (call, said_list(sink_words(SEVEN), count)))
        book.say("%s %s" % (call, said_list([0xFFFFFFFF] * 7, count)))
    for count in (0, 1, 2, 8, 255):
        book.say("%s %s" % (call, said_list(sink_words(SEVEN[:1]), count)))


def past_the_count_lines(call):
    """What would be refused in the list, past its count."""
    words = sink_words(SEVEN)
    for count in range(1, 7):
        for junk in (0xFFFFFFFF, rng.choice((0xE0000000, words[5] | 1 << 27)), words[0] | rng.randrange(2) << 20):
            answer = book.say("%s %s" % (call, said_list(words[:count] + [junk] * (7 - count), count)))
            assert number_in(answer) == 0, answer


def every_bit_lines():
    """Every bit of every word of a list flipped: where each field stands, in what
    is read."""
    for at, bit in product(range(7), range(32)):
        words = sink_words(SEVEN)
        words[at] ^= 1 << bit
        book.say("sinkread " + said_list(words))


def shape_lines():
    for objects in edges():
        book.say("sinkshape " + said_list(sink_words(objects)))
    for words in source_lists():
        if rng.random() < 0.4:
            book.say("sinkshape " + said_list(words))
    for words in reserved_edges():
        book.say("sinkshape " + said_list(words))
    for first, words in together():
        assert number_in(book.say("sinkshape " + said_list(words))) == first, words
    count_lines("sinkshape")
    past_the_count_lines("sinkshape")
    for _ in range(25):
        book.say("sinkshape " + said_list(sink_words(good_sinks())))
    for _ in range(90):
        book.say("sinkshape " + said_damaged_sinks())


def read_lines():
    for objects in edges():
        words = sink_words(objects)
        seldom = charger.sink_shape(charger.list_of_words(words)).number in (16, 14)
        if rng.random() < (0.8 if seldom else 0.2):
            book.say("sinkread " + said_list(words))
    for words in source_lists():
        if rng.random() < 0.2:
            book.say("sinkread " + said_list(words))
    every_bit_lines()
    for words in reserved_edges():
        if rng.random() < 0.5:
            book.say("sinkread " + said_list(words))
    for first, words in together():
        assert number_in(book.say("sinkread " + said_list(words))) == first, words
    count_lines("sinkread")
    past_the_count_lines("sinkread")
    for _ in range(30):
        book.say("sinkread " + said_list(sink_words(good_sinks())))
    for _ in range(40):
        book.say("sinkread " + said_damaged_sinks())


# --------------------------------------------------------------- sinkwrite


def say_write(objects):
    return book.say(said_write(objects, call="sinkwrite"))


def form_of(obj):
    """The largest number that each field can be read up to, and the largest that
    its bits hold."""
    read_up_to = console.SINK_FORMS[console.LETTERS[type(obj)]][1]
    places = SINK.places[charger.kind_of_object(obj, SINK)]
    return list(zip(read_up_to, [(1 << (high - low + 1)) - 1 for high, low in places]))


WRITABLE = ([FIRST], [FIRST, NINE], [FIRST, BATTERY], [FIRST, VARIABLE], [FIRST, PPS])


def too_wide_lines():
    """Every field of every kind at its width, past it, and far past it; and the
    first number that cannot be read."""
    for objects in WRITABLE:
        for field, (largest, most) in enumerate(form_of(objects[-1])):
            for figure in sorted({0, most, most + 1, 2 * most + 2, largest}):
                if figure <= largest:
                    say_write(objects[:-1] + [with_field(objects[-1], field, figure)])
            past = said_write(objects[:-1] + [with_field(objects[-1], field, largest + 1)], call="sinkwrite")
            assert book.put(past) == "?", past


def widened(obj):
    """One field too wide; cut off, it would be what it was."""
    field = rng.randrange(len(obj))
    largest, most = form_of(obj)[field]
    return with_field(obj, field, min(largest, obj[field] + (most + 1) * rng.choice((1, 1, 2))))


def wide_among_others_lines():
    """7 at the first such object, before all that the shape refuses."""
    for at in range(7):
        objects = list(SEVEN)
        objects[at] = widened(objects[at])
        assert say_write(objects) == "7 %d 0" % (at + 1)
        for later in range(at + 1, 7):
            if rng.random() < 0.5:
                objects[later] = widened(objects[later])
        assert say_write(objects) == "7 %d 0" % (at + 1)
        objects[0:at] = [rng.choice((NINE, BATTERY, PPS)) for _ in range(at)]
        assert say_write(objects) == "7 %d 0" % (at + 1)


def write_lines():
    for count in (0, 8, 9, 10, 15, 16, 31, 32, 63, 64, 99, 100, 127, 128, 129, 200, 247, 248, 249, 254, 255):
        book.say("sinkwrite %d" % count)
    too_wide_lines()
    wide_among_others_lines()
    for objects in edges():
        say_write(objects)
    for _, words in together():
        objects = [charger.decode(word, SINK) for word in words if charger.kind_of(word, SINK)]
        say_write(objects)
    for _ in range(30):
        objects = good_sinks()
        written = say_write(objects)
        # what was written, read again
        words = [int(word, 16) for word in written.split(" ")[3:]]
        book.say("sinkread " + said_list(words))
    for _ in range(50):
        objects = good_sinks()
        if rng.random() < 0.4:
            rng.shuffle(objects)
        at = rng.randrange(len(objects))
        field = rng.randrange(len(objects[at]))
        largest, most = form_of(objects[at])[field]
        figure = rng.choice((most, most + 1, largest, rng.randint(0, most), rng.randint(0, most)))
        objects[at] = with_field(objects[at], field, figure)
        say_write(objects)


def sink_lines():
    rng.seed(SEED_OF_SINKS)
    for line in OF_THE_PAGE:
        book.put(line)
    strange_lines()
    first_word_lines()
    shape_lines()
    read_lines()
    write_lines()
