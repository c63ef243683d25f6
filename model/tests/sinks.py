"""Properties of sink lists: their bits by hand, both round trips, the first refusal,
the ceilings by exact fractions, and places past the count."""

import random
from collections import Counter
from fractions import Fraction

import charger
from charger import SINK, Avs, Battery, NoKind, Objects, SinkFixed, SinkPps, Variable, Words
from tests.expecting import expect
from tests.handling import verdict
from tests.judging_sinks import is_above, of_the_shape, told, volts_to_divide_by

# Each field of the table of sink objects, at its lowest bit, at its highest and at
# its largest.
BY_HAND = (
    (0x00000000, SinkFixed, (0, 0, 0)),
    (0x00800000, SinkFixed, (1, 0, 0)), (0x20000000, SinkFixed, (64, 0, 0)), (0x3F800000, SinkFixed, (127, 0, 0)),
    (0x00000400, SinkFixed, (0, 1, 0)), (0x00080000, SinkFixed, (0, 512, 0)), (0x000FFC00, SinkFixed, (0, 1023, 0)),
    (0x00000001, SinkFixed, (0, 0, 1)), (0x00000200, SinkFixed, (0, 0, 512)), (0x000003FF, SinkFixed, (0, 0, 1023)),
    (0x3F8FFFFF, SinkFixed, (127, 1023, 1023)),
    (0x40000000, Battery, (0, 0, 0)),
    (0x40100000, Battery, (1, 0, 0)), (0x60000000, Battery, (512, 0, 0)), (0x7FF00000, Battery, (1023, 0, 0)),
    (0x40000400, Battery, (0, 1, 0)), (0x40080000, Battery, (0, 512, 0)), (0x400FFC00, Battery, (0, 1023, 0)),
    (0x40000001, Battery, (0, 0, 1)), (0x40000200, Battery, (0, 0, 512)), (0x400003FF, Battery, (0, 0, 1023)),
    (0x80000000, Variable, (0, 0, 0)),
    (0x80100000, Variable, (1, 0, 0)), (0xA0000000, Variable, (512, 0, 0)), (0xBFF00000, Variable, (1023, 0, 0)),
    (0x80000400, Variable, (0, 1, 0)), (0x80080000, Variable, (0, 512, 0)), (0x800FFC00, Variable, (0, 1023, 0)),
    (0x80000001, Variable, (0, 0, 1)), (0x80000200, Variable, (0, 0, 512)), (0x800003FF, Variable, (0, 0, 1023)),
    (0xC0000000, SinkPps, (0, 0, 0)),
    (0xC0020000, SinkPps, (1, 0, 0)), (0xC1000000, SinkPps, (128, 0, 0)), (0xC1FE0000, SinkPps, (255, 0, 0)),
    (0xC0000100, SinkPps, (0, 1, 0)), (0xC0008000, SinkPps, (0, 128, 0)), (0xC000FF00, SinkPps, (0, 255, 0)),
    (0xC0000001, SinkPps, (0, 0, 1)), (0xC0000040, SinkPps, (0, 0, 64)), (0xC000007F, SinkPps, (0, 0, 127)),
    (0xC1FEFF7F, SinkPps, (255, 255, 127)),
)

# What each field may be: from 0 to one less than this.
LIMITS = {
    SinkFixed: (128, 1024, 1024), Battery: (1024, 1024, 1024), Variable: (1024, 1024, 1024), SinkPps: (256, 256, 128),
}
# 5, 9 and 15 V, battery, variable, PPS to 11 and to 21 V; it keeps to 130 half watts.
SEVEN = (0x1201912C, 0x0002D12C, 0x0004B0F0, 0x59019028, 0x99019028, 0xC0DC323C, 0xC1A43241)


def with_kind(objects):
    """Tuples of two kinds may be equal, so the kind is told too."""
    return [(type(obj).__name__, *obj) for obj in objects]


def some_sink_words(rng):
    """Words of the four kinds, mostly a list with its shape; else with a bit
    flipped, with a word of another kind, or with two words swapped."""
    words = [rng.randrange(128) << 23 | 100 << 10 | rng.randrange(1024)]
    for volts in sorted(rng.sample(range(101, 402), rng.randint(0, 2))):
        words.append(volts << 10 | rng.randrange(500 if rng.random() < 0.9 else 1024))
    for kind in (1, 2):
        for low in sorted(rng.randrange(300) for _ in range(rng.choice((0, 0, 1, 2)))):
            words.append(kind << 30 | rng.randint(low, 421) << 20 | low << 10 | rng.randrange(405))
    for high in sorted(rng.choice((110, 160, 210, rng.randrange(212))) for _ in range(rng.choice((0, 1, 2)))):
        low = min(high, rng.choice((50, 50, rng.randrange(256))))
        words.append(12 << 28 | high << 17 | low << 8 | rng.randrange(128))
    words = words[:7]
    at, way = rng.randrange(len(words)), rng.random()
    if way < 0.2:
        words[at] ^= 1 << rng.randrange(32)
    elif way < 0.27:
        words[at] = rng.randint(13, 15) << 28 | words[at] & 0x0FFFFFFF
    elif way < 0.4:
        words[at], words[at - 1] = words[at - 1], words[at]
    return words


# --------------------------------------------------------------------- tests


def test_sink_words_by_hand():
    for word, kind, fields in BY_HAND:
        obj = charger.decode(word, SINK)
        expect("the object of %08X" % word, with_kind([obj]), [(kind.__name__, *fields)])
        expect("the word of %r" % (obj,), charger.encode(kind(*fields), SINK), word)
    for word in (0xD0000000, 0xE0000000, 0xF0000000, 0xDFFFFFFF, 0xE004B145, 0xFFFFFFFF):
        expect("%08X has no sink's kind" % word, charger.kind_of(word, SINK), None)
    for kind, places in SINK.places.items():
        covered = sorted(bit for high, low in places + SINK.reserved[kind] for bit in range(low, high + 1))
        expect("every bit is one field's or reserved", covered, list(range(28 if kind is charger.Pps else 30)))


def test_reserved_bits_of_sinks():
    """Every bit below the kind flipped, in every word of a list: 13 exactly for a
    reserved one."""
    reserved = {1: {22, 21, 20}, 2: set(range(20, 30)), 3: set(range(20, 30)), 4: set(), 5: set()}
    reserved[6] = reserved[7] = {27, 26, 25, 16, 7}
    for place in range(1, 8):
        found = set()
        for bit in range(30 if place < 6 else 28):
            words = list(SEVEN)
            words[place - 1] ^= 1 << bit
            if verdict(charger.sink_shape(charger.list_of_words(words))) == (13, place):
                found.add(bit)
        expect("reserved at place %d" % place, found, reserved[place])


def test_bounds_of_sinks():
    """Each bound at its figure and a step past it, behind the first word."""
    cases = [
        (0, 400 << 10), (15, 401 << 10), (0, 400 << 10 | 500), (16, 400 << 10 | 501), (14, 100 << 10), (0, 101 << 10),
        (0, 400 << 20 | 2 << 30 | 500), (16, 400 << 20 | 2 << 30 | 501), (0, 1 << 30 | 400), (16, 1 << 30 | 401),
    ]
    # of battery, variable and PPS: the kind, where maximum and minimum begin, 21 V
    for kind, high, low, most in ((1 << 30, 20, 10, 420), (2 << 30, 20, 10, 420), (12 << 28, 17, 8, 210)):
        made = lambda maximum, minimum: kind | maximum << high | minimum << low
        cases += [(0, made(0, 0)), (0, made(most, most)), (15, made(most + 1, 0)), (15, made(99, 100))]
        cases += [(0, made(99, 50), made(99, 50)), (0, made(99, 50), made(100, 51))]
        by_maximum = most == 210
        cases += [(14 if by_maximum else 0, made(99, 50), made(98, 51))]
        cases += [(0 if by_maximum else 14, made(99, 50), made(100, 49))]
    for number, *words in cases:
        want = (number, len(words) + 1 if number else 0)
        expect("%r" % words, verdict(charger.sink_shape(charger.list_of_words([100 << 10] + words))), want)
        expect("judged the same", of_the_shape([100 << 10] + words), want)


def test_order_of_sink_calls():
    """Two faults at once, and the edges of each refusal."""
    def shape(count, *words):
        lent = Words(count, words + (0xFFFFFFFF,) * (7 - len(words)))
        number, place = verdict(charger.sink_shape(lent))
        expect("read refuses as shape", verdict(charger.sink_read(lent)), (number, place))
        expect("so does check", verdict(charger.sink_check(200, lent)), (number, place))
        for rating in (0, 201, 256, 310, 32768, 65535):
            expect("1 comes first", charger.sink_check(rating, lent), (1, 0, None))
        return number, place

    first = 0x0001912C
    expect("count 0", shape(0), (10, 0))
    expect("count 8", shape(8, *SEVEN), (10, 0))
    expect("count 255", shape(255, *SEVEN), (10, 0))
    expect("places past the count are not read", shape(1, first), (0, 0))
    expect("all seven", shape(7, *SEVEN), (0, 0))
    for word in (0xD0000000, 0xE0000000, 0xF0000000):
        expect("11 before 12", shape(2, word, word), (11, 1))
        expect("12", shape(2, first, word), (12, 2))
    expect("11 before 13", shape(1, 7 << 20 | 101 << 10), (11, 1))
    expect("13 at the first word", shape(1, first | 1 << 20), (13, 1))
    expect("flags are free", shape(1, first | 0x3F800000), (0, 0))
    expect("13 before 15", shape(2, first, 1 << 20 | 401 << 10), (13, 2))
    expect("13 before 15, PPS", shape(2, first, 0xC8000000 | 211 << 17), (13, 2))
    expect("15 before 16", shape(2, first, 401 << 10 | 1023), (15, 2))
    expect("16 before 14", shape(3, first, 400 << 10, 300 << 10 | 1000), (16, 3))
    expect("14 before a later 12", shape(4, first, 400 << 10, 300 << 10, 0xE0000000), (14, 3))
    expect("12 before a later 13", shape(3, first, 0xE004B145, 1 << 20), (12, 2))
    expect("an AVS that agrees is 12, not 17", shape(3, first, 0x0004B12C, 0xE004B000), (12, 3))
    lent = charger.list_of_words(SEVEN)
    expect("43 at no place", charger.sink_check(129, lent), (43, 0, None))
    expect("and none above", charger.sink_check(130, lent), (0, 0, None))
    over = charger.list_of_words(SEVEN[:6] + (SEVEN[6] | 1 << 25,))
    expect("13 before 43", charger.sink_check(1, over), (13, 7, None))


def test_first_refusal_of_sinks():
    """Shape, read and check against the sentences; no 17; what stands past the
    count is not looked at."""
    rng = random.Random(11)
    seen = Counter()
    for _ in range(5000):
        words = some_sink_words(rng)
        want = of_the_shape(words)
        clean = charger.list_of_words(words)
        dirty = Words(len(words), tuple(words) + tuple(rng.getrandbits(32) for _ in range(7 - len(words))))
        rating = rng.choice((0, 1, 2, 199, 200, 201, 65535, rng.randint(1, 200), rng.randint(1, 200)))
        above = want == (0, 0) and any([is_above(rating, word) for word in words])
        for lent in (clean, dirty):
            expect("shape of %r" % words, charger.sink_shape(lent), want + (None,))
            expect("read", verdict(charger.sink_read(lent)), want)
            judged = (1, 0) if not 0 < rating < 201 else (43, 0) if above else want
            expect("check for %d of %r" % (rating, words), charger.sink_check(rating, lent), judged + (None,))
        expect("the same read", charger.sink_read(dirty), charger.sink_read(clean))
        seen[want[0]] += 1
        seen["check", judged[0]] += 1
    for count in (0, 8, 9, 255):
        lent = Words(count, SEVEN)
        expect("10", (charger.sink_shape(lent).number, charger.sink_check(1, lent).number), (10, 10))
    numbers = [number for number in seen if isinstance(number, int)]
    expect("what is given", sorted(numbers), [0, *range(11, 17)])
    for case in [*numbers, *[("check", number) for number in (0, 1, 43, *range(11, 17))]]:
        expect("%s, often enough (%d)" % (case, seen[case]), seen[case] >= 20)


def test_sink_round_trips():
    """Reading and writing what was read; writing and reading what was written."""
    rng = random.Random(12)
    seen = Counter()
    for _ in range(3000):
        words = charger.list_of_words(some_sink_words(rng))
        objects = charger.sink_read(words)
        if objects.number:
            expect("empty on a refusal", objects.value, (0, (SinkFixed(0, 0, 0),) * 7))
            continue
        seen[words.count] += 1
        past = objects.value.places[words.count :]
        expect("fixed and zero past the count", with_kind(past), [("SinkFixed", 0, 0, 0)] * (7 - words.count))
        expect("writes back", charger.sink_write(objects.value), (0, 0, words))
        # what stands past the count is not looked at
        junk = tuple(rng.choice((NoKind(), SinkPps(999, 0, 0), SinkFixed(1, 2, 3))) for _ in past)
        dirty = Objects(words.count, charger.held_in(objects.value) + junk)
        expect("writes back without them", charger.sink_write(dirty), (0, 0, words))
        again = charger.sink_read(charger.sink_write(dirty).value)
        expect("reads back", with_kind(again.value.places), with_kind(objects.value.places))
    for count in range(1, 8):
        expect("%d words, often enough (%d)" % (count, seen[count]), seen[count] >= 20)
    for _ in range(2000):
        kind = rng.choice(list(LIMITS))
        obj = kind(*[rng.randrange(limit) for limit in LIMITS[kind]])
        expect("decode after encode", with_kind([charger.decode(charger.encode(obj, SINK), SINK)]), with_kind([obj]))


def test_sinks_written():
    """10; 7 at the first object with a field too wide; then as the shape of the
    words. An object of no kind, and the source's AVS, is 11 or 12."""
    rng = random.Random(13)
    seen = Counter()
    for _ in range(4000):
        words = some_sink_words(rng)
        objects = [charger.decode(word, SINK) for word in words if told(word)] if rng.random() < 0.98 else []
        for _ in range(rng.choice((0, 0, 0, 1, 2)) if objects else 0):
            at = rng.randrange(len(objects))
            field = rng.randrange(3)
            limit = LIMITS[type(objects[at])][field]
            figure = rng.choice((limit - 1, limit, limit + 1, limit * 2, 65535))
            objects[at] = objects[at]._replace(**{objects[at]._fields[field]: figure})
        if objects and rng.random() < 0.15:
            objects[rng.randrange(len(objects))] = rng.choice((NoKind(), Avs(0, 300, 0), Avs(9, 9999, 9999)))
        wide = [
            place for place, obj in enumerate(objects, 1)
            if type(obj) in LIMITS and any(figure >= limit for figure, limit in zip(obj, LIMITS[type(obj)]))
        ]
        made = [charger.encode(obj, SINK) if type(obj) in LIMITS else 0xF0000000 for obj in objects]
        want = (10, 0) if not objects else (7, wide[0]) if wide else of_the_shape(made)
        answer = charger.sink_write(charger.list_of_sink_objects(objects))
        value = charger.NO_WORDS if want[0] else charger.list_of_words(made)
        expect("write %r" % objects, answer, want + (value,))
        seen[want[0]] += 1
    expect("what is given", sorted(seen), [0, 7, *range(10, 17)])
    for number in seen:
        expect("%d, often enough (%d)" % (number, seen[number]), seen[number] >= 20)
    wide = (SinkFixed(128, 100, 0),) * 7
    for count in (0, 8, 255):
        expect("10 before 7", charger.sink_write(Objects(count, wide)), (10, 0, charger.NO_WORDS))
    for none in (NoKind(), Avs(0, 300, 0), Avs(9, 9999, 9999)):
        past = Objects(1, (SinkFixed(36, 100, 300),) + (none,) * 6)
        expect("no kind past the count", charger.sink_write(past), (0, 0, charger.list_of_words([0x1201912C])))


def test_ceilings():
    """Every rating with every kind and range, at the exact quotient rounded down,
    a step above it and a step below."""
    ranges = [(50, high) for high in (110, 160, 210, 109, 111, 159, 161, 209, 90, 150, 200)]
    ranges += [(low, high) for low in (0, 49, 51) for high in (110, 160, 210)] + [(0, 1), (0, 7), (0, 33), (80, 80)]
    words = [12 << 28 | high << 17 | low << 8 for low, high in ranges]
    words += [volts << 10 for volts in (101, 180, 300, 333, 400)]
    words += [2 << 30 | high << 20 for high in (1, 50, 100, 333, 419, 420)]
    words += [2 << 30 | high << 20 | 50 << 10 for high in (110, 160, 210)]
    words += [2 << 30 | high << 20 | 100 << 10 for high in (220, 320, 420)]
    words += [1 << 30, 1 << 30 | 400 << 20 | 100 << 10]
    seen = Counter()
    for rating in range(1, 201):
        for word in words:
            step = told(word)[4]
            most = Fraction(rating, 2) / (volts_to_divide_by(word) or 1) / step // 1
            for figure in {max(0, most - 1), most, most + 1}:
                made = word | min(figure, 127 if word >= 0xC0000000 else 1023)
                if of_the_shape([100 << 10, made]) != (0, 0):
                    continue
                want = 43 if is_above(rating, made) else 0
                answer = charger.sink_check(rating, charger.list_of_words([100 << 10, made]))
                expect("%08X for %d" % (made, rating), verdict(answer), (want, 0))
                seen[told(word)[0], want] += 1
        first = min(10 * rating, 1022)
        for current, want in ((first, 0), (first + 1, 43 if first == 10 * rating else 0)):
            answer = charger.sink_check(rating, charger.list_of_words([100 << 10 | current]))
            expect("the first word for %d" % rating, verdict(answer), (want, 0))
    for case in [(kind, number) for kind in ("fixed", "battery", "variable", "pps") for number in (0, 43)]:
        expect("%s %d, often enough (%d)" % (*case, seen[case]), seen[case] >= 150)


def test_no_ceiling():
    """A voltage of zero sets no ceiling; a battery has its own with any voltage."""
    for rating in (1, 2, 200):
        for word in [2 << 30 | current for current in range(1024)] + [12 << 28 | current for current in range(128)]:
            answer = charger.sink_check(rating, charger.list_of_words([100 << 10, word]))
            expect("%08X for %d" % (word, rating), verdict(answer), (0, 0))
        for power in range(401):
            answer = charger.sink_check(rating, charger.list_of_words([100 << 10, 1 << 30 | power]))
            expect("a battery of zero volts", verdict(answer), (43 if power > 2 * rating else 0, 0))


def test_sinks_beside_sources():
    """A sink list with its shape is a source's too, with the same figures. A source's
    is a sink's where it has no AVS, no peak current and no power limited."""
    rng = random.Random(14)
    passed = 0
    for _ in range(2000):
        words = some_sink_words(rng)
        for word in range(len(words)):
            if rng.random() < 0.1:
                words[word] |= rng.choice((1 << 20, 1 << 21, 1 << 27))
        lent = charger.list_of_words(words)
        as_source, as_sink = charger.read(lent), charger.sink_read(lent)
        plain = all(
            not isinstance(obj, Avs) and not getattr(obj, "peak", 0) and not getattr(obj, "limited", 0)
            for obj in charger.held_in(as_source.value)
        )
        expect("sink, and source", as_sink.number == 0, as_source.number == 0 and plain)
        passed += as_sink.number == 0
    expect("enough lists pass (%d)" % passed, passed > 300)
