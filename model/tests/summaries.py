"""Properties of summaries: the rows by hand and by fractions, requests decoded by
division, the answer from a summary beside the answer from the list, and summaries that
hold any numbers."""

import random
from collections import Counter
from fractions import Fraction

import charger
import console
from charger import (
    AskedFigures, AskedVoltage, Avs, Battery, Fixed, ForTheList, Limits, NoKind, Pps, Profile, Summary, Variable, Words,
)
from tests.expecting import expect
from tests.handling import figures, list_of, objects_in, verdict, volts
from tests.properties import some_words
from tests.requests import COUNTING, some_request

FIVE, FIFTEEN, TWENTY = Fixed(0, 0, 100, 300), Fixed(0, 0, 300, 233), Fixed(0, 0, 400, 174)
# An object, the fixed objects that it needs before it, and its row of the table.
BY_HAND = (
    ([], FIVE, (5000, 5000, 3000, 3000)),
    ([], Fixed(127, 3, 100, 1023), (5000, 5000, 10230, 10230)),
    ([], Fixed(0, 0, 100, 0), (5000, 5000, 0, 0)),
    ([FIVE], Fixed(0, 1, 180, 1), (9000, 9000, 10, 10)),
    ([FIVE], Fixed(0, 0, 101, 990), (5050, 5050, 9900, 9900)),
    ([FIVE], Fixed(0, 0, 400, 500), (20000, 20000, 5000, 5000)),
    ([FIVE], Battery(420, 100, 400), (5000, 21000, 0, 0)),
    ([FIVE], Battery(1, 0, 1), (0, 50, 0, 0)),
    ([FIVE], Battery(300, 300, 0), (15000, 15000, 0, 0)),
    ([FIVE], Variable(400, 100, 150), (5000, 20000, 1500, 1500)),
    ([FIVE], Variable(420, 301, 476), (15050, 21000, 4760, 4760)),
    ([FIVE], Variable(0, 0, 1023), (0, 0, 10230, 10230)),
    ([FIVE], Pps(0, 110, 50, 60), (5000, 11000, 3000, 3000)),
    ([FIVE], Pps(1, 210, 33, 127), (3300, 21000, 6350, 6350)),
    ([FIVE], Pps(1, 1, 0, 1), (0, 100, 50, 50)),
    ([FIVE, FIFTEEN], Avs(0, 233, 0), (9000, 15000, 2330, 0)),
    ([FIVE, FIFTEEN, TWENTY], Avs(3, 233, 174), (9000, 20000, 2330, 1740)),
    ([FIVE, FIFTEEN, TWENTY], Avs(0, 233, 0), (9000, 15000, 2330, 0)),
    ([FIVE, Fixed(0, 0, 300, 0), Fixed(0, 0, 400, 1)], Avs(0, 0, 1), (9000, 20000, 0, 10)),
    ([FIVE, Fixed(0, 0, 300, 666), Fixed(0, 0, 400, 500)], Avs(0, 666, 500), (9000, 20000, 6660, 5000)),
    ([FIVE, Fixed(0, 0, 300, 0)], Avs(0, 0, 0), (9000, 15000, 0, 0)),
)
# A list of every kind; every shorter one that begins like it has its shape too.
SEVEN = [FIVE, FIFTEEN, TWENTY, Battery(400, 100, 200), Variable(400, 90, 150), Avs(0, 233, 174), Pps(1, 160, 50, 50)]

ANY_16_BITS = (0, 1, 9000, 14999, 15000, 15001, 20000, 65534, 65535)


def some_list(rng):
    """Built, or of every kind; some are refused by their shape."""
    if rng.random() < 0.4:
        m = rng.randint(50, 200)
        return charger.build(Profile(m, m, rng.randint(100, 500), 0, rng.randint(0, 1), 0)).value
    return charger.list_of_words(some_words(rng))


def damaged(rng, words):
    """With another count, with a bit flipped or with a word of another kind; mostly as
    it was."""
    at, way, places = rng.randrange(words.count), rng.random(), list(words.places)
    if way < 0.05:
        return words._replace(count=rng.choice((0, 8, 9, 255)))
    if way < 0.25:
        places[at] ^= 1 << rng.randrange(32)
    elif way < 0.3:
        places[at] = rng.randint(12, 15) << 28 | places[at] & 0x0FFFFFFF
    return words._replace(places=tuple(places))


def in_volts_and_amperes(obj):
    """The row of an object, worked out from its steps."""
    fifty_mv, hundred_mv, ten_ma, fifty_ma = Fraction(1, 20), Fraction(1, 10), Fraction(1, 100), Fraction(1, 20)
    if isinstance(obj, Avs):
        return 9, 20 if obj.high else 15, obj.low * ten_ma, obj.high * ten_ma
    if isinstance(obj, Pps):
        return obj.min * hundred_mv, obj.max * hundred_mv, obj.current * fifty_ma, obj.current * fifty_ma
    if isinstance(obj, Fixed):
        return obj.volts * fifty_mv, obj.volts * fifty_mv, obj.current * ten_ma, obj.current * ten_ma
    current = obj.current * ten_ma if isinstance(obj, Variable) else 0
    return obj.min * fifty_mv, obj.max * fifty_mv, current, current


def decoded_by_division(words, request):
    """What decoding answers: number, place and the decoded request."""
    position, bit_26 = request // 2**28, request // 2**26 % 2
    if words.count not in range(1, 8):
        return 10, 0, None
    if position not in range(1, words.count + 1):
        return 20, 0, None
    named = words.places[position - 1]
    if named // 2**28 in (0b1101, 0b1111):
        return 12, position, None
    if named // 2**30 == 1:
        return 0, 0, ForTheList(Battery, position, bit_26)
    if named // 2**30 == 3:
        kind = Pps if named // 2**28 == 12 else Avs
        return 0, 0, AskedVoltage(kind, position, bit_26, request // 512 % 4096, request % 128)
    kind = Fixed if named // 2**30 == 0 else Variable
    return 0, 0, AskedFigures(kind, position, bit_26, request // 1024 % 1024, request % 1024)


def all_that_applies(summary, asked):
    """Every refusal that applies, each by itself and in amperes and volts, in the order
    10, 20, 23, 22, 24, 25."""
    if summary.count > 7:
        return [10]
    if asked.position == 0 or asked.position > summary.count:
        return [20]
    lowest, highest, below, above = [Fraction(limit, 1000) for limit in summary.rows[asked.position - 1]]
    if asked.kind in (Fixed, Variable):
        operating, maximum = Fraction(asked.operating, 100), Fraction(asked.maximum, 100)
        applies = ((24, below < operating), (25, below < maximum and not asked.bit_26))
    else:
        voltage = Fraction(asked.voltage, 50 if asked.kind is Pps else 40)
        limits = {below} if voltage < 15 else {above} if voltage > 15 else {below, above}
        applies = (
            (23, asked.kind is Avs and (voltage * 10).denominator != 1),
            (22, not lowest <= voltage <= highest),
            (24, all(limit < Fraction(asked.current, 20) for limit in limits)),
        )
    return [number for number, wrong in applies if wrong]


# ------------------------------------------------------------------- making


def test_rows_by_hand():
    for before, obj, row in BY_HAND:
        summary = charger.make_summary(list_of(before + [obj]))
        expect("made of %r" % (obj,), verdict(summary), (0, 0))
        expect("the row of %r" % (obj,), summary.value.rows[len(before)], row)
        expect("in millivolts and milliamperes", row, tuple(1000 * limit for limit in in_volts_and_amperes(obj)))
    rows = [charger.limits_of(obj) for obj in SEVEN]
    for count in range(1, 8):
        want = (count, tuple(rows[:count]) + ((0, 0, 0, 0),) * (7 - count))
        expect("the first %d" % count, charger.make_summary(Words(count, list_of(SEVEN).places)), (0, 0, want))


def test_summaries_of_lists():
    """Refused exactly as the shape is, and then all zero; words past the count are not
    looked at."""
    rng = random.Random(41)
    seen = Counter()
    for _ in range(5000):
        words = damaged(rng, some_list(rng))
        held = charger.held_in(words)
        dirty = words._replace(places=held + tuple(rng.getrandbits(32) for _ in range(7 - len(held))))
        shape, summary = charger.shape(words), charger.make_summary(words)
        seen[shape.number] += 1
        expect("the shape's number and place", verdict(summary), verdict(shape))
        expect("without what is past the count", charger.make_summary(dirty), summary)
        if shape.number:
            expect("all zero", summary.value, (0, ((0, 0, 0, 0),) * 7))
            continue
        rows = [tuple(1000 * limit for limit in in_volts_and_amperes(obj)) for obj in objects_in(words)]
        expect("its rows", summary.value, (words.count, tuple(rows) + ((0, 0, 0, 0),) * (7 - len(rows))))
        for obj, row in zip(objects_in(words), summary.value.rows):
            expect("two currents that are the same, but of AVS", row.below == row.above or isinstance(obj, Avs))
        expect("any number of 16 bits", all(0 <= limit <= 65535 for row in summary.value.rows for limit in row))
    for number in (0, *range(10, 18)):
        expect("%d, often enough (%d)" % (number, seen[number]), seen[number] >= 20)


# ----------------------------------------------------------------- decoding


def test_decoded_by_hand():
    words = list_of(SEVEN)
    for request, want in (
        (0x1004B12C, AskedFigures(Fixed, 1, 0, 300, 300)),
        (0x14000000, AskedFigures(Fixed, 1, 1, 0, 0)),
        (0x2BF00000, AskedFigures(Fixed, 2, 0, 0, 0)),
        (0x300FFC00, AskedFigures(Fixed, 3, 0, 1023, 0)),
        (0x500003FF, AskedFigures(Variable, 5, 0, 0, 1023)),
        (0x5FFFFFFF, AskedFigures(Variable, 5, 1, 1023, 1023)),
        (0x401FFFFF, ForTheList(Battery, 4, 0)),
        (0x44000000, ForTheList(Battery, 4, 1)),
        (0x6004B041, AskedVoltage(Avs, 6, 0, 600, 65)),
        (0x641FFE00, AskedVoltage(Avs, 6, 1, 4095, 0)),
        (0x700001FF, AskedVoltage(Pps, 7, 0, 0, 127)),
        (0x7FFFFFFF, AskedVoltage(Pps, 7, 1, 4095, 127)),
    ):
        expect("%08X decoded" % request, charger.decode_request(words, request), (0, 0, want))
    for position in (0, *range(8, 16)):
        expect("20 at %d" % position, charger.decode_request(words, figures(position, 0)), (20, 0, None))
    for count in (0, 8, 9, 255):
        for position in (0, 1, 7, 15):
            asked = charger.decode_request(words._replace(count=count), figures(position, 0))
            expect("10 before 20 and 12", asked, (10, 0, None))
    for count in range(1, 8):
        for word in (0xD0000000, 0xDFFFFFFF, 0xF0000000, 0xFFFFFFFF):
            bad = Words(count, (word,) * 7)
            for position in range(16):
                want = (12, position, None) if 1 <= position <= count else (20, 0, None)
                expect("20 before 12", charger.decode_request(bad, figures(position, 0)), want)


def test_decoding_looks_at_one_word():
    """The count and the kind of the named word, and nothing else, of lists with their
    shape and of any words; and only the bits that count of the request."""
    rng = random.Random(42)
    seen = Counter()
    for _ in range(6000):
        words = Words(rng.randint(1, 7), tuple(rng.getrandbits(32) for _ in range(7)))
        if rng.random() < 0.03:
            words = words._replace(count=rng.choice((0, 8, 255)))
        position = rng.randint(1, words.count) if 1 <= words.count <= 7 and rng.random() < 0.9 else rng.randrange(16)
        request = position << 28 | rng.getrandbits(28)
        asked = charger.decode_request(words, request)
        expect("decoded by division", asked, decoded_by_division(words, request))
        others = [rng.getrandbits(32) for _ in range(7)]
        if 1 <= position <= 7:
            # bits 29 and 28 tell the kind where bits 31 and 30 are set, and are fields elsewhere
            named = words.places[position - 1]
            others[position - 1] = named ^ rng.getrandbits(28 if named >= 0xC0000000 else 30)
        expect("all else changed", charger.decode_request(words._replace(places=tuple(others)), request), asked)
        kind = None if asked.value is None else asked.value.kind
        seen[asked.number, kind] += 1
        if kind in (Pps, Avs, Fixed, Variable):
            changing = {bit for bit in range(28) if charger.decode_request(words, request ^ 1 << bit) != asked}
            expect("bits that are decoded", changing | {28, 29, 30, 31}, COUNTING[kind] | {26})
    for case in [(0, kind) for kind in COUNTING] + [(number, None) for number in (10, 12, 20)]:
        expect("%s, often enough (%d)" % (case, seen[case]), seen[case] >= 50)


# ---------------------------------------------------------------- answering


def agree(words, request, seen):
    """The answer from the summary and the one from the list, number and place, where
    the list has its shape; quick in any case."""
    from_the_list = charger.answer(words, request)
    expect("quick %08X" % request, verdict(console.quick(words, request)), verdict(from_the_list))
    summary = charger.make_summary(words)
    if summary.number:
        return
    asked = charger.decode_request(words, request)
    kind = None if asked.value is None else asked.value.kind
    seen[kind, from_the_list.number] += 1
    if kind is None:
        expect("outside the count", (verdict(asked), verdict(from_the_list)), ((20, 0), (20, 0)))
        for beside in (AskedFigures(Fixed, request >> 28, 0, 0, 0), AskedVoltage(Avs, request >> 28, 0, 600, 0)):
            expect("from the summary too", charger.answer_from_summary(summary.value, beside), (20, 0, None))
    elif kind is not Battery:
        found = charger.answer_from_summary(summary.value, asked.value)
        expect("%08X from the summary of %r" % (request, objects_in(words)), found, from_the_list)


def expect_often(seen, least):
    """Every number that each kind can be refused with, and none beside."""
    with_figures, with_voltage = (0, 24, 25), (0, 22, 24)
    want = {(None, 20), (Avs, 23)}
    want |= {(kind, number) for kind in (Fixed, Battery, Variable) for number in with_figures}
    want |= {(kind, number) for kind in (Pps, Avs) for number in with_voltage}
    expect("what is given", set(seen), want)
    for case in want:
        expect("%s, often enough (%d)" % (case, seen[case]), seen[case] >= least)


def test_agreement():
    rng = random.Random(43)
    seen = Counter()
    for _ in range(2500):
        words = some_list(rng)
        if charger.shape(words).number:
            agree(words, rng.getrandbits(32), seen)
            continue
        for _ in range(6):
            word, _ = some_request(rng, objects_in(words))
            agree(words, word, seen)
        agree(words, rng.randrange(16) << 28 | rng.getrandbits(28), seen)
    expect_often(seen, 40)


def test_agreement_at_edges():
    """Each figure of voltage, and each current and figure beside its limit."""
    seen = Counter()
    for low, high in ((233, 174), (300, 325), (304, 304), (0, 325), (240, 0), (0, 0)):
        fixed = [FIVE, Fixed(0, 0, 300, low)] + ([Fixed(0, 0, 400, high)] if high else [])
        words = list_of(fixed + [Avs(0, low, high)])
        for voltage in (*range(340, 380), *range(590, 611), *range(790, 811), 0, 1, 4, 480, 700, 4092, 4095):
            for current in {low // 5, low // 5 + 1, high // 5, high // 5 + 1, 127}:
                agree(words, volts(words.count, voltage, current), seen)
    for pps in (Pps(1, 110, 50, 60), Pps(0, 210, 50, 1), Pps(0, 150, 150, 127), Pps(0, 0, 0, 0), Pps(1, 151, 149, 20)):
        words = list_of([FIVE, pps])
        for edge in (pps.min * 5, pps.max * 5, 750, 4090):
            for voltage in range(max(0, edge - 6), edge + 6):
                for current in (0, pps.current, min(127, pps.current + 1), 127):
                    agree(words, volts(2, voltage, current), seen)
    for obj, limit in ((FIVE, 300), (Fixed(0, 0, 100, 0), 0), (Variable(400, 350, 99), 99), (Battery(400, 0, 99), 99)):
        words = list_of([obj] if isinstance(obj, Fixed) else [FIVE, obj])
        for operating in (0, max(0, limit - 1), limit, limit + 1, 1023):
            for maximum in (0, max(0, limit - 1), limit, limit + 1, 1023):
                for mismatch in (0, 1):
                    agree(words, figures(words.count, operating, maximum, mismatch), seen)
    for count in range(1, 8):
        for position in range(16):
            agree(list_of(SEVEN)._replace(count=count), figures(position, 1), seen)
    expect_often(seen, 5)


def test_any_numbers():
    """A summary may hold any numbers, and so may a decoded request: the first refusal
    that applies is given, and nothing is raised."""
    rng = random.Random(44)
    seen, overtaken = Counter(), Counter()
    number = lambda *likely: rng.choice((*likely, *ANY_16_BITS, rng.getrandbits(16)))
    for _ in range(30_000):
        count = rng.choice((0, 1, 7, 7, 7, 8, 255, rng.randrange(256)))
        rows = [Limits(*[number() for _ in range(4)]) for _ in range(7)]
        at = rng.randrange(7)
        if rng.random() < 0.7:
            # ends about the voltage that is asked for, or the other way round
            rows[at] = rows[at]._replace(lowest=number(0, 0, 9000), highest=number(65535, 65535, 20000))
        position = rng.choice((at + 1, at + 1, at + 1, at + 1, 0, 8, 255, rng.randrange(256)))
        bit_26, row = rng.choice((0, 0, 1, 2, 255)), rows[at]
        kind = rng.choice((Fixed, Variable, Pps, Avs))
        if kind in (Fixed, Variable):
            about = [max(0, limit // 10 + more) for limit in (row.below, row.above) for more in (-1, 0, 1)]
            asked = AskedFigures(kind, position, bit_26, number(*about), number(*about))
        else:
            step = 20 if kind is Pps else 25
            edges = [edge // step + more for edge in (15_000, row.lowest, row.highest) for more in (0, 1, 4)]
            edges += [rng.randrange(800) * 4, 15_000 // step, 15_000 // step - 1]
            current = [limit // 50 + more for limit in (row.below, row.above) for more in (0, 1)]
            asked = AskedVoltage(kind, position, bit_26, number(*edges, *edges), number(0, *current))
        summary = Summary(count, tuple(rows))
        applies = all_that_applies(summary, asked)
        want = applies[0] if applies else 0
        expect("%r on %r" % (asked, summary), charger.answer_from_summary(summary, asked), (want, 0, None))
        seen[kind, want] += 1
        overtaken.update(zip(applies, applies[1:]))
    for kind, numbers in ((Fixed, (24, 25)), (Variable, (24, 25)), (Pps, (22, 24)), (Avs, (23, 22, 24))):
        for case in [(kind, number) for number in (0, 10, 20, *numbers)]:
            expect("%s, often enough (%d)" % (case, seen[case]), seen[case] >= 50)
    for two in ((23, 22), (22, 24), (24, 25)):
        expect("%d before %d, often enough (%d)" % (*two, overtaken[two]), overtaken[two] >= 50)


def test_made_up_by_hand():
    """A row is taken as it stands; the first refusal; 12 of C before all others."""
    row, none = Limits(9000, 20000, 3000, 2000), Limits(0, 0, 0, 0)
    upside_down, widest = Limits(20000, 9000, 65535, 65535), Limits(0, 65535, 65535, 65535)

    def answered(a_row, asked, count=7):
        return verdict(charger.answer_from_summary(Summary(count, (a_row,) * 7), asked))

    for kind in (Fixed, Variable):
        expect("the current below 15.0 V", answered(row, AskedFigures(kind, 1, 0, 300, 300)), (0, 0))
        expect("and not the larger", answered(row._replace(above=9999), AskedFigures(kind, 1, 0, 301, 0)), (24, 0))
        expect("24 before 25", answered(row, AskedFigures(kind, 1, 0, 301, 301)), (24, 0))
        expect("25", answered(row, AskedFigures(kind, 1, 0, 300, 301)), (25, 0))
        for bit_26 in (1, 2, 128, 255):
            expect("bit 26 set", answered(row, AskedFigures(kind, 1, bit_26, 300, 301)), (0, 0))
            expect("for 25 alone", answered(row, AskedFigures(kind, 1, bit_26, 301, 301)), (24, 0))
        expect("no voltage", answered(upside_down, AskedFigures(kind, 1, 0, 6553, 6553)), (0, 0))
        expect("not a step more", answered(upside_down, AskedFigures(kind, 1, 0, 6554, 0)), (24, 0))
        expect("a row of zeros", answered(none, AskedFigures(kind, 1, 0, 0, 0)), (0, 0))
    for kind, step in ((Pps, 20), (Avs, 25)):
        asked = lambda millivolts, current, position=1: AskedVoltage(kind, position, 0, millivolts // step, current)
        for millivolts, most in ((9000, 60), (14900, 60), (15000, 60), (15100, 40), (20000, 40)):
            expect("the limit there", answered(row, asked(millivolts, most)), (0, 0))
            expect("a step more", answered(row, asked(millivolts, most + 1)), (24, 0))
        larger_above = row._replace(above=3049)
        expect("the larger at 15.0 V", answered(larger_above, asked(15000, 60)), (0, 0))
        expect("in milliamperes", answered(larger_above, asked(15000, 61)), (24, 0))
        expect("a whole step", answered(larger_above._replace(above=3050), asked(15000, 61)), (0, 0))
        for millivolts in (8900, 20100):
            expect("22 before 24", answered(row, asked(millivolts, 127)), (22, 0))
        for millivolts in (0, 9000, 15000, 20000, 65500):
            expect("no range", answered(upside_down, asked(millivolts, 0)), (22, 0))
            expect("all of it", answered(widest, asked(millivolts, 1310)), (0, 0))
        expect("no number is cut", answered(widest, AskedVoltage(kind, 1, 0, 65532, 0)), (22, 0))
        expect("nor a current", answered(widest, asked(15000, 1311)), (24, 0))
    for figure, falling, rising in ((749, 60, 40), (750, 60, 60), (751, 40, 60)):
        for a_row, most in ((row, falling), (row._replace(below=2000, above=3000), rising)):
            expect("PPS a step beside 15.0 V", answered(a_row, AskedVoltage(Pps, 1, 0, figure, most)), (0, 0))
            expect("a step more", answered(a_row, AskedVoltage(Pps, 1, 0, figure, most + 1)), (24, 0))
    for figure in (1, 2, 3, 357, 599, 602, 801, 4095, 65535):
        expect("23 before 22 and 24", answered(none, AskedVoltage(Avs, 1, 0, figure, 127)), (23, 0))
        expect("no 23 of PPS", answered(none, AskedVoltage(Pps, 1, 0, figure, 127)), (22, 0))
    for asked in (
        AskedFigures(Fixed, 0, 0, 65535, 65535), AskedVoltage(Avs, 8, 0, 1, 65535), AskedVoltage(Pps, 255, 0, 0, 1),
    ):
        for count, want in ((0, 20), (1, 20), (7, 20), (8, 10), (255, 10)):
            expect("10 before 20, and 20 before the rest", answered(none, asked, count), (want, 0))
    for count in (0, 8, 255):
        for position in (0, 1, 8):
            for kind in (Battery, NoKind, None):
                asked = AskedFigures(kind, position, 0, 65535, 65535)
                expect("12 before the summary is looked at", answered(none, asked, count), (12, 0))
            given_back = ForTheList(Battery, position, 1)
            expect("what decoding gives for a battery", answered(widest, given_back, count), (12, 0))
