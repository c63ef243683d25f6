"""The cases of the statement: those worked by hand, and what the contracts settle."""

import charger
from charger import Avs, Battery, Fixed, Header, Message, NoKind, Pps, Profile, Row, Words
from tests.expecting import expect
from tests.handling import (
    avs_built, figures, fixed_currents, list_of, objects_built, of_default, verdict, volts, words_built,
)

# ------------------------------------------------- "Worked by hand"

L = Profile(160, 130, 500, 0, 0, 0)


def test_checked_by_hand():
    listing = "0 6 0001912C 0002D12C 0004B0F0 E003C000 C8DC323C C9403230"
    expect("the listing", list(charger.listing(bytes.fromhex("480048001E000100"))), [listing])
    expect("empty input", list(charger.listing(b"")), [])
    for short in range(1, 8):
        expect("a short record", list(charger.listing(b"\x48" * short)), ["9 0"])
    expect("short after whole", list(charger.listing(bytes.fromhex("480048001E000100") + b"\0")), [listing, "9 0"])

    up = Profile(160, 80, 500, 1, 0, 0)
    expect("M 160, P 80, up", fixed_currents(up), [300, 300, 267, 200])
    expect("its AVS word", words_built(up)[4], 0xE0042CC8)
    expect("M = P = 80", fixed_currents(of_default(80)), [300, 300, 266])
    expect("its AVS", avs_built(of_default(80)), [(266, 0)])
    expect("L", fixed_currents(L), [300, 300, 300, 325])
    expect("AVS of L", avs_built(L), [(300, 325)])
    expect("M = 30", fixed_currents(of_default(30)), [300])
    expect("M = 30, one word", len(words_built(of_default(30))), 1)
    expect("M = 31", fixed_currents(of_default(31)), [300, 172])
    expect("M = 54", [obj.volts for obj in objects_built(of_default(54))], [100, 180])
    expect("M = 55", fixed_currents(of_default(55))[2], 183)
    expect("no AVS at M = 54", avs_built(of_default(54)), [])
    expect("AVS from M = 55", avs_built(of_default(55)), [(183, 0)])
    expect("M = 90", [obj.volts for obj in objects_built(of_default(90)) if isinstance(obj, Fixed)], [100, 180, 300])
    expect("M = 91", fixed_currents(of_default(91))[3], 227)

    on_l = lambda request: verdict(charger.answer(charger.build(L).value, request))
    expect("15.0 V at 3.25 A", on_l(volts(5, 600, 65)), (0, 0))
    reserved = 1 << 27 | 1 << 21 | 1 << 8 | 1 << 7
    expect("15.0 V at 3.25 A, bits 27, 21, 8 and 7 set", on_l(volts(5, 600, 65) | reserved), (0, 0))
    expect("15.0 V at 3.30 A", on_l(volts(5, 600, 66)), (24, 0))
    expect("14.9 V at 3.25 A", on_l(volts(5, 596, 65)), (24, 0))
    expect("14.9 V at 3.00 A", on_l(volts(5, 596, 60)), (0, 0))
    expect("voltage figure 602", on_l(volts(5, 602, 10)), (23, 0))
    expect("8.9 V", on_l(volts(5, 356, 10)), (22, 0))
    expect("position 6", on_l(volts(6, 600, 10)), (20, 0))


def test_shared_case():
    rows = [Row(130, 0, 0, 0, 0), Row(130, 0, 0, 0, 0)]
    expect("set up", verdict(charger.set_up(200, rows)), (0, 0))
    expect("empty rows", rows, [Row(130, 0, 0, 0, 15)] * 2)
    expect("port 1 attaches", verdict(charger.attach(200, rows, 1, 500)), (0, 0))
    expect("with P 130", rows[0], Row(130, 0, 500, 130, 15))
    expect("20 V at 3.25 A", verdict(charger.request(200, rows, 1, figures(4, 325))), (0, 0))
    expect("held 130", rows[0].held, 130)
    given = charger.attach(200, rows, 2, 500).value
    expect("port 2 has P 70", rows[1], Row(130, 0, 500, 70, 15))
    expect("its currents", [word & 1023 for word in given.places[:4]], [300, 300, 233, 175])
    expect("9 V at 2 A", verdict(charger.request(200, rows, 1, figures(2, 200))), (0, 0))
    expect("held 36", rows[0].held, 36)
    expect("advertise again", verdict(charger.advertise(200, rows, 2)), (0, 0))
    expect("P 130", rows[1].p, 130)
    expect("port 2 takes 20 V", verdict(charger.request(200, rows, 2, figures(4, 325))), (0, 0))
    expect("port 1 asks 20 V", verdict(charger.request(200, rows, 1, figures(4, 325))), (36, 1))
    expect("port 1 asks 9 V at 3 A", verdict(charger.request(200, rows, 1, figures(2, 300))), (0, 0))
    expect("held 54", rows, [Row(130, 0, 500, 130, 54), Row(130, 0, 500, 130, 130)])
    expect("remaining", charger.remaining(200, rows), (0, 0, 16))


def test_messages_worked_by_hand():
    six = (0x0001912C, 0x0002D12C, 0x0004B0F0, 0xE003C000, 0xC8DC323C, 0xC9403230)
    for some, fields, words in (
        (
            "A1 61 2C 91 01 00 2C D1 02 00 F0 B0 04 00 00 C0 03 E0 3C 32 DC C8 30 32 40 C9",
            dict(extended=0, count=6, id=0, power_role=1, revision=2, data_role=1, type=1),
            six,
        ),
        (
            "82 12 45 15 05 40",
            dict(extended=0, count=1, id=1, power_role=0, revision=2, data_role=0, type=2),
            (0x40051545,),
        ),
    ):
        lent = bytes.fromhex(some)
        message = Message(Header(**fields), words + (0,) * (7 - len(words)))
        expect("read", charger.read_message(lent), (0, 0, message))
        expect("taken apart", charger.take_message_apart(lent), (0, 0, message))
        for more in (0, 1, 100):
            buffer = bytearray(b"\x77" * (len(lent) + more))
            expect("written", charger.write_message(message, buffer), (0, 0, len(lent)))
            expect("its bytes, and those past it", buffer, lent + b"\x77" * more)
    expect("the words of the first case", tuple(words_built(Profile(72, 72, 300, 0, 1, 0))), six)


# ---------------------------------------------- "What the contracts settle"


def test_orders():
    """Two faults at once, and the edges of each refusal."""
    check = lambda *figures: verdict(charger.check(Profile(*figures), charger.build(L).value))
    build = lambda *figures: verdict(charger.build(Profile(*figures)))
    for call in (check, build):
        for cable in (99, 501):
            expect("1 first", call(0, 0, cable, 2, 2, 64), (1, 0))
            expect("2 next", call(200, 201, cable, 2, 2, 64), (2, 0))
            expect("3 next", call(200, 200, cable, 2, 2, 64), (3, 0))
        expect("4 next", call(200, 200, 500, 2, 0, 64), (4, 0))
        expect("4 for PPS too", call(200, 200, 500, 0, 2, 64), (4, 0))
        expect("5 next", call(200, 199, 500, 0, 1, 64), (5, 0))
    expect("6, builder only", build(160, 130, 500, 0, 1, 0), (6, 0))
    expect("the rule check knows no 6", check(160, 130, 500, 0, 1, 0), (0, 0))
    shape = lambda count, *words: verdict(charger.shape(Words(count, words + (0xFFFFFFFF,) * (7 - len(words)))))
    first = 0x0001912C
    expect("count 0", shape(0), (10, 0))
    expect("count 8", shape(8), (10, 0))
    expect("places past the count are not read", shape(1, first), (0, 0))
    expect("11 before 12", shape(1, 0xF0000000), (11, 1))
    expect("12", shape(2, first, 0xD0000000), (12, 2))
    expect("13 before 15", shape(2, first, 1 << 22 | 401 << 10), (13, 2))
    expect("15 before 16", shape(2, first, 401 << 10 | 1023), (15, 2))
    expect("16 before 14", shape(3, first, 400 << 10, 300 << 10 | 1000), (16, 3))
    expect("14 before a later 12", shape(4, first, 400 << 10, 300 << 10, 0xD0000000), (14, 3))
    expect("12 before 17", shape(3, first, 0xE0000400, 0xD0000000), (12, 3))
    expect("17 at the AVS word", shape(3, first, 0xE0000400, 0xC8DC323C), (17, 2))
    expect("zero AVS needs 15 V too", shape(2, first, 0xE0000000), (17, 2))
    wide = charger.list_of_objects([Battery(0, 0, 0), Pps(0, 0, 0, 128)])
    expect("7 before 11", verdict(charger.write(wide)), (7, 2))
    expect("10 before 7", verdict(charger.write(charger.Objects(8, wide.places))), (10, 0))
    later_flags = charger.list_of_objects([Fixed(0, 0, 100, 0), Fixed(1, 0, 180, 0)])
    expect("flags after the first word", verdict(charger.write(later_flags)), (13, 2))
    sums = [Row(100, 0, 500, 100, 100), Row(100, 0, 500, 100, 100)]
    expect("only the sum", charger.remaining(199, sums), (37, 0, 0))
    expect("the sum fits", charger.remaining(200, sums), (0, 0, 0))
    expect("a row and the sum", charger.remaining(199, [sums[0], Row(100, 0, 99, 100, 100)]), (37, 2, 0))
    expect("nine rows", charger.remaining(0, sums * 4 + sums[:1]), (30, 0, 0))
    lent = [Row(100, 2, 9, 9, 9), Row(14, 0, 0, 0, 0)]
    expect("row by row 31, 4", verdict(charger.set_up(30, lent)), (4, 1))
    expect("rows are not written", lent, [Row(100, 2, 9, 9, 9), Row(14, 0, 0, 0, 0)])


def test_order_of_a_request():
    """20, 23, 22, 24, 25: all that comes later is at fault too, and each is the
    same with the reserved bits set."""
    words = charger.build(Profile(100, 100, 500, 0, 1, 0)).value
    rows = [Row(100, 1, 500, 100, 15)]
    with_figures, with_voltage = 1 << 27 | 1 << 21 | 1 << 20, 1 << 27 | 1 << 21 | 1 << 8 | 1 << 7
    for what, number, word, reserved in (
        ("no position, and figures", 20, figures(8, 1023), with_figures),
        ("no position, and a voltage", 20, volts(8, 357, 127), with_voltage),
        ("AVS, 23 before 22 and 24", 23, volts(5, 357, 127), with_voltage),
        ("AVS, 22 before 24", 22, volts(5, 356, 127), with_voltage),
        ("AVS, 24", 24, volts(5, 360, 127), with_voltage),
        ("PPS, 22 before 24", 22, volts(6, 249, 127), with_voltage),
        ("PPS, 24", 24, volts(6, 250, 127), with_voltage),
        ("fixed, 24 before 25", 24, figures(1, 301, 301), with_figures),
        ("fixed, 25", 25, figures(1, 300, 301), with_figures),
        ("fixed, bit 26 is for 25 alone", 24, figures(1, 301, 301, 1), with_figures),
    ):
        for asked in (word, word | reserved):
            expect(what, verdict(charger.answer(words, asked)), (number, 0))
            expect(what + ", before 36", verdict(charger.request(15, rows, 1, asked)), (number, 0))


def test_order_of_a_message():
    """All that comes later is at fault too, as far as a message can be. On a
    refusal a message is all zeros, and no byte is written."""
    for what, want, some in (
        ("no byte", (40, 0), ""),
        ("one byte", (40, 0), "83"),
        ("40 before 42 and 41", (40, 0), "03 90"),
        ("40 before 42 and 53", (40, 0), "02 A0 00 00 00 00"),
        ("40 before 41", (40, 0), "03 00 00"),
        ("40 before 53", (40, 0), "02 00 00"),
        ("40 before 10", (40, 0), "01 00 00 00 00 00"),
        ("40 before 11", (40, 0), "01 10 00 00 00 00 00"),
        ("42 before 41", (42, 0), "03 80"),
        ("42 before 53", (42, 0), "02 80"),
        ("42 before 10", (42, 0), "01 80"),
        ("42 before 11", (42, 0), "01 90 00 00 00 00"),
        ("41, and a list for it would be 10", (41, 0), "00 00"),
        ("41, and a Request would be 53", (41, 0), "03 20 00 00 00 00 00 00 00 00"),
        ("41, whatever the low bits of the type", (41, 0), "11 10 2C 91 01 00"),
        ("41, and so for a Request", (41, 0), "12 10 2C 91 01 00"),
        ("53, and a list would be 10", (53, 0), "02 00"),
        ("53, and a list would be 11", (53, 0), "02 20 00 00 00 00 00 00 00 00"),
        ("53, and a list would pass", (53, 0), "02 20 2C 91 01 00 2C D1 02 00"),
    ):
        for call in (charger.read_message, charger.take_message_apart):
            expect(what, call(bytes.fromhex(some)), want + (((0,) * 7, (0,) * 7),))
    for want, some in (
        ((10, 0), "01 00"),
        ((11, 1), "01 10 00 00 00 00"),
        ((12, 2), "01 20 2C 91 01 00 00 00 00 D0"),
        ((14, 3), "01 30 2C 91 01 00 2C B1 04 00 2C D1 02 00"),
    ):
        expect("as shape", verdict(charger.read_message(bytes.fromhex(some))), want)
        expect("not in taking apart", verdict(charger.take_message_apart(bytes.fromhex(some))), (0, 0))
    first, bad = 0x0001912C, 0xFFFFFFFF
    for what, want, fields, room, word in (
        ("51 before all that follow", (51, 0), (2, 0, 0, 0, 0, 0, 34), 0, bad),
        ("51 before 42", (51, 0), (1, 1, 8, 0, 0, 0, 2), 40, first),
        ("51 before 41", (51, 0), (0, 1, 0, 2, 0, 0, 3), 40, first),
        ("51 before 53", (51, 0), (0, 2, 0, 0, 4, 0, 2), 40, first),
        ("51 before 52", (51, 0), (0, 1, 0, 0, 0, 2, 2), 5, first),
        ("51 before 10", (51, 0), (0, 8, 0, 0, 0, 0, 1), 40, first),
        ("51 before 11", (51, 0), (0, 1, 0, 0, 0, 0, 33), 40, bad),
        ("42 before 41, 52", (42, 0), (1, 1, 0, 0, 0, 0, 3), 0, bad),
        ("42 before 53, 52", (42, 0), (1, 2, 0, 0, 0, 0, 2), 0, bad),
        ("42 before 52, 11", (42, 0), (1, 1, 0, 0, 0, 0, 1), 0, bad),
        ("42 before 11", (42, 0), (1, 1, 0, 0, 0, 0, 1), 6, bad),
        ("41 before 52", (41, 0), (0, 1, 0, 0, 0, 0, 3), 5, bad),
        ("53 before 52", (53, 0), (0, 0, 0, 0, 0, 0, 2), 1, bad),
        ("53 before 52 of a larger count", (53, 0), (0, 7, 0, 0, 0, 0, 2), 6, bad),
        ("52 before 10", (52, 0), (0, 0, 0, 0, 0, 0, 1), 1, bad),
        ("52 before 11", (52, 0), (0, 1, 0, 0, 0, 0, 1), 5, bad),
        ("10", (10, 0), (0, 0, 0, 0, 0, 0, 1), 2, first),
        ("11", (11, 1), (0, 1, 0, 0, 0, 0, 1), 6, bad),
        ("the second word", (12, 2), (0, 2, 0, 0, 0, 0, 1), 10, first),
    ):
        buffer = bytearray(range(1, room + 1))
        answer = charger.write_message(Message(Header(*fields), (word,) + (bad,) * 6), buffer)
        expect(what, answer, want + (0,))
        expect(what + ", no byte written", buffer, bytes(range(1, room + 1)))


def test_objects_of_no_kind():
    """The order of writing where C gives an object of no kind; the console's
    lines cannot."""
    five, nine, below_5, above_20 = [Fixed(0, 0, volts, 300) for volts in (100, 180, 66, 401)]
    none, flags_200, flags_1 = NoKind(), Fixed(200, 0, 180, 300), Fixed(1, 0, 180, 300)
    over_100_w, lonely_avs = Fixed(0, 0, 400, 501), Avs(0, 300, 0)

    def refused(what, number, place, *objects):
        answer = charger.write(charger.list_of_objects(objects))
        expect(what, answer, (number, place, charger.NO_WORDS))

    for count in (0, 8, 255):
        answer = charger.write(charger.Objects(count, (none,) * 7))
        expect("10 before 11", answer, (10, 0, charger.NO_WORDS))
    past = charger.Objects(1, (five,) + (none,) * 6)
    expect("no kind past the count", charger.write(past), (0, 0, charger.list_of_words([0x0001912C])))
    refused("7 before 11", 7, 2, none, flags_200)
    refused("7 behind no kind", 7, 3, five, none, flags_200)
    refused("7 before no kind", 7, 2, five, flags_200, none)
    refused("7 at the first such object, not at no kind between", 7, 3, five, none, flags_200, none, flags_200)
    refused("no kind is not fixed 5 V", 11, 1, none)
    refused("11 before a later 15", 11, 1, none, above_20)
    refused("11 before a later 12", 11, 1, nine, none, none)
    refused("12", 12, 2, five, none)
    refused("12 at the first", 12, 2, five, none, none)
    refused("12 before a later 14", 12, 2, five, none, below_5)
    refused("12 before a later 15", 12, 2, five, none, above_20)
    refused("13 before a later 12", 13, 2, five, flags_1, none)
    refused("14 before a later 12", 14, 2, five, below_5, none)
    refused("15 before a later 12", 15, 2, five, above_20, none)
    refused("16 before a later 12", 16, 2, five, over_100_w, none)
    refused("12 before 17", 12, 3, five, lonely_avs, none)
    for place in range(2, 8):
        rising = [Fixed(0, 0, 100 + 10 * at, 300) for at in range(7)]
        rising[place - 1] = none
        refused("12 at each place", 12, place, *rising)


def test_accepted_currents():
    """The rule check against the sentence, by trying every current."""
    tried = ((200, 200, 500), (200, 200, 300), (160, 130, 500), (160, 91, 500), (160, 90, 300))
    tried += ((91, 31, 300), (90, 30, 500), (130, 54, 500), (130, 55, 500), (100, 1, 300))
    # leads of 2 A and 4 A, the bounds of a cable, and those a step beside 3 A
    tried += ((200, 200, 200), (200, 60, 200), (160, 37, 200), (200, 200, 400), (200, 73, 400), (160, 121, 400))
    tried += ((200, 200, 100), (90, 10, 100), (200, 200, 299), (200, 200, 301), (200, 199, 499))
    for m, p, cable in tried:
        profile = Profile(m, p, cable, 0, 0, 0)
        good = objects_built(profile)
        for at, obj in enumerate(good):
            if not isinstance(obj, Fixed):
                continue
            allowed = []
            for current in range(1024):
                offer = list(good)
                offer[at] = obj._replace(current=current)
                offer = [o._replace(low=current) if isinstance(o, Avs) and obj.volts == 300 else o for o in offer]
                offer = [o._replace(high=current) if isinstance(o, Avs) and obj.volts == 400 else o for o in offer]
                if charger.check(profile, list_of(offer)).number == 0:
                    allowed.append(current)
            v = obj.volts // 20
            either = sorted({n for n in range(2001) if abs(n * v - 50 * p) < v})
            if v < 20 and p > 6 * v:
                want = list(range(min(300, cable), min(cable, max(either)) + 1))
            else:
                want = sorted({min(n, cable) for n in either})
            expect("currents at %d V for %r" % (v, profile), allowed, want)
