"""Properties of cables: which are taken, and what is built and allowed with each of
the 401 of them. A figure is worked out here in milliamperes, or by what is said of it."""

import random
from itertools import product

import charger
from charger import Avs, Fixed, Pps, Profile, Row
from tests.expecting import expect
from tests.handling import avs_built, fixed_currents, list_of, objects_built, objects_in, verdict, words_built

EVERY_CABLE = range(100, 501)
EVERY_NUMBER_OF_16_BITS = range(65536)


def prog_currents(profile):
    return [obj.current for obj in objects_built(profile) if isinstance(obj, Pps)]


def milliamperes(obj):
    if isinstance(obj, Fixed):
        return [obj.current * 10]
    if isinstance(obj, Avs):
        return [obj.low * 10, obj.high * 10]
    return [obj.current * 50]


# ------------------------------------------------------------ worked by hand


def test_leads_by_hand():
    """M, P, cable, rounding, PPS wanted; then fixed, AVS and programmable."""
    for figures, fixed, avs, progs in (
        # a lead of 2 A: nothing above it at any voltage
        ((200, 200, 200, 0, 1), [200, 200, 200, 200], [(200, 200)], [40]),
        ((72, 72, 200, 0, 1), [200, 200, 200], [(200, 0)], [40, 40]),
        ((200, 19, 200, 0, 0), [190, 105, 63, 47], [(63, 47)], []),
        ((200, 20, 200, 0, 0), [200, 111, 66, 50], [(66, 50)], []),
        ((200, 21, 200, 1, 0), [200, 117, 70, 53], [(70, 53)], []),
        ((35, 35, 200, 0, 1), [200, 194], [], [38]),
        ((36, 36, 200, 0, 1), [200, 200], [], [40]),
        ((37, 37, 200, 0, 1), [200, 200], [], [40]),
        # of 4 A: 3 A at 5, 9 and 15 V, and 4 A at 20 V
        ((200, 200, 400, 0, 1), [300, 300, 300, 400], [(300, 400)], [80]),
        ((159, 159, 400, 1, 1), [300, 300, 300, 398], [(300, 398)], [79]),
        ((89, 89, 400, 0, 1), [300, 300, 296], [(296, 0)], [60, 59]),
        ((119, 119, 400, 0, 1), [300, 300, 300, 297], [(300, 297)], [60, 59]),
        # of 2.04 A: "counts as 2.00 A" in whole 50 mA
        ((200, 200, 204, 0, 1), [204, 204, 204, 204], [(204, 204)], [40]),
        ((200, 200, 205, 0, 1), [205, 205, 205, 205], [(205, 205)], [41]),
        # about 3 A, and at the bounds
        ((100, 100, 299, 0, 1), [299, 299, 299, 250], [(299, 250)], [59, 50]),
        ((100, 100, 301, 0, 1), [300, 300, 300, 250], [(300, 250)], [60, 50]),
        ((200, 200, 100, 1, 1), [100, 100, 100, 100], [(100, 100)], [20]),
        ((200, 1, 100, 0, 0), [10, 5, 3, 2], [(3, 2)], []),
        ((200, 1, 100, 1, 0), [10, 6, 4, 3], [(4, 3)], []),
        ((200, 200, 499, 0, 1), [300, 300, 300, 499], [(300, 499)], [99]),
    ):
        profile = Profile(*figures, 0)
        built = fixed_currents(profile), avs_built(profile), prog_currents(profile)
        expect("built for %r" % (profile,), built, (fixed, avs, progs))
    expect("the default profile", charger.default_profile(72), (0, 0, (72, 72, 300, 0, 0, 0)))


# ------------------------------------------------------------ which are taken


def test_cables_taken():
    """100 to 500, of all numbers of 16 bits."""
    words = charger.build(Profile(20, 20, 300, 0, 0, 0)).value

    def attached(cable):
        return charger.attach(100, [Row(20, 0, 0, 0, 15)], 1, cable)

    for what, refused, call in (
        ("build", 3, lambda cable: charger.build(Profile(20, 20, cable, 0, 0, 0))),
        ("check", 3, lambda cable: charger.check(Profile(20, 1, cable, 0, 0, 0), words)),
        ("attach", 3, attached),
        ("rows", 37, lambda cable: charger.remaining(100, [Row(20, 0, cable, 20, 15)])),
    ):
        numbers = [call(cable).number for cable in EVERY_NUMBER_OF_16_BITS]
        # 19: the list is one of another power, and is judged where the cable is taken
        good = 19 if what == "check" else 0
        expect(what + ", taken", [cable for cable, number in enumerate(numbers) if number == good], list(EVERY_CABLE))
        expect(what + ", the numbers", set(numbers), {good, refused})


def test_rows_of_cables():
    """37 at the row, whatever the call. A cable of 0 is that of an empty port, whose
    P is 0."""
    for cable in (1, 3, 5, 10, 50, 99, 501, 65535):
        for at in (0, 1, 2):
            rows = [Row(100, 1, 100, 100, 15), Row(100, 0, 0, 0, 15)]
            rows.insert(at, Row(72, 1, cable, 72, 15))
            for what, call in (
                ("attach", lambda rows: charger.attach(200, rows, at + 1, 300)),
                ("advertise", lambda rows: charger.advertise(200, rows, at + 1)),
                ("request", lambda rows: charger.request(200, rows, at + 1, 0x1000640A)),
                ("detach", lambda rows: charger.detach(200, rows, at + 1)),
                ("remaining", lambda rows: charger.remaining(200, rows)),
            ):
                after = list(rows)
                expect("%s, a row of cable %d" % (what, cable), verdict(call(after)), (37, at + 1))
                expect("and no row is written", after, rows)
    expect("attached with 0", charger.remaining(200, [Row(72, 1, 0, 72, 15)]), (37, 1, 0))
    expect("empty", charger.remaining(200, [Row(72, 1, 0, 0, 15)]), (0, 0, 185))
    for cable, want in ((99, (3, 0)), (501, (3, 0)), (100, (34, 1)), (500, (34, 1))):
        rows = [Row(100, 0, 300, 100, 15)]
        expect("33 before 3", verdict(charger.attach(200, rows, 2, cable)), (33, 0))
        expect("3 before 34", verdict(charger.attach(200, rows, 1, cable)), want)


# -------------------------------------------------- what is built and allowed


def some_profiles(cable):
    """M about each bound; P equal to M, about half of it and any; R and W."""
    rng = random.Random(cable)
    for m in (1, 30, 31, 36, 54, 55, 72, 89, 91, 100, 119, 120, 160, 200):
        for rounding in (0, 1):
            for p in {m, max(1, m // 2), rng.randint(1, m)}:
                yield Profile(m, p, cable, rounding, 0, 0)
            yield Profile(m, m, cable, rounding, 1, 0)


def fixed_by_its_sentence(profile, volts):
    """The quotient 50 P / V rounded as R says, at most 3 A below 20 V, at most the
    cable."""
    rounded = 50 * profile.p // volts
    if profile.rounding == 1 and rounded * volts < 50 * profile.p:
        rounded += 1
    bounds = [rounded, profile.cable] + [300] * (volts < 20)
    return sorted(bounds)[0]


def test_every_cable():
    """"No built current, fixed, AVS or programmable, passes the cable." "Every list
    that it builds has its shape and passes the rule check of its profile.\""""
    for cable in EVERY_CABLE:
        for profile in some_profiles(cable):
            built = charger.build(profile)
            expect("built, %r" % (profile,), verdict(built), (0, 0))
            expect("passes, %r" % (profile,), verdict(charger.check(profile, built.value)), (0, 0))
            objects = objects_in(built.value)
            most = max(figure for obj in objects for figure in milliamperes(obj))
            expect("within the cable, %r" % (profile,), most <= cable * 10)
            for obj in objects:
                if isinstance(obj, Fixed):
                    want = fixed_by_its_sentence(profile, obj.volts // 20)
                    expect("fixed current, %r" % (profile,), obj.current, want)


def test_whole_50_ma():
    """"The greatest figure of 50 mA that is not above the cable". A port of 100 W has
    5 A for 20 V Prog, so what is built there is this cut."""
    for cable in EVERY_CABLE:
        profile = Profile(200, 200, cable, 0, 1, 0)
        greatest = max(figure for figure in range(128) if figure * 50 <= cable * 10)
        expect("the cut of %d" % cable, charger.cable_in_whole_50_ma(profile), greatest)
        expect("20 V Prog with %d" % cable, prog_currents(profile), [greatest])
        for m, before_the_limits in ((89, (98, 59)), (119, (79, 59))):
            # 9 and 15 V Prog, then 15 and 20 V Prog, whose 59 is within 3 A anyway
            want = [min(figure, greatest, 60) for figure in before_the_limits]
            expect("M %d with %d" % (m, cable), prog_currents(Profile(m, m, cable, 1, 1, 0)), want)


def test_cables_of_3_a_or_more():
    """What the statement says under the table of what is allowed."""
    for cable, p, volts in product(range(300, 501), (1, 29, 30, 31, 54, 55, 73, 90, 91, 121, 200), (5, 9, 15)):
        down = 50 * p // volts
        up = down if down * volts == 50 * p else down + 1
        for rounding, rounded in ((0, down), (1, up)):
            profile = Profile(200, p, cable, rounding, 0, 0)
            expect("built, %r" % (profile,), charger.built_current(profile, volts), min(rounded, 300))
        if p > 6 * volts:
            allowed = range(300, min(cable, up) + 1)
        else:
            allowed = (down, up)
        for current in {0, 299, 300, 301, cable - 1, cable, cable + 1, 1023, down - 1, down, up, up + 1}:
            found = charger.is_fixed_current_allowed(profile, volts, current)
            expect("%d at %d V, %r" % (current, volts, profile), found, current in allowed)


def allowed_progs(profile, at):
    """Every figure that the rule check allows the supply at a place."""
    objects = objects_built(profile)
    found = []
    for current in range(128):
        offer = objects[:at] + [objects[at]._replace(current=current)] + objects[at + 1 :]
        number, place = verdict(charger.check(profile, list_of(offer)))
        expect("0, or 19 there", (number, place) in ((0, 0), (19, at + 1)))
        found += [current] if number == 0 else []
    return found


def test_allowed_prog_currents():
    """Every current of a programmable supply, against the three rows."""
    names = {110: (9, 54, 90), 160: (15, 90, 120), 210: (20, 0, 0)}
    for m, cable in product((31, 54, 55, 72, 89, 91, 119, 120, 200), (100, 200, 204, 299, 300, 304, 305, 400, 500)):
        profile = Profile(m, m, cable, 0, 1, 0)
        for at, obj in enumerate(objects_built(profile)):
            if not isinstance(obj, Pps):
                continue
            volts, above, below = names[obj.max]
            carried = [figure for figure in range(128) if figure * 50 <= cable * 10]
            offered = [figure for figure in carried if figure * volts <= 10 * m]
            built = [figure for figure in offered if volts == 20 or figure * 50 <= 3000][-1]
            want = [figure for figure in offered if figure >= built] if above < m < below else [built]
            expect("at %d of %r" % (at, profile), allowed_progs(profile, at), want)


def test_leads_on_ports():
    """What a port with a lead of 2 A is asked for."""
    rows = [Row(200, 1, 0, 0, 15)]
    given = charger.attach(200, rows, 1, 200)
    expect("attached", rows, [Row(200, 1, 200, 200, 15)])
    expect("its list", list(charger.held_in(given.value)), words_built(Profile(200, 200, 200, 0, 1, 0)))
    for position, volts, current, held in ((1, 5, 200, 20), (2, 9, 200, 36), (3, 15, 200, 60), (4, 20, 200, 80)):
        ask = lambda figure: charger.request(200, rows, 1, position << 28 | figure << 10 | figure)
        expect("2.01 A at %d V" % volts, verdict(ask(current + 1)), (24, 0))
        expect("2.00 A at %d V" % volts, verdict(ask(current)), (0, 0))
        expect("held", rows[0].held, held)
    for position, voltage, what in ((5, 800, "AVS"), (6, 1050, "20 V Prog")):
        ask = lambda figure: charger.request(200, rows, 1, position << 28 | voltage << 9 | figure)
        expect("2.05 A of " + what, verdict(ask(41)), (24, 0))
        expect("2.00 A of " + what, verdict(ask(40)), (0, 0))
