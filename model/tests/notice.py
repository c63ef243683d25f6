"""The notice: its table 10-4 and its examples."""

import charger
from charger import Avs, Fixed, Pps, Profile
from tests.expecting import expect
from tests.handling import avs_built, fixed_currents, list_of, objects_built, verdict

# Table 10-4: M (W), cable and currents in 10 mA, P (W) between them, and the
# roundings that give the row. 65 W needs none: 20 V takes 3.25 A exactly.
TABLE_10_4 = (
    (80, 500, 65, [300, 300, 300, 325], (300, 325), (0, 1)),
    (80, 500, 40, [300, 300, 267, 200], (267, 200), (1,)),
    (80, 300, 40, [300, 300, 267, 200], (267, 200), (1,)),
    (40, 500, 40, [300, 300, 267], (267, 0), (1,)),
    (40, 300, 40, [300, 300, 267], (267, 0), (1,)),
    (80, 500, 20, [300, 222, 133, 100], (133, 100), (0,)),
    (80, 300, 20, [300, 222, 133, 100], (133, 100), (0,)),
    (40, 500, 20, [300, 222, 133], (133, 0), (0,)),
    (40, 300, 20, [300, 222, 133], (133, 0), (0,)),
)


def test_table_10_4():
    for m, cable, p, currents, avs, roundings in TABLE_10_4:
        row = "table 10-4, %d W, cable %d, at %d W" % (m, cable, p)
        found = []
        for rounding in (0, 1):
            profile = Profile(2 * m, 2 * p, cable, rounding, 0, 0)
            if (fixed_currents(profile), avs_built(profile)) == (currents, [avs]):
                found.append(rounding)
        expect(row + ", roundings", tuple(found), roundings)
        offer = [Fixed(0, 0, v * 20, i) for v, i in zip((5, 9, 15, 20), currents)] + [Avs(0, *avs)]
        for rounding in (0, 1):
            profile = Profile(2 * m, 2 * p, cable, rounding, 0, 0)
            expect(row + ", rule check", verdict(charger.check(profile, list_of(offer))), (0, 0))


def fixed_at_3_a(*voltages):
    return [Fixed(0, 0, v * 20, 300) for v in voltages]


def test_notice_examples():
    """Its example lists, 10.2.3.2.2. Where one differs from the statement, the
    statement decides."""
    example_27 = fixed_at_3_a(5, 9) + [Pps(1, 110, 50, 60)]
    example_36 = fixed_at_3_a(5, 9) + [Fixed(0, 0, 300, 240), Avs(0, 240, 0), Pps(1, 110, 50, 60), Pps(1, 160, 50, 48)]
    example_50 = fixed_at_3_a(5, 9, 15) + [Fixed(0, 0, 400, 250), Avs(0, 300, 250)]
    example_50 += [Pps(1, 160, 50, 60), Pps(1, 210, 50, 50)]
    example_80 = fixed_at_3_a(5, 9, 15) + [Fixed(0, 0, 400, 400), Avs(0, 300, 400)]
    example_80 += [Pps(1, 160, 50, 60), Pps(1, 210, 50, 80)]
    for watts, offer in ((27, example_27), (36, example_36), (50, example_50)):
        for cable in (300, 500):
            profile = Profile(2 * watts, 2 * watts, cable, 0, 1, 0)
            expect("%d W, built" % watts, objects_built(profile), offer)
            expect("%d W, rule check" % watts, verdict(charger.check(profile, list_of(offer))), (0, 0))
    for cable, currents in ((500, range(60, 81)), (300, range(60, 61))):
        profile = Profile(72, 72, cable, 0, 1, 0)
        allowed = []
        for current in range(128):
            offer = example_36[:4] + [Pps(1, 110, 50, current)] + example_36[5:]
            number = charger.check(profile, list_of(offer)).number
            expect("36 W, 9 V Prog", number in (0, 19))
            allowed += [current] if number == 0 else []
        expect("36 W, 9 V Prog up to 4 A with a 5 A cable", allowed, list(currents))
    # the notice's own 80 W example has a 15 V Prog, its table 10-7 and the statement have none
    profile = Profile(160, 160, 500, 0, 1, 0)
    expect("80 W as printed", verdict(charger.check(profile, list_of(example_80))), (18, 0))
    without = [obj for obj in example_80 if obj != Pps(1, 160, 50, 60)]
    expect("80 W without 15 V Prog", verdict(charger.check(profile, list_of(without))), (0, 0))
    expect("80 W built", objects_built(profile), without)
