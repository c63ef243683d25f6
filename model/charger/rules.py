"""Power rules: the profile, and the list built for it."""

from collections import namedtuple

from charger.lists import NO_WORDS, list_of_words
from charger.measure import rounded_down, rounded_up
from charger.object_words import Avs, Fixed, Pps, encode
from charger.refusals import public_call, refuse_if

# The fields of "The profile": M, P, C, R, W, F.
Profile = namedtuple("Profile", "m p cable rounding pps flags")

DOWN, UP = 0, 1

# "The fixed objects come from four rows": the volts, "there when M is above".
RAILS = ((5, 0), (9, 30), (15, 54), (20, 90))

# The maximum of each programmable supply in 100 mV, by the volts of its name.
PROG_MAX = {9: 110, 15: 160, 20: 210}
PROG_MIN = 50

# What is said of 3 A is said in the step of the object: 10 mA for fixed, 50 mA
# for programmable supplies. The cable is in 10 mA.
THREE_AMPERES_IN_10_MA = 300
THREE_AMPERES_IN_50_MA = 60


def is_cable(cable):
    """The range of C: 100 to 500, "what the cable carries, in 10 mA"."""
    return 100 <= cable <= 500


def cable_in_whole_50_ma(profile):
    """The greatest figure of 50 mA that is not above the cable: C / 5 rounded
    down. "It is a cut and no conversion from one step to the other: nothing is
    refused"."""
    return rounded_down(profile.cable, 5)


def fixed_voltages(m):
    """The rows that are there for M."""
    return [volts for volts, must_exceed in RAILS if m > must_exceed]


def has_avs(m):
    """There is one AVS object when M is above 54, and none otherwise."""
    return m > 54


def has_second_avs_current(m):
    """Its second current is zero when M is 90 or less, and not zero above that."""
    return m > 90


def prog_voltages(m):
    """The programmable supplies that are there for M, in their order."""
    when = ((9, 30 < m < 90), (15, 54 < m < 120), (20, m > 90))
    return [volts for volts, offered in when if offered]


def fixed_quotient(profile, volts, rounded):
    """The quotient of a fixed object of V volts is 50 P / V, in 10 mA; rounded."""
    return rounded(50 * profile.p, volts)


def prog_quotient_down(m, volts):
    """The current before its limit, rounded down, in 50 mA. For each of the
    three it is 10 M / V."""
    return rounded_down(10 * m, volts)


def built_current(profile, volts):
    """The quotient rounded as R says, but at most 3 A at 5, 9 and 15 V, and at
    every voltage at most the cable."""
    current = fixed_quotient(profile, volts, rounded_up if profile.rounding == UP else rounded_down)
    if volts in (5, 9, 15):
        current = min(current, THREE_AMPERES_IN_10_MA)
    return min(current, profile.cable)


def built_prog_current(profile, volts):
    """The figure of the table, rounded down whatever R says, at most its limit,
    and at most the cable in whole 50 mA. The limit is 3 A, and none for 20 V
    Prog."""
    current = prog_quotient_down(profile.m, volts)
    if volts in (9, 15):
        current = min(current, THREE_AMPERES_IN_50_MA)
    return min(current, cable_in_whole_50_ma(profile))


def built_objects(profile):
    """The fixed objects in rising order, then AVS if there is one, then, when W
    is 1, the programmable supplies. The flags field of the first object is
    twice F."""
    current = {volts: built_current(profile, volts) for volts in fixed_voltages(profile.m)}
    flags = {volts: profile.flags << 1 if volts == 5 else 0 for volts in current}
    objects = [Fixed(flags[volts], 0, volts * 20, current[volts]) for volts in current]
    if has_avs(profile.m):
        objects.append(Avs(0, current[15], current[20] if has_second_avs_current(profile.m) else 0))
    if profile.pps == 1:
        for volts in prog_voltages(profile.m):
            objects.append(Pps(1, PROG_MAX[volts], PROG_MIN, built_prog_current(profile, volts)))
    return objects


def refuse_bad_profile(profile):
    """1 to 5, for the builder and the rule check alike."""
    refuse_if(not 1 <= profile.m <= 200, 1)
    refuse_if(not 1 <= profile.p <= profile.m, 2)
    refuse_if(not is_cable(profile.cable), 3)
    refuse_if(profile.rounding > 1 or profile.pps > 1, 4)
    refuse_if(profile.flags > 63, 5)


@public_call(Profile(0, 0, 0, 0, 0, 0))
def default_profile(m):
    """The default profile of M alone has P equal to M, a 3 A cable, rounding
    down, no PPS and no flags; it is refused with 1 when M is out of range."""
    refuse_if(not 1 <= m <= 200, 1)
    return Profile(m, m, THREE_AMPERES_IN_10_MA, DOWN, 0, 0)


@public_call(NO_WORDS)
def build(profile):
    """1 to 5, then 6: PPS wanted while P is below M."""
    refuse_bad_profile(profile)
    refuse_if(profile.pps == 1 and profile.p < profile.m, 6)
    return list_of_words([encode(obj) for obj in built_objects(profile)])
