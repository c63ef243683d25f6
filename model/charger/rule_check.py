"""Rule check: whether a list is one that the power rules allow."""

from charger.measure import rounded_down, rounded_up
from charger.object_words import Avs, Battery, Fixed, Pps, Variable
from charger.refusals import public_call, refuse_if
from charger.rules import (
    PROG_MAX, PROG_MIN, THREE_AMPERES_IN_10_MA, built_prog_current, cable_in_whole_50_ma, fixed_quotient,
    fixed_voltages, has_avs, has_second_avs_current, prog_quotient_down, prog_voltages, refuse_bad_profile,
)
from charger.shapes import shaped


def is_wrong_set(profile, objects):
    """18, unless there are exactly the fixed voltages and the AVS that M calls
    for, its second current zero exactly when M is 90 or less; no battery and no
    variable object; and either no PPS object, or, where P is equal to M,
    exactly the programmable supplies of M with their minimum and maximum."""
    voltages = [obj.volts for obj in objects if isinstance(obj, Fixed)]
    avs = [obj for obj in objects if isinstance(obj, Avs)]
    ranges = [(obj.min, obj.max) for obj in objects if isinstance(obj, Pps)]
    prog_ranges = [(PROG_MIN, PROG_MAX[volts]) for volts in prog_voltages(profile.m)]
    return (
        voltages != [volts * 20 for volts in fixed_voltages(profile.m)]
        or bool(avs) != has_avs(profile.m)
        or any((obj.high != 0) != has_second_avs_current(profile.m) for obj in avs)
        or any(isinstance(obj, (Battery, Variable)) for obj in objects)
        or ranges not in ([], prog_ranges)
        or (ranges != [] and profile.p < profile.m)
    )


def is_fixed_current_allowed(profile, volts, current):
    """The three rows for fixed objects of what is allowed. A figure that is cut
    to the cable is the smaller of the two. At 5, 9 and 15 V, where P is above
    six times the volts: from the smaller of 3 A and the cable up to the smaller
    of the cable and the quotient rounded up. Otherwise, and at 20 V: the
    quotient rounded down, or rounded up, each cut to the cable."""
    down = fixed_quotient(profile, volts, rounded_down)
    up = fixed_quotient(profile, volts, rounded_up)
    cable = profile.cable
    if volts in (5, 9, 15) and profile.p > 6 * volts:
        return min(THREE_AMPERES_IN_10_MA, cable) <= current <= min(cable, up)
    return current in (min(down, cable), min(up, cable))


def is_prog_current_allowed(profile, volts, current):
    """The figure that is built, and the two rows in addition: from the built
    figure up to the smaller of the cable in whole 50 mA and the figure before
    its limit."""
    least = most = built_prog_current(profile, volts)
    if (volts == 9 and 54 < profile.m < 90) or (volts == 15 and 90 < profile.m < 120):
        most = min(cable_in_whole_50_ma(profile), prog_quotient_down(profile.m, volts))
    return least <= current <= most


def is_current_allowed(profile, obj):
    """19, of an object of a right set. AVS currents are not looked at: 17
    already ties them to the fixed ones."""
    if isinstance(obj, Fixed):
        return is_fixed_current_allowed(profile, obj.volts // 20, obj.current)
    if isinstance(obj, Pps):
        (volts,) = [volts for volts in PROG_MAX if PROG_MAX[volts] == obj.max]
        return is_prog_current_allowed(profile, volts, obj.current)
    return True


@public_call(None)
def check(profile, words):
    """1, 2, 3, 4, 5; then as shape; then 18; then 19 at the first such word."""
    refuse_bad_profile(profile)
    objects = shaped(words)
    refuse_if(is_wrong_set(profile, objects), 18)
    for place, obj in enumerate(objects, 1):
        refuse_if(not is_current_allowed(profile, obj), 19, place)
