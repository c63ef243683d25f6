"""Summaries: what a list allows in millivolts and milliamperes, requests decoded for it,
and the answer from these two.

Nothing here comes from requests.py. The fields of a request word are taken by their bit
places once more, and all that is compared is in millivolts and milliamperes. A request
for a battery object is not answered here: it is for the list.
"""

from collections import namedtuple

from charger.lists import PLACES_IN_A_LIST, refuse_bad_count
from charger.object_words import Avs, Battery, Fixed, Pps, Variable, bits, kind_of
from charger.refusals import public_call, refuse_if
from charger.shapes import shaped

# "The four limits of a row are, in this order, the lowest and the highest voltage in
# millivolts, and the greatest current in milliamperes below 15.0 V and above 15.0 V."
Limits = namedtuple("Limits", "lowest highest below above")
# "It is the count of the list and seven rows by four limits, a row for each place."
Summary = namedtuple("Summary", "count rows")

NO_LIMITS = Limits(0, 0, 0, 0)

# "It has the position, bit 26, and the two figures of a fixed or a variable request, or
# the voltage and the current of a PPS or an AVS request, each in its step." The kind is
# that of the object; bit 26 is a number, and "any other than 0 counts as set".
AskedFigures = namedtuple("AskedFigures", "kind position bit_26 operating maximum")   # 10 mA
AskedVoltage = namedtuple("AskedVoltage", "kind position bit_26 voltage current")     # 20 or 25 mV, 50 mA
# "For a battery object the kind, the position and bit 26 are given back."
ForTheList = namedtuple("ForTheList", "kind position bit_26")

KINDS_WITH_FIGURES = (Fixed, Variable)
MILLIVOLTS_OF_A_STEP = {Pps: 20, Avs: 25}

# ------------------------------------------------------------------ making


def limits_of(obj):
    """The rows of the table of objects."""
    if isinstance(obj, Fixed):
        return Limits(obj.volts * 50, obj.volts * 50, obj.current * 10, obj.current * 10)
    if isinstance(obj, Battery):
        return Limits(obj.min * 50, obj.max * 50, 0, 0)
    if isinstance(obj, Variable):
        return Limits(obj.min * 50, obj.max * 50, obj.current * 10, obj.current * 10)
    if isinstance(obj, Pps):
        return Limits(obj.min * 100, obj.max * 100, obj.current * 50, obj.current * 50)
    return Limits(9_000, 15_000 if obj.high == 0 else 20_000, obj.low * 10, obj.high * 10)


def summary_of(objects):
    """Rows past the count are zero."""
    rows = tuple(limits_of(obj) for obj in objects)
    return Summary(len(rows), rows + (NO_LIMITS,) * (PLACES_IN_A_LIST - len(rows)))


NO_SUMMARY = summary_of([])


@public_call(NO_SUMMARY)
def make_summary(words):
    """Making a summary refuses exactly what the shape check refuses, with the same
    number and place; the summary is then all zero, its count too."""
    return summary_of(shaped(words))


# ---------------------------------------------------------------- decoding


@public_call(None)
def decode_request(words, request):
    """10: a count outside 1 to 7; 20: a position outside 1 to the count; 12: a named
    word of a kind that is not allowed. Nothing else of the list is looked at."""
    refuse_bad_count(words)
    position, bit_26 = bits(request, 31, 28), bits(request, 26, 26)
    refuse_if(not 1 <= position <= words.count, 20)
    kind = kind_of(words.places[position - 1])
    refuse_if(kind is None, 12, position)
    if kind is Battery:
        return ForTheList(kind, position, bit_26)
    if kind in KINDS_WITH_FIGURES:
        return AskedFigures(kind, position, bit_26, bits(request, 19, 10), bits(request, 9, 0))
    return AskedVoltage(kind, position, bit_26, bits(request, 20, 9), bits(request, 6, 0))


# --------------------------------------------------------------- answering


def limit_at(row, millivolts):
    """A current of the row, by the voltage that is asked for; exactly at 15.0 V the
    larger of the two."""
    if millivolts == 15_000:
        return max(row.below, row.above)
    return row.below if millivolts < 15_000 else row.above


def judge_asked_voltage(row, asked):
    """The voltage of an AVS request is a whole number of 100 mV; that of both lies from
    the lowest to the highest of its row, ends included. The current is the operating
    figure."""
    millivolts = asked.voltage * MILLIVOLTS_OF_A_STEP[asked.kind]
    refuse_if(asked.kind is Avs and millivolts % 100 != 0, 23)
    refuse_if(millivolts < row.lowest or millivolts > row.highest, 22)
    refuse_if(asked.current * 50 > limit_at(row, millivolts), 24)


def judge_asked_figures(row, asked):
    """A fixed and a variable request ask for no voltage: their limit is that below
    15.0 V."""
    refuse_if(asked.operating * 10 > row.below, 24)
    refuse_if(asked.maximum * 10 > row.below and asked.bit_26 == 0, 25)


@public_call(None)
def answer_from_summary(summary, asked):
    """10, 20, 23, 22, 24, 25; in C 12 before them, for a kind number that is not that of
    a fixed, a variable, a PPS or an AVS object. The row of the position is taken as it
    stands, whatever object it was made from."""
    refuse_if(asked.kind not in (*KINDS_WITH_FIGURES, *MILLIVOLTS_OF_A_STEP), 12)
    refuse_if(summary.count > PLACES_IN_A_LIST, 10)
    refuse_if(not 1 <= asked.position <= summary.count, 20)
    row = summary.rows[asked.position - 1]
    if asked.kind in KINDS_WITH_FIGURES:
        judge_asked_figures(row, asked)
    else:
        judge_asked_voltage(row, asked)
