"""Sink lists: sink objects, their shape, read and write, and the design rating.

"What this section does not say otherwise is as on the source side": what is
different stands in SINK, and the source side's own functions do the rest.
"""

from collections import namedtuple

from charger.lists import NO_WORDS, Objects, held_in, in_hand
from charger.measure import rounded_down
from charger.object_words import PLACES, Battery, Fixed, Pps, Side, Variable, decode
from charger.refusals import public_call, refuse_if
from charger.shapes import shaped, written

# "A sink has no peak current and no power limited." Battery and variable objects
# have the fields and the bits of the source side.
SinkFixed = namedtuple("SinkFixed", "flags volts current")   # 50 mV, 10 mA
SinkPps = namedtuple("SinkPps", "max min current")           # 100 mV, 50 mA

SINK = Side(
    # "A sink object has one of four kinds": AVS is not among them.
    forms={Fixed: SinkFixed, Battery: Battery, Variable: Variable, Pps: SinkPps},
    places={
        Fixed: ((29, 23), (19, 10), (9, 0)),
        Battery: PLACES[Battery],
        Variable: PLACES[Variable],
        Pps: ((24, 17), (15, 8), (6, 0)),
    },
    reserved={
        Fixed: ((22, 20),),
        Battery: (),
        Variable: (),
        Pps: ((27, 25), (16, 16), (7, 7)),
    },
    reserved_in_later_fixed=((29, 20),),
)

# "A place past the count is, in what is given back, a fixed object with all its
# fields zero."
NO_SINK_OBJECT = SinkFixed(0, 0, 0)

# The PPS ranges that have a row of their own, minimum and maximum in 100 mV, and
# the volts to divide by.
VOLTS_OF_PPS_RANGE = {(50, 110): 9, (50, 160): 15, (50, 210): 20}


def list_of_sink_objects(given):
    return in_hand(Objects, given, NO_SINK_OBJECT)


NO_SINK_OBJECTS = list_of_sink_objects([])


def sink_shaped(words):
    """The sink objects of a list whose shape passes. Order: 10; 11; then for
    each word in turn 12, 13, 15, 16, 14. There is no 17, since there is no AVS."""
    shaped(words, SINK)
    return [decode(word, SINK) for word in held_in(words)]


def operating_figure_of(obj):
    """The current or the power of a sink object is its operating figure."""
    return obj.power if isinstance(obj, Battery) else obj.current


def ceiling(rating, obj):
    """The rating divided by a voltage, rounded down to the object's step: the
    rows of the table. None where a voltage of zero sets no ceiling. A battery's
    is the rating itself, with no voltage to divide by."""
    if isinstance(obj, Battery):
        return 2 * rating
    if isinstance(obj, SinkPps) and (obj.min, obj.max) in VOLTS_OF_PPS_RANGE:
        return rounded_down(10 * rating, VOLTS_OF_PPS_RANGE[obj.min, obj.max])
    volts = obj.volts if isinstance(obj, SinkFixed) else obj.max
    if volts == 0:
        return None
    return rounded_down((100 if isinstance(obj, SinkPps) else 1000) * rating, volts)


def is_above_ceiling(rating, obj):
    most = ceiling(rating, obj)
    return most is not None and operating_figure_of(obj) > most


@public_call(None)
def sink_shape(words):
    """The shape of a sink list."""
    sink_shaped(words)


@public_call(NO_SINK_OBJECTS)
def sink_read(words):
    """Reading refuses what the shape refuses."""
    return list_of_sink_objects(sink_shaped(words))


@public_call(NO_WORDS)
def sink_write(objects):
    """Writing refuses 10, then 7 at the first such object, then what the shape of
    the words refuses."""
    return written(objects, SINK)


@public_call(None)
def sink_check(rating, words):
    """1: a rating outside 1 to 200; then as sink shape; then 43: a list with a
    figure above its ceiling."""
    refuse_if(not 1 <= rating <= 200, 1)
    objects = sink_shaped(words)
    refuse_if(any(is_above_ceiling(rating, obj) for obj in objects), 43)
