"""Shape of a list, and the calls that judge it: shape, read and write."""

from charger.lists import NO_OBJECTS, NO_WORDS, held_in, list_of_objects, list_of_words, refuse_bad_count
from charger.measure import MICROWATTS_IN_100_W, MICROWATTS_IN_250_MW
from charger.object_words import (
    SOURCE, Avs, Battery, Fixed, Pps, Variable, decode, encode, has_field_too_wide, has_reserved_bit, kind_of,
)
from charger.refusals import public_call, refuse_if

# "first the fixed, then battery, then variable, then AVS, then PPS"
ORDER_OF_KINDS = (Fixed, Battery, Variable, Avs, Pps)


def is_fixed_at(obj, volts):
    return isinstance(obj, Fixed) and obj.volts * 50 == volts * 1000


def is_past_voltage_bound(obj):
    """15: that of a fixed object is at most 20 V; the maximum of a battery, a
    variable and a PPS object is at most 21 V, and its minimum is not above its
    maximum."""
    if isinstance(obj, Fixed):
        return obj.volts * 50 > 20_000
    if isinstance(obj, (Battery, Variable)):
        return obj.max * 50 > 21_000 or obj.min > obj.max
    if isinstance(obj, Pps):
        return obj.max * 100 > 21_000 or obj.min > obj.max
    return False


def is_over_100_watts(obj):
    """16: no fixed, battery or variable object offers more than 100 W."""
    if isinstance(obj, Fixed):
        microwatts = (obj.volts * 50) * (obj.current * 10)
    elif isinstance(obj, Variable):
        microwatts = (obj.max * 50) * (obj.current * 10)
    elif isinstance(obj, Battery):
        microwatts = obj.power * MICROWATTS_IN_250_MW
    else:
        return False
    return microwatts > MICROWATTS_IN_100_W


def is_out_of_order(before, obj):
    """14: each word is compared with the one right before it. The voltage of
    each fixed object is above that of the one before it; the minimum voltage of
    battery objects does not fall, nor that of variable objects, nor the maximum
    voltage of PPS objects; and there is no second AVS."""
    if type(before) is not type(obj):
        return ORDER_OF_KINDS.index(type(before)) > ORDER_OF_KINDS.index(type(obj))
    if isinstance(obj, Fixed):
        return not before.volts < obj.volts
    if isinstance(obj, (Battery, Variable)):
        return not before.min <= obj.min
    if isinstance(obj, Pps):
        return not before.max <= obj.max
    return True


def differs_from_its_fixed_objects(avs, objects):
    """17, unless there is a fixed object of 15 V with a current equal to the
    first AVS current, and, unless the second AVS current is zero, a fixed
    object of 20 V with a current equal to the second."""

    def offered(volts, current):
        return any(is_fixed_at(obj, volts) and obj.current == current for obj in objects)

    return not offered(15, avs.low) or (avs.high != 0 and not offered(20, avs.high))


def shaped(words, side=SOURCE):
    """The objects of a list whose shape passes. Order: 10; 11; then for each
    word in turn 12, 13, 15, 16, 14; then 17. On either side 15, 16 and 14 are
    judged on the object that a source has for the word. A sink's object has the
    same voltages and the same current or power."""
    refuse_bad_count(words)
    objects = []
    for place, word in enumerate(held_in(words), 1):
        kind = kind_of(word, side)
        if place == 1:
            refuse_if(kind is not Fixed or not is_fixed_at(decode(word), 5), 11, 1)
        refuse_if(kind is None, 12, place)
        refuse_if(has_reserved_bit(kind, word, place, side), 13, place)
        obj = decode(word)
        refuse_if(is_past_voltage_bound(obj), 15, place)
        refuse_if(is_over_100_watts(obj), 16, place)
        refuse_if(place > 1 and is_out_of_order(objects[-1], obj), 14, place)
        objects.append(obj)
    for place, obj in enumerate(objects, 1):
        refuse_if(isinstance(obj, Avs) and differs_from_its_fixed_objects(obj, objects), 17, place)
    return objects


def written(objects, side=SOURCE):
    """It looks at the count first (10), then for the first object with a field
    that is wider than its bits (7), and then at the shape of the words that the
    objects make."""
    refuse_bad_count(objects)
    for place, obj in enumerate(held_in(objects), 1):
        refuse_if(has_field_too_wide(obj, side), 7, place)
    words = list_of_words([encode(obj, side) for obj in held_in(objects)])
    shaped(words, side)
    return words


@public_call(None)
def shape(words):
    """The shape check."""
    shaped(words)


@public_call(NO_OBJECTS)
def read(words):
    """It refuses exactly what the shape check refuses."""
    return list_of_objects(shaped(words))


@public_call(NO_WORDS)
def write(objects):
    """Writing turns a list of objects into the list of its words."""
    return written(objects)
