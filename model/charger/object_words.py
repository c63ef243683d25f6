"""Object words: the five kinds, their fields and their bits."""

from collections import namedtuple

# "An object that is taken apart has one of the five kinds and the fields of this
# kind only."
Fixed = namedtuple("Fixed", "flags peak volts current")      # 50 mV, 10 mA
Battery = namedtuple("Battery", "max min power")             # 50 mV, 250 mW
Variable = namedtuple("Variable", "max min current")         # 50 mV, 10 mA
Pps = namedtuple("Pps", "limited max min current")           # 100 mV, 50 mA
Avs = namedtuple("Avs", "peak low high")                     # 10 mA: 9..15 V, 15..20 V

# What is none of the five: C gives the kind as a number, and any number. No
# field of it is read, and it has no word.
NoKind = namedtuple("NoKind", "")

# "The fields of each kind", by their bits (high bit, low bit).
PLACES = {
    Fixed: ((29, 23), (21, 20), (19, 10), (9, 0)),
    Battery: ((29, 20), (19, 10), (9, 0)),
    Variable: ((29, 20), (19, 10), (9, 0)),
    Pps: ((27, 27), (24, 17), (15, 8), (6, 0)),
    Avs: ((27, 26), (19, 10), (9, 0)),
}

KIND_BITS = {
    Fixed: 0b0000 << 28,
    Battery: 0b0100 << 28,
    Variable: 0b1000 << 28,
    Pps: 0b1100 << 28,
    Avs: 0b1110 << 28,
}

RESERVED = {
    Fixed: ((22, 22),),
    Battery: (),
    Variable: (),
    Pps: ((26, 25), (16, 16), (7, 7)),
    Avs: ((25, 20),),
}
# "fixed, any later word"
RESERVED_IN_LATER_FIXED = ((29, 22),)

# What the lists of a source and those of a sink do not share: the form that an
# object of each kind has, the bits of its fields and its reserved bits. A kind
# without a form is not allowed on that side. The bits of a kind are the same on
# both. A function below speaks of a source where no side is named.
Side = namedtuple("Side", "forms places reserved reserved_in_later_fixed")
SOURCE = Side({kind: kind for kind in PLACES}, PLACES, RESERVED, RESERVED_IN_LATER_FIXED)


def bits(word, high, low):
    return (word >> low) & ((1 << (high - low + 1)) - 1)


def kind_in_bits(word):
    """The kind of a word is in bits 31..30; where these are 11b, bits 29..28
    tell which."""
    top = bits(word, 31, 30)
    if top == 0b00:
        return Fixed
    if top == 0b01:
        return Battery
    if top == 0b10:
        return Variable
    return {0b00: Pps, 0b10: Avs}.get(bits(word, 29, 28))


def kind_of(word, side=SOURCE):
    """Those that are not allowed have no kind here. Nor has what has no word."""
    kind = None if word is None else kind_in_bits(word)
    return kind if kind in side.forms else None


def kind_of_object(obj, side):
    """None for one of no kind."""
    for kind, form in side.forms.items():
        if form is type(obj):
            return kind
    return None


def decode(word, side=SOURCE):
    """The object of a word of an allowed kind, each field by its bit places."""
    kind = kind_of(word, side)
    return side.forms[kind](*[bits(word, high, low) for high, low in side.places[kind]])


def encode(obj, side=SOURCE):
    """The word of an object whose fields all fit their bits; None for one of
    no kind."""
    kind = kind_of_object(obj, side)
    if kind is None:
        return None
    word = KIND_BITS[kind]
    for figure, (_, low) in zip(obj, side.places[kind]):
        word |= figure << low
    return word


def has_field_too_wide(obj, side=SOURCE):
    """7: a field does not fit its bits."""
    places = side.places.get(kind_of_object(obj, side), ())
    return any(figure >> (high - low + 1) for figure, (high, low) in zip(obj, places))


def has_reserved_bit(kind, word, place, side=SOURCE):
    """13: a reserved bit of an object is set."""
    reserved = side.reserved[kind]
    if kind is Fixed and place > 1:
        reserved = side.reserved_in_later_fixed
    return any(bits(word, high, low) for high, low in reserved)
