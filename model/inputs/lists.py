"""Lists whose shape passes, and damaged ones."""

import charger
from charger import Avs, Battery, Fixed, Pps, Profile, Variable
from inputs.saying import EDGES_OF_M, said_list, some_cable, words_of
from inputs.seed import rng

# -------------------------------------------------------------- good lists


def some_profile(wanted=None):
    """A profile the builder accepts."""
    m = rng.choice(EDGES_OF_M) if rng.random() < 0.6 else rng.randint(1, 200)
    pps = rng.randint(0, 1) if wanted is None else wanted
    p = m if pps or rng.random() < 0.4 else rng.randint(1, m)
    return Profile(m, p, some_cable(), rng.randint(0, 1), pps, rng.choice((0, 0, 1, 63, rng.randrange(64))))


def built(profile):
    answer = charger.build(profile)
    assert answer.number == 0, profile
    return list(charger.held_in(answer.value))


def some_fixed(volts, flags=0):
    most = min(1023, 200_000 // volts)
    return Fixed(flags, rng.randrange(4), volts, rng.choice((0, most, 300, rng.randint(0, most))))


def some_ranges(how_many, largest):
    """(max, min) pairs with min rising and min <= max."""
    lows = sorted(rng.randint(0, largest) for _ in range(how_many))
    return [(rng.choice((low, largest, rng.randint(low, largest))), low) for low in lows]


def good_objects():
    """Objects of every kind whose list has a passing shape."""
    while True:
        likely = (101, 120, 180, 240, 300, 300, 300, 380, 400, 400, rng.randint(101, 400))
        voltages = set(rng.sample(likely, rng.randint(0, 4)))
        objects = [some_fixed(100, rng.choice((0, 1, 64, 126, 127, rng.randrange(128))))]
        objects += [some_fixed(volts) for volts in sorted(voltages)]
        current = {obj.volts: obj.current for obj in objects}
        for high, low in some_ranges(rng.choice((0, 0, 1, 2)), 420):
            objects.append(Battery(high, low, rng.choice((0, 399, 400, rng.randint(0, 400)))))
        for high, low in some_ranges(rng.choice((0, 0, 1, 2)), 420):
            most = min(1023, 200_000 // max(high, 1))
            objects.append(Variable(high, low, rng.choice((0, most, rng.randint(0, most)))))
        if 300 in current and rng.random() < 0.7:
            second = current.get(400, 0) if rng.random() < 0.8 else 0
            objects.append(Avs(rng.randrange(4), current[300], second))
        ends = [rng.choice((110, 160, 210, rng.randint(1, 210))) for _ in range(rng.choice((0, 0, 1, 2, 3)))]
        for high in sorted(ends):
            low, current = rng.choice((0, high, min(50, high))), rng.choice((0, 60, 100, 127))
            objects.append(Pps(rng.randint(0, 1), high, low, current))
        if len(objects) <= 7:
            assert charger.shape(charger.list_of_words(words_of(objects))).number == 0, objects
            return objects


def good_words():
    return built(some_profile()) if rng.random() < 0.5 else words_of(good_objects())


# ----------------------------------------------------------- damaged lists


def one_bit_flipped(words):
    at = rng.randrange(len(words))
    words[at] ^= 1 << rng.randrange(32)


def two_words_swapped(words):
    if len(words) > 1:
        at = rng.randrange(len(words) - 1)
        words[at], words[at + 1] = words[at + 1], words[at]


def word_of_refused_kind(words):
    at = rng.randrange(len(words))
    words[at] = rng.choice((0xD0000000, 0xF0000000)) | (words[at] & 0x0FFFFFFF)


def reserved_bit_set(words, side=charger.SOURCE):
    at = rng.randrange(len(words))
    kind = charger.kind_of(words[at], side)
    reserved = side.reserved.get(kind, ())
    if kind is Fixed and at > 0:
        reserved = side.reserved_in_later_fixed
    if reserved:
        high, low = rng.choice(reserved)
        words[at] |= 1 << rng.randint(low, high)


def field_changed(words):
    at = rng.randrange(len(words))
    kind = charger.kind_of(words[at])
    if kind:
        high, low = rng.choice(charger.PLACES[kind])
        mask = (1 << (high - low + 1)) - 1
        words[at] = words[at] & ~(mask << low) | (rng.choice((0, mask, rng.randint(0, mask))) << low)


def word_doubled(words):
    if len(words) < 7:
        at = rng.randrange(len(words))
        words.insert(at, words[at])


def word_dropped(words):
    if len(words) > 1:
        del words[rng.randrange(len(words))]


def word_at_random(words):
    words[rng.randrange(len(words))] = rng.getrandbits(32)


DAMAGES = (
    one_bit_flipped, one_bit_flipped, one_bit_flipped, two_words_swapped, word_of_refused_kind,
    reserved_bit_set, field_changed, word_doubled, word_dropped, word_at_random,
)


def said_damaged(words, damages=DAMAGES):
    """One or two damages, or a count that is off."""
    words = list(words)
    for _ in range(rng.choice((1, 1, 2))):
        rng.choice(damages)(words)
    count = len(words)
    if rng.random() < 0.1:
        count = rng.choice((0, 8, 9, 255, max(0, count - 1), count + 1))
    return said_list(words, count)
