"""Properties of profiles and lists, over seeded random inputs."""

import random
from collections import Counter

import charger
from charger import Avs, Battery, Fixed, NoKind, Pps, Profile, Variable, Words
from tests.expecting import expect
from tests.handling import list_of, verdict


def test_built_lists_pass():
    rng = random.Random(1)
    profiles = []
    for m in range(1, 201):
        for cable in (300, 500):
            profiles += [Profile(m, m, cable, rounding, pps, 63) for rounding in (0, 1) for pps in (0, 1)]
    for _ in range(3000):
        m = rng.randint(1, 200)
        profiles.append(Profile(m, rng.randint(1, m), rng.randint(100, 500), rng.randint(0, 1), 0, rng.randrange(64)))
    for profile in profiles:
        built = charger.build(profile)
        expect("built, %r" % (profile,), verdict(built) + verdict(charger.check(profile, built.value)), (0, 0, 0, 0))


def test_refused_profiles():
    """Number n is given exactly when it applies and none before it does."""
    rng = random.Random(2)
    for _ in range(3000):
        m = rng.choice((0, 1, 200, 201, 65535, rng.randint(0, 250)))
        p = rng.choice((0, 1, m, m + 1, rng.randint(0, 250)))
        cable = rng.choice((0, 3, 5, 30, 99, 100, 300, 500, 501, 65535, *[rng.randint(100, 500) for _ in range(6)]))
        flags = rng.choice((0, 63, 63, 64))
        rounding, pps = rng.choice((0, 1, 1, 2)), rng.choice((0, 1, 1, 2))
        applies = (
            (1, m < 1 or m > 200), (2, p < 1 or p > m), (3, cable < 100 or cable > 500),
            (4, rounding > 1 or pps > 1), (5, flags > 63), (6, pps == 1 and p < m),
        )
        want = ([number for number, wrong in applies if wrong] + [0])[0]
        answer = charger.build(Profile(m, p, cable, rounding, pps, flags))
        expect("profile", verdict(answer), (want, 0))
        if want:
            expect("nothing built", answer.value, charger.NO_WORDS)


def some_words(rng):
    """Words of every kind, about half of them a list whose shape passes."""
    words = [rng.randrange(128) << 23 | rng.randrange(4) << 20 | 100 << 10 | rng.randrange(1024)]
    at_15, at_20 = rng.randrange(300), rng.randrange(300)
    parts = rng.sample(range(6), rng.randint(0, 4))
    for part in parts if rng.random() < 0.3 else sorted(parts):
        if part == 0:
            words += [180 << 10 | rng.randrange(500), 300 << 10 | at_15]
        if part == 1:
            words += [400 << 10 | at_20]
        if part == 2:
            words += [1 << 30 | rng.randint(200, 425) << 20 | rng.randrange(210) << 10 | rng.randrange(410)]
        if part == 3:
            words += [2 << 30 | rng.randint(200, 425) << 20 | rng.randrange(210) << 10 | rng.randrange(500)]
        if part == 4 and rng.random() < 0.6:
            words += [14 << 28 | at_15 << 10 | rng.choice((0, at_20))]
        if part == 5:
            limited, current = rng.randint(0, 1), rng.randrange(128)
            words += [12 << 28 | limited << 27 | rng.randint(100, 215) << 17 | rng.randrange(110) << 8 | current]
    return words[:7]


def test_round_trips():
    rng = random.Random(3)
    read_well = 0
    for _ in range(3000):
        words = charger.list_of_words(some_words(rng))
        objects = charger.read(words)
        expect("read refuses as the shape check does", verdict(objects), verdict(charger.shape(words)))
        junk = tuple(rng.getrandbits(32) for _ in range(7 - words.count))
        dirty = Words(words.count, charger.held_in(words) + junk)
        expect("places past the count", charger.read(dirty), objects)
        if objects.number:
            expect("empty on a refusal", objects.value, charger.NO_OBJECTS)
        else:
            read_well += 1
            expect("writes back", charger.write(objects.value), (0, 0, words))
    expect("enough lists pass (%d)" % read_well, read_well > 500)
    for _ in range(3000):
        kind = rng.choice((Fixed, Battery, Variable, Pps, Avs))
        obj = kind(*[rng.randrange(1 << (high - low + 1)) for high, low in charger.PLACES[kind]])
        expect("decode after encode", charger.decode(charger.encode(obj)), obj)
    for kind in charger.PLACES:
        places = charger.PLACES[kind] + charger.RESERVED[kind]
        covered = sorted(bit for high, low in places for bit in range(low, high + 1))
        kind_begins = 28 if kind in (Pps, Avs) else 30
        expect("every bit of %s is one field's or reserved" % kind.__name__, covered, list(range(kind_begins)))


def widened(rng, obj):
    """One field a step too wide for its bits."""
    at = rng.randrange(len(obj))
    high, low = charger.PLACES[type(obj)][at]
    return obj._replace(**{obj._fields[at]: 1 << (high - low + 1)})


def test_objects_of_no_kind_among_others():
    """An object of no kind ends what is judged word by word: where no field is
    too wide, the list refuses as the objects before it do, and else with 12."""
    rng = random.Random(5)
    seen = Counter()
    for _ in range(10000):
        objects = [charger.decode(word) for word in some_words(rng)]
        while len(objects) < 7 and rng.random() < 0.8:
            objects.append(Pps(0, 210, 50, 60))
        if rng.random() < 0.5:
            at = rng.randrange(len(objects))
            flagged, over_100_w = Fixed(1, 0, 180, 300), Fixed(0, 0, 400, 501)
            objects[at] = rng.choice((widened(rng, objects[at]), flagged, over_100_w))
        unknown = sorted(rng.sample(range(len(objects)), rng.randint(1, min(2, len(objects)))))
        for at in unknown:
            objects[at] = NoKind()
        wide = [place for place, obj in enumerate(objects, 1) if charger.has_field_too_wide(obj)]
        first = unknown[0]
        if wide:
            want = (7, wide[0])
            seen["7 before it" if wide[0] <= first else "7 behind it"] += 1
        elif first == 0:
            want = (11, 1)
        else:
            before = verdict(charger.shape(list_of(objects[:first])))
            want = (12, first + 1) if before[0] in (0, 17) else before
        answer = charger.write(charger.list_of_objects(objects))
        expect("no kind among %r" % (objects,), answer, want + (charger.NO_WORDS,))
        seen[want[0]] += 1
        seen[want] += 1
    for case in ["7 before it", "7 behind it", 11, 13, 14, 15, 16] + [(12, place) for place in range(2, 8)]:
        expect("%s, often enough (%d)" % (case, seen[case]), seen[case] >= 20)
