"""default, build and check: the power rules."""

import charger
from charger import Avs, Battery, Fixed, Pps, Profile, Variable
from inputs.book import book
from inputs.lists import built, said_damaged, some_profile
from inputs.saying import (
    BAD_CABLES, EDGES_OF_CABLE, EDGES_OF_M, MARKED_PROFILES, near, said_list, said_profile, some_cable, words_of,
)
from inputs.seed import rng


def default_lines():
    for m in near(1, 30, 54, 90, 120, 200) + [0, 255, 256, 257, 456, 32768, 65535]:
        book.say("default %d" % m)
    for _ in range(25):
        book.say("default %d" % rng.choice((rng.randint(0, 220), rng.randint(201, 65535))))


def profile_edges():
    """Profiles at and past every bound of 1 to 6, one fault or several."""
    for m in (0, 201, 202, 255, 256, 257, 456, 65535):
        yield Profile(m, m, 300, 0, 0, 0)
        yield Profile(m, 1, rng.choice(BAD_CABLES), 2, 2, 64)
    for m in (1, 30, 54, 90, 200):
        for p in (0, 1, m - 1, m, m + 1, m + 256, 65535):
            yield Profile(m, p, 500, 0, 0, 0)
            yield Profile(m, p, 300, 1, 1, 63)
            yield Profile(m, p, rng.choice(BAD_CABLES), rng.choice((0, 2)), rng.choice((1, 2)), rng.choice((63, 64)))
    for cable in EDGES_OF_CABLE:
        yield Profile(100, 100, cable, 0, 0, 0)
        yield Profile(100, 100, cable, 2, 0, 64)
    for rounding in (0, 1, 2, 255):
        for pps in (0, 1, 2, 255):
            yield Profile(100, 100, 300, rounding, pps, 0)
            yield Profile(100, 99, 300, rounding, pps, 64)
    for flags in (0, 1, 2, 32, 62, 63, 64, 65, 127, 128, 255):
        yield Profile(100, 100, 500, 0, 1, flags)
        yield Profile(100, 99, 500, 0, 1, flags)
    for m in (2, 31, 55, 90, 91, 200):
        yield Profile(m, m - 1, 500, rng.randint(0, 1), 1, 0)
        yield Profile(m, 1, 300, rng.randint(0, 1), 1, 63)


def build_lines():
    for profile in MARKED_PROFILES:
        book.say("build " + said_profile(profile))
    for profile in profile_edges():
        book.say("build " + said_profile(profile))
    for m in EDGES_OF_M:
        for cable in (rng.choice((300, 500)), some_cable()):
            book.say("build " + said_profile((m, m, cable, rng.randint(0, 1), 1, 0)))
            p = rng.choice([p for p in near(30, 54, 60, 90, 120) + [1, m, rng.randint(1, m)] if 1 <= p <= m])
            for rounding in (0, 1):
                book.say("build " + said_profile((m, p, cable, rounding, 0, rng.randrange(64))))
    for _ in range(260):
        book.say("build " + said_profile(some_profile()))
    for _ in range(30):
        profile = list(some_profile())
        profile[rng.randrange(6)] = rng.randrange(256)
        book.say("build " + said_profile(profile))


# -------------------------------------------------------------- rule check


def tied(objects):
    """AVS currents made to follow their fixed objects, so that 17 stays away."""
    current = {obj.volts: obj.current for obj in objects if isinstance(obj, Fixed)}
    low, high = current.get(300, 0), current.get(400, 0)
    return [Avs(obj.peak, low, high if obj.high else 0) if isinstance(obj, Avs) else obj for obj in objects]


def built_objects(profile):
    return [charger.decode(word) for word in built(profile)]


def say_check(profile, objects):
    return book.say("check %s %s" % (said_profile(profile), said_list(words_of(objects))))


def with_what_does_not_matter(profile):
    """W, R and F that are in range matter no further to the rule check."""
    return profile._replace(rounding=rng.randint(0, 1), pps=rng.randint(0, 1), flags=rng.randrange(64))


def current_candidates(profile, obj):
    """Currents at and around every bound that the rule check names."""
    if isinstance(obj, Fixed):
        volts = obj.volts // 20
        down, up, cable = 50 * profile.p // volts, -(-50 * profile.p // volts), profile.cable
        figures = near(down, up, 300, cable, min(cable, up)) + [0, 1023]
    else:
        volts = {110: 9, 160: 15, 210: 20}[obj.max]
        down, cable = 10 * profile.m // volts, profile.cable // 5
        figures = near(down, -(-10 * profile.m // volts), 60, cable, min(cable, down)) + [0, 127]
    most = 1023 if isinstance(obj, Fixed) else 127
    return [figure for figure in figures if figure <= most]


def check_currents():
    """One current of a built list moved to a bound or past it."""
    for m in EDGES_OF_M:
        for p in (m, rng.choice((rng.randint(1, m), max(1, m - rng.choice((1, 2, 10, 40)))))):
            profile = Profile(m, p, some_cable(), rng.randint(0, 1), int(p == m), 0)
            objects = built_objects(profile)
            for at, obj in enumerate(objects):
                if isinstance(obj, Avs):
                    continue
                for figure in rng.sample(current_candidates(profile, obj), 2):
                    moved = list(objects)
                    moved[at] = obj._replace(current=figure)
                    say_check(with_what_does_not_matter(profile), tied(moved) if rng.random() < 0.9 else moved)


def check_prog_currents():
    """Every PPS current of a built list at the ends of what is allowed. The two
    supplies with a row in addition have a range."""
    for m in (31, 53, 54, 55, 56, 67, 68, 72, 89, 90, 91, 92, 93, 100, 119, 120, 200):
        cables = (300, 500) if m in (55, 72, 92, 119) else (some_cable(),)
        for cable in cables:
            profile = Profile(m, m, cable, 0, 1, 0)
            objects = built_objects(profile)
            for at, obj in enumerate(objects):
                if isinstance(obj, Pps):
                    volts = {110: 9, 160: 15, 210: 20}[obj.max]
                    most = min(10 * m // volts, cable // 5)
                    for figure in sorted({obj.current - 1, most, most + 1}):
                        moved = list(objects)
                        moved[at] = obj._replace(current=figure)
                        say_check(with_what_does_not_matter(profile), moved)


def check_sets():
    """Sets of objects that differ from the table by one."""
    for m in (15, 30, 31, 54, 55, 72, 90, 91, 119, 120, 200):
        profile = Profile(m, m, 500, 0, 1, 0)
        objects = built_objects(profile)
        if m < 200:
            say_check(Profile(m + 1, m + 1, 500, 0, 0, 0), objects)
            say_check(Profile(m + 1, m, 500, 0, 1, 0), objects)
        if m > 1:
            say_check(Profile(m - 1, m - 1, 500, 0, 0, 0), objects)
            say_check(Profile(m, m - 1, 500, 0, 0, 0), objects)
        fixed = [obj for obj in objects if isinstance(obj, Fixed)]
        say_check(profile, fixed)
        say_check(profile, [obj for obj in objects if not isinstance(obj, Pps)])
        for at in range(1, len(objects)):
            say_check(profile, objects[:at] + objects[at + 1:])
        if len(objects) < 7:
            progs = [at for at, obj in enumerate(objects) if isinstance(obj, Pps)]
            say_check(profile, objects + [Pps(1, 210, 50, 60)])
            if progs:
                say_check(profile, objects[: progs[-1]] + [objects[progs[-1]]] * 2)
            say_check(profile, fixed + [Battery(400, 100, 10)] + objects[len(fixed):])
            say_check(profile, fixed + [Variable(400, 100, 10)] + objects[len(fixed):])
            say_check(profile, fixed[:1] + [Fixed(0, 0, 101, 300)] + objects[1:])
        for at, obj in enumerate(objects):
            if isinstance(obj, Avs):
                say_check(profile, objects[:at] + [obj._replace(high=0)] + objects[at + 1:])
                say_check(profile, objects[:at] + [obj._replace(high=250)] + objects[at + 1:])
                say_check(profile, objects[:at] + [obj._replace(peak=3)] + objects[at + 1:])
            if isinstance(obj, Pps):
                for low, high in ((50, obj.max - 1), (50, min(210, obj.max + 1)), (49, obj.max), (51, obj.max)):
                    if rng.random() < 0.5:
                        other = obj._replace(min=low, max=high)
                        say_check(profile, objects[:at] + [other] + objects[at + 1:])
                say_check(profile, objects[:at] + [obj._replace(limited=0)] + objects[at + 1:])
            if isinstance(obj, Fixed):
                # 18 over the whole list before 19
                other = [obj._replace(peak=2, current=1)] + objects[at + 1:]
                if len(objects) < 7:
                    say_check(profile, tied(objects[:at] + other + [Pps(1, 210, 50, 60)]))


def check_lines():
    words = built(Profile(100, 100, 300, 0, 0, 0))
    for profile in profile_edges():
        if rng.random() < 0.6:
            # a bad profile is told before a bad list
            offer = said_damaged(words) if rng.random() < 0.4 else said_list(words)
            book.say("check %s %s" % (said_profile(profile), offer))
    for profile in MARKED_PROFILES:
        book.say("check %s %s" % (said_profile(profile), said_list(built(Profile(*profile)))))
    check_currents()
    check_prog_currents()
    check_sets()
    for _ in range(70):
        profile = some_profile()
        book.say("check %s %s" % (said_profile(with_what_does_not_matter(profile)), said_list(built(profile))))
    for _ in range(130):
        profile = some_profile()
        book.say("check %s %s" % (said_profile(with_what_does_not_matter(profile)), said_damaged(built(profile))))
    for _ in range(30):
        # the list of another profile
        book.say("check %s %s" % (said_profile(some_profile()), said_list(built(some_profile()))))
