"""Cables: at and past their bounds in build, check, attach and rows; leads of 2 A and
of 4 A; and any cable, with each current at the ends of what is allowed."""

import charger
from charger import Fixed, Pps, Profile, Row
from inputs.book import book
from inputs.ports import rule_objects, say_rows
from inputs.requests import request_of_figures, request_of_voltage
from inputs.rules import built_objects, say_check, tied, with_what_does_not_matter
from inputs.saying import BAD_CABLES, EDGES_OF_CABLE, EDGES_OF_M, GOOD_CABLES, near, said_list, said_profile
from inputs.seed import SEED_OF_CABLES, rng
from inputs.sinks import number_in

LEADS = (200, 400)


def say_build(profile):
    return book.say("build " + said_profile(profile))


# ------------------------------------------------------------------ bounds


def build_bounds():
    for cable in EDGES_OF_CABLE:
        want = 0 if cable in GOOD_CABLES else 3
        for m, p, pps in ((200, 200, 1), (72, 72, 1), (160, 130, 0)):
            assert number_in(say_build(Profile(m, p, cable, rng.randint(0, 1), pps, rng.randrange(64)))) == want
    # 3 in its turn: behind 1 and 2, before 4, 5 and 6
    for cable in BAD_CABLES:
        assert number_in(say_build(Profile(200, 199, cable, 0, 1, 0))) == 3
        assert number_in(say_build(Profile(200, rng.choice((0, 201)), cable, 2, 2, 64))) == 2


def check_bounds():
    """The list of a cable, for that cable and for those a step beside it."""
    profile = Profile(200, 200, 300, 0, 1, 0)
    for cable in EDGES_OF_CABLE:
        objects = built_objects(profile._replace(cable=cable if cable in GOOD_CABLES else 300))
        for beside in near(cable):
            if beside <= 65535:
                say_check(with_what_does_not_matter(profile._replace(cable=beside)), objects)
    for cable in BAD_CABLES:
        # a bad cable is told before a bad list
        book.say("check %s %s" % (said_profile(profile._replace(cable=cable)), said_list([0xFFFFFFFF], 8)))


def asking_for(position, obj, more):
    """All that an object offers, and so much more."""
    if isinstance(obj, Fixed):
        return request_of_figures(position, obj.current + more, obj.current + more, 0)
    if isinstance(obj, Pps):
        return request_of_voltage(position, obj.max * 5, obj.current + more)
    return request_of_voltage(position, 600, max(obj.low, obj.high) // 5 + more)


def attach_bounds():
    """What is attached offers the cable and no step more."""
    rows = [Row(200, 1, 0, 0, 15), Row(72, 0, 0, 0, 15)]
    say_rows(rows)
    for cable in BAD_CABLES:
        assert number_in(book.say("attach 400 %d %d" % (rng.randint(1, 2), cable))) == 3
    book.say("table")
    for cable in GOOD_CABLES:
        assert number_in(book.say("attach 400 1 %d" % cable)) == 0
        objects = rule_objects(book.state.rows[0])
        for position in rng.sample(range(1, len(objects) + 1), 2):
            for more, want in ((1, 24), (0, 0)):
                word = asking_for(position, objects[position - 1], more)
                assert number_in(book.say("request 400 1 %08X" % word)) == want
        book.say("table")
        book.say("detach 400 1")


def row_bounds():
    """The cable of an attached row: 37 where it is out of its range, and where it is
    0, since the rest is not that of an empty port."""
    for cable in EDGES_OF_CABLE:
        for row in (Row(200, 1, cable, 200, 15), Row(72, 0, cable, 60, 30)):
            at = rng.randint(0, 1)
            rows = [Row(100, 0, 0, 0, 15)]
            rows.insert(at, row)
            say_rows(rows)
            answer = book.say("advertise 300 %d" % (at + 1))
            assert answer.startswith("0 0 " if cable in GOOD_CABLES else "37 %d " % (at + 1)), answer
            if row.m == 72:
                book.say(rng.choice(("remaining 300", "detach 300 %d" % (at + 1), "attach 300 1 300")))
        book.say("table")


# ----------------------------------------------------- ends of what is allowed


def ends_allowed(profile, obj):
    """The least and the greatest current that the rule check allows the object."""
    allowed = [figure for figure in range(1024) if charger.is_current_allowed(profile, obj._replace(current=figure))]
    return allowed[0], allowed[-1]


def say_ends(profile, at):
    """The object there at both ends of what is allowed, one step past each, and with
    what a cable of 5 A would have."""
    objects = built_objects(profile)
    least, most = ends_allowed(profile, objects[at])
    with_5_a = built_objects(profile._replace(cable=500))[at].current
    for figure in sorted({least - 1, least, most, most + 1, with_5_a}):
        moved = objects[:at] + [objects[at]._replace(current=figure)] + objects[at + 1 :]
        accepted = number_in(say_check(with_what_does_not_matter(profile), tied(moved))) == 0
        assert accepted == (least <= figure <= most), (profile, moved)


def places_of(profile, *kinds):
    return [at for at, obj in enumerate(built_objects(profile)) if isinstance(obj, kinds)]


def fixed_of_leads():
    """P where the quotient meets the cable, where it meets 3 A, and all of it."""
    for cable in LEADS:
        for at, volts in enumerate((5, 9, 15, 20)):
            for p in near(cable * volts // 50, 6 * volts) + [200]:
                profile = Profile(200, p, cable, rng.randint(0, 1), 0, 0)
                say_build(profile)
                say_ends(profile, at)


def progs_of_leads():
    """M where the figure of the table meets the cable, and at the bounds of each
    supply and of its row in addition."""
    for cable in LEADS:
        for m in near(cable * 9 // 50, cable * 15 // 50, cable * 20 // 50) + [31, 54, 55, 89, 91, 100, 119, 120, 200]:
            profile = Profile(m, m, cable, rng.randint(0, 1), 1, 0)
            say_build(profile)
            for at in places_of(profile, Pps):
                say_ends(profile, at)


def any_cable():
    """Cables of the whole range: the last object of each list that has a current of
    its own, and one at random, at their ends."""
    for _ in range(50):
        m = rng.choice((rng.choice(EDGES_OF_M), rng.randint(55, 200)))
        p = m if rng.random() < 0.7 else rng.randint(1, m)
        profile = Profile(m, p, rng.randint(100, 500), rng.randint(0, 1), int(p == m), 0)
        say_build(profile)
        places = places_of(profile, Fixed, Pps)
        for at in sorted({rng.choice(places), places[-1]}):
            say_ends(profile, at)


def cable_lines():
    rng.seed(SEED_OF_CABLES)
    build_bounds()
    check_bounds()
    attach_bounds()
    row_bounds()
    fixed_of_leads()
    progs_of_leads()
    any_cable()
