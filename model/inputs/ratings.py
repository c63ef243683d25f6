"""sinkcheck: each ceiling at its figure and a step above it, and ratings in and out
of bounds."""

import charger
from charger import Battery, SinkFixed, SinkPps, Variable
from inputs.book import book
from inputs.saying import near, said_list
from inputs.seed import rng
from inputs.sinks import (
    SEVEN, count_lines, edges, form_of, good_sinks, number_in, past_the_count_lines, reserved_edges,
    said_damaged_sinks, sink_words, together,
)

OUT_OF_RANGE = (0, 201, 202, 255, 256, 257, 456, 32768, 65336, 65535)

# A first object that needs nothing: no rating is too low for it.
QUIET = SinkFixed(0, 100, 0)
# SEVEN keeps to this rating, and to none below it.
RATING_OF_SEVEN = 130

ROWS_OF_PPS = ((110, 50), (160, 50), (210, 50))


def say_check(rating, words, count=None):
    return book.say("sinkcheck %d %s" % (rating, said_list(words, count)))


def some_rating():
    return rng.choice((1, 2, 199, 200, rng.randint(1, 200)))


def in_a_list(obj):
    """The object in a list where it is the one that needs something."""
    if isinstance(obj, SinkFixed) and obj.volts == 100:
        return [obj]
    return [QUIET, obj]


def with_figure(obj, figure):
    return obj._replace(**{obj._fields[-1]: figure})


def has_its_shape(objects):
    return charger.sink_shape(charger.list_of_words(sink_words(objects))).number == 0


# ---------------------------------------------------------------- each ceiling


def other_ranges():
    """PPS ranges that have no row: a step beside each row, those that end at the
    volts which a row divides by, and others."""
    for high, low in ROWS_OF_PPS:
        yield from ((high, low - 1), (high, low + 1), (high - 1, low), (high + 1, low), (high, 0))
    yield from ((90, 50), (150, 50), (200, 50), (50, 50), (1, 0), (9, 5), (20, 20), (33, 10))


def objects_with_a_ceiling():
    for volts in (100, 101, 180, 300, 333, 399, 400):
        yield SinkFixed(0, volts, 0)
    for high, low in ((1, 0), (2, 2), (100, 0), (333, 111), (419, 400), (420, 420)):
        yield Variable(high, low, 0)
    # the rows are for PPS alone: variable objects with their figures, and with their volts
    for high, low in ROWS_OF_PPS:
        yield Variable(high, low, 0)
        yield Variable(2 * high, 2 * low, 0)
    for high, low in ((0, 0), (100, 0), (400, 180), (420, 420)):
        yield Battery(high, low, 0)
    for high, low in other_ranges():
        if high <= 210:
            yield SinkPps(high, low, 0)


def say_about_ceiling(rating, obj):
    """At the ceiling and a step above it, as far as the field and the shape go."""
    most = charger.ceiling(rating, obj)
    widest = form_of(obj)[-1][1]
    for figure in (most, most + 1):
        objects = in_a_list(with_figure(obj, min(figure, widest)))
        if has_its_shape(objects):
            answer = say_check(rating, sink_words(objects))
            assert number_in(answer) == (43 if min(figure, widest) > most else 0), answer


def ceiling_lines():
    for obj in objects_with_a_ceiling():
        ratings = (rng.choice((1, 2)), rng.choice((199, 200)), rng.randint(3, 198))
        if isinstance(obj, SinkPps):
            # 60 tells 9 V from 10, 15 from 16 and 20 from 21; few have a ceiling above 100
            ratings = (rng.choice((1, 2, 199, 200)), 60, rng.randint(3, 100))
        for rating in ratings:
            say_about_ceiling(rating, obj)
    for high, low in ROWS_OF_PPS:
        for rating in (1, 2, 8, 9, 10, 54, 89, 90, 114, 115, 190, 191, 199, 200, rng.randint(3, 100)):
            say_about_ceiling(rating, SinkPps(high, low, 0))
    for rating in (1, 2, 199, 200):
        for obj in (QUIET, Variable(420, 0, 0), Battery(400, 100, 0)):
            say_about_ceiling(rating, obj)


def no_ceiling_lines():
    """A voltage of zero sets no ceiling. A battery is not divided by one."""
    for rating in (1, 2, 200):
        for current in (0, 1, 2, 1023):
            say_check(rating, sink_words([QUIET, Variable(0, 0, current)]))
        for current in (0, 1, 127):
            say_check(rating, sink_words([QUIET, SinkPps(0, 0, current)]))
    for rating in (1, 2, 100, 199):
        for power in (*near(2 * rating), 400):
            say_check(rating, sink_words([QUIET, Battery(0, 0, power)]))


def each_place_lines():
    """One figure above its ceiling, at each place; all of them at it; two above.
    The place is 0."""
    for rating in (54, 72, 100):
        at_ceiling = [with_figure(obj, min(charger.ceiling(rating, obj), form_of(obj)[-1][1])) for obj in SEVEN]
        assert say_check(rating, sink_words(at_ceiling)) == "0 0"
        for at, obj in enumerate(at_ceiling):
            above = [with_figure(obj, obj[-1] + 1)]
            assert say_check(rating, sink_words(at_ceiling[:at] + above + at_ceiling[at + 1 :])) == "43 0"
        assert say_check(rating, sink_words([with_figure(obj, obj[-1] + 1) for obj in at_ceiling])) == "43 0"


def least_rating(objects):
    """The least rating that the list keeps to; 201 where there is none."""
    words = charger.list_of_words(sink_words(objects))
    return next((rating for rating in range(1, 201) if charger.sink_check(rating, words).number == 0), 201)


def least_rating_lines():
    """Lists of every kind about the least rating that they keep to."""
    for _ in range(30):
        objects = good_sinks()
        least = least_rating(objects)
        for rating in sorted({max(1, least - 1), min(200, least), some_rating()}):
            say_check(rating, sink_words(objects))


# ------------------------------------------------------- before the ceiling


def lists_by_number():
    """Lists that the shape refuses, by its number."""
    found = {}
    for words in [sink_words(objects) for objects in edges()] + list(reserved_edges()):
        number = charger.sink_shape(charger.list_of_words(words)).number
        if number:
            found.setdefault(number, []).append(words)
    assert sorted(found) == list(range(11, 17)), sorted(found)
    return found


def shape_number_lines():
    """Every number of the shape, also where a figure is above its ceiling; and
    after the rating."""
    lists = lists_by_number()
    for number in sorted(lists):
        for words in rng.sample(lists[number], min(16, len(lists[number]))):
            assert number_in(say_check(some_rating(), words)) == number, words
        assert number_in(say_check(rng.choice(OUT_OF_RANGE), rng.choice(lists[number]))) == 1
    for first, words in together():
        assert number_in(say_check(1, words)) == (first or 43), words
    for words in reserved_edges():
        if rng.random() < 0.4:
            say_check(some_rating(), words)


def rating_bounds_lines():
    for rating in OUT_OF_RANGE:
        for words in (sink_words([QUIET]), sink_words(SEVEN), [0xFFFFFFFF] * 7):
            assert number_in(say_check(rating, words)) == 1, rating
        assert number_in(say_check(rating, sink_words(SEVEN), rng.choice((0, 8, 255)))) == 1, rating
    for rating in (1, 2, 199, 200):
        assert number_in(say_check(rating, sink_words([QUIET]))) == 0, rating
    for rating in near(RATING_OF_SEVEN):
        say_check(rating, sink_words(SEVEN))


def past_the_count_ceiling_lines():
    """Past the count stands what would be above every ceiling."""
    words = sink_words(SEVEN)
    for count in range(1, 7):
        junk = sink_words([SinkPps(210, 50, 127)]) * (7 - count)
        least = least_rating(SEVEN[:count])
        assert number_in(say_check(least, words[:count] + junk, count)) == 0
        assert number_in(say_check(least - 1, words[:count] + junk, count)) == 43


def rating_lines():
    ceiling_lines()
    no_ceiling_lines()
    each_place_lines()
    least_rating_lines()
    rating_bounds_lines()
    shape_number_lines()
    count_lines("sinkcheck %d" % RATING_OF_SEVEN)
    past_the_count_lines("sinkcheck %d" % RATING_OF_SEVEN)
    past_the_count_ceiling_lines()
    for _ in range(40):
        book.say("sinkcheck %d %s" % (some_rating(), said_damaged_sinks()))
