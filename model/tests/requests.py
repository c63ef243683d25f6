"""Properties of requests: which bits count and which are ignored, found by
flipping each of them, on lists and on shared ports."""

import random
from collections import Counter

import charger
from charger import Avs, Battery, Fixed, Pps, Profile, Row, Variable
from tests.expecting import expect
from tests.handling import figures, objects_in, verdict, volts
from tests.properties import some_words

# The rows of the request word that count, by the kind of the object. All other
# bits are reserved or not examined: 27, 25..22, 21 and 20; or 27..21, 8 and 7.
POSITION = {31, 30, 29, 28}
WITH_FIGURES = POSITION | {26} | set(range(20))
WITH_VOLTAGE = POSITION | set(range(9, 21)) | set(range(7))
COUNTING = {Fixed: WITH_FIGURES, Battery: WITH_FIGURES, Variable: WITH_FIGURES, Pps: WITH_VOLTAGE, Avs: WITH_VOLTAGE}


def some_ignored(rng, counting):
    """Some of the bits that do not count, as a word."""
    return sum(rng.randint(0, 1) << bit for bit in range(32) if bit not in counting)


def some_request(rng, objects):
    """A request about the limits of an object, and what it names: a kind, or
    None where there is no such position."""
    position = rng.randint(1, len(objects)) if rng.random() < 0.95 else rng.choice((0, len(objects) + 1, 15))
    if not 1 <= position <= len(objects):
        return position << 28 | rng.getrandbits(28), None
    obj = objects[position - 1]
    if isinstance(obj, Pps):
        inside = rng.randint(obj.min * 5, obj.max * 5)
        voltage = rng.choice((obj.min * 5, obj.max * 5, inside, inside, max(0, obj.min * 5 - 1), obj.max * 5 + 1))
        current = rng.choice((obj.current, obj.current + 1, rng.randint(0, obj.current)))
        word = volts(position, voltage, min(127, current))
    elif isinstance(obj, Avs):
        voltage = rng.choice((360, 596, 600, 604, 800, rng.randint(90, 200) * 4, rng.randint(356, 804)))
        limit = min(126, charger.avs_limit(obj, voltage * 25) // 5)
        word = volts(position, voltage, rng.choice((limit, limit + 1, rng.randint(0, limit))))
    else:
        limit = obj.power if isinstance(obj, Battery) else obj.current
        operating, maximum = [min(1023, rng.choice((limit, limit, limit + 1, rng.randint(0, limit)))) for _ in "om"]
        word = figures(position, operating, maximum, rng.randint(0, 1))
    kind = type(obj)
    return word | rng.choice((0, some_ignored(rng, COUNTING[kind]))), kind


def bits_that_change(rng, ask, word, kind):
    """Flips each bit of a request, then some of the ignored ones at once."""
    counting = COUNTING.get(kind, POSITION)
    plain = ask(word)
    changing = {bit for bit in range(32) if ask(word ^ 1 << bit) != plain}
    expect("ignored bits of %08X that change something" % word, changing - counting, set())
    for _ in range(3):
        expect("%08X with others of its ignored bits" % word, ask(word ^ some_ignored(rng, counting)), plain)
    return changing


def expect_all_that_count(found, kinds):
    for kind in kinds:
        expect("bits that count, %s" % kind.__name__, found[kind], COUNTING[kind])


def expect_numbers(seen, numbers):
    """Each is given often, and no other is: 21 is withdrawn."""
    expect("no 21", seen[21], 0)
    expect("the numbers given", sorted(seen), numbers)
    for number in numbers:
        expect("%d, often enough (%d)" % (number, seen[number]), seen[number] >= 50)


def test_bits_of_requests_to_lists():
    rng = random.Random(6)
    seen = Counter()
    found = {kind: set() for kind in (*COUNTING, None)}
    shaped = 0
    for _ in range(900):
        if rng.random() < 0.4:
            m = rng.randint(50, 200)
            words = charger.build(Profile(m, m, rng.randint(100, 500), 0, rng.randint(0, 1), 0)).value
        else:
            words = charger.list_of_words(some_words(rng))

        def ask(word):
            answer = charger.answer(words, word)
            seen[answer.number] += 1
            return answer

        shape = charger.shape(words)
        if shape.number:
            expect("the shape's refusal, whatever is asked", charger.answer(words, rng.getrandbits(32)), shape)
            continue
        shaped += 1
        for _ in range(2):
            word, kind = some_request(rng, objects_in(words))
            found[kind] |= bits_that_change(rng, ask, word, kind)
    expect("enough lists (%d)" % shaped, shaped > 400)
    expect_all_that_count(found, COUNTING)
    expect_numbers(seen, [0, 20, 22, 23, 24, 25])


def test_bits_of_requests_to_ports():
    """The answer and the rows after it."""
    rng = random.Random(7)
    seen = Counter()
    found = {kind: set() for kind in (*COUNTING, None)}
    for _ in range(600):
        m = rng.randint(31, 200)
        p = rng.choice((m, m, rng.randint(31, m)))
        asking = Row(m, rng.randint(0, 1), rng.choice((500, rng.randint(100, 500))), p, rng.choice((15, p)))
        rows = [asking, Row(100, 0, 500, 100, rng.randint(15, 100))]
        port = rng.randint(1, 2)
        if port == 2:
            rows.reverse()
        capacity = max(30, rows[0].held + rows[1].held) + rng.choice((0, 10, 40, 100, 400))

        def ask(word):
            after = list(rows)
            answer = charger.request(capacity, after, port, word)
            seen[answer.number] += 1
            return answer, after

        word, kind = some_request(rng, objects_in(charger.rule_list(asking)))
        found[kind] |= bits_that_change(rng, ask, word, kind)
    expect_all_that_count(found, (Fixed, Pps, Avs))
    expect_numbers(seen, [0, 20, 22, 23, 24, 25, 36])
