"""Properties of runs of the sharing calls, over seeded random calls."""

import random
from collections import Counter

import charger
from charger import Profile, Row
from tests.expecting import expect
from tests.handling import figures, verdict, volts

# "Order", of each call but set-up: what a run can meet, whose rows are always
# sound and whose capacity is in range.
GIVEN = {
    "attach": (0, 3, 33, 34),
    "advertise": (0, 33, 35),
    "request": (0, 20, 22, 23, 24, 25, 33, 35, 36),
    "detach": (0, 33, 35),
    "remaining": (0,),
}


class Ledger:
    """What each port holds, told from the calls and the answers alone."""

    def __init__(self, maxima):
        self.maxima = maxima
        self.figure = [15] * len(maxima)
        self.given = [None] * len(maxima)     # the list last given, while attached
        self.present = [0] * len(maxima)

    def others(self, at):
        return sum(self.figure) - self.figure[at]

    def power_of(self, at, word):
        """By the latest list of the port."""
        obj = self.given[at].places[(word >> 28) - 1]
        if obj >> 30 == 0:
            milliwatts, step = (obj >> 10 & 1023) * (word >> 10 & 1023), 2       # 50 mV * 10 mA = mW / 2
            return max(15, -(-milliwatts // (500 * step)))
        voltage, current = word >> 9 & 4095, word & 127
        if obj >> 28 == 0b1100:
            return max(15, min(self.present[at], -(-voltage * current // 500)))  # 20 mV * 50 mA = mW
        return max(15, -(-voltage * current * 5 // (4 * 500)))                   # 25 mV * 50 mA = 5/4 mW


def one_run(rng, calls, seen):
    """History: what a run promises, whatever the calls. Counts what they gave."""
    lent = []
    for _ in range(rng.randint(1, 8)):
        junk = (rng.randrange(600), rng.randrange(300), rng.randrange(300))
        lent.append(Row(rng.randint(15, 200), rng.randint(0, 1), *junk))
    capacity = rng.randint(15 * len(lent), 70 * len(lent))
    rows = list(lent)
    expect("set up", verdict(charger.set_up(capacity, rows)), (0, 0))
    ledger = Ledger([row.m for row in lent])
    for _ in range(calls):
        port = rng.randint(0, len(rows) + 1) if rng.random() < 0.1 else rng.randint(1, len(rows))
        at = port - 1
        inside = 1 <= port <= len(rows)
        before = list(rows)
        call = rng.choices(("attach", "advertise", "request", "detach", "remaining"), (4, 3, 9, 1, 1))[0]
        if call in ("attach", "advertise"):
            bad = rng.random() < 0.2
            cable = rng.choice((3, 5, 99, 501)) if bad else rng.choice((500, 500, rng.randint(100, 500)))
            if call == "attach":
                answer = charger.attach(capacity, rows, port, cable)
                want = 33 if not inside else 3 if bad else 34 if ledger.given[at] else 0
            else:
                answer = charger.advertise(capacity, rows, port)
                want = 33 if not inside else 0 if ledger.given[at] else 35
            expect(call, verdict(answer), (want, port if want > 33 else 0))
            if not want:
                present = min(ledger.maxima[at], capacity - ledger.others(at))
                pps = int(lent[at].pps and present == ledger.maxima[at])
                profile = Profile(ledger.maxima[at], present, rows[at].cable, 0, pps, 0)
                expect("the next list is the rule list", answer.value, charger.build(profile).value)
                expect("and passes the rule check", verdict(charger.check(profile, answer.value)), (0, 0))
                ledger.given[at], ledger.present[at] = answer.value, present
        elif call == "request":
            word = rng.getrandbits(32)
            if inside and ledger.given[at] and rng.random() < 0.9:
                position = rng.randint(1, ledger.given[at].count)
                obj = ledger.given[at].places[position - 1]
                reserved = (27, 21, 20) if obj >> 30 == 0 else (27, 21, 8, 7)
                if obj >> 30 == 0:
                    word = figures(position, rng.choice((obj & 1023, rng.randint(0, obj & 1023))))
                elif obj >> 28 == 0b1100:
                    word = volts(position, rng.randint(250, (obj >> 17 & 255) * 5), rng.randint(0, obj & 127))
                else:
                    word = volts(position, rng.randint(90, 200) * 4, rng.randint(0, 70))
                if rng.random() < 0.33:
                    word |= sum(rng.randint(0, 1) << bit for bit in reserved)
            answer = charger.request(capacity, rows, port, word)
            if not inside or not ledger.given[at]:
                expect("request", verdict(answer), (35, port) if inside else (33, 0))
            else:
                own = charger.answer(ledger.given[at], word).number
                figure = ledger.power_of(at, word) if own == 0 else 0
                short = figure > capacity - ledger.others(at)
                expect("request", verdict(answer), (own, 0) if own else (36, port) if short else (0, 0))
                if not own and not short:
                    ledger.figure[at] = figure
        elif call == "detach":
            answer = charger.detach(capacity, rows, port)
            expect("detach", verdict(answer), (33, 0) if not inside else (0, 0) if ledger.given[at] else (35, port))
            if answer.number == 0:
                ledger.figure[at], ledger.given[at] = 15, None
        else:
            answer = charger.remaining(capacity, rows)
            expect("remaining", answer, (0, 0, capacity - sum(ledger.figure)))
        seen[call, answer.number] += 1
        expect("the figures never pass the capacity", sum(ledger.figure) <= capacity)
        expect("held is the figure", [row.held for row in rows], ledger.figure)
        if answer.number:
            expect("a refusal writes no row", rows, before)


def test_runs():
    rng = random.Random(4)
    seen = Counter()
    for _ in range(40):
        one_run(rng, 150, seen)
    accepted, refused_36 = seen["request", 0], seen["request", 36]
    expect("requests accepted (%d)" % accepted, accepted > 500)
    expect("requests refused with 36 (%d)" % refused_36, refused_36 > 50)
    for call, numbers in GIVEN.items():
        expect("what %s gives" % call, sorted(number for made, number in seen if made == call), sorted(numbers))
    expect("no 21", [call for call, number in seen if number == 21], [])
