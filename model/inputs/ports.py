"""The sharing calls: long runs, sound and unsound rows, set-ups."""

import charger
from charger import Row
from inputs.book import book
from inputs.requests import (
    NOT_EXAMINED, RESERVED_WITH_FIGURES, RESERVED_WITH_VOLTAGE, request_of, request_of_figures, request_of_voltage,
    reserved_with, with_bits,
)
from inputs.saying import BAD_CABLES, hex_of, some_cable
from inputs.seed import rng


def say_rows(rows):
    book.say(" ".join(["rows"] + [str(figure) for row in rows for figure in row]))


def rule_objects(row):
    return [charger.decode(word) for word in charger.held_in(charger.rule_list(row))]


def some_capacity_off(capacity, rows):
    """A capacity at or past its bounds, or one too small for what is held."""
    held = sum(row.held for row in rows)
    return rng.choice((0, 15 * len(rows) - 1, 15 * len(rows), 1600, 1601, 65535, max(0, held - 1), held, capacity - 1))


PORT_CALLS = ("attach", "advertise", "detach", "remaining", "request")
SHARES_WHEN_EMPTY = (62, 7, 5, 5, 21)
SHARES_WHEN_ATTACHED = (6, 18, 7, 5, 64)


def one_port_call(capacity, wild):
    """One call of a run, with arguments good or bad."""
    rows = book.state.rows
    if wild and rng.random() < 0.04:
        capacity = some_capacity_off(capacity, rows)
    port = rng.randint(1, len(rows))
    row = rows[port - 1]
    if wild and rng.random() < 0.04:
        port = rng.choice((0, len(rows) + 1, 9, 255))
    (call,) = rng.choices(PORT_CALLS, SHARES_WHEN_EMPTY if row.cable == 0 else SHARES_WHEN_ATTACHED)
    if call == "attach":
        # often 5 A: who may take much leaves little
        cable = rng.choice((500, 500, some_cable())) if not wild or rng.random() < 0.9 else rng.choice(BAD_CABLES)
        book.say("attach %d %d %d" % (capacity, port, cable))
    elif call in ("advertise", "detach"):
        book.say("%s %d %d" % (call, capacity, port))
    elif call == "remaining":
        book.say("remaining %d" % capacity)
    else:
        judged = row if row.cable else row._replace(cable=500, p=max(15, row.m))
        word = request_of(rule_objects(judged), wild and rng.random() < 0.35)
        book.say("request %d %d %s" % (capacity, port, hex_of(word)))


def port_run(rows, capacity, calls, wild=True):
    """An accepted set-up and then many calls; the rows are shown often."""
    say_rows(rows)
    assert book.say("setup %d" % capacity) == "0 0"
    for _ in range(calls):
        one_port_call(capacity, wild)
        if rng.random() < 0.22:
            book.say("table")
    book.say("remaining %d" % capacity)
    book.say("table")


def some_lent_rows(how_many):
    """Rows as lent to set-up: M and PPS wanted matter, the rest is junk."""
    rows = []
    for _ in range(how_many):
        m = rng.choice((15, 30, 60, 90, 91, 130, 200, rng.randint(15, 200)))
        junk = (rng.choice((0, 3, 300, 65535)), rng.choice((0, 500)), rng.choice((0, 9999)))
        rows.append(Row(m, rng.randint(0, 1), *junk))
    return rows


def case_of_the_document():
    """The shared ports of "Worked by hand"."""
    say_rows([Row(130, 0, 0, 0, 0)] * 2)
    twenty_volts_at_325 = "%08X" % request_of_figures(4, 325, 325, 0)
    nine_volts_at_200 = "%08X" % request_of_figures(2, 200, 200, 0)
    nine_volts_at_300 = "%08X" % request_of_figures(2, 300, 300, 0)
    for line in (
        "setup 200",
        "attach 200 1 500",
        "request 200 1 " + twenty_volts_at_325,
        "attach 200 2 500",
        "request 200 1 " + nine_volts_at_200,
        "advertise 200 2",
        "request 200 2 " + twenty_volts_at_325,
        "request 200 1 " + twenty_volts_at_325,
        "request 200 1 " + nine_volts_at_300,
        "remaining 200",
    ):
        book.say(line)
        book.say("table")


def port_runs():
    case_of_the_document()
    port_run(some_lent_rows(2), 200, 260)
    port_run([Row(200, 1, 0, 0, 0), Row(130, 0, 0, 0, 0), Row(100, 1, 0, 0, 0), Row(60, 1, 0, 0, 0)], 300, 300)
    port_run([Row(rng.choice((60, 130, 200)), 1, 0, 0, 0) for _ in range(8)], 420, 300, wild=False)
    port_run(some_lent_rows(8), 1600, 60)
    for how_many in range(1, 9):
        capacity = rng.choice((15 * how_many, 15 * how_many + 1, 40 * how_many, 100 * how_many))
        port_run(some_lent_rows(how_many), capacity, 18)
    # everyone is promised the same power; who asks late gets 36
    for _ in range(4):
        capacity = rng.randint(150, 260)
        say_rows([Row(rng.randint(100, 200), rng.randint(0, 1), 0, 0, 0) for _ in range(3)])
        book.say("setup %d" % capacity)
        for port in (1, 2, 3):
            book.say("attach %d %d 500" % (capacity, port))
        for _ in range(10):
            port = rng.randint(1, 3)
            objects = rule_objects(book.state.rows[port - 1])
            book.say("request %d %d %s" % (capacity, port, hex_of(request_of(objects, wild=False))))
        book.say("table")
        book.say("remaining %d" % capacity)


def edge_of_36():
    """A request whose new held is one half watt within, at, and over what is left."""
    for left in (53, 54, 55):
        say_rows([Row(200, 0, 500, 200, 100), Row(54, 1, 300, 54, 15)])
        book.say("request %d 2 %08X" % (100 + left, request_of_figures(2, 300, 300, 0)))
        book.say("table")
    for voltage, current in ((250, 60), (275, 60), (550, 60), (500, 54), (450, 60), (451, 60)):
        for capacity in (153, 154, 155):
            say_rows([Row(200, 0, 500, 200, 100), Row(54, 1, 300, 54, 15)])
            book.say("request %d 2 %08X" % (capacity, request_of_voltage(3, voltage, current)))
            book.say("table")


def reserved_on_ports():
    """Requests beside themselves with reserved bits set, each from the same
    rows: the same answer, and the same rows after it."""
    rows = [Row(200, 0, 500, 200, 100), Row(100, 1, 500, 100, 15)]
    objects = rule_objects(rows[1])

    def say_request(capacity, word):
        return book.say("request %d 2 %s" % (capacity, hex_of(word)))

    # at 15, 12 and 9 V: of a fixed object, of AVS and of PPS
    for word in (request_of_figures(3, 200, 300, 0), request_of_voltage(5, 480, 40), request_of_voltage(6, 450, 40)):
        obj = objects[charger.request_position(word) - 1]
        reserved = reserved_with(obj)
        power = charger.request_power(rows[1], obj, word)
        for places in ((), *[(bit,) for bit in reserved], reserved, reserved + NOT_EXAMINED):
            say_rows(rows)
            assert say_request(200, with_bits(word, places)) == "0 0"
            book.say("table")
            if len(places) != 1:
                book.say("remaining 200")
        say_rows(rows)
        for places in ((), reserved, reserved + NOT_EXAMINED):
            assert say_request(99 + power, with_bits(word, places)) == "36 2"
        book.say("table")
        assert say_request(100 + power, with_bits(word, reserved)) == "0 0"
        book.say("table")
    say_rows(rows)
    for number, word, reserved in (
        (20, request_of_figures(0, 200, 200, 0), RESERVED_WITH_FIGURES),
        (24, request_of_figures(3, 301, 300, 0), RESERVED_WITH_FIGURES),
        (25, request_of_figures(3, 300, 301, 0), RESERVED_WITH_FIGURES),
        (20, request_of_voltage(len(objects) + 1, 480, 40), RESERVED_WITH_VOLTAGE),
        (23, request_of_voltage(5, 481, 40), RESERVED_WITH_VOLTAGE),
        (23, request_of_voltage(5, 357, 127), RESERVED_WITH_VOLTAGE),
        (22, request_of_voltage(5, 356, 40), RESERVED_WITH_VOLTAGE),
        (24, request_of_voltage(5, 480, 61), RESERVED_WITH_VOLTAGE),
        (22, request_of_voltage(6, 249, 40), RESERVED_WITH_VOLTAGE),
        (24, request_of_voltage(6, 450, 127), RESERVED_WITH_VOLTAGE),
    ):
        for places in ((), reserved, reserved + NOT_EXAMINED):
            assert say_request(200, with_bits(word, places)) == "%d 0" % number
    book.say("table")


def some_sound_row():
    m = rng.choice((15, 31, 54, 55, 90, 91, 119, 120, 200, rng.randint(15, 200)))
    pps = rng.randint(0, 1)
    if rng.random() < 0.3:
        return Row(m, pps, 0, 0, 15)
    p = rng.choice((m, m, rng.randint(15, m)))
    return Row(m, pps, some_cable(), p, rng.choice((15, p, rng.randint(15, p))))


def sound_rows():
    """Sound rows that no run need have made."""
    for _ in range(32):
        rows = [some_sound_row() for _ in range(rng.randint(1, 8))]
        held = sum(row.held for row in rows)
        capacity = min(1600, max(15 * len(rows), held + rng.choice((0, 0, 1, 15, 100))))
        say_rows(rows)
        for _ in range(5):
            one_port_call(capacity, wild=rng.random() < 0.5)
        book.say("table")


def unsound_row_forms():
    """A row at fault in each clause of soundness."""
    for m in (0, 14, 201, 65535):
        yield Row(m, 0, 0, 0, 15)
        yield Row(m, 0, 300, 15, 15)
    for pps in (2, 255):
        yield Row(100, pps, 0, 0, 15)
        yield Row(100, pps, 500, 60, 15)
    yield Row(100, 0, 0, 1, 15)
    yield Row(100, 0, 0, 100, 15)
    for held in (0, 14, 16, 65535):
        yield Row(100, 0, 0, 0, held)
    for cable in BAD_CABLES:
        yield Row(100, 0, cable, 60, 15)
    for held in (0, 14, 61, 65535):
        yield Row(100, 0, 300, 60, held)
    yield Row(100, 1, 500, 101, 15)
    yield Row(100, 1, 500, 65535, 15)
    yield Row(100, 1, 500, 14, 14)
    yield Row(100, 1, 500, 0, 0)
    yield Row(100, 1, 300, 14, 15)


def unsound_rows():
    calls = ("attach %d 1 300", "advertise %d 1", "request %d 1 1000640A", "detach %d 1", "remaining %d")
    for number, bad in enumerate(unsound_row_forms()):
        at = rng.randint(0, 3)
        rows = [Row(100, 0, 500, 100, 50), Row(100, 1, 0, 0, 15), Row(15, 0, 300, 15, 15)]
        rows.insert(at, bad)
        if rng.random() < 0.2:
            rows.append(bad)
        say_rows(rows)
        for call in (calls[number % 5], calls[rng.randrange(5)]):
            book.say(call % 1600)
        if rng.random() < 0.3:
            book.say("request 1600 9 00000000")
            book.say("attach 59 1 300")
            book.say("table")
    # only the sum, and the sum beside a row
    for last in (Row(100, 0, 300, 100, 100), Row(100, 2, 300, 100, 100)):
        say_rows([Row(100, 0, 500, 100, 100), Row(200, 0, 500, 200, 150), last])
        for capacity in (349, 350, 351, 45, 44, 1600, 1601):
            for call in rng.sample(calls, 2):
                book.say(call % capacity)
        book.say("table")
    # order: 30, 32, 37, 33, 3, 34 or 35
    say_rows([Row(100, 0, 500, 100, 100), Row(100, 0, 0, 0, 15)])
    for line in (
        "29 3 99", "114 3 99", "200 3 99", "200 0 501", "200 1 99", "200 1 501", "200 2 501", "200 1 300",
        "200 255 65535",
    ):
        book.say("attach " + line)
    for line in ("advertise 200 3", "advertise 200 2", "detach 200 0", "detach 200 2"):
        book.say(line)
    for line in ("200 3 00000000", "200 2 00000000", "200 1 00000000", "200 255 F0000000"):
        book.say("request " + line)
    book.say("table")


def row_counts():
    """30: none, and nine, whatever else is wrong."""
    calls = ("setup %d", "attach %d 0 99", "advertise %d 1", "request %d 1 1000640A", "detach %d 9", "remaining %d")
    for rows in ([], [Row(100, 0, 0, 0, 15)] * 9, [Row(0, 9, 9, 9, 9)] * 9, [Row(100, 0, 0, 0, 15)] * 8):
        say_rows(rows)
        for capacity in (0, 120, 135, 1600, 65535):
            for call in rng.sample(calls, 3):
                book.say(call % capacity)
        book.say("table")


def set_ups():
    """31 and 4, row by row; 32; nothing else in the lent rows is looked at."""
    for m in (0, 1, 14, 15, 16, 199, 200, 201, 255, 256, 65535):
        for pps in (0, 1, 2, 255):
            rows = [Row(100, 1, 99, 999, 999), Row(15, 0, 0, 0, 0), Row(200, 1, 300, 1, 1)]
            junk = (rng.choice((0, 300, 65535)), rng.choice((0, 65535)), rng.choice((15, 65535)))
            rows[rng.randrange(3)] = Row(m, pps, *junk)
            say_rows(rows)
            book.say("setup 100")
            if rng.random() < 0.5:
                book.say("table")
    for two in (((100, 2), (14, 0)), ((100, 0), (14, 2)), ((201, 0), (100, 2))):
        say_rows([Row(m, pps, 0, 0, 0) for m, pps in two])
        book.say("setup 29")
        book.say("setup 30")
        book.say("table")
    for how_many in range(1, 9):
        say_rows([Row(100, 0, 0, 0, 0)] * how_many)
        for capacity in (15 * how_many - 1, 1601, 15 * how_many, 1600):
            book.say("setup %d" % capacity)
        book.say("remaining %d" % (15 * how_many))


def port_lines():
    port_runs()
    edge_of_36()
    reserved_on_ports()
    sound_rows()
    unsound_rows()
    row_counts()
    set_ups()
