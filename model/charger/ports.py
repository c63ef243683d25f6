"""Ports that share one capacity, a row for each port."""

from collections import namedtuple

from charger.lists import NO_WORDS
from charger.measure import MICROWATTS_IN_HALF_WATT, rounded_up
from charger.object_words import Fixed, Pps
from charger.refusals import public_call, refuse_if
from charger.requests import granted, operating_figure, requested_current, requested_voltage
from charger.rules import DOWN, Profile, build, is_cable
from charger.shapes import shaped

# "A caller keeps a row for each port": the fields of its table, in their order.
Row = namedtuple("Row", "m pps cable p held")

LEAST_HELD = 15
MOST_CAPACITY = 1600


def emptied(row):
    """The column of an empty port: cable 0, P 0, held 15."""
    return row._replace(cable=0, p=0, held=LEAST_HELD)


def is_attached(row):
    """A port with cable 0 is empty; any other is attached."""
    return row.cable != 0


def rule_list(row):
    """The rule list: rounded down, without flags, and with PPS exactly where
    PPS is wanted and P is equal to M."""
    pps = 1 if row.pps == 1 and row.p == row.m else 0
    return build(Profile(row.m, row.p, row.cable, DOWN, pps, 0)).value


def all_held(rows):
    return sum(row.held for row in rows)


def left_for(capacity, rows, port):
    """What the others leave for a port is the capacity less what all other
    rows hold."""
    return capacity - (all_held(rows) - rows[port - 1].held)


def is_sound(row):
    """Each row is as the table says, for an empty and for an attached port."""
    if not 15 <= row.m <= 200 or row.pps > 1:
        return False
    if is_attached(row):
        return is_cable(row.cable) and LEAST_HELD <= row.held <= row.p <= row.m
    return row == emptied(row)


def refuse_bad_table(capacity, rows):
    """30: number of rows outside 1 to 8. 32: capacity outside 15 times the
    number of rows to 1600."""
    refuse_if(not 1 <= len(rows) <= 8, 30)
    refuse_if(not 15 * len(rows) <= capacity <= MOST_CAPACITY, 32)


def refuse_unsound(capacity, rows):
    """30, 32, 37. Of 37, a row at fault comes before the sum, wherever it
    stands."""
    refuse_bad_table(capacity, rows)
    for place, row in enumerate(rows, 1):
        refuse_if(not is_sound(row), 37, place)
    refuse_if(all_held(rows) > capacity, 37)


def refuse_bad_port(rows, port):
    """33: port outside 1 to the number of rows."""
    refuse_if(not 1 <= port <= len(rows), 33)


def refuse_empty(rows, port):
    """35: the port is not attached."""
    refuse_if(not is_attached(rows[port - 1]), 35, port)


def advertised(capacity, rows, port, cable):
    """P becomes the smaller of M and what the others leave; held stays. The
    answer is the rule list."""
    row = rows[port - 1]
    rows[port - 1] = row._replace(cable=cable, p=min(row.m, left_for(capacity, rows, port)))
    return rule_list(rows[port - 1])


def request_power(row, obj, request):
    """The voltage is that of the fixed object, or for PPS and AVS the one asked
    for. What it makes with the operating current is rounded up to a half watt;
    of PPS it is at most P."""
    if isinstance(obj, Fixed):
        microwatts = (obj.volts * 50) * (operating_figure(request) * 10)
    elif isinstance(obj, Pps):
        microwatts = (requested_voltage(request) * 20) * (requested_current(request) * 50)
    else:
        microwatts = (requested_voltage(request) * 25) * (requested_current(request) * 50)
    power = rounded_up(microwatts, MICROWATTS_IN_HALF_WATT)
    return min(power, row.p) if isinstance(obj, Pps) else power


@public_call(None)
def set_up(capacity, rows):
    """Keeps M and PPS wanted of each row as lent, and empties every port. For
    each row in turn 31, 4."""
    refuse_bad_table(capacity, rows)
    for place, row in enumerate(rows, 1):
        refuse_if(not 15 <= row.m <= 200, 31, place)
        refuse_if(row.pps > 1, 4, place)
    rows[:] = [emptied(row) for row in rows]


@public_call(NO_WORDS)
def attach(capacity, rows, port, cable):
    """37, 33, 3, 34."""
    refuse_unsound(capacity, rows)
    refuse_bad_port(rows, port)
    refuse_if(not is_cable(cable), 3)
    refuse_if(is_attached(rows[port - 1]), 34, port)
    return advertised(capacity, rows, port, cable)


@public_call(NO_WORDS)
def advertise(capacity, rows, port):
    """37, 33, 35."""
    refuse_unsound(capacity, rows)
    refuse_bad_port(rows, port)
    refuse_empty(rows, port)
    return advertised(capacity, rows, port, rows[port - 1].cable)


@public_call(None)
def request(capacity, rows, port, word):
    """37, 33, 35, the list's own, 36. A request is judged on the rule list of
    its row as it stands. Held becomes the power of the request, never less than
    15. 36 exactly when its power is more than the others leave."""
    refuse_unsound(capacity, rows)
    refuse_bad_port(rows, port)
    refuse_empty(rows, port)
    row = rows[port - 1]
    obj = granted(shaped(rule_list(row)), word)
    held = max(LEAST_HELD, request_power(row, obj, word))
    refuse_if(held > left_for(capacity, rows, port), 36, port)
    rows[port - 1] = row._replace(held=held)


@public_call(None)
def detach(capacity, rows, port):
    """Empties the attached port. 37, 33, 35."""
    refuse_unsound(capacity, rows)
    refuse_bad_port(rows, port)
    refuse_empty(rows, port)
    rows[port - 1] = emptied(rows[port - 1])


@public_call(0)
def remaining(capacity, rows):
    """The capacity less what all rows hold."""
    refuse_unsound(capacity, rows)
    return capacity - all_held(rows)
