"""The listing program, caps: a record in, a line out."""

from charger.lists import held_in
from charger.rules import Profile, build

RECORD_BYTES = 8
# "The cable byte counts 100 mA"; the cable of a profile is in 10 mA.
STEPS_IN_100_MA = 10


def listing(data):
    """What caps prints for its input, line by line. Where one to seven bytes
    are left at the end, they print `9 0`, whatever they are."""
    for start in range(0, len(data), RECORD_BYTES):
        record = data[start : start + RECORD_BYTES]
        if len(record) < RECORD_BYTES:
            yield "9 0"
            return
        m = record[0] | record[1] << 8
        p = record[2] | record[3] << 8
        cable = record[4] * STEPS_IN_100_MA
        built = build(Profile(m, p, cable, *record[5:]))
        words = ["%08X" % word for word in held_in(built.value)]
        yield " ".join([str(built.number), str(built.value.count)] + words)
