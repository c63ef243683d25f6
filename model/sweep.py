"""The listing program over a sweep of profiles.

    python3 sweep.py                  prints the lines that caps must print
    python3 sweep.py FILE             compares FILE, which caps printed, with them
    python3 sweep.py --records FILE   writes the input records, 8 bytes each
    python3 sweep.py --lines FILE     writes the lines

The sweep, slowest first: M 1..200, P 1..M, cable byte 10..50, rounding 0 and 1,
PPS wanted 0 and 1, F = 0. These are 3,296,400 records. Behind them every cable
byte 0..255 for each of eleven profiles, which are 2,816 more: 3,299,216 in all.
Records and lines are made and compared one M after the other, so what is held
at a time stays small.
"""

import sys
from itertools import chain, product, zip_longest

import charger

# With these every cable byte is tried: lists of each kind of set and of both
# roundings, and what is refused before and behind the cable: M, P, cable, then
# rounding, PPS wanted, flags, and PPS wanted while P is below M.
PROFILES_OF_EVERY_BYTE = (
    (20, 20, 0, 0, 0), (54, 54, 0, 1, 0), (72, 72, 1, 1, 63), (100, 100, 0, 1, 0), (200, 200, 1, 1, 0),
    (160, 130, 1, 0, 0), (0, 0, 0, 0, 0), (200, 201, 0, 0, 0), (200, 200, 2, 0, 0), (200, 200, 0, 0, 64),
    (200, 199, 0, 1, 0),
)


def record(m, p, cable, rounding, pps, flags):
    return bytes((m, 0, p, 0, cable, rounding, pps, flags))


def records_of(m):
    profiles = product((m,), range(1, m + 1), range(10, 51), (0, 1), (0, 1), (0,))
    return b"".join(record(*profile) for profile in profiles)


def records_of_every_byte():
    profiles = product(PROFILES_OF_EVERY_BYTE, range(256))
    return b"".join(record(m, p, cable, *choices) for (m, p, *choices), cable in profiles)


def sweep_records():
    """The records in pieces, each of whole records."""
    for m in range(1, 201):
        yield records_of(m)
    yield records_of_every_byte()


def sweep_lines():
    return chain.from_iterable(charger.listing(records) for records in sweep_records())


def write_lines(sink):
    """Writes the lines, and counts them and those of a list."""
    count = accepted = 0
    for line in sweep_lines():
        sink.write(line + "\n")
        count += 1
        accepted += line.startswith("0 ")
    return "%d records, %d accepted, %d refused" % (count, accepted, count - accepted)


def compare(path):
    """The number of lines that differ, told with the first of them. A line that
    is missing or left over differs, and so does one without its newline."""
    different = 0
    with open(path, "rb") as file:
        for number, (want, got) in enumerate(zip_longest(sweep_lines(), file), 1):
            want = None if want is None else want.encode("ascii") + b"\n"
            if want != got:
                different += 1
                if different <= 5:
                    print("line %d: expected %r, found %r" % (number, want, got))
    return different


def main():
    arguments = sys.argv[1:]
    if not arguments:
        write_lines(sys.stdout)
    elif len(arguments) == 1 and not arguments[0].startswith("-"):
        wrong = compare(arguments[0])
        print("%s: %d lines differ" % (arguments[0], wrong))
        sys.exit(1 if wrong else 0)
    elif len(arguments) == 2 and arguments[0] == "--records":
        with open(arguments[1], "wb") as file:
            file.writelines(sweep_records())
    elif len(arguments) == 2 and arguments[0] == "--lines":
        with open(arguments[1], "w", encoding="ascii", newline="\n") as file:
            print(write_lines(file))
    else:
        sys.exit(__doc__.strip())


if __name__ == "__main__":
    main()
