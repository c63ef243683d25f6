"""Writes the console's stored input and what it must answer.

    python3 generate.py console.in console.out

The seed is fixed: the same files come out each time. Each file of inputs/ makes
one kind of line; unreadable lines are strewn over all of them. At the end the
lines are counted by refusal number. A number of the statement's table that was given
fewer than 20 times fails the run, and so does one that the table does not have. The
numbers of messages, of sink lists and of summaries are counted for each call that gives
them.
"""

import sys
from collections import Counter

from inputs import cables, messages, ports, ratings, requests, rules, shapes, sinks, summaries
from inputs.book import book
from inputs.unreadable import STRANGE_LINES

FEWEST = 20
# Those of the statement's table: 21 is withdrawn.
NUMBERS = [*range(1, 8), *range(10, 21), *range(22, 26), *range(30, 38), *range(40, 44), *range(51, 54)]
NUMBERS_OF_CALLS = {
    "summary": (10, 11, 12, 13, 15, 16, 14, 17),
    "quick": (10, 11, 12, 13, 15, 16, 14, 17, 20, 23, 22, 24, 25),
    "readmsg": (40, 42, 41, 53),
    "takemsg": (40, 42, 41, 53),
    "writemsg": (51, 42, 41, 53, 52),
    "sinkshape": (10, 11, 12, 13, 15, 16, 14),
    "sinkread": (10, 11, 12, 13, 15, 16, 14),
    # 12 is C's alone: a line has no letter for an object of no kind
    "sinkwrite": (10, 7, 11, 13, 15, 16, 14),
    "sinkcheck": (1, 10, 11, 12, 13, 15, 16, 14, 43),
}

# A number is its value: leading zeros are read, up to 512 bytes of line.
ODD_BUT_READABLE = (
    "default 072",
    "default 0",
    "default 00",
    "default 00000000000000000000072",
    "default " + "0" * 502 + "72",
    "build 072 072 0300 00 01 000",
)


EXAMPLE_OF_THE_PAGE = (
    "build 72 72 300 0 1 0",
    "rows 130 0 0 0 0 130 0 0 0 0",
    "setup 200",
    "attach 200 1 500",
    "request 200 1 40051545",
    "remaining 200",
    "shape 9 00000000 00000000 00000000 00000000 00000000 00000000 00000000",
    "hello",
)


def all_lines():
    book.put("table")
    book.put("remaining 200")
    book.put("setup 200")
    for line in EXAMPLE_OF_THE_PAGE:
        book.put(line)
    for line in STRANGE_LINES:
        assert book.put(line) == "?", line
    for line in ODD_BUT_READABLE:
        assert book.put(line) != "?", line
    rules.default_lines()
    rules.build_lines()
    shapes.shape_lines()
    shapes.read_lines()
    shapes.write_lines()
    rules.check_lines()
    requests.answer_lines()
    ports.port_lines()
    messages.message_lines()
    sinks.sink_lines()
    ratings.rating_lines()
    cables.cable_lines()
    summaries.summary_lines()
    # the end of the input in the middle of a line: this line has no newline
    book.put("build 72 72 300 0 1 0")


def count_lines():
    """Lines per refusal number, the numbers given too seldom, and what begins an
    answer and is no number of the table."""
    by_number = Counter()
    by_call = Counter()
    by_both = Counter()
    for given, answered in zip(book.given, book.answered):
        first = answered.split(" ")[0]
        by_number[first] += 1
        by_call["?" if first == "?" else given.split(" ")[0]] += 1
        by_both[given.split(" ")[0], first] += 1
    print("lines in all: %d" % len(book.given))
    print("by call: " + ", ".join("%s %d" % pair for pair in sorted(by_call.items())))
    print("accepted (0): %d" % by_number["0"])
    print("unreadable (?): %d, %.1f %%" % (by_number["?"], 100 * by_number["?"] / len(book.given)))
    for number in NUMBERS:
        print("refusal %2d: %d" % (number, by_number[str(number)]))
    seldom = [number for number in NUMBERS if by_number[str(number)] < FEWEST]
    for call, numbers in NUMBERS_OF_CALLS.items():
        print("%s: %s" % (call, ", ".join("%d %d times" % (number, by_both[call, str(number)]) for number in numbers)))
        seldom += ["%d of %s" % (number, call) for number in numbers if by_both[call, str(number)] < FEWEST]
    return seldom, sorted(set(by_number) - {"0", "?", "rows"} - {str(number) for number in NUMBERS})


def main():
    if len(sys.argv) != 3:
        sys.exit("usage: python3 generate.py console.in console.out")
    all_lines()
    with open(sys.argv[1], "wb") as file:
        file.write("\n".join(book.given).encode("latin-1"))
    with open(sys.argv[2], "wb") as file:
        file.write(("\n".join(book.answered) + "\n").encode("ascii"))
    seldom, unknown = count_lines()
    if seldom:
        sys.exit("given fewer than %d times: %s" % (FEWEST, seldom))
    if unknown:
        sys.exit("no number of the table: %s" % unknown)


if __name__ == "__main__":
    main()
