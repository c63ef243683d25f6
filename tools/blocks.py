"""Where the console's blocks of answers end (docs/DECISIONS.md): before a number or the words of a list that might not fit, else after 4096 bytes.

usage: python3 tools/blocks.py COMMAND..   the console, with what it is run by where the machine needs that

Its standard output is a socket here that keeps the ends of writes. The inputs are short enough to be read at once, so that only a full block is
written before the end. They begin with one line more each time, so that every place of an answer comes to the end of a block.
"""

import re
import socket
import subprocess
import sys
import tempfile

BLOCK = 4096
# What is never cut in two, with the room that it has whatever it takes: the digits of a number, and the words of a list with their spaces.
NUMBER, WORDS = 5, 63
# How long the console may take for a write: it takes a few milliseconds for all.
SECONDS = 60
ROWS = "rows" + " 65535 255 500 7 123" * 4 + " 130 0 500 130 60" * 5
LISTS = ["build 72 72 300 0 1 0", "build 0 72 300 0 1 0", "build 130 130 500 0 0 0", "build 200 15 500 1 1 63"]
BUFFER = "writemsg 0 4 3 1 2 1 1 40 0001912C 0002D12C 0004B12C C8DC213C 00000000 00000000 00000000"


def inputs():
    for pad in range(180):
        lines = ["x"] * pad + [ROWS]
        while True:
            at = len(lines)
            line = LISTS[at % 4] if at % 3 else BUFFER if at % 5 == 0 else "table"
            if sum(len(it) + 1 for it in lines) + len(line) + 1 > BLOCK:
                break
            lines.append(line)
        yield lines


def parts(line, answer):
    """The parts of an answer, each with its room."""
    listing = re.fullmatch(r"(\d+ \d+ \d+)(.*)", answer) if line.startswith("build") else None
    text, words = listing.groups() if listing else (answer, None)
    told = text.split(" ")
    # The bytes of a buffer are digits of their own.
    numbers = told[:3] if line.startswith("writemsg") else told
    for at, it in enumerate(told):
        if at:
            yield 1, 1
        if at < len(numbers) and it.isdigit():
            yield len(it), NUMBER
        else:
            yield from [(1, 1)] * len(it)
    if words is not None:
        yield len(words), WORDS
    yield 1, 1


def ends(lines, answers, number=NUMBER, words=WORDS):
    """How long each write is."""
    rooms, writes, waits = {NUMBER: number, WORDS: words}, [], 0
    for line, answer in zip(lines, answers):
        for length, room in parts(line, answer):
            if BLOCK - rooms.get(room, room) < waits:
                writes.append(waits)
                waits = 0
            waits += length
    return [*writes, waits]


def told(command, lines):
    """The writes of a run."""
    here, there = socket.socketpair(socket.AF_UNIX, socket.SOCK_SEQPACKET)
    here.settimeout(SECONDS)
    with tempfile.TemporaryFile() as file:
        file.write("".join(f"{it}\n" for it in lines).encode())
        file.seek(0)
        try:
            run = subprocess.Popen(command, stdin=file, stdout=there.fileno())
        except OSError as error:
            sys.exit(f"blocks: the console cannot be run: {error}")
    there.close()
    try:
        writes = list(iter(lambda: here.recv(2 * BLOCK), b""))
    except TimeoutError:
        run.kill()
        sys.exit(f"blocks: the console wrote nothing for {SECONDS} seconds and did not end")
    here.close()
    if run.wait() != 0:
        sys.exit(f"blocks: the console ended with {run.returncode}")
    return writes


def main():
    command = sys.argv[1:]
    if not command or command[0] in ("-h", "--help"):
        print(__doc__.strip(), file=sys.stdout if command else sys.stderr)
        sys.exit(0 if command else 2)
    runs = writes = 0
    # Whether the inputs tell the rule from others: room for a digit less, for a byte of the words less, and for one byte of either.
    others = {(NUMBER - 1, WORDS): False, (NUMBER, WORDS - 1): False, (1, WORDS): False, (NUMBER, 1): False}
    for lines in inputs():
        made = told(command, lines)
        answers = b"".join(made).decode().split("\n")[:-1]
        if len(answers) != len(lines):
            sys.exit(f"blocks: {len(lines)} lines have {len(answers)} answers")
        wanted = ends(lines, answers)
        if [len(it) for it in made] != wanted:
            sys.exit(f"blocks: behind {lines.count('x')} lines of x the writes are {[len(it) for it in made]} bytes long, not {wanted}")
        for other in others:
            others[other] |= ends(lines, answers, *other) != wanted
        runs, writes = runs + 1, writes + len(made)
    same = [other for other, differs in others.items() if not differs]
    if same:
        sys.exit(f"blocks: the inputs do not tell {NUMBER, WORDS} from {same}")
    print(f"blocks: {writes} writes of {runs} runs of the console end where they should")


if __name__ == "__main__":
    main()
