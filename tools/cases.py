"""The hand-worked cases of tests/cases, given to a console.

A line of a case file is blank, or begins with '#', or is a case: CALL -> ANSWER. The calls of a file go on from the rows
that the call before left; at the start of each file there are no rows.

    python3 tools/cases.py calls > CALLS               every call, one a line
    python3 tools/cases.py compare ANSWERS_FILE WHO    what WHO, a console, printed for CALLS, against the answers

With --pages it is the examples of documents instead: an indented line that begins with '> ' is a call, and the line under it
its answer. A page goes on and starts as a case file does, and each call that docs/CONSOLE.md names has to have an example there.
"""

import argparse
import os
import pathlib
import sys

FOLDER = "tests/cases"
ARROW = " -> "
# The pages with examples, and the one that has all of the calls, with the heading over their list.
PAGES = "README.md", "docs/CONSOLE.md"
EVERY_CALL, LISTED_UNDER = "docs/CONSOLE.md", "## In short"
INDENT, TYPED = "    ", "    > "
# Goes before the first call of each file.
NO_ROWS, NONE_SET = "rows", "rows 0"


def fail(why):
    sys.exit("cases: " + why)


def lines_of(path):
    try:
        lines = path.read_bytes().decode(errors="replace").split("\n")
    except OSError as error:
        fail(str(error))
    if lines[-1] == "":
        lines.pop()
    return lines


def cases_of(path, shown):
    """Each case of a file: its place, the call and the answer."""
    if path.suffix != ".txt":
        fail(f"{shown}/{path.name}: a case file ends in .txt")
    found = []
    for at, line in enumerate(lines_of(path), 1):
        if not line.strip() or line.startswith("#"):
            continue
        place = f"{shown}/{path.name}:{at}"
        parts = line.split(ARROW)
        if len(parts) != 2 or not all(parts):
            fail(f"{place}: not blank, no '#', and not CALL{ARROW}ANSWER: {line}")
        found.append((place, *parts))
    if not found:
        fail(f"{shown}/{path.name}: no case in this file")
    return found


def read_files(given):
    """The cases of each file, in the order of the files' names. Nothing else may lie in the folder: it would not be asked."""
    folder = pathlib.Path(given or pathlib.Path(__file__).resolve().parent.parent / FOLDER)
    shown = given or FOLDER
    try:
        paths = sorted(folder.iterdir())
    except OSError as error:
        fail(str(error))
    if not paths:
        fail(f"{shown}: no case in this folder")
    return [cases_of(path, shown) for path in paths]


def examples_of(path, shown):
    """Each example of a page: its place, the call and the answer."""
    lines = lines_of(path)
    found = []
    for at, line in enumerate(lines):
        if line.startswith(TYPED):
            place = f"{shown}:{at + 1}"
            answer = lines[at + 1] if at + 1 < len(lines) else ""
            if not answer.startswith(INDENT) or answer.startswith(TYPED):
                fail(f"{place}: a call without its answer under it: {line}")
            found.append((place, line.removeprefix(TYPED), answer.removeprefix(INDENT)))
    if not found:
        fail(f"{shown}: no example on this page")
    return found


def calls_listed(path, shown):
    """The first word of each line of the page's list of calls, up to the blank line behind the last one that is a call."""
    lines = lines_of(path)
    if LISTED_UNDER not in lines:
        fail(f"{shown}: there is no heading '{LISTED_UNDER}'")
    under = lines[lines.index(LISTED_UNDER) + 1 :]
    names = []
    for line in under:
        if line.startswith("#"):
            break
        first = line.removeprefix(INDENT).split(" ")[0]
        if line.startswith(INDENT) and first.islower() and first != "line":
            names.append(first)
    return names


def read_pages(given):
    root = pathlib.Path(given or pathlib.Path(__file__).resolve().parent.parent)
    pages = {shown: examples_of(root / shown, shown) for shown in PAGES}
    tried = {call.split(" ")[0] for _, call, _ in pages[EVERY_CALL]}
    for name in calls_listed(root / EVERY_CALL, EVERY_CALL):
        if name not in tried:
            fail(f"{EVERY_CALL}: {name} has no example")
    return list(pages.values())


def steps_of(files):
    """All that a console is asked, with the place and the answer that is right."""
    for cases in files:
        first, _, _ = cases[0]
        yield first, NO_ROWS, NONE_SET
        yield from cases


def compare(files, what, path, who):
    steps = list(steps_of(files))
    answers = lines_of(pathlib.Path(path))
    # Answers to other calls than these would differ at every line.
    if len(answers) != len(steps):
        print(f"cases: {who} answered {len(answers)} lines where {len(steps)} are asked: were they made from these calls?")
        sys.exit(1)
    wrong = False
    for (place, call, right), answer in zip(steps, answers):
        if answer != right:
            wrong = True
            print(f"{place}: {call}\n    expected: {right}\n    {who} answered: {answer}")
    if wrong:
        sys.exit(1)
    count = sum(len(cases) for cases in files)
    print(f"cases: {count} {what} of {len(files)} files, {who} answers all")


def main():
    parser = argparse.ArgumentParser(description=__doc__, formatter_class=argparse.RawDescriptionHelpFormatter)
    parser.add_argument("command", choices=["calls", "compare"])
    parser.add_argument("words", nargs="*", metavar="ANSWERS_FILE WHO", help="of compare")
    parser.add_argument("--folder", metavar="DIR", help=f"read the case files of DIR, not of {FOLDER}; or the pages of DIR")
    parser.add_argument("--pages", action="store_true", help=f"the examples of {' and '.join(PAGES)}, not the case files")
    asked = parser.parse_intermixed_args()
    if len(asked.words) != (2 if asked.command == "compare" else 0):
        parser.error("compare takes ANSWERS_FILE and WHO, calls takes nothing")
    files = read_pages(asked.folder) if asked.pages else read_files(asked.folder)
    if asked.command == "compare":
        compare(files, "examples" if asked.pages else "lines", *asked.words)
        return
    for _, call, _ in steps_of(files):
        print(call)
    sys.stdout.flush()


try:
    main()
except OSError as error:
    # What waits to be written would be tried again at the end.
    os.dup2(os.open(os.devnull, os.O_WRONLY), sys.stdout.fileno())
    sys.exit(f"cases: cannot read or write: {error.strerror}")
