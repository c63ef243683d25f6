"""docs/TRACE.md, held to the statement and to the tree.

usage: python3 tools/trace.py [ROOT]

TRACE has each heading of docs/STATEMENT.md, in its order. Under it stand tables, and their first column quotes that part of the
statement, with <br> between one quotation and the next:

    words of the statement .. more of its words     each piece between ` .. ` stands there, markdown aside
    rows A .. B of the table H                      table rows by their first cells (`;` between several); the table's head begins with H
    *words of our own*                              beside the statement, not looked for

No sentence and no table row below a heading of the statement is left out. Beyond the first column each name in backticks is in the code of crates/,
each file is there, and the cases named behind a file of cases (`file`: one; another .. to a third) are words of that file.

The comments of the definitions, crates/*/specs, quote the statement in double quotes: three words or more that stand there so, `..` between two pieces.
"""

import re
import sys
from pathlib import Path

STATEMENT = "docs/STATEMENT.md"
TRACE = "docs/TRACE.md"
# What is behind the colon of these is words of the file; behind that of any other file it is a remark.
CASES = re.compile(r"\w+\.txt|worked/.*|rust/tests/differential/.*|tests/c/(calls|sinks|summaries)\.c|cases")
NAME = re.compile(r"[A-Za-z_][\w-]*(::[A-Za-z_]\w*)*")
TABLE_ROWS = re.compile(r"rows? (.+) of the table (.+)")


def lines_of(path):
    return path.read_text(encoding="utf-8").split("\n")


def plain(text):
    """Without the signs of markdown, and with one space where there are several."""
    text = re.sub(r"\[([^\]]*)\]\([^)]*\)", r"\1", text)
    return " ".join(re.sub(r"[*`]", "", text).split())


def cells_of(line):
    return [cell.strip() for cell in line.strip().strip("|").split("|")]


def is_rule(line):
    return re.fullmatch(r"\|[-:| ]+\|", line) is not None


def parts_of(text):
    """The pieces between ` .. ` and ` .. to `; a piece may be missing at either end."""
    return [part.strip() for part in re.split(r"(?:^|\s)\.\.(?:\s+to\s+|\s+|$)", text) if part.strip()]


def sections_of(path):
    """Each heading with its line and the lines below it."""
    found = []
    for number, line in enumerate(lines_of(path), 1):
        if re.match(r"###? ", line):
            found.append((line, number, []))
        elif found:
            found[-1][2].append((number, line))
    return found


def tables_in(lines):
    """Each table: the cells of its head, and its rows with their lines."""
    tables, inside = [], False
    for number, line in lines:
        if not line.startswith("|"):
            inside = False
        elif not inside:
            inside = True
            tables.append((cells_of(line), []))
        elif not is_rule(line):
            tables[-1][1].append((number, cells_of(line)))
    return tables


class Part:
    """A part of the statement, below one heading: its sentences and its tables, and which of them are traced."""

    def __init__(self, lines):
        self.text, self.sentences, self.tables = "", [], []
        block, at = [], 0
        for number, line in [*lines, (0, "")]:
            if block and (not line.strip() or line.startswith(("|", "- "))):
                self.take(" ".join(block), at)
                block = []
            if line.strip() and not line.startswith("|"):
                at = at if block else number
                block.append(re.sub(r"^- ", "", line))
        for head, rows in tables_in(lines):
            keys, above = [], ""
            for number, cells in rows:
                above = plain(cells[0]) or above
                keys.append([above, number, False])
            self.tables.append((", ".join(plain(cell) for cell in head), keys))

    def take(self, block, line):
        for sentence in re.split(r"(?<=\.)\s+(?=[A-Z0-9(*`\[])", block):
            start = len(self.text)
            self.text += plain(sentence) + " "
            # "It", before a list, and the number of a refusal, behind a sentence, say nothing by themselves.
            if len(plain(sentence).split()) > 2:
                self.sentences.append([start, len(self.text) - 1, line, False])

    def quote(self, piece):
        """Whether these words stand here; the sentences that they stand in are traced."""
        found = False
        for match in re.finditer(rf"(?<!\w){re.escape(piece)}(?!\w)", self.text):
            found = True
            for sentence in self.sentences:
                sentence[3] = sentence[3] or (match.start() < sentence[1] and sentence[0] < match.end())
        return found

    def name_rows(self, wanted, head):
        """What is wrong with naming these rows of that table, or nothing."""
        tables = [rows for text, rows in self.tables if text.startswith(head)]
        if len(tables) != 1:
            return f"{len(tables)} tables of this heading begin with '{head}'"
        keys = [row[0] for row in tables[0]]
        for piece in wanted.split("; "):
            ends = parts_of(piece)
            missing = [end for end in ends if end not in keys]
            if missing:
                return f"no row '{missing[0]}' in the table '{head}'"
            if len(ends) > 2:
                return f"not one row, and not from a row to a row: '{piece}'"
            last = len(keys) - 1 - keys[::-1].index(ends[-1])
            for row in tables[0][keys.index(ends[0]) : last + 1]:
                row[2] = True
        return None

    def left_out(self):
        for start, end, line, traced in self.sentences:
            if not traced:
                yield line, f"no row of {TRACE} has a word of: {self.text[start:end]}"
        for head, rows in self.tables:
            for key, line, traced in rows:
                if not traced:
                    yield line, f"no row of {TRACE} names the row '{key}' of the table '{head}'"


def judge_quotations(cell, part, place, faults):
    for item in cell.split("<br>"):
        item = item.strip()
        rows = TABLE_ROWS.fullmatch(plain(item))
        if re.fullmatch(r"\*[^*]+\*", item):
            continue
        if rows:
            wrong = part.name_rows(rows[1], rows[2])
            if wrong:
                faults.append(f"{place}: {wrong}")
            continue
        pieces = parts_of(plain(item))
        if not pieces:
            faults.append(f"{place}: nothing is quoted")
        for piece in pieces:
            if not part.quote(piece):
                faults.append(f"{place}: {STATEMENT} does not say under this heading: {piece}")


def judge_statement(root, sections, faults):
    statement = sections_of(root / STATEMENT)
    order = [heading for heading, _, _ in statement]
    here = [heading for heading, _, _ in sections if heading in order]
    for heading, number, _ in statement:
        if heading not in here:
            faults.append(f"{STATEMENT}:{number}: {TRACE} has no heading '{heading}'")
    if here != [heading for heading in order if heading in here]:
        faults.append(f"{TRACE}: its headings are not in the order of {STATEMENT}")
    parts = {heading: Part(lines) for heading, _, lines in statement}
    rows = 0
    for heading, _, lines in sections:
        for head, table in tables_in(lines):
            for number, cells in table:
                place = f"{TRACE}:{number}"
                if len(cells) != len(head):
                    faults.append(f"{place}: {len(cells)} cells, and the table has {len(head)}")
                elif heading in parts:
                    rows += 1
                    judge_quotations(cells[0], parts[heading], place, faults)
                    if not any(cells[1:]):
                        faults.append(f"{place}: nothing stands beside the sentence")
    for heading in here:
        faults.extend(f"{STATEMENT}:{line}: {wrong}" for line, wrong in parts[heading].left_out())
    return rows


def names_of_code(root):
    """Every name in the code, the proofs and the wrong answers of the crates, without comments, and the crates themselves."""
    found = {path.name for path in (root / "crates").iterdir()}
    # Not what rt makes, in out/.
    for path in (path for part in ("src", "specs", "proofs", "must-fail") for path in (root / "crates").glob(f"*/{part}/**/*")):
        if path.suffix in (".rt", ".antt", ".edit"):
            text = re.sub(r"(--|//) .*", "", path.read_text(encoding="utf-8"))
            found.update(re.findall(r"[A-Za-z_][\w-]*", text))
            if path.suffix == ".antt":
                found.add(path.stem)
    return found


def is_file(name):
    return "/" in name or re.fullmatch(r"\w+(\.\w+)+", name)


def file_of(root, name):
    name = name.split(" ")[0]
    places = [root / name, root / "tests/cases" / name, root / "rust/tests" / name]
    return next((place for place in places if place.exists()), None)


def judge_names(root, text, place, names, faults):
    for name in re.findall(r"`([^`]+)`", text):
        if "NAME" in name or "*" in name:
            continue
        if is_file(name):
            if not file_of(root, name):
                faults.append(f"{place}: there is no file {name}")
        elif NAME.fullmatch(name):
            for part in name.split("::"):
                if part not in names:
                    faults.append(f"{place}: {part} is nowhere in crates/")


def text_of(root, name, texts):
    """A file of cases as one line; the sign before a comment goes."""
    if name not in texts:
        path = root / "crates/cases/stdout" if name == "cases" else file_of(root, name)
        lines = lines_of(path) if path and path.is_file() else []
        texts[name] = " ".join(" ".join(re.sub(r"^# ", "", line) for line in lines).split())
    return texts[name]


def judge_cases(root, cell, place, texts, faults):
    """The count of the words that were looked for in files of cases."""
    pieces = re.split(r"`([^`]+)`", cell)
    looked, files = 0, []
    for at in range(1, len(pieces), 2):
        name, behind = pieces[at], pieces[at + 1]
        if not CASES.fullmatch(name):
            files = []
            continue
        files.append(name)
        if behind.startswith(" and"):
            continue
        if behind.startswith(": "):
            named = behind[2:].split(";")
            # What leads over to the next name is no case.
            if at + 2 < len(pieces):
                named = named[:-1] or named
            for part in (part for case in named for part in parts_of(case.strip())):
                looked += 1
                faults.extend(f"{place}: {file} has no case with: {part}" for file in files if part not in text_of(root, file, texts))
        files = []
    return looked


def words_of(text):
    return " ".join(re.findall(r"[a-z0-9]+", text.lower()))


def comments_of(path):
    """Each comment as one line, with the number of its first line."""
    found, before = [], 0
    for number, line in enumerate(lines_of(path), 1):
        comment = re.match(r"\s*-- ?(.*)", line)
        if not comment:
            continue
        if found and before == number - 1:
            found[-1][1] += " " + comment[1]
        else:
            found.append([number, comment[1]])
        before = number
    return found


def judge_comments(root, faults):
    """The count of the quotations in the comments of the definitions."""
    statement, looked = f" {words_of((root / STATEMENT).read_text(encoding='utf-8'))} ", 0
    for path in sorted((root / "crates").glob("*/specs/*.antt")):
        for number, comment in comments_of(path):
            for piece in (piece for quoted in re.findall(r'"([^"]+)"', comment) for piece in quoted.split("..")):
                if len(words_of(piece).split()) < 3:
                    continue
                looked += 1
                if f" {words_of(piece)} " not in statement:
                    faults.append(f"{path.relative_to(root)}:{number}: {STATEMENT} does not say: {piece.strip()}")
    return looked


def main(words):
    if words and words[0] in ("-h", "--help"):
        print(__doc__.strip())
        return 0
    if len(words) > 1:
        print("trace: expected one folder or nothing (--help tells)", file=sys.stderr)
        return 2
    root = Path(words[0] if words else Path(__file__).parent.parent).resolve()
    missing = [name for name in (STATEMENT, TRACE, "crates") if not (root / name).exists()]
    if missing:
        print(f"trace: there is no {missing[0]} in {root}", file=sys.stderr)
        return 2
    faults, texts, looked = [], {}, 0
    sections = sections_of(root / TRACE)
    rows = judge_statement(root, sections, faults)
    names = names_of_code(root)
    quoting = {heading for heading, _, _ in sections_of(root / STATEMENT)}
    for heading, _, lines in sections:
        for number, line in lines:
            place = f"{TRACE}:{number}"
            cells = cells_of(line)[1:] if line.startswith("|") and heading in quoting else [line]
            for cell in cells:
                judge_names(root, cell, place, names, faults)
                if line.startswith("|"):
                    looked += judge_cases(root, cell, place, texts, faults)
    quoted = judge_comments(root, faults)
    for fault in faults:
        print(fault, file=sys.stderr)
    if faults:
        return 1
    print(f"trace: {rows} rows have every sentence and table row of the statement, {looked} cases are where they say, {quoted} quotations in definitions are its words")
    return 0


if __name__ == "__main__":
    sys.exit(main(sys.argv[1:]))
