"""Every public function with its theorems: the table in docs/TRACE.md, held to the source.

usage: python3 tools/public_calls.py [ROOT]

A function is public when another crate can reach it: it stands in lib.rt, lib.rt has a `pub use module::name;` or
`pub use module::{name, ..};` for it, or it is a method of a type or a trait that is public in this way. A conversion, by From or TryFrom, needs no
row, whatever type it is to: its ghost member has to be an equation, `λ a r. r ≡ ..`, with names, numbers and parentheses alone on its right side,
which settles its answer by itself, or the promise of a public function of the crate, which has its row. Of a struct with one field and no name for
it the equation may be that of the field, `r.0 ≡ ..`. Another trait is refused unless it is one of ours, whose functions are asked at the trait.
Programs, which have a main.rt, and the crates in EXEMPT are not asked. No crate can reach into a static library, NAME_c: its exports have to be the
public functions of the library NAME, each with the arguments, the answer and the clauses that it has there.
Each public function has one row under "## Every public function":

    | `crate::name` or `crate::Type::name` | what it refuses, or "nothing" | outcome | refusals | unread places |

The last three cells are theorems of crates/demands/proofs, `name` or `name`, `name`, or a dash and a reason: "- takes no list".
"No second outcome" is asked of all, and a theorem of refusals of each that refuses something. The contract has an `ensures`
and no `requires`. A function that gives the number of a refusal has its line in the claim that none gives a withdrawn one, Never21 in
WITHDRAWN, under its own name. What gives one is a function whose second cell has a number or "own", and those
of HANDED, which refuse nothing themselves and give the number that they are handed.
"""

import re
import sys
from pathlib import Path

TABLE = "docs/TRACE.md"
HEADING = "## Every public function"
WITHDRAWN = "crates/demands/specs/Withdrawn.antt"
HANDED = {"`verdicts::Verdict::placeless`", "`verdicts::Verdict::at`", "`verdicts::Verdict::passed`", "`lists::refuse`"}
# DECISIONS, "Which functions have no contract that settles their answer?": what the programs print and take their lines apart with.
EXEMPT = {"lines", "object_lines", "message_lines", "sink_lines", "summary_lines"}
# A conversion has the whole of its answer in this member.
CONVERSIONS = {"From": "from_gives", "TryFrom": "try_from_gives"}
# A type of one crate alone that has an invariant: what its conversion promises beside that, known by its words.
BY_INVARIANT = {"rules::Port": "λ p r. MatchResult r (λ port. port.profile ≡ p) (λ v. passed_by (profile_refusals p) ≡ Err v)"}
COLUMNS = ("outcome", "refusals", "unread places")
NAMES = re.compile(r"`[^`]+`(, `[^`]+`)*")
REASON = re.compile(r"- \S.*")


def lines_of(path):
    return path.read_text(encoding="utf-8").split("\n")


def crates_of(root, faults):
    """The libraries of crates.txt, in its order, and the static libraries."""
    words = [line.split(":")[0].split() for line in lines_of(root / "crates.txt") if line.strip() and not line.startswith("#")]
    libraries, static = [], []
    for name, *kind in words:
        source = root / "crates" / name / "src"
        if name in EXEMPT or (source / "main.rt").is_file():
            continue
        if not (source / "lib.rt").is_file():
            faults.append(f"crates.txt: {name} has no src/lib.rt and no src/main.rt")
        elif "staticlib" in kind:
            static.append(name)
        else:
            libraries.append(name)
    return libraries, static


def items_of(lines):
    """Each item of `pub use`, with its line: the one that it begins in, where it goes on to a line with its end."""
    number = 0
    while number < len(lines):
        number, line, at = number + 1, lines[number], number + 1
        while re.match(r"pub use [^;]*$", line) and number < len(lines):
            number, line = number + 1, f"{line} {lines[number].strip()}"
        yield at, line


def offered_by(source, place, faults):
    """What lib.rt offers by name: the types that stand there or in a module, and each `module::name` of its `pub use` lines."""
    types, uses = set(), set()
    for number, line in items_of(lines_of(source / "lib.rt")):
        declared = re.match(r"pub (?:struct|enum|trait) (\w+)", line)
        used = re.fullmatch(r"pub use (\w+)::(?:(\w+)|\{([\w, ]+)\});", line)
        if declared:
            types.add(declared[1])
        elif used and (source / f"{used[1]}.rt").is_file():
            for name in re.findall(r"\w+", used[2] or used[3]):
                types.add(name)
                uses.add(f"{used[1]}::{name}")
        elif re.match(r"pub (use|mod)\b", line):
            faults.append(f"{place}/lib.rt:{number}: this form is not read here: {line}")
    return types, uses


def head_of(lines):
    """The lines of the function that stands first, up to its body: that begins at a brace of its signature, or at one below its clauses.
    In a trait a semicolon may end it."""
    head, clauses = [], False
    for line in lines:
        clauses = clauses or re.match(r"\s*(requires|ensures)\b", line) is not None
        if not clauses and "{" in line:
            return [*head, line[: line.index("{")]]
        if clauses and line.startswith(f"{' ' * (len(lines[0]) - len(lines[0].lstrip()))}{{"):
            return head
        head.append(line)
        if line.endswith(";"):
            break
    return head


def clauses_from(lines):
    """The words that begin the clauses of the function that stands first."""
    return [match[1] for match in (re.match(r"\s*(requires|ensures)\b", line) for line in head_of(lines)) if match]


def block_of(line):
    """What a block is of, whatever its parameters: its trait, or None, and its type. A trait is of itself. None for another line."""
    line, before = line.replace("->", ""), None
    while line != before:
        line, before = re.sub(r"<[^<>]*>", "", line), line
    match = re.fullmatch(r"impl (?:(?:\w+::)*(\w+) for )?(\w+)(?: where .*)? ?\{?\}?", line)
    if match:
        return match[1], match[2]
    match = re.match(r"(?:pub(?:\(crate\))? )?trait (\w+)\b", line)
    return (match[1], match[1]) if match else None


def traits_in(source):
    """The traits of a crate."""
    found = (re.match(r"(?:pub(?:\(crate\))? )?trait (\w+)\b", line) for path in source.glob("*.rt") for line in lines_of(path))
    return {match[1] for match in found if match}


def blocks_in(path, place, traits, faults):
    """Each line of a file with its number, and the trait and the type of the block that it stands in."""
    trait = owner = None
    for at, line in enumerate(lines_of(path), 1):
        block = block_of(line)
        if block:
            trait, owner = block
            if trait not in {None, *traits, *CONVERSIONS}:
                faults.append(f"{place}:{at}: a trait that is not known here: {line}")
        elif re.match(r"\s*(unsafe )?impl\b", line):
            faults.append(f"{place}:{at}: this form is not read here: {line}")
        yield at, line, trait, owner
        if line == "}" or block and line.endswith("}"):
            trait = owner = None


def functions_in(path, place, traits, faults):
    """Each `pub fn` of a file, and each function of a trait: the type or trait that it is of, its name, its line, and its clauses."""
    lines = lines_of(path)
    for at, line, trait, owner in blocks_in(path, place, traits, faults):
        function = re.match(r"\s*(pub )?(?:[\w\"]+ )*fn (\w+)", line)
        if function and (function[1] or trait is not None and trait == owner):
            yield owner, function[2], at, clauses_from(lines[at - 1 :])


def member_of(block, name):
    """The words of a ghost member of a block, or None where it has none, or more than one."""
    code = " ".join(" ".join(line.split("//")[0] for line in block).split())
    found = re.findall(rf"(?<!\S)ghost {name} = {{ ([^;]*) }};", code)
    return found[0] if len(found) == 1 else None


def with_one_field(source):
    """The structs of a crate that have one field, and no name for it."""
    form = r"(?:pub(?:\(crate\))? )?struct (\w+)\((?:pub(?:\(crate\))? )?[\w:]+\);"
    found = (re.match(form, line) for path in source.glob("*.rt") for line in lines_of(path))
    return {match[1] for match in found if match}


def conversions_in(path, crate, traits, promises, faults):
    """How many conversions a file has: the answer of each is an equation, or one of these promises of public functions."""
    lines, found, place = lines_of(path), 0, f"crates/{crate}/src/{path.name}"
    one_field = with_one_field(path.parent)
    for at, line, trait, owner in blocks_in(path, place, traits, []):
        if trait in CONVERSIONS and block_of(line):
            found += 1
            rest = lines[at:]
            member = member_of(rest[: rest.index("}")], CONVERSIONS[trait]) or ""
            # No sum, product, arrow or second equation has its sign here; and the answer is not said of itself.
            equation = re.fullmatch(r"λ (\w+) (\w+)\. \2(\.0)? ≡ (?:(?!\b\2\b)[\w.() ])+", member)
            whole = equation and (not equation[3] or trait == "From" and owner in one_field)
            if not whole and member not in promises and BY_INVARIANT.get(f"{crate}::{owner}") != member:
                faults.append(f"{place}:{at}: a conversion that no equation `ghost {CONVERSIONS[trait]} = {{ λ a r. r ≡ .. }};` settles: {line}")
    return found


def public_functions(root, crate, traits, faults):
    """Each public function of a crate, its name, where it stands, and its clauses; and how many conversions. `traits` are those of all crates."""
    source, place = root / "crates" / crate / "src", f"crates/{crate}/src"
    types, uses = offered_by(source, place, faults)
    found, promises, conversions = [], set(), 0
    for path in sorted(source.glob("*.rt")):
        for owner, name, line, clauses in functions_in(path, f"{place}/{path.name}", traits, faults):
            public = owner in types if owner else (path.stem == "lib" or f"{path.stem}::{name}" in uses)
            if public:
                found.append((f"{crate}::{owner + '::' if owner else ''}{name}", f"{place}/{path.name}:{line}", clauses))
                promises.update(re.findall(r"\bensures \{ (\w+) ", " ".join(head_of(lines_of(path)[line - 1 :]))))
    for path in sorted(source.glob("*.rt")):
        conversions += conversions_in(path, crate, traits, promises, faults)
    return found, conversions


def theorems_of(root):
    """Every `pub NAME :` of demands, in a `module _` block too. The fields of a record have that form and are none."""
    found = set()
    for path in root.glob("crates/demands/proofs/*.antt"):
        fields = False
        for line in lines_of(path):
            if line[:1].strip():
                fields = bool(re.match(r"(pub )?record\b", line))
            theorem = re.match(r"\s*pub (\S+) :", line)
            if theorem and not fields:
                found.add(theorem[1])
    return found


def never_withdrawn(root):
    """The functions that the claim has a line for: the fields of its record."""
    return {line[1] for line in (re.match(r"  pub (\S+) :", text) for text in lines_of(root / WITHDRAWN)) if line}


def rows_of(root, faults):
    """Each row of the table: its place and its cells."""
    lines = lines_of(root / TABLE)
    start = lines.index(HEADING) + 1 if HEADING in lines else len(lines)
    rows = []
    for number, line in enumerate(lines[start:], start + 1):
        if line.startswith("## "):
            break
        if line.startswith("|"):
            rows.append((f"{TABLE}:{number}", [cell.strip() for cell in line.strip().strip("|").split("|")]))
    # The first two are the names of the columns and the rule below them.
    if len(rows) < 3:
        faults.append(f"{TABLE}: no table under '{HEADING}'")
    return rows[2:]


def names_in(cell):
    return re.findall(r"`([^`]+)`", cell) if NAMES.fullmatch(cell) else []


def judge_row(place, function, cells, theorems, faults):
    refuses, outcome, refusals, _ = cells
    if not refuses:
        faults.append(f"{place}: {function}: the cell of what it refuses is empty")
    for column, cell in zip(COLUMNS, cells[1:]):
        if not NAMES.fullmatch(cell) and not REASON.fullmatch(cell):
            faults.append(f"{place}: {function}: {column}: not `names`, and no dash with a reason: '{cell}'")
        for name in names_in(cell):
            if name not in theorems:
                faults.append(f"{place}: {function}: {column}: there is no theorem {name} in crates/demands/proofs")
    if REASON.fullmatch(outcome):
        faults.append(f"{place}: {function}: no theorem says that it has no second outcome")
    if REASON.fullmatch(refusals) and refuses != "nothing":
        faults.append(f"{place}: {function}: it refuses something, and no theorem says when")


def judge_withdrawn(root, rows, faults):
    """Each function that gives the number of a refusal, its own or one that it is handed, has a line in the claim."""
    claimed, public = never_withdrawn(root), set()
    for place, cells in rows:
        if len(cells) != 5:
            continue
        name = cells[0].strip("`").split("::")[-1]
        public.add(name)
        gives = cells[0] in HANDED or re.search(r"\d|own", cells[1])
        if gives and name not in claimed:
            faults.append(f"{place}: {cells[0]} gives the number of a refusal, and {WITHDRAWN} has no line for {name}")
    for name in sorted(claimed - public):
        faults.append(f"{WITHDRAWN}: {name} is no public function")


def judge_table(root, functions, faults):
    """The theorems that the table names."""
    theorems, seen, named = theorems_of(root), set(), set()
    rows = rows_of(root, faults)
    for place, cells in rows:
        function = re.fullmatch(r"`([\w:]+)`", cells[0])
        if len(cells) != 5 or not function:
            faults.append(f"{place}: not a row of `crate::function` and four cells")
            continue
        name = function[1]
        if name in seen:
            faults.append(f"{place}: {name} is in the table twice")
        if name not in functions:
            faults.append(f"{place}: {name} is in the table, and there is no such public function")
        seen.add(name)
        judge_row(place, name, cells[1:], theorems, faults)
        named.update(theorem for cell in cells[2:] for theorem in names_in(cell))
    judge_withdrawn(root, rows, faults)
    for name, (place, _) in functions.items():
        if rows and name not in seen:
            faults.append(f"{place}: {name} is public and not in the table of {TABLE}")
    return named


def promises_in(root, crate):
    """The head of each public function outside of impls, as one line without what makes it an export, and the `ghost use` lines of its file."""
    found = {}
    for path in sorted((root / "crates" / crate / "src").glob("*.rt")):
        lines = lines_of(path)
        uses = {line for line in lines if line.startswith("ghost use ")}
        for at, line in enumerate(lines):
            function = re.match(r'pub (?:extern "C" )?fn (\w+)', line)
            if function:
                found[function[1]] = " ".join(" ".join(head_of(lines[at:])).replace('pub extern "C" fn', "pub fn").split()), path.name, uses
    return found


def judge_exports(root, static, functions, faults):
    """How many exports there are: each says of its answer what the library's function of that name does."""
    exported = 0
    for crate in static:
        library = crate.removesuffix("_c")
        theirs, ours = promises_in(root, library), promises_in(root, crate)
        public = {name.split("::")[1] for name in functions if name.startswith(f"{library}::") and name.count("::") == 1}
        for name in sorted(public - set(ours)):
            faults.append(f"crates/{crate}: {library}::{name} is public and not exported")
        for name, (head, file, uses) in ours.items():
            place = f"crates/{crate}/src/{file}"
            if name not in public:
                faults.append(f"{place}: {name} is exported, and {library} has no such public function")
            elif head != theirs[name][0]:
                faults.append(f"{place}: {name} has not the arguments, the answer and the clauses of {library}: {head}")
            elif not uses <= theirs[name][2]:
                faults.append(f"{place}: {name} has its words from elsewhere than {library}: {', '.join(sorted(uses - theirs[name][2]))}")
            exported += 1
    return exported


def judge_contracts(functions, faults):
    for name, (place, clauses) in functions.items():
        if "ensures" not in clauses:
            faults.append(f"{place}: {name} is public, and its contract has no `ensures`")
        if "requires" in clauses:
            faults.append(f"{place}: {name} is public, and its contract has a `requires`")


def main(words):
    if words and words[0] in ("-h", "--help"):
        print(__doc__.strip())
        return 0
    if len(words) > 1:
        print("public: expected one folder or nothing (--help tells)", file=sys.stderr)
        return 2
    root = Path(words[0] if words else Path(__file__).parent.parent).resolve()
    faults, functions = [], {}
    libraries, static = crates_of(root, faults)
    traits = {trait for crate in libraries for trait in traits_in(root / "crates" / crate / "src")}
    conversions = 0
    for crate in libraries:
        found, converted = public_functions(root, crate, traits, faults)
        conversions += converted
        for name, place, clauses in found:
            if name in functions:
                faults.append(f"{place}: {name} is another function too, at {functions[name][0]}")
            functions[name] = (place, clauses)
    judge_contracts(functions, faults)
    named = judge_table(root, functions, faults)
    exported = judge_exports(root, static, functions, faults)
    for fault in faults:
        print(fault, file=sys.stderr)
    if faults:
        return 1
    print(
        f"public: {len(functions)} functions, each with its theorems ({len(named)} theorems), {exported} exports with the clauses of theirs, "
        f"and {conversions} conversions, each with a promise that settles it"
    )
    return 0


if __name__ == "__main__":
    sys.exit(main(sys.argv[1:]))
