"""The wrong answers that the prover has to refuse: crates/NAME/must-fail/*.edit.

usage: python3 tools/edits.py check [ROOT [CRATE/FILE..]]   each is refused at its own function; of all files, or of these
       python3 tools/edits.py forms [ROOT]   the files alone: their form, their names, and that every old text is there
       python3 tools/edits.py list [ROOT]    every wrong answer with its functions

One file holds one or more wrong answers, which one run of the prover tries together:

    # what a reader should know
    wrong: its name, of which the crate has no other
    refused: the functions that the prover then refuses, a space between; a second such line goes on
    file: src/.., specs/.. or proofs/..
    old: a text that the file has exactly once at that moment
    new: what stands there instead

rt reads `file:`, `old:` and `new:`, and a `file:` line holds for the pairs after it. The other two are read here, and each
wrong answer has its own `file:` line.
`refused:` has every function whose own proof fails, and no function stands twice in a file. Each has the name that the prover gives it: a
function of a module is `module::name`, a method `Type::name`, one of an impl of a trait `VerdictFromResultUnitVerdict::from`. A function that
calls such a one is not proved either, and is not named: the log says of it "it calls ..", and nothing fails in its own proof but the place where
the proofs of what it calls come in. What else it has to prove is stated by contracts alone.
Wrong answers of one file are told apart by their functions alone. So one that changes a definition is tried by itself when it is
written, and `refused:` then has every function that fails for it.

rt ci says of a file that it is refused, and keeps no log. So `check` tries each file once more, as rt does and by what rt is made of: on a copy
of the crate, over what an earlier check kept, with the libraries below as rt builds them. As many run side by side as rt would run, or RT_JOBS.
What the prover said is kept in ~/.cache/arinduleu/edits (XDG_CACHE_HOME moves it) under the checksum of all that it read, and judged anew
each time; `check --anew` tries all. `check --goals` also prints the goals, answers and lemmas that failed, for each wrong answer and function.
A wrong answer can rename the goals and places of its function, since these have their names from the conditions in the code; then an answer
of the proof is there for a name that is gone, which shows nothing. Where nothing else fails in that function, the check is made once more with the
answers under the names that the prover asks for now.
"""

import hashlib
import importlib.machinery
import importlib.util
import os
import re
import shutil
import sys
import tempfile
import threading
from pathlib import Path


# Where the proofs of what a function calls come into its own: `close`, or `met` in a proof that is walked by hand.
CALLED = re.compile(r"`(close|met)`,? (which )?was not admitted")
# What is taken from the kit's rt.
KIT = ("rtlib", "share_work", "stamp_of", "work_for", "seeded", "linked", "checked", "need", "in_lanes")
# A name of the proof that the code does not have any more.
GONE = re.compile(r"has no (?:field `([^`]+)`|`([^`]+)` that can be named)")
SHAPE = re.compile(r"is not a definition that can be named")
WAITS = re.compile(r"declarations? that depends? on `[^`]*`, which was (rejected|not admitted), (was|were) not checked")
# A goal that is left open, as the log tells it above the function.
OPEN = re.compile(r"note: src/\S+:\d+:\d+: it is not proved that .*?\(`([^`]+)`\)")


class Wrong:
    def __init__(self, name):
        self.name, self.refused, self.pairs = name, [], []


class Edit:
    """One .edit file, with what is wrong in its form."""

    def __init__(self, path):
        self.crate, self.label = path.parts[-3], path.stem
        self.folder = path.parent.parent
        self.shown = "/".join(path.parts[-3:])
        self.wrongs, self.errors, self.log = [], [], None
        self.read(path.read_text(encoding="utf-8").split("\n"))

    def error(self, text, wrong=None):
        self.errors.append(f"{self.shown}: {wrong.name + ': ' if wrong else ''}{text}")

    def read(self, lines):
        file = old = None
        for number, line in enumerate(lines, 1):
            word, _, rest = line.partition(":")
            rest = rest[1:] if rest.startswith(" ") else rest
            wrong = self.wrongs[-1] if self.wrongs else None
            if not line.strip() or line.startswith("#"):
                continue
            if word == "wrong" and re.fullmatch(r"\w+", rest):
                self.wrongs.append(Wrong(rest))
                file = old = None
            elif wrong is None:
                self.error(f"line {number} stands before any 'wrong: NAME'")
            elif word == "refused" and rest.split():
                wrong.refused += rest.split()
            elif word == "file" and line.startswith("file: "):
                file = rest
            elif word == "old" and line.startswith("old: "):
                old = rest
            elif word == "new":
                if not file or not old:
                    self.error(f"line {number}: a 'new:' without its 'file:' or 'old:'", wrong)
                wrong.pairs.append((file, old, rest))
                old = None
            else:
                self.error(f"line {number} is none of the form: {line}", wrong)
        self.judge()

    def judge(self):
        if not self.wrongs:
            self.error("it has no wrong answer")
        seen = {}
        for wrong in self.wrongs:
            if not wrong.refused:
                self.error("it has no 'refused:' line", wrong)
            if not wrong.pairs:
                self.error("it has no 'old:' and 'new:' pair", wrong)
            for function in wrong.refused:
                if function in seen:
                    self.error(f"{function} stands twice in the file, also at {seen[function]}", wrong)
                seen[function] = wrong.name

    def changed(self):
        """The files that it changes, as they are afterwards: the pairs in order, as rt applies them."""
        texts = {}
        for wrong in self.wrongs:
            for file, old, new in wrong.pairs:
                path = self.folder / (file or "")
                if not path.is_file() or file.split("/")[0] not in ("src", "specs", "proofs"):
                    self.error(f"there is no file {file}", wrong)
                    continue
                text = texts.get(file) or path.read_text(encoding="utf-8")
                times = text.count(old) if old else 0
                if times != 1:
                    self.error(f"{file} has this {times} times: {old}", wrong)
                texts[file] = text.replace(old, new) if times == 1 else text
        return texts


def forms(root):
    paths = sorted(root.glob("crates/*/must-fail/*.edit"))
    edits = [Edit(path) for path in paths]
    names = {}
    for edit in edits:
        edit.texts = edit.changed()
        for wrong in edit.wrongs:
            if (edit.crate, wrong.name) in names:
                edit.error(f"the crate has this name twice, also in {names[edit.crate, wrong.name]}", wrong)
            names[edit.crate, wrong.name] = edit.shown
    return edits


class Refusal:
    """What a log says of one function that is not proved."""

    def __init__(self, said, above, below, errors):
        self.calls = "it calls `" in said
        # An answer for a goal or a place that the edited code does not have, by name.
        self.gone = [match[1] or match[2] for match in map(GONE.search, errors) if match]
        others = [it for it in errors if not GONE.search(it) and not SHAPE.search(it) and not WAITS.search(it) and not CALLED.search(it)]
        # A goal that the prover names with its line in the source, and where it tells of values at which the goal is false.
        self.open = [match[1] for match in map(OPEN.match, above) if match]
        false = any(OPEN.match(it) and "is false" in it for it in above)
        self.shown = bool(others) or false
        misfit = bool(self.gone) or any(SHAPE.search(it) for it in errors)
        waiting = any(WAITS.search(it) and not CALLED.search(it) for it in errors)
        searched = "did not prove" in said or "expected answers" in said
        self.is_own = self.shown or misfit or waiting or bool(self.open) or searched or not self.calls
        named = [*re.findall(r"^`([^`]+)`: ", "\n".join(errors), re.M), *re.findall(r"depends? on `([^`]*)`", "\n".join(errors))]
        self.failed = list(dict.fromkeys(it for it in [*self.open, *named] if it not in self.gone))
        # Only names that are gone tell against the answer.
        self.by_name = misfit and not self.shown
        # What stands there now, as far as the log has it.
        told = [it for it in [*errors, *below] if GONE.search(it) or it.startswith("help: `Goals` has no `")]
        told = "\n".join(told)
        names = re.findall(r"`([^`\s]+)`", told) + [it for near in re.findall(r"\(nearest: ([^)]*)\)", told) for it in re.findall(r"\.([^\s,]+)", near)]
        self.there = [it for it in names if "." not in it and it not in self.gone]


def refused_in(log, crate):
    """What the log says of each function that is not proved, by its name: of those whose own proof fails, and of those that only call one."""
    own, callers, lines = {}, set(), log.split("\n")
    verdicts = [at for at, line in enumerate(lines) if re.match(r"(fn|struct|enum|impl|trait) \S+?: ", line)]
    for before, at, after in zip([-1, *verdicts], verdicts, [*verdicts[1:], len(lines)]):
        match = re.match(rf"\w+ {crate}::(\S+?): (.*)$", lines[at])
        if match and match[2] != "proved":
            folder = re.escape("proofs/" + match[1].replace("::", "/") + "/")
            errors = re.findall(rf"^\S*{folder}\S*: error: (.*)$", log, re.M)
            refusal = Refusal(match[2], lines[before + 1 : at], lines[at + 1 : after], errors)
            # An impl whose methods are not proved: each of these has a line of its own.
            waits = lines[at].startswith("impl ") and re.search(r"it (waits for the proof of|stands on) ", match[2])
            if refusal.is_own and not waits:
                own[match[1]] = refusal
            else:
                callers.add(match[1])
    return own, callers


def renamed(text, refusal):
    """A file of answers with the names that the prover asks for now: each is the one that differs least from a name that is gone."""
    for name in sorted(set(refusal.gone), key=len, reverse=True):
        others = [it for it in dict.fromkeys([*refusal.open, *refusal.there]) if not has_word(text, it)]
        found = sorted((it for it in ((difference(name, other), other) for other in others) if it[0]), key=lambda it: it[0])
        if found and (len(found) == 1 or found[0][0] < found[1][0]):
            # A branch has its condition in its name, and is a field of what is known behind it.
            old, new = (f"if-{re.split('-then-|Then-|Else-', it)[-1]}" for it in (name, found[0][1]))
            for old, new in ((name, found[0][1]), (old, new)):
                text = re.sub(rf"(?<![\w-]){re.escape(old)}(?![\w-])", new, text)
    return text


def difference(one, other):
    """How many words of two names of goals or places differ, or None if they are of other kinds: `Else-n-eq0` and `Else-n-le1` differ in two."""
    one, other = one.split("-"), other.split("-")
    if one[0] != other[0]:
        return None
    while one and other and one[0] == other[0]:
        one, other = one[1:], other[1:]
    while one and other and one[-1] == other[-1]:
        one, other = one[:-1], other[:-1]
    return len(one) + len(other) if one and other else None


def has_word(text, word):
    return re.search(rf"(?<![\w-]){re.escape(word)}(?![\w-])", text) is not None


def answers_of(edit, texts, function):
    """The files of a function's proof, as they are with the edit."""
    for path in sorted((edit.folder / "proofs" / function.replace("::", "/")).glob("*.antt")):
        file = path.relative_to(edit.folder).as_posix()
        yield file, texts.get(file) or path.read_text(encoding="utf-8")


def with_names(edit, texts, log):
    """These files, with the answers of functions that nothing but a name tells against under their new names."""
    own, _ = refused_in(log, edit.crate)
    texts = dict(texts)
    for function, refusal in own.items():
        if refusal.by_name:
            for file, text in answers_of(edit, texts, function):
                now = renamed(text, refusal)
                if now != text:
                    texts[file] = now
    return texts


def compare(edit, log):
    """What the prover said of an edit, against what its file says."""
    if not re.search(r"^logic=not-proved", log, re.M):
        lines = [line for line in log.split("\n") if line.strip()]
        return edit.error(f"the prover did not end with a refusal: {lines[-1] if lines else 'it said nothing'}")
    own, callers = refused_in(log, edit.crate)
    for wrong in edit.wrongs:
        for function in wrong.refused:
            if function in callers:
                edit.error(f"the prover did not refuse {function} itself, only a function that it calls", wrong)
            elif function not in own:
                edit.error(f"the prover did not refuse {function}", wrong)
            # The edit changed the shape of the code, so that a proof no longer fits it: that shows nothing of the answer.
            elif own[function].by_name:
                names = ", ".join(dict.fromkeys(own[function].gone)) or "a definition"
                edit.error(f"the proof of {function} asks for what is gone, and nothing else fails there: {names}", wrong)
    for function in sorted(set(own).difference(*(wrong.refused for wrong in edit.wrongs))):
        names = " or ".join(wrong.name for wrong in edit.wrongs)
        edit.error(f"{names}: the prover refused {function} too, which no 'refused:' line has")


class Prover:
    """Tries edits as rt does, with rt's own functions: `rt` here is the command, read as a module."""

    def __init__(self, root, anew):
        self.root, self.anew, self.tries = root, anew, 0
        path = shutil.which("rt")
        if not path:
            sys.exit("edits: the Rattle kit is missing: there is no command 'rt' on the PATH")
        loader = importlib.machinery.SourceFileLoader("rt_of_the_kit", os.path.realpath(path))
        self.rt = importlib.util.module_from_spec(importlib.util.spec_from_loader(loader.name, loader))
        sys.modules[loader.name] = self.rt
        loader.exec_module(self.rt)
        # Its first call sets a signal's handler, which only the main thread may.
        lacking = [it for it in KIT if not hasattr(self.rt, it)]
        if lacking:
            sys.exit(f"edits: the rt of this kit has no {', '.join(lacking)}, by which an edit is tried here as rt tries it")
        self.rt.rtlib.guarded()
        self.rt.share_work(False)
        self.crates = {it.name: it for it in self.rt.rtlib.crates_below(str(root))}
        self.stamps, self.lock = {}, threading.Lock()
        self.kept = Path(os.environ.get("XDG_CACHE_HOME") or Path.home() / ".cache") / "arinduleu" / "edits"

    def place(self, crate, texts):
        # Not the text of the edit: what it says of itself is no matter of the prover.
        read = (self.rt.stamp_of(crate, self.stamps), sorted(texts.items()))
        return self.kept / hashlib.sha256(repr(read).encode()).hexdigest()

    def known(self, crate, texts):
        if self.anew:
            return None
        try:
            return self.place(crate, texts).read_text(encoding="utf-8")
        except OSError:
            return None

    def keep(self, crate, texts, log):
        try:
            self.kept.mkdir(parents=True, exist_ok=True)
            to = self.place(crate, texts)
            new = to.with_name(f"{to.name}.{os.getpid()}.{threading.get_ident()}")
            new.write_text(log, encoding="utf-8")
            new.replace(to)
        except OSError:
            pass

    def shrink(self):
        """The logs longest unused go, until some of each of many states are left."""
        try:
            logs = sorted(self.kept.iterdir(), key=lambda it: it.stat().st_mtime)
        except OSError:
            return
        for it in logs[:-2000]:
            it.unlink(missing_ok=True)

    def log_of(self, crate, texts, seed):
        """What the prover says of the crate with these texts: over the seed, and from nothing where that comes to no verdict."""
        log = self.known(crate, texts)
        if log is not None:
            return log
        with self.lock:
            self.tries += 1
        for start in [seed, None] if seed else [None]:
            room = tempfile.mkdtemp(prefix=f"rt-edits-{os.getpid()}-")
            try:
                over = f"{room}/over" if start else None
                if start:
                    self.rt.linked(start, over)
                ran = self.rt.checked(crate, texts, ["--jobs", "1"], over)
            finally:
                shutil.rmtree(room, ignore_errors=True)
            if ran.returncode == 1 and re.search(r"^logic=not-proved", ran.stdout, re.M):
                self.keep(crate, texts, ran.stdout)
                break
        return ran.stdout

    def seed_of(self, crate):
        """A folder with what a check of the crate as it stands proved, begun with what an earlier one kept."""
        return self.rt.seeded(crate, ["--jobs", "1"], self.rt.work_for(crate))

    def build_below(self, crate):
        """The libraries below as rt builds them. What is built and unchanged stays."""
        for dep in crate.below():
            with tempfile.TemporaryFile("w+", errors="replace") as dep.out:
                if dep.build_rlib(["--jobs", "1"], anew=False):
                    dep.out.seek(0)
                    print("".join(dep.out.readlines()[-20:]), file=sys.stderr)
                    sys.exit(f"edits: the library {dep.name} is not proved")

    def try_all(self, edits):
        """Sets the log of each edit."""
        tasks = {}
        for name in dict.fromkeys(edit.crate for edit in edits):
            crate, own = self.crates[name], [edit for edit in edits if edit.crate == name]
            left = [edit for edit in own if not self.settled(crate, edit)]
            if not left:
                continue
            print(f"edits: {name}: trying {len(left)} of {len(own)} files", file=sys.stderr)
            self.build_below(crate)
            lines, needs = crate.count(rb"\n"), self.rt.need(crate)
            tasks[name, "seed"] = ([], 0, needs, lambda given, jobs, it=crate: self.seed_of(it))
            for number, edit in enumerate(left):
                call = lambda given, jobs, it=crate, edit=edit: self.one(it, edit, given[it.name, "seed"])
                tasks[name, "edits", number] = ([(name, "seed")], lines, needs, call)
        self.rt.in_lanes(tasks)
        self.shrink()

    def log_with_names(self, edit, log_of):
        """The log of an edit, and where answers get other names then that with these. Nothing where a log is not known."""
        texts, log = edit.texts, log_of(edit.texts)
        for _ in range(3):
            named = with_names(edit, texts, log) if log is not None else texts
            if named == texts:
                break
            texts, log = named, log_of(named)
        return log

    def settled(self, crate, edit):
        edit.log = self.log_with_names(edit, lambda texts: self.known(crate, texts))
        return edit.log is not None

    def one(self, crate, edit, room):
        if room:
            edit.log = self.log_with_names(edit, lambda texts: self.log_of(crate, texts, f"{room}/seed"))
        else:
            edit.error("the crate as it stands is not proved, so nothing is known of it")


def main(words):
    if words and words[0] in ("-h", "--help"):
        print(__doc__.strip())
        return 0
    flags, words = {word for word in words if word.startswith("--")}, [word for word in words if not word.startswith("--")]
    is_check = words[:1] == ["check"]
    known = {"--anew", "--goals"} if is_check else set()
    if not words or len(words) > 2 and not is_check or words[0] not in ("check", "forms", "list") or flags - known:
        print("edits: expected check, forms or list (--help tells)", file=sys.stderr)
        return 2
    root = Path(words[1] if len(words) > 1 else Path(__file__).parent.parent).resolve()
    edits = forms(root)
    names = [f"{edit.crate}/{edit.label}" for edit in edits]
    for word in words[2:]:
        if word not in names:
            print(f"edits: there is no {word} (CRATE/FILE, without .edit)", file=sys.stderr)
            return 2
    edits = [edit for edit, name in zip(edits, names) if not words[2:] or name in words[2:]]
    if is_check:
        prover, good = Prover(root, "--anew" in flags), [edit for edit in edits if not edit.errors]
        prover.try_all(good)
        for edit in good:
            if not edit.errors:
                compare(edit, edit.log)
            if "--goals" in flags and edit.log:
                own, _ = refused_in(edit.log, edit.crate)
                for wrong in edit.wrongs:
                    for function in wrong.refused:
                        failed = own[function].failed if function in own else []
                        print(f"{edit.crate}/{edit.label}: {wrong.name}: {function}: {', '.join(failed)}")
    errors = [error for edit in edits for error in edit.errors]
    if not edits:
        errors = [f"no crates/*/must-fail/*.edit in {root}"]
    for error in errors:
        print(error, file=sys.stderr)
    if errors:
        return 1
    rows = [(edit.crate, wrong.name, " ".join(wrong.refused)) for edit in edits for wrong in edit.wrongs]
    if words[0] == "list":
        wide = [max(len(row[i]) for row in rows) for i in (0, 1)]
        for crate, name, functions in rows:
            print(f"{crate:{wide[0]}}  {name:{wide[1]}}  {functions}")
    else:
        end = f"each refused at its own function ({prover.tries} checks in this run)" if is_check else "each in its form"
        print(f"edits: {len(rows)} wrong answers in {len(edits)} files, {end}")
    return 0


if __name__ == "__main__":
    sys.exit(main(sys.argv[1:]))
