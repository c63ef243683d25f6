#!/usr/bin/env python3
"""Brings the repository's own definitions and lemmas to Rattle's spelling: snake case, as port.py left some of them.

usage: python3 tools/spelling.py [ROOT]     run once, right after port.py; files are rewritten in place

`badCable` becomes `bad_cable` and `none-append` becomes `none_append`; a figure with its unit stays apart, as in `above_3_A`.
Types, facts and modules keep their names, and so does all that comes from another library. A lemma that would get the name of
a definition gets `_lem` behind it. Of Rust sources only clauses and `ghost use` lines have such names: functions, strings and
exported names have none.
"""

import re
import sys
from collections import defaultdict
from pathlib import Path

NAME = r"[^\s(){}\[\],;.]+"
DECLARED = re.compile(r"^(\s*)(?:(?:abbrev|unfoldable|pub|data|record|ruleset) )*([^\s:(){}=;,]+)((?:\s[({].*?[)}])*)\s:\s")
USE = re.compile(r"^\s*(?:pub |ghost )*use (\S+?)(?:\.\{(.*?)\}| as (\S+?))?;?\s*$")


def respelled(name):
    if "-" not in name and not re.search("[a-z0-9][A-Z]", name):
        return name
    if name[0].isupper() and "-" not in name:
        return name
    name = re.sub(r"(?<=[a-z])(\d+)(m?[AVW])(?![a-z])", r"-\1-\2", name)
    parts = []
    for part in name.split("-"):
        if part and not part[0].isupper() and not re.fullmatch("m[AVW]", part):
            part = re.sub(r"([a-z0-9])([A-Z])", lambda m: m[1] + "_" + m[2].lower(), part)
        parts.append(part)
    return "_".join(parts)


def statements(text):
    """The text with each `use` line of several lines on one."""
    return re.sub(r"^((?:pub |ghost )*use \S+\.\{)\n(.*?)\}", lambda m: m[1] + " ".join(m[2].split()) + "}", text, flags=re.M | re.S)


class File:
    def __init__(self, root, path):
        self.path, self.text = path, path.read_text()
        crate, part, *rest = path.relative_to(root / "crates").with_suffix("").parts
        self.module = ".".join(["Rattle", crate, part, *rest])
        self.declared, self.brought, self.aliases = {}, {}, {}
        record = None
        for line in statements(self.text).split("\n"):
            if not line.strip():
                continue
            indent = len(line) - len(line.lstrip())
            if record is not None and indent <= record:
                record = None
            use = USE.match(line)
            if use:
                module, names, alias = use.groups()
                if names is None:
                    self.aliases[alias or module.split(".")[-1]] = module
                for name in (names or "").split(","):
                    if name.strip():
                        self.brought[name.split()[0]] = module
                continue
            if re.match(r"\s*(--|module|unfolding)", line):
                continue
            if re.match(r"\s*(pub )?record .* where\s*$", line):
                record = indent
                continue
            found = DECLARED.match(line)
            if found:
                self.declared.setdefault(found[2], "field" if record is not None else "top")


def main():
    root = Path(sys.argv[1] if len(sys.argv) > 1 else ".")
    ours = {it.name for it in (root / "crates").iterdir()}
    files = [File(root, it) for it in sorted(root.glob("crates/*/*/**/*.antt")) if it.parts[len(root.parts) + 2] in ("specs", "proofs")]
    by_module = {it.module: it for it in files}
    # Each new name with the old ones that come to it, and which of them are definitions.
    old, stated = defaultdict(set), set()
    for file in files:
        for name, kind in file.declared.items():
            old[respelled(name)].add(name)
            if kind == "top" and (".specs." in file.module or re.search("[a-z0-9][A-Z]", name)):
                stated.add(name)

    def is_lemma(file, name):
        """Whether this name, declared in that file, is a lemma with the name of a definition."""
        if file is None or file.declared.get(name) != "top" or ".specs." in file.module or name in stated and "-" not in name and "_" not in name:
            return False
        others = {it for it in old[respelled(name)] - {name} if it in stated}
        return bool(others)

    def is_foreign(module):
        parts = module.split(".")
        return parts[0] != "Rattle" or parts[1] not in ours

    lemmas = set()
    for file in files:
        new = {}
        for name in {it for names in old.values() for it in names}:
            if name in file.brought and is_foreign(file.brought[name]) and name not in file.declared:
                continue
            new[name] = respelled(name)
            home = file if name in file.declared else by_module.get(file.brought.get(name, ""))
            if is_lemma(home, name):
                new[name] += "_lem"
                lemmas.add(name)

        def word(m):
            name = m[0]
            if m.start() and m.string[m.start() - 1] == ".":
                above = re.search(NAME + r"\.$", m.string[max(0, m.start() - 200) : m.start()])
                alias = above and file.aliases.get(above[0][:-1])
                if alias and is_foreign(alias):
                    return name
                if alias:
                    home = by_module.get(alias)
                    return respelled(name) + "_lem" * is_lemma(home, name) if name in new else name
                return respelled(name) if name in new else name
            return new.get(name, name)

        lines = []
        for line in file.text.split("\n"):
            code, dashes, comment = line.partition("--") if line.lstrip().startswith("--") else (line, "", "")
            lines.append(re.sub(NAME, word, code) + dashes + comment)
        text = "\n".join(lines)
        if text != file.text:
            file.path.write_text(text)

    changed = {it for names in old.values() for it in names if respelled(it) != it and "-" not in it}
    for path in sorted(root.glob("crates/*/src/**/*.rt")):
        text = path.read_text()
        lines = []
        for line in text.split("\n"):
            if not line.lstrip().startswith("//"):
                parts = re.split(r'("(?:[^"\\]|\\.)*")', line)
                parts[::2] = [re.sub(NAME, lambda m: respelled(m[0]) if m[0] in changed else m[0], it) for it in parts[::2]]
                line = "".join(parts)
            lines.append(line)
        if "\n".join(lines) != text:
            path.write_text("\n".join(lines))

    print(f"spelling: {sum(respelled(n) != n for names in old.values() for n in names)} names, {len(lemmas)} lemmas with the name of a definition: {' '.join(sorted(lemmas))}")


if __name__ == "__main__":
    main()
