#!/usr/bin/env python3
"""Counts the places in crates/*/src that docs/DESIGN-PASS.md speaks of, by form alone.

usage: python3 tools/design.py [COMMIT] [--list]   of the working tree, or of a commit; --list names each place

What each line counts:
  1 enums       enums with one variant that holds something and one that holds nothing, or with a variant `Refused`
  1 beside      structs with a verdict, a fault or an answer beside a value, or with `next` or `open` beside one
  1 tests       tests of a verdict's number against SUCCESS
  1 numbers     constants that number kinds, refusals, roles or a failure
  2 twins       functions that are the same once names, types and numbers are left out, less one of each kind; four lines or more
  3 loops       `while` and `loop`
  4 orders      comparisons of the number in one step of measure with that in another: `a.0 < b.0`
  4 copies      struct literals that copy a field by a local of its own name from the same value
  4 printing    functions `put_*` and `tell*`
  5 clauses     `requires` that stand in three or more functions of a crate, with how often they stand there
  5 together    three or more parameters, same names and types, that stand in three or more functions of a crate
  6 buffers     arrays with a length beside them: in a struct, or as parameters of a function
  7 chains      `if` after `if` on one kind of test that returns a call, three or more
  8 answers     files of answers, and their lines
"""
import re, subprocess, sys

LENGTHS = r"(?:count|length|end|kept|held|next|at)"

def files(commit, kind):
    if commit:
        names = subprocess.run(["git", "ls-tree", "-r", "--name-only", commit, "crates"], text=True, capture_output=True, check=True).stdout.split()
        read = lambda n: subprocess.run(["git", "show", f"{commit}:{n}"], text=True, capture_output=True, check=True).stdout
    else:
        names = subprocess.run(["git", "ls-files", "crates"], text=True, capture_output=True, check=True).stdout.split()
        read = lambda n: open(n, encoding="utf-8").read()
    for n in sorted(names):
        if re.fullmatch(kind, n):
            try:
                yield n, read(n)
            except FileNotFoundError:
                pass

def code(text):
    return re.sub(r"^\s*//.*\n", "", re.sub(r"^ghost use .*\n", "", text, flags=re.M), flags=re.M)

def functions(text):
    """name, parameters, clauses, body of each function"""
    for m in re.finditer(r"^( *)(?:pub(?:\(crate\))? )?fn (\w+)(?:<[^>]*>)?\((.*?)\)([^{;]*?)$(.*?)^\1\{\n?(.*?)^\1\}", text, flags=re.M | re.S):
        yield m.group(2), re.sub(r"\s+", " ", m.group(3)).strip(" ,"), m.group(5), m.group(6)
    for m in re.finditer(r"^( *)(?:pub(?:\(crate\))? )?fn (\w+)(?:<[^>]*>)?\(([^{}]*?)\)([^{};\n]*) \{\n(.*?)^\1\}", text, flags=re.M | re.S):
        yield m.group(2), re.sub(r"\s+", " ", m.group(3)).strip(" ,"), "", m.group(5)

def structs(text, word):
    for m in re.finditer(r"^(?:pub(?:\(crate\))? )?" + word + r" (\w+)[^;{]*\{\n(.*?)^\}", text, flags=re.M | re.S):
        yield m.group(1), m.group(2)

def normal(params, body):
    t = re.sub(r'b?"[^"]*"|b?\'[^\']*\'', "T", body)
    t = re.sub(r"\b\d[\w]*\b", "N", t)
    keep = {"if", "else", "let", "mut", "while", "for", "in", "match", "return", "as", "Some", "None", "Ok", "Err", "true", "false"}
    t = re.sub(r"[A-Za-z_]\w*", lambda m: m.group(0) if m.group(0) in keep else "x", t)
    t = re.sub(r"x(?:::x)+", "x", t)
    t = re.sub(r"x(?:\.x|\.N)+", "x", t)
    return str(len(params.split(","))) + re.sub(r"\s+", " ", t)

def counts(commit):
    found = {k: [] for k in ("1 enums", "1 beside", "1 tests", "1 numbers", "2 twins", "3 loops", "4 orders", "4 copies", "4 printing",
                             "5 clauses", "5 together", "6 buffers", "7 chains", "8 answers")}
    kinds, clauses, together = {}, {}, {}
    for name, text in files(commit, r"crates/[^/]+/src/\w+\.rt"):
        crate = name.split("/")[1]
        short = name.replace("crates/", "").replace("/src", "")
        text = code(text)
        for enum, body in structs(text, "enum"):
            variants = re.findall(r"^    (\w+)( \{|\()?", body, flags=re.M)
            holding = [v for v, holds in variants if holds]
            if (len(variants) == 2 and len(holding) == 1) or any(v == "Refused" for v, _ in variants):
                found["1 enums"].append(f"{short} {enum}")
        for struct, body in structs(text, "struct"):
            fields = re.findall(r"^    (?:pub )?(\w+): ([^,]+)", body, flags=re.M)
            flags = [f for f, t in fields if t == "Verdict" or f in ("next", "open")]
            if flags and len(fields) > len(flags):
                found["1 beside"].append(f"{short} {struct}")
            names = [f for f, t in fields]
            if any(re.match(r"\[.*; ", t) for f, t in fields) and any(re.fullmatch(LENGTHS, f) for f in names):
                found["6 buffers"].append(f"{short} {struct}")
        found["1 tests"] += [f"{short} {m.group(0)}" for m in re.finditer(r"\w+(?:\.\w+)* [!=]= (?:verdicts::)?SUCCESS\b", text)]
        found["1 numbers"] += [f"{short} {m.group(1)}" for m in re.finditer(r"const ([A-Z][A-Z0-9_]*): (?:u8|u16|u32|usize|bool) =", text)
                               if crate in ("verdicts", "objects", "flat", "messages") or m.group(1) in ("UNREADABLE", "FRESH", "SOUND", "LOWEST", "HIGHEST", "BELOW_15_V", "ABOVE_15_V")]
        found["3 loops"] += [f"{short} {m.group(0).strip()}" for m in re.finditer(r"^ *(?:while|loop) .*", text, flags=re.M)]
        found["4 orders"] += [f"{short} {m.group(0)}" for m in re.finditer(r"[\w.]+\.0 (?:<|<=|>|>=|==|!=) [\w.]+\.0\b", text)]
        for m in re.finditer(r"^ *let (\w+) = (\w+)\.(\w+);", text, flags=re.M):
            if m.group(1) == m.group(3) and re.search(r"^ *%s,$" % m.group(1), text[m.end():m.end() + 600], flags=re.M):
                found["4 copies"].append(f"{short} {m.group(0).strip()}")
        for fn, params, clause, body in functions(text):
            if re.match(r"put_|put$|tell", fn):
                found["4 printing"].append(f"{short} {fn}")
            if body.count("\n") >= 4:
                kinds.setdefault(normal(params, body), []).append(f"{short} {fn}")
            for r in re.findall(r"requires(?: \w+)? \{ (.*) \}\n", clause + "\n"):
                for part in re.split(r" × ", r):
                    clauses.setdefault((crate, part.strip("() ")), []).append(fn)
            ps = [p.strip() for p in params.split(",") if ":" in p]
            for i in range(len(ps) - 2):
                together.setdefault((crate, ", ".join(ps[i:i + 3])), []).append(fn)
            if any(re.search(r"\[\w+; \d+\]", p) for p in ps) and any(re.match(LENGTHS + ": (?:usize|u8)$", p) for p in ps):
                found["6 buffers"].append(f"{short} {fn}")
            chain = re.findall(r"^    if (\w+)\([^\n]*\{\n        return (\w+)\(", body, flags=re.M)
            tests = [t for t, _ in chain]
            if any(tests.count(t) >= 3 for t in tests):
                found["7 chains"].append(f"{short} {fn}")
    for same in kinds.values():
        found["2 twins"] += [" ~ ".join([same[0], other]) for other in same[1:]]
    found["5 clauses"] = [f"{c}: {p} ({len(f)})" for (c, p), f in clauses.items() if len(f) >= 3]
    found["5 together"] = [f"{c}: {p} ({len(f)})" for (c, p), f in together.items() if len(f) >= 3]
    answers = list(files(commit, r"crates/[^/]+/proofs/.*/Answers\.antt"))
    found["8 answers"] = [f"{n} {t.count(chr(10))}" for n, t in answers]
    return found

def main():
    if "-h" in sys.argv or "--help" in sys.argv:
        return print(__doc__.strip())
    args = [a for a in sys.argv[1:] if not a.startswith("-")]
    found = counts(args[0] if args else None)
    for k, places in found.items():
        extra = f", {sum(int(p.split()[-1]) for p in places)} lines" if k == "8 answers" else ""
        print(f"{k:13} {len(places)}{extra}")
        if "--list" in sys.argv and k != "8 answers":
            for p in places:
                print(f"    {p}")

if __name__ == "__main__":
    main()
