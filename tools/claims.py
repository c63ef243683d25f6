"""Every claim of `demands` with its theorem: crates/demands/specs, held to crates/demands/proofs.

usage: python3 tools/claims.py [--list] [ROOT]

A claim is a type without arguments in crates/demands/specs: `abbrev pub NAME : Type 0` or `pub record NAME : Type 0`. To state one
proves nothing, so each has a theorem, `pub name : NAME` in crates/demands/proofs. The names in VALUES are no claims: they say what
a thing is made of. --list prints each claim with its theorem.
"""

import re
import sys
from pathlib import Path

SPECS = "crates/demands/specs"
PROOFS = "crates/demands/proofs"
VALUES = {"Known", "Library", "Reader", "Writer"}
CLAIM = re.compile(r"(?:abbrev pub|pub record) (\S+) : Type \d+(?: where)?$")
THEOREM = re.compile(r"pub (\S+) : (\S+)$")


def found_in(root, folder, form):
    """Each match of this form at the start of a line, with the file it stands in."""
    for path in sorted((root / folder).glob("*.antt")):
        for line in path.read_text(encoding="utf-8").split("\n"):
            match = form.match(line)
            if match:
                yield path.stem, match


def main(words):
    if words and words[0] in ("-h", "--help"):
        print(__doc__.strip())
        return 0
    listed = words[:1] == ["--list"]
    rest = words[1:] if listed else words
    if len(rest) > 1 or any(word.startswith("-") for word in rest):
        print("claims: expected one folder or nothing (--help tells)", file=sys.stderr)
        return 2
    root = Path(rest[0] if rest else Path(__file__).parent.parent).resolve()
    claims = {match[1]: file for file, match in found_in(root, SPECS, CLAIM) if match[1] not in VALUES}
    theorems = {}
    for file, match in found_in(root, PROOFS, THEOREM):
        theorems.setdefault(match[2], []).append(f"{match[1]} ({file})")
    faults = [f"{SPECS}/{file}.antt: no theorem proves {claim}" for claim, file in claims.items() if claim not in theorems]
    if not claims:
        faults.append(f"{SPECS}: no claim is there")
    for fault in faults:
        print(fault, file=sys.stderr)
    if faults:
        return 1
    if listed:
        for claim, file in claims.items():
            print(f"{file}: {claim}: {', '.join(theorems[claim])}")
    print(f"claims: {len(claims)} claims, each with its theorem")
    return 0


if __name__ == "__main__":
    sys.exit(main(sys.argv[1:]))
