#!/usr/bin/env python3
"""Brings the names that tools/respell.py left to the same spelling. Run once at the top of the repository, after it; a second run changes nothing.

- The theorems of crates/claims have names that are sentences, and no two names that a dash would join: all in snake case, also in the pages.
- Some lemmas keep a dash between words of which none is a name.
- A definition had the name of a tactic, `first_of`; the one that goes with it, `last_of`, is renamed too. `last_of` of bands_model stays.
- A definition had a capital letter for a name.
"""

import os
import re
import sys

CLAIMS = os.path.join("crates", "claims", "proofs", "Claims.antt")

LEMMAS = """commanding-falls fill-closes filling-done filling-falls finding-done measuring-done plain-bad plain-cast plain-filled plain-good""".split()

PARTS = {"first_of": "first_such", "last_of": "last_such"}
PARTS_OF = ("idx_lines_model", "idx_model", "vobsub_model", "cards")

UNIT = os.path.join("crates", "demo_model", "proofs", "Unit.antt")
PLACE = {"C": "control_start"}

# A name stands between these, and after a dot only where a page names a file before it.
BREAK = r"\s(){}\[\];,@\"«»`:|"
NAME = re.compile(rf"[^.{BREAK}]+")


def read(path):
    with open(path, encoding="utf-8", newline="") as f:
        return f.read()


def renamed(text, names):
    return NAME.sub(lambda m: names.get(m[0], m[0]), text)


def below(folder, endings):
    for where, folders, files in os.walk(folder):
        folders[:] = sorted(f for f in folders if f != "out")
        yield from (os.path.join(where, f) for f in sorted(files) if f.endswith(endings))


def main():
    if not os.path.isfile(CLAIMS):
        print(__doc__.strip(), file=sys.stderr)
        return 2
    theorems = {n: n.replace("-", "_") for n in re.findall(r"(?m)^pub (\S+) :", read(CLAIMS)) if "-" in n}
    lemmas = {n: n.replace("-", "_") for n in LEMMAS}
    taken = set(NAME.findall(read(CLAIMS))) & set(theorems.values())
    if taken:
        print(f"in the page of theorems already: {sorted(taken)}", file=sys.stderr)
        return 1
    names = {}  # of each file, old and new
    for path in below("crates", (".antt", ".rt", ".edit")):
        crate = path.split(os.sep)[1]
        names[path] = lemmas | (theorems if path == CLAIMS else {}) | (PARTS if crate in PARTS_OF else {}) | (PLACE if path == UNIT else {})
    for path in ["README.md", "CONTRIBUTING.md", *below("docs", ".md")]:
        # the record of the port has both spellings
        if os.path.basename(path) != "PORT.md":
            names[path] = lemmas | theorems
    count = 0
    for path, its in names.items():
        old = read(path)
        new = renamed(old, its)
        if path.endswith("FORMAT.md"):
            new = re.sub(r"(?<=idx_lines_model/Lines\.)(first|last)_of\b", lambda m: PARTS[m[0]], new)
        if new != old:
            count += 1
            with open(path, "w", encoding="utf-8", newline="") as f:
                f.write(new)
    print(f"{len(theorems)} theorems renamed, {count} files written")
    return 0


if __name__ == "__main__":
    raise SystemExit(main())
