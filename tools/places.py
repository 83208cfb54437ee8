#!/usr/bin/env python3
"""Counts the places of docs/DESIGN-PASS.md in the sources of a checkout.

    tools/places.py POINT [FOLDER]

POINT is one of: answers, flags, numbers, handing, twins, loops, types, by-hand, conditions, together, lengths, ladders,
goals, lines. Each prints its places, one a line, and their number last; the last two by crate. FOLDER is the top of a checkout, this one by default.
"""

import collections
import difflib
import glob
import itertools
import os
import re
import sys


def crates(root):
    with open(os.path.join(root, "crates.txt"), encoding="utf-8") as f:
        return [line.split(":")[0].split()[0] for line in f if line.strip() and not line.startswith("#")]


def sources(root):
    for crate in crates(root):
        for path in sorted(glob.glob(os.path.join(root, "crates", crate, "src", "**", "*.rt"), recursive=True)):
            with open(path, encoding="utf-8") as f:
                yield crate, f.read().split("\n")


def functions(root):
    """Each function with its crate, its text from `fn` to the brace that closes it, and whether it is public."""
    for crate, lines in sources(root):
        for n, line in enumerate(lines):
            m = re.match(r'( *)(pub )?(extern "C" )?(const )?fn (\w+)', line)
            if not m:
                continue
            end = n
            while not (lines[end] == m[1] + "}" or (end == n and line.rstrip().endswith(("}", ";")))):
                end += 1
            yield crate, m[5], "\n".join(lines[n : end + 1]), bool(m[2])


def types(root):
    """Each struct and enum with its crate, what is derived, its head and its body."""
    for crate, lines in sources(root):
        for n, line in enumerate(lines):
            m = re.match(r"(pub )?(enum|struct) (\w+)", line)
            if not m:
                continue
            derives, k = [], n - 1
            while lines[k].startswith("#["):
                derives += re.findall(r"\w+", lines[k])[1:]
                k -= 1
            end = n
            while not (lines[end].startswith("}") or lines[end].endswith(";")):
                end += 1
            yield crate, m[3], m[2], derives, "\n".join(lines[n : end + 1])


def parameters(text):
    """What stands between the round brackets of a function's head, whatever its type parameters are."""
    depth = 0
    for n, sign in enumerate(text):
        if sign == "<":
            depth += 1
        elif sign == ">" and text[n - 1] != "-":
            depth -= 1
        elif sign == "(" and depth == 0:
            return re.match(r"\((.*?)\)\s*(->|where|\n|\{|$)", text[n:], re.S)[1]
    return ""


# Point 1
def answers(root):
    """Enums with a case that says no more than that there is nothing, or that it was refused."""
    for crate, name, kind, _, body in types(root):
        if kind == "enum" and re.search(r"^    (Refused\(u8\)|Bad|Over|Nothing),", body, re.M):
            yield f"{crate}::{name}"


FLAG = re.compile(r"\b(refused: u8|has_[a-z]+: bool|hides: bool|started: bool|stopped: bool|shown: bool|there: bool|lasts: bool|found: &mut bool)")


def flags(root):
    """Flags, or numbers of refusals, with a value beside them."""
    for crate, lines in sources(root):
        for n, line in enumerate(lines):
            for m in FLAG.finditer(line):
                if not line.lstrip().startswith("//"):
                    yield f"{crate}:{n + 1}: {m[0]}"


def numbers(root):
    """Numbers that stand for a refusal or a kind."""
    for crate, lines in sources(root):
        for n, line in enumerate(lines):
            if re.match(r"pub const [A-Z_]+: u8 = \d+;", line) and crate == "outcome":
                yield f"{crate}:{n + 1}: {line}"
            if re.search(r"\b(code|class|kind): u8\b", line):
                yield f"{crate}:{n + 1}: {line.strip()}"


def handing(root):
    """What `?` would write: a refusal that is handed on by a match, or by `let .. else`."""
    for crate, name, text, _ in functions(root):
        for m in re.finditer(r"Refused\((number|n)\) => (\{\s*return )?[A-Za-z]+::Refused\(\1\)", text):
            yield f"{crate}::{name}: {' '.join(m[0].split())}"
        for m in re.finditer(r"Err\((\w+)\) => (\{\s*)?(return )?Err\(\1\)", text):
            yield f"{crate}::{name}: {' '.join(m[0].split())}"
        for m in re.finditer(r"else \{\s*return [A-Za-z:]*(Refused|Bad|Over|Nothing|None|Err)\b", text):
            yield f"{crate}::{name}: {' '.join(m[0].split())}"


# Point 2
KEPT = {"fn", "pub", "let", "mut", "while", "loop", "if", "else", "return", "match", "as", "for", "in", "true", "false", "T", "S", "0", "Refused", "Ok"}


def shape(text):
    text = re.sub(r"//.*", "", text)
    text = re.sub(r"^\s*(requires|ensures)[^\n]*(\n\s+×[^\n]*)*", "", text, flags=re.M)
    text = re.sub(r"0x[0-9A-Fa-f]+|\d+(u8|u16|u64|usize)?", "0", text)
    text = re.sub(r"b'.'|b\"[^\"]*\"", "S", text)
    text = re.sub(r"\b(usize|u8|u16|u32|u64|i64)\b", "T", text)
    return [t if t in KEPT or not re.match(r"\w", t) else "v" for t in re.findall(r"\w+|[^\w\s]", text)]


def twins(root):
    """Pairs of functions of 28 words and signs or more that are 93 in a hundred alike without their names, numbers and types."""
    shapes = [(f"{crate}::{name}", shape(text)) for crate, name, text, _ in functions(root)]
    shapes = [s for s in shapes if len(s[1]) >= 28]
    for (f, a), (g, b) in itertools.combinations(shapes, 2):
        if max(len(a), len(b)) <= 1.25 * min(len(a), len(b)):
            matcher = difflib.SequenceMatcher(None, a, b, autojunk=False)
            if matcher.quick_ratio() >= 0.93 and matcher.ratio() >= 0.93:
                yield f"{f} = {g}"


# Point 3
STEP = re.compile(r"^\s*(\w+) [+-]= (1|2|3|4|6|8);|^\s*(\w+) = \3 [+-] \d+;|^\s*\w+ = (e|end|next)( \+ 1)?;", re.M)


def loops(root):
    """Loops other than `for`; a star where it steps by a constant or goes to a next place."""
    for crate, name, text, _ in functions(root):
        for m in re.finditer(r"^( *)(while .*|loop) \{", text, re.M):
            body = text[m.end() : text.index("\n" + m[1] + "}", m.end())]
            yield f"{crate}::{name}: {m[2]}" + (" *" if STEP.search(body) else "")


# Point 4
def derived(root):
    """Types that derive no more than Clone, Copy or Drop."""
    for crate, name, _, derives, _ in types(root):
        if not set(derives) - {"Clone", "Copy", "Drop"}:
            yield f"{crate}::{name}"


BY_HAND = (
    "lesser shorter at_most_3 same is_same black is_black starts is_between is_side flag of_byte of_word of_long word word_of long_of eight_of "
    "twelve_of low_twelve_of digit hex hex_digit hex_of signed copy put put4 store put_word number decimal say form mark said pair"
).split()


def by_hand(root):
    """Functions that compare, convert, copy or print by hand, by their names."""
    for crate, name, _, _ in functions(root):
        if name in BY_HAND:
            yield f"{crate}::{name}"


# Point 5
def conditions(root):
    """Conditions of `requires` that stand in three functions or more."""
    at = collections.defaultdict(list)
    for crate, name, text, _ in functions(root):
        for r in re.findall(r"^\s*requires(?: \w+)? \{ (.*) \}$", text, re.M):
            for part in re.split(r"\) × \(", r.strip("()")) if " × " in r else [r]:
                at[part.strip()].append(f"{crate}::{name}")
    for part, where in sorted(at.items(), key=lambda item: -len(item[1])):
        if len(where) >= 3:
            yield f"{len(where)} {part}: {', '.join(where)}"


def together(root):
    """Four parameters or more that stand together in three functions or more, those exported for C left out: the largest groups alone."""
    at = collections.defaultdict(list)
    for crate, name, text, _ in functions(root):
        if crate.startswith("vobsub_c"):
            continue
        given = [re.sub(r"'a ", "", re.sub(r"\s+", " ", p.strip())) for p in parameters(text).split(",") if ":" in p]
        given = [p for p in given if not p.startswith("rt:")]
        for k in range(4, min(len(given), 8) + 1):
            for group in itertools.combinations(given, k):
                at[group].append(f"{crate}::{name}")
    at = {group: where for group, where in at.items() if len(where) >= 3}
    # one line for each set of functions, with all that they share; and none for a part of another's functions and parameters
    shared = collections.defaultdict(set)
    for group, where in at.items():
        shared[tuple(where)] |= set(group)
    for where, group in sorted(shared.items(), key=lambda item: (-len(item[1]), -len(item[0]))):
        if not any(group <= more and set(where) < set(other) for other, more in shared.items()):
            group = sorted(group)
            yield f"{len(where)} ({', '.join(group)}): {', '.join(where)}"


# Point 6
def lengths(root):
    """Two lent lists that are parallel, or a list with a length or an end beside it, in the parameters of a function."""
    for crate, name, text, _ in functions(root):
        head = text[: text.index("{")] if "{" in text else text
        if re.search(r"starts: &[^,]*, *positions: &|starts: &[^,]*,\s+positions: &", head):
            yield f"{crate}::{name}: starts, positions"
        m = re.search(r"(\w+): &(?:mut )?\[\w+(?:; \d+)?\],\s*(end|used|count|size|have|length|n): usize", head)
        if m:
            yield f"{crate}::{name}: {m[1]}, {m[2]}"


# Point 7
def ladders(root):
    """Tests of one value against constants, three or more, one after the other."""
    for crate, name, text, _ in functions(root):
        tests = collections.Counter(re.findall(r"if (\w+) == (?:\d|0x|b')", text)) + collections.Counter(re.findall(r"if starts\((\w+), b\"", text))
        for value, n in tests.items():
            if n >= 3:
                yield f"{crate}::{name}: {value}, {n}"
        if re.search(r"\bk: Kind\b", text):
            yield f"{crate}::{name}: Kind"


# Point 8
def goals(root):
    """Answers to goals, by crate."""
    total = 0
    for crate in crates(root):
        n = 0
        for path in glob.glob(os.path.join(root, "crates", crate, "proofs", "**", "*.antt"), recursive=True):
            with open(path, encoding="utf-8") as f:
                n += len(re.findall(r"(?m)^pub [a-zA-Z0-9_-]+ : goal\.", f.read()))
        if n:
            yield f"{crate}: {n}"
        total += n
    yield f"in all: {total}"


def lines(root):
    """Lines of the sources, by crate."""
    count = collections.Counter()
    for crate, text in sources(root):
        count[crate] += len(text) - 1
    for crate, n in count.items():
        yield f"{crate}: {n}"
    yield f"in all: {sum(count.values())}"


POINTS = {
    "answers": answers,
    "flags": flags,
    "numbers": numbers,
    "handing": handing,
    "twins": twins,
    "loops": loops,
    "types": derived,
    "by-hand": by_hand,
    "conditions": conditions,
    "together": together,
    "lengths": lengths,
    "ladders": ladders,
    "goals": goals,
    "lines": lines,
}


def main(arguments):
    if not 1 <= len(arguments) <= 2 or arguments[0] not in POINTS:
        print(__doc__.strip(), file=sys.stderr)
        return 2
    root = arguments[1] if len(arguments) == 2 else os.path.dirname(os.path.dirname(os.path.abspath(__file__)))
    places = list(POINTS[arguments[0]](root))
    print("\n".join(places))
    if arguments[0] not in ("goals", "lines"):
        print(len(places))
    return 0


if __name__ == "__main__":
    raise SystemExit(main(sys.argv[1:]))
