#!/usr/bin/env python3
"""Turns the names that this repository's specs and proofs declare to the library's spelling, after /opt/rattle/port/port.py.

usage: respell.py [--check]        at the top of the repository; run it once

A word is in snake case (wordsFrom: words_from). A dash joins two names alone (word-suc keeps it, since word and suc are names); any other
dash becomes an underscore (column-past: column_past). Names of types, modules, functions of src/ and generated names stay. A name whose
new spelling stands in some file already, as that of a function, gets _lem behind it (wordsFor: words_for_lem), and so does a lemma that
would fall together with its definition (_law where both meet). In a file that brings a name from a library, that name stays.
--check writes nothing. The rows old, new go to standard output.
"""
import re
import sys
from collections import defaultdict
from pathlib import Path

ROOT = Path(__file__).resolve().parent.parent
WORD = re.compile(r'[^\s(){}.;,@"«»]+')
QUOTED = re.compile(r'b?"(?:\\.|[^"\\])*"')
DECLARED = re.compile(r"^ *(?:(?:pub|abbrev|unfoldable|mutual|data|record|module|where) +)*([^\s(){}.;,@\"«»:]+(?: +[^\s(){}.;,@\"«»:]+)*)(?: *\{[^{}\n]*\}| *\([^()\n]*\))* +:(?: |$)")
# What the library names, beside what specs/ declares.
NAMES = set(
    "length get_or set take drop suc zero cond not map append cons nil sum add sub mul div mod pow min max eqb ltb leb ones bit word "
    "fst snd true false some none id".split()
)
# Where a lemma has the spelling of a definition already, it gets _lem, and the definition the spelling.
GIVEN = {"orR": "or_r", "roleHolds": "role_holds", "rowFirst": "row_first"}
USE = re.compile(r"\buse ([^\s;{]+)\.\{([^}]*)\}")
OURS = re.compile(r"Rattle\.(?!std\b|core\b)\w+\.")
GENERATED = {"Proof.antt"}


def texts():
    for folder in ("specs", "proofs"):
        yield from sorted(ROOT.glob(f"crates/*/{folder}/**/*.antt"))


def snake(segment):
    if segment[:1].isupper():
        return segment
    return re.sub(r"(?<=[a-z0-9])[A-Z]", lambda m: "_" + m[0].lower(), segment)


def is_name(segment, declared):
    return segment in NAMES or segment in declared or segment[:1].isupper() or not re.match(r"[A-Za-z]", segment)


def spelled(name, declared):
    parts = name.split("-")
    if not all(parts):
        return snake(name)
    new = snake(parts[0])
    for before, after in zip(parts, parts[1:]):
        joins = is_name(before, declared) and is_name(after, declared)
        new += ("-" if joins else "_") + snake(after)
    return new


def brought_by(text):
    """The names that a file brings from libraries."""
    out = set()
    for m in USE.finditer(text):
        if not OURS.match(m[1]):
            out.update(re.split(r"[,\s]+", m[2]))
    return out


def declared_in(path):
    for line in path.read_text().splitlines():
        if line.lstrip().startswith("--"):
            continue
        m = DECLARED.match(line)
        if m:
            yield from m[1].split()


def main():
    check = "--check" in sys.argv[1:]
    definitions, names = set(), set()
    for path in texts():
        if path.name in GENERATED:
            continue
        for name in declared_in(path):
            names.add(name)
            if "/specs/" in str(path) and "-" not in name:
                definitions.add(name)
    sources = sorted(ROOT.glob("crates/*/src/**/*.rt"))
    files = list(texts()) + sources
    present = set()
    for path in files:
        present.update(WORD.findall(path.read_text()))
    # a local name too, as of a let
    names.update(w for w in present if re.fullmatch(r"[a-z]+[a-z0-9]*[A-Z]\w*", w))
    rows, taken = {}, defaultdict(list)
    given = {old: new for old, new in GIVEN.items() if old in names}
    given |= {new: new + "_lem" for new in given.values() if new in names}
    present -= set(given)
    for name in sorted(names):
        new = spelled(name, definitions)
        if name in given:
            rows[name] = given[name]
        elif new != name:
            taken[new].append(name)
    for new, olds in taken.items():
        plain = [old for old in olds if "-" not in old]
        for old in olds:
            alone = len(olds) == 1 or plain == [old]
            end = "" if alone and new not in present else "_lem" if alone or new not in present else "_law"
            rows[old] = new + end
    clash = [old for old in rows if rows[old] in present or list(rows.values()).count(rows[old]) > 1]
    if clash:
        sys.exit(f"respell: names fall together: {' '.join(clash)}")
    for old in sorted(rows):
        print(f"{old}\t{rows[old]}")
    if check:
        return
    for path in files:
        text = path.read_text()
        brought = brought_by(text) & set(rows)
        if brought:
            print(f"of a library in {path.relative_to(ROOT)}: {' '.join(sorted(brought))}", file=sys.stderr)
        kept = [m.span() for m in QUOTED.finditer(text)] if path.suffix == ".rt" else []
        new = WORD.sub(lambda m: m[0] if any(a <= m.start() < b for a, b in kept) or m[0] in brought else rows.get(m[0], m[0]), text)
        if new != text:
            path.write_text(new)


main()
