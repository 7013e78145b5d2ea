#!/usr/bin/env python3
"""Asks Konclude, by hand and not in the gate, about ontologies as the command writes them: random sheets without Boolean roles are
exported by `lodhrussi export --ontology`, each file is given to Debian's Konclude as it is, and its verdict is compared with that of
`lodhrussi judge` on the sheet. Prints a line of counts; exits 1 if a verdict differs or the command refuses a sheet. A verdict that
differs is counted apart, under 'contradict', where Konclude contradicts itself: a model of all axioms, yet none with one left out.

    tools/ontologies.py [--count N] [--seed N] [--command PATH] [--limit SECONDS]
"""

import argparse
import random
import shutil
import subprocess
import sys
import tempfile
from collections import Counter
from pathlib import Path

from outside import AGREE, COLUMNS, DIFFER, LATE, MET, SILENT, UNMET, WAVER, random_axioms, run, sheet, verdict

IRI = "http://example.org/sheet"
KONCLUDE = "Konclude"


def answered(command, *arguments):
    """What the command writes; none of the statuses from 2 on is an answer."""
    done = subprocess.run([command, *arguments], capture_output=True, text=True)
    if done.returncode > 1:
        sys.exit(f"{command} {' '.join(map(str, arguments))}: {done.stdout}{done.stderr}")
    return done.stdout


def judged(command, file):
    """The verdict on the sheet in a file, as the evening program prints it."""
    last = answered(command, "judge", "--lines", file).splitlines()[-1]
    return {"can be met": MET, "cannot be met": UNMET}[last]


def consistent(file, limit):
    """Konclude's verdict on an ontology in a file."""
    done = run([KONCLUDE, "consistency", "-w", "2", "-i", file], limit)
    return verdict(done, "is consistent.", "is inconsistent.")


def contradicts(file, limit):
    """Whether Konclude finds no model where one axiom of an ontology is left out."""
    lines = file.read_text().splitlines(keepends=True)
    less = file.with_suffix(".less.ofn")
    for number in (n for n, line in enumerate(lines) if line.startswith("SubClassOf")):
        less.write_text("".join(lines[:number] + lines[number + 1:]))
        if consistent(less, limit) == UNMET:
            return True
    return False


def opinion(file, ours, limit):
    """What Konclude says of an ontology beside the command's verdict."""
    theirs = consistent(file, limit)
    if theirs in (LATE, SILENT):
        return theirs
    if theirs == ours:
        return AGREE
    return WAVER if theirs == MET and contradicts(file, limit) else DIFFER


def main():
    home = Path(__file__).resolve().parent.parent
    options = argparse.ArgumentParser(description=__doc__, formatter_class=argparse.RawDescriptionHelpFormatter)
    options.add_argument("--count", type=int, default=2000, help="number of sheets (2000)")
    options.add_argument("--seed", type=int, default=11, help="seed of the sheets (11)")
    options.add_argument("--command", default=home / "lodhrussi", help="the command (lodhrussi)")
    options.add_argument("--limit", type=float, default=10, help="seconds for one verdict (10)")
    given = options.parse_args()
    for command in (given.command, KONCLUDE):
        if not shutil.which(command):
            sys.exit(f"there is no program {command}")

    rng = random.Random(given.seed)
    own, others = Counter(), Counter()
    with tempfile.TemporaryDirectory() as folder:
        source, file = Path(folder) / "sheet.hex", Path(folder) / "sheet.ofn"
        for _ in range(given.count):
            data = sheet(rng, random_axioms(rng))
            source.write_text(data.hex(" "))
            file.write_text(answered(given.command, "export", "--ontology", IRI, source))
            ours = judged(given.command, source)
            own[ours] += 1
            said = opinion(file, ours, given.limit)
            others[said] += 1
            if said in (DIFFER, WAVER, SILENT):
                print(f"{said}; the command: {ours}; sheet {data.hex(' ')}")

    print(f"seed {given.seed}: {given.count} ontologies, {own[MET]} met, {own[UNMET]} unmet; Konclude: "
          + ", ".join(f"{column} {others[column]}" for column in COLUMNS))
    sys.exit(bool(others[DIFFER] + others[WAVER]))


if __name__ == "__main__":
    main()
