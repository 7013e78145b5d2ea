#!/usr/bin/env python3
"""Each must-fail edit was refused because a fact no longer holds, and not because a proof no longer fits the code's shape.

usage: must_fail.py LOG

LOG is what `rt ci` printed. It has a line for each edit crates/CRATE/must-fail/NAME.edit of the crates in crates.txt, tried in that run
or kept from an earlier one, and the first thing there that the prover told against it. Each edit must be refused, and what is told be
that a fact does not hold: not that a name is gone, not that a goal under a new name has no answer, and not a limit of the prover. No
edit is bad.

What this does not see: a proof that no longer fits for another reason than a name, as where a rewriting finds no place; and what rt does
not tell, since it passes over names that are missing in proofs/ where anything else is refused too.
"""
import re
import sys
from pathlib import Path

ROOT = Path(__file__).resolve().parent.parent

TRIED = re.compile(r"^rt: must-fail (\w+/[\w.-]+\.edit): (.*)$", re.M)
RIGHT = re.compile(r"refused, as it must be(?!.{0,2}\()")
GONE = re.compile(r"is not in scope|has no field|has no `|exports no `|does not define it|was not admitted")
# What is told where the proof that names what is gone is not told itself, or where a goal has no answer under its new name.
WEAK = re.compile(r"\bnot checked\b|, which was rejected|`search` (gave up|did not)")
ENDED = re.compile(r"^rt: ok; .*must-fail edits: (\d+) refused(.*?);", re.M)


def faults(log, edits):
    """What is wrong with a log, for edits by their names CRATE/NAME.edit."""
    said = dict(TRIED.findall(log))
    right = {edit for edit, why in said.items() if RIGHT.match(why) and not GONE.search(why) and not WEAK.search(why)}
    bad = [f"{edit} {said.get(edit, 'has no line: it was not tried')[:300]}" for edit in edits if edit not in right]
    bad += [f"{edit} was tried and is not there" for edit in sorted(set(said) - set(edits))]
    ended = ENDED.search(log)
    if not ended or int(ended[1]) != len(edits) or "bad" in ended[2] or "limit" in ended[2]:
        bad.append(f"rt ci says of {len(edits)} edits: {ended[0] if ended else 'nothing'}")
    return bad


FACT = "rt: must-fail p/a.edit: refused, as it must be: ./proofs/f/Answers.antt:33:3: error: `returns`: `omega`: the goal does not follow\n"
BARE = "rt: must-fail p/a.edit: refused, as it must be\n"
NAMES = "rt: must-fail p/a.edit: refused, as it must be (only because a proof file names what the edit took away, so this says little): x\n"
LIMIT = "rt: must-fail p/a.edit: refused, as it must be (only by a limit of the prover, which gave no verdict): x\n"
PROVED = "rt: must-fail p/a.edit: NOT REFUSED: the crate is still proved with this edit\n"
BAD = "rt: must-fail p/a.edit: BAD EDIT: an 'old:' text is in src/lib.rt 0 times, and not once\n"
FIELD = FACT.replace("`omega`: the goal does not follow", "record `p.Lts.Start` has no field `before`")
SCOPE = "rt: must-fail p/a.edit: refused, as it must be: specs/Bits.antt:15:11: error: `bit`: `eqbb` is not in scope; did you mean `eqb`?\n"
GOAL = FACT.replace("`omega`: the goal does not follow", "module `p.Tie` has no `Need-returns` that can be named from here")
LOST = FACT.replace("`omega`: the goal does not follow", "1 declaration that depends on `f`, which was rejected, was not checked")
OPEN = FACT.replace("error: `returns`: `omega`: the goal does not follow", "it is not proved that it holds (`returns-2`); `search` gave up")
OTHER = FACT.replace("a.edit", "b.edit")
END = "rt: ok; handles allowed: none; must-fail edits: 1 refused; every proof and must-fail edit was done in this run\n"
# A log, and how many faults it has for p/a.edit alone.
LOGS = [
    (FACT + END, 0),
    (BARE + END, 0),
    (FACT, 1),
    (END, 1),
    ("", 2),
    (NAMES + END, 1),
    (FIELD + END, 1),
    (SCOPE + END, 1),
    (GOAL + END, 1),
    (LOST + END, 1),
    (OPEN + END, 1),
    (LIMIT + END.replace("refused;", "refused, 1 of them only by a limit;"), 2),
    (PROVED + END.replace("1 refused", "0 refused"), 2),
    (BAD + END.replace("1 refused;", "0 refused, 1 bad;"), 2),
    (FACT + OTHER + END, 1),
    (FACT + OTHER + END.replace("1 refused", "2 refused"), 2),
]


def sees():
    for log, count in LOGS:
        if len(found := faults(log, ["p/a.edit"])) != count:
            raise SystemExit(f"must_fail: {found} found in {log!r}")


def main():
    sees()
    log = Path(sys.argv[1]).read_text()
    lines = (ROOT / "crates.txt").read_text().splitlines()
    crates = [re.split(r"[ :]", line)[0] for line in lines if line.strip() and not line.startswith("#")]
    paths = [edit for crate in crates for edit in sorted((ROOT / "crates" / crate / "must-fail").glob("*.edit"))]
    edits = [f"{edit.parent.parent.name}/{edit.name}" for edit in paths]
    bad = faults(log, edits) if edits else ["there is nothing to look at"]
    if bad:
        raise SystemExit("\n".join(["must_fail: found", *bad]))
    print(f"must_fail: {len(edits)} edits refused, none for a name that is missing")


if __name__ == "__main__":
    main()
