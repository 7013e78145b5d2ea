#!/usr/bin/env python3
"""What the programs take from the system, and where.

usage: axioms.py        runs `rt check` in each crate's folder

The check of a program, or of the static library capi, names the system's functions whose contracts it assumes, in whatever crate below.
It assumes those that its line below has, no more and no fewer: a program that reads nothing, or writes nothing, has fewer, and the
library that C calls has none. Of the other crates only those below stand on the system's functions at all.

What is read and written no contract can say. So the calls are few: a crate's sources call what reads or writes as often as its line
below says, and no other crate's call any.
"""
import re
import subprocess
from pathlib import Path

ROOT = Path(__file__).resolve().parent.parent

# What each program assumes, and capi: std's reader and writer, and the number of the system's error where one of them fails.
PROGRAMS = {
    "capi": set(),
    "evening": {"libc::read", "libc::write", "os::c::rattle_errno"},
    "queue": {"libc::read", "libc::write", "os::c::rattle_errno"},
    "loads": {"libc::write", "os::c::rattle_errno"},
}
# The other crates that stand on the system's functions.
LIBRARIES = {"console"}
# The kit's vectors of fixed room can be written to as a stream, so a crate above reads what os states of an error: no function.
STREAMS = "arrayvec"
# How often a crate's sources call what reads or writes, or console's; and how often they ask for a stream.
CALLS = {
    "console": {".read": 1, ".write_all": 2},
    "evening": {"console::read_all": 1, "console::print": 1, ".stdin": 1, ".stdout": 1, ".stderr": 1},
    "queue": {"console::read_all": 1, "console::print": 1, ".stdin": 1, ".stdout": 1, ".stderr": 1},
    "loads": {"print!": 4, "println!": 3, ".stdout": 1},
}
# What neither reads nor writes, or only to standard error; and a reader of a sheet in memory.
QUIET = {"io::decimal", "io::hex", "io::Read", "io::Print", "io::Result", "io::Stdout", "io::Stderr", "console::Printed", "console::complain", "Admitted::read"}

# What is no code: strings and characters, and comments.
TEXT = re.compile(r"""b?"(?:\\.|[^"\\])*"|b'(?:\\.|[^'\\])+'|//[^\n]*""")
# Functions and modules of the system, of the kit's io and of console; methods and macros that read, write or give a stream.
NAMED = re.compile(
    r"\b(?:libc|io|os|console|fs|env|process|net|thread|time)::\w+"
    r"|\b[A-Z]\w*::(?:read|write|print|flush|seek|bytes)\w*(?=\s*\()"
    r"|\.(?:read|write|print|flush|seek)\w*(?=\s*\()|\.(?:stdin|stdout|stderr|reader|lines|bytes|args)(?=\s*\()"
    r"|\b(?:e?print(?:ln)?|write(?:ln)?)!"
)
IMPORTED = re.compile(r"\buse ([\w:]+)::\{([^}]*)\}")
REPORT = re.compile(r"^axioms (\w+): (.*)$", re.M)
REACHED = re.compile(r"(.*) \((\d+) of the \d+ declared\)")
VERDICT = re.compile(r"^logic=.*$", re.M)
PROVED = re.compile(r"logic=proved functions=\d+( .*)?")


def assumed(said):
    """The functions that a check says it assumes, or None where it proved nothing or says it in a way that cannot be read."""
    # those of crates below, which are built first, stand before it
    verdicts = VERDICT.findall(said)
    verdict = PROVED.fullmatch(verdicts[-1]) if verdicts else None
    if not verdict:
        return None
    names = set()
    for _, text in REPORT.findall(said):
        reached = REACHED.fullmatch(text)
        if reached:
            names.update(reached[1].split(", "))
        elif not text.startswith("none reached"):
            return None
    count = re.search(r" axioms=(\d+)", verdict[0])
    return names if len(names) == (int(count[1]) if count else 0) else None


def stands(said, streams=False):
    """Whether a check says that it read what is stated of the system's functions; None where it does not speak of them."""
    loaded = re.findall(r"^(?:statements|library) (libc|os): modules loaded=(\d+) checked=(\d+)$", said, re.M)
    return any(n != "0" for of, *counts in loaded[-2:] for n in counts if not (streams and of == "os")) if loaded else None


def named(sources):
    """How often source texts call what reads or writes, or console's; names that a `use` brings go by their paths."""
    found = []
    for text in sources:
        code = TEXT.sub(" ", text)
        code = IMPORTED.sub(lambda m: "; ".join(f"{m[1]}::{name.strip()}" for name in m[2].split(",")), code)
        found += [name for name in NAMED.findall(code) if name not in QUIET]
    return {name: found.count(name) for name in found}


def above(name, lines):
    """The crates that stand on one, by crates.txt's lines from below up."""
    found = {name}
    for line in lines:
        crate, _, below = line.partition(":")
        if found & set(below.split()):
            found.add(re.split(" ", crate)[0])
    return found


def faults(crate, said, sources, streams=False):
    """What is wrong with a crate, given what its check said, its source texts, and whether it stands on arrayvec."""
    bad, calls = [], named(sources)
    if crate in PROGRAMS:
        found = assumed(said)
        if found is None:
            bad.append(f"{crate}: its check has no verdict that can be read")
        elif found != PROGRAMS[crate]:
            bad.append(f"{crate} assumes {sorted(found)}")
    if not (crate in PROGRAMS and PROGRAMS[crate]) and stands(said, streams) is not (crate in LIBRARIES):
        bad.append(f"{crate} stands on the system's functions, or does not and should, or its check does not say")
    if calls != CALLS.get(crate, {}):
        bad.append(f"{crate} names {calls}")
    return bad


BOTH = (
    "axioms libc: libc::read, libc::write (2 of the 128 declared)\naxioms os: os::c::rattle_errno (1 of the 22 declared)\n"
    "axioms std: none reached of the 2 declared\nlogic=proved functions=5 axioms=3 target=x\n"
)
ONE = BOTH.replace("libc::read, libc::write (2", "libc::write (1").replace("axioms=3", "axioms=2")
MORE = BOTH.replace("libc::read, libc::write (2", "libc::close, libc::read, libc::write, ... (7").replace("axioms=3", "axioms=8")
NONE = "statements libc: modules loaded=0 checked=0\nstatements os: modules loaded=0 checked=0\n"
SOME = NONE.replace("os: modules loaded=0", "os: modules loaded=9")
CODE = "use console::{Printed, print};\nuse std::io::{Read, Stdout};\nfn main(rt: HostRuntime) {\n    console::read_all(&mut rt.stdin());\n    f(rt.stdout(), rt.stderr());\n}\n"
# A crate, what its check said and source; how many faults.
CASES = [
    ("evening", BOTH, CODE, 0),
    ("evening", ONE, CODE, 1),
    ("evening", MORE, CODE, 1),
    ("evening", BOTH.replace("=proved", "=not-proved"), CODE, 1),
    ("evening", BOTH.replace("axioms=3", "axioms=4"), CODE, 1),
    ("evening", BOTH + "axioms evening: evening::f (1 of 1 declared)\n", CODE, 1),
    ("evening", "", CODE, 1),
    ("evening", "logic=proved functions=16 sum=x\n" + BOTH, CODE, 0),
    ("evening", BOTH + "logic=not-proved\n", CODE, 1),
    ("capi", NONE + "axioms std: none reached of the 2 declared\nlogic=proved functions=7 target=x\n", "", 0),
    ("capi", NONE + ONE, "", 1),
    ("capi", SOME + "logic=proved functions=7 target=x\n", "", 1),
    ("evening", BOTH, CODE + "// console::print\n", 0),
    ("evening", BOTH, CODE + 'fn f() {\n    console::print(b"io::write_all");\n}\n', 1),
    ("evening", BOTH, CODE + "fn f() {\n    io::write_all(1, b);\n}\n", 1),
    ("evening", BOTH, CODE + 'fn f() {\n    println!(rt; "x")?;\n}\n', 1),
    ("evening", BOTH, CODE.replace("rt.stdin()", "rt.stdout()"), 1),
    ("evening", BOTH, CODE.replace("print}", "complain}"), 1),
    ("console", SOME, "from.read(buffer); stdout.write_all(a); stderr.write_all(b);", 0),
    ("console", SOME, "from.read(buffer); stdout.write_all(a);", 1),
    ("console", SOME, "from.read(buffer); stdout.write_all(a); stderr.write_all(b); Read::read(from, b);", 1),
    ("console", NONE, "from.read(buffer); stdout.write_all(a); stderr.write_all(b);", 1),
    ("report", NONE, "io::decimal(n, &mut digits)", 0),
    ("report", SOME, "io::decimal(n, &mut digits)", 1),
    ("report", "", "io::decimal(n, &mut digits)", 1),
    ("report", NONE.replace("libc: modules loaded=0", "libc: modules loaded=6"), "", 1),
    ("report", NONE, "use io::write_all;", 1),
    ("report", NONE, "use std::fs::File;", 1),
    ("report", NONE, "R::read(from, b)", 1),
]


def sees():
    """The cases above have as many faults as they should."""
    for crate, said, source, count in CASES:
        if len(found := faults(crate, said, [source])) != count:
            raise SystemExit(f"axioms: {found} found in {crate}, {said!r}, {source!r}")
    if faults("report", SOME, [""], True) or not faults("report", SOME.replace("libc: modules loaded=0", "libc: modules loaded=6"), [""], True):
        raise SystemExit("axioms: what a stream brings is taken for the system's functions, or they for it")
    if above("b", ["a:", "b: a", "c staticlib: a b", "d: a", "e: c"]) != {"b", "c", "e"}:
        raise SystemExit("axioms: the crates above one are not found")


def check(crate):
    run = subprocess.run(["rt", "check"], cwd=ROOT / "crates" / crate, stdout=subprocess.PIPE, stderr=subprocess.STDOUT, text=True, errors="replace")
    return run.stdout


def main():
    sees()
    lines = (ROOT / "crates.txt").read_text().splitlines()
    lines = [line for line in lines if line.strip() and not line.startswith("#")]
    crates = [re.split(r"[ :]", line)[0] for line in lines]
    streams = above(STREAMS, lines)
    bad = [f"{name} is on a list and is no crate" for name in sorted((PROGRAMS.keys() | CALLS.keys()) - set(crates))]
    for crate in crates:
        sources = [file.read_text() for file in sorted((ROOT / "crates" / crate / "src").glob("**/*.rt"))]
        bad += faults(crate, check(crate), sources, crate in streams and crate not in PROGRAMS)
    if bad:
        raise SystemExit("\n".join(["axioms: found", *bad]))
    for name, assumes in PROGRAMS.items():
        print(f"axioms: {name} assumes {', '.join(sorted(assumes)) or 'nothing'} and no other")
    others = len(crates) - sum(map(bool, PROGRAMS.values()))
    print(f"axioms: of the other {others} crates {', '.join(sorted(LIBRARIES))} alone stands on the system's functions")
    print(f"axioms: {', '.join(sorted(CALLS))} alone call what reads or writes")


if __name__ == "__main__":
    main()
