#!/usr/bin/env python3
"""What a public function may ask of its callers, and how long a contract may be.

usage: entry_points.py

Product crates are called by others: no public function of theirs has a `requires`. Layer crates are called by our own crates alone, and
their functions may have one, which the caller's proof meets. Every crate of crates.txt is on one of the two lists, or a program (it has
src/main.rt), or theory (it has no function); so a new crate must be put somewhere.

Every public function has an `ensures`. No clause, from its keyword to its closing brace, has more than 144 characters.
"""
import re
from pathlib import Path

ROOT = Path(__file__).resolve().parent.parent

PRODUCT = {"tbox", "domino", "interpretation", "capi", "owl_import", "owl_export"}
LAYER = {"refusals", "bitset", "records", "flattening", "domino_conditions", "domino_parts", "domino_initial", "domino_settling",
         "domino_labels", "drawing_entries", "drawing_rows", "drawing_layers", "report", "console", "output", "owl_words"}
# Public functions without an ensures, and why.
WITHOUT_ENSURES = {
    "console::complain": "it answers nothing and leaves nothing: what the system takes is not in the kit's contract of write",
}
LONGEST = 144

# What is no code: strings and characters, and comments.
QUIET = re.compile(r"""b?"(?:\\.|[^"\\])*"|b'(?:\\.|[^'\\])+'|//[^\n]*""")
FUNCTION = re.compile(r"""(?:\b(pub(?:\s*\([^)]*\))?)\s+)?(?:(?:const|unsafe|extern\s+" *")\s+)*\bfn\s+(\w+)""")
CLAUSE = re.compile(r"\b(requires|ensures)\*?\s*(?:\w+\s*)?\{")
# A brace with the keyword of a clause before it, or a function's body, or the end of one without a body.
HEADER = re.compile(r"(?:\b(requires|ensures|ghost)\*?\s*(?:\w+\s*:?\s*)?)?\{|;")
CLOSED_BY = {"(": ")", "{": "}", "[": "]"}


def code_of(source):
    """A source text with comments and the contents of strings as blanks, place by place."""
    return QUIET.sub(lambda m: re.sub(r'[^\n"]', " ", m[0]), source)


def closed(code, at):
    """The place after the bracket that closes the one at a place."""
    opens, closes, depth = code[at], CLOSED_BY[code[at]], 0
    for i in range(at, len(code)):
        depth += (code[i] == opens) - (code[i] == closes)
        if depth == 0:
            return i + 1
    raise SystemExit(f"entry_points: nothing closes {code[at:at + 40]!r}")


def functions(source):
    """A source text's functions: line, name, whether public, and the keywords of its clauses."""
    code, found = code_of(source), []
    # an array's type has a semicolon
    code = re.sub(r"\[[^][]*\]", lambda m: m[0].replace(";", " "), code)
    for m in FUNCTION.finditer(code):
        clauses, at = [], closed(code, code.index("(", m.end()))
        while (brace := HEADER.search(code, at)) and brace[1]:
            clauses.append(brace[1])
            at = closed(code, brace.end() - 1)
        found.append((source.count("\n", 0, m.start(2)) + 1, m[2], m[1] == "pub", clauses))
    return found


def long_clauses(source):
    """The clauses of a source text that are too long: line and length."""
    code = code_of(source)
    clauses = [(m.start(), source[m.start() : closed(code, m.end() - 1)]) for m in CLAUSE.finditer(code)]
    lengths = [(source.count("\n", 0, at) + 1, len(" ".join(text.split()))) for at, text in clauses]
    return [(line, length) for line, length in lengths if length > LONGEST]


def faults(crates, product, layer, without_ensures):
    """What is wrong with crates, each given as its source texts by file name."""
    bad = [f"{name} is on two lists" for name in sorted(product & layer)]
    listed = product | layer | {name.split("::")[0] for name in without_ensures}
    bad += [f"{name} is on a list and is no crate" for name in sorted(listed - set(crates))]
    excused = set()
    for crate, files in crates.items():
        found = [(file, *function) for file, source in files.items() for function in functions(source)]
        other = "a program" if "main.rt" in files else "theory" if not found else None
        if other and crate in product | layer:
            bad.append(f"{crate} is {other} and on a list")
        if not other and crate not in product | layer:
            bad.append(f"{crate} is neither product nor layer, nor a program, nor theory")
        for file, line, name, public, clauses in found:
            at = f"{crate}/src/{file}:{line}: {name}"
            if public and crate in product and "requires" in clauses:
                bad.append(f"{at} is a product's and has a requires")
            if public and "ensures" not in clauses:
                excused.add(f"{crate}::{name}")
                if f"{crate}::{name}" not in without_ensures:
                    bad.append(f"{at} is public and has no ensures")
        for file, source in files.items():
            for line, length in long_clauses(source):
                bad.append(f"{crate}/src/{file}:{line}: a clause of {length} characters")
    bad += [f"{name} needs no excuse" for name in sorted(set(without_ensures) - excused)]
    return bad


SHORT = "\n    ensures { result ≡ 1 }\n{\n    1\n}\n"
ASKS = "\n    requires { x ≡ 1 }" + SHORT
NAMED = (
    "\n    requires low { x ≡ 1 }\n    requires high { x ≡ 1 }"
    "\n    ensures one { result ≡ 1 }\n    ensures also { result ≡ 1 }\n{\n    1\n}\n"
)
# 144 characters, over two lines, and one more
ONES = "1" * (LONGEST - len("ensures one { result ≡  }"))
LONG = "pub fn f() -> u8\n    ensures one {\n        result ≡ " + ONES + " }\n{\n    1\n}\n"
LONGER = LONG.replace("≡ 1", "≡ 11")
# A crate's file, its name and text; the crate is p on the list of products, q on that of layers, or x on none. How many faults.
TEXTS = [
    ("p", "lib.rt", "pub fn f(x: u8) -> u8" + SHORT, 0),
    ("p", "lib.rt", "pub fn f(x: u8) -> u8" + ASKS, 1),
    ("p", "lib.rt", "pub fn f(x: u8) -> u8" + NAMED, 1),
    ("q", "lib.rt", "pub fn f(x: u8) -> u8" + NAMED + "pub fn g(x: u8) -> u8" + SHORT, 0),
    ("p", "lib.rt", "pub fn f(\n    x: u8,\n) -> [u8; 4]" + ASKS, 1),
    ("p", "lib.rt", 'pub extern "C" fn f(x: &mut [u8; 4]) -> u8' + ASKS, 1),
    ("p", "lib.rt", "impl T {\n    pub fn f(self) -> u8" + ASKS + "}", 1),
    ("p", "lib.rt", "pub fn f(x: u8) -> u8" + SHORT + "fn g(x: u8) -> u8" + ASKS, 0),
    ("p", "lib.rt", "pub(crate) fn f(x: u8) -> u8" + ASKS, 0),
    ("p", "lib.rt", "// pub fn f(x: u8) -> u8 requires { x ≡ 1 }\npub fn f(x: u8) -> u8" + SHORT, 0),
    ("p", "lib.rt", "pub fn f(x: u8) -> u8 {\n    1\n}\n", 1),
    ("p", "lib.rt", "pub fn f(x: u8) -> u8 {\n    1\n}\nfn g(x: u8) -> u8" + SHORT, 1),
    ("p", "lib.rt", 'pub fn f(x: u8) -> u8 {\n    g(b"ensures { 1 }")\n}\n', 1),
    ("p", "main.rt", "pub fn f(x: u8) -> u8" + SHORT, 1),
    ("p", "lib.rt", "// nothing but a fn\npub enum E {\n    A,\n}\n", 1),
    ("q", "lib.rt", "pub fn f(x: u8) -> u8" + ASKS, 0),
    ("q", "lib.rt", "pub fn f(x: u8)\n    requires { x ≡ 1 }\n{\n}\n", 1),
    ("q", "lib.rt", "pub fn excused(x: u8) {\n}\n", 0),
    ("q", "lib.rt", LONG, 0),
    ("q", "lib.rt", LONGER, 1),
    ("q", "lib.rt", LONGER.replace("pub ", "").replace("ensures", "requires"), 1),
    ("x", "lib.rt", "pub fn f(x: u8) -> u8" + SHORT, 1),
    ("x", "lib.rt", "// nothing but a fn\npub enum E {\n    A,\n}\n", 0),
    ("x", "main.rt", "fn main() {\n}\n", 0),
    ("x", "main.rt", "pub fn f() {\n}\n", 1),
]


def sees():
    """The texts above have as many faults as they should; lists that name what is not there are faults."""
    for crate, file, text, count in TEXTS:
        product, layer = {"p"} & {crate}, {"q"} & {crate}
        excuse = {"q::excused": "why"} if "excused" in text else {}
        found = faults({crate: {file: text}}, product, layer, excuse)
        if len(found) != count:
            raise SystemExit(f"entry_points: {found} found in {text!r}")
    good = {"p": {"lib.rt": TEXTS[0][2]}}
    for crates, lists, count in [
        (good, ({"p"}, set(), {}), 0),
        (good, ({"p"}, {"p"}, {}), 1),
        (good, ({"p"}, {"y"}, {}), 1),
        (good, ({"p"}, set(), {"p::f": "why"}), 1),
    ]:
        if len(found := faults(crates, *lists)) != count:
            raise SystemExit(f"entry_points: {found} found with {lists}")


def main():
    sees()
    lines = (ROOT / "crates.txt").read_text().splitlines()
    crates = {}
    for name in [re.split(r"[ :]", line)[0] for line in lines if line.strip() and not line.startswith("#")]:
        folder = ROOT / "crates" / name / "src"
        crates[name] = {str(file.relative_to(folder)): file.read_text() for file in sorted(folder.glob("**/*.rt"))}
    empty = [f"{name} has no source" for name, files in crates.items() if not files]
    bad = empty + faults(crates, PRODUCT, LAYER, WITHOUT_ENSURES)
    if bad:
        raise SystemExit("\n".join(["entry_points: found", *bad]))
    public = {name: sum(f[2] for text in files.values() for f in functions(text)) for name, files in crates.items()}
    by_crate = ", ".join(f"{name} {public[name]}" for name in crates if name in PRODUCT)
    print(f"entry_points: no requires on public functions ({by_crate})")
    print(f"entry_points: an ensures on all {sum(public.values())} public functions but {', '.join(WITHOUT_ENSURES)}")
    print(f"entry_points: no clause of more than {LONGEST} characters")


if __name__ == "__main__":
    main()
