#!/usr/bin/env python3
"""Nothing that a call of the library runs multiplies or divides: in the source, and in the compiled functions.

usage: products.py [crates/capi/out/libcapi.a]

Source: every crate that capi stands on. No `*` but a dereference, no `/` or `%` but by a literal power of two (a shift or a mask),
none of the language's operations called mul, div, rem or pow. Contracts and comments are left out.

Machine code: every function of the static library. No instruction multiplies or divides, but the compiler's own product in
count_ones, which is by 0x0101010101010101. Nothing is called outside the library but what copies and fills memory: a product that
is a library call would be such a call.

What this does not see: what a compiler for another processor makes of the same source. There count_ones, and the scaling of an
index by the size of a word, are that compiler's to choose.
"""
import re
import subprocess
import sys
from collections import Counter
from pathlib import Path

ROOT = Path(__file__).resolve().parent.parent
ONES = 0x0101010101010101

GHOST = re.compile(r"//[^\n]*|ghost use [^;]*;", re.S)
CLAUSE = re.compile(r"\b(?:requires|ensures|ghost)\*?\s*(?:\w+\s*:?\s*)?\{")
TOKEN = re.compile(r"\d\w*|\w+|<<|>>|&&|\|\||[=!<>]=|->|=>|::|\.\.=?|\S")
LITERAL = re.compile(r"(0x[0-9a-f_]+|[\d_]+)(?:_?[ui](?:8|16|32|64|size))?")
NUMBERS = {"u8", "u16", "u32", "u64", "usize", "i8", "i16", "i32", "i64", "isize"}
NAMED = re.compile(r"(\w+_)?(mul|div|rem|pow)(_\w+)?")
KEYWORDS = {"return", "in", "if", "else", "while", "match", "mut", "let", "loop", "as"}

FUNCTION = re.compile(r"[0-9a-f]+ <(.*)>:")
INSTRUCTION = re.compile(r" *[0-9a-f]+:\t(\S+) *(.*)")
PREFIXES = {"lock", "rep", "repz", "repnz", "data16", "cs", "ds", "notrack"}
PRODUCT = re.compile(r"mul|div|madd|^vfn?m")
OUTSIDE = {"memcpy", "memmove", "memset"}
READS_ONLY = re.compile(r"cmp|test|bt$|push")


def power_of_two(token):
    m = LITERAL.fullmatch(token)
    if not m:
        return False
    n = int(m[1].replace("_", ""), 0)
    return n > 0 and n & (n - 1) == 0


def blank(text):
    return re.sub(r"[^\n]", " ", text)


def without_ghosts(source):
    """A source text with comments, imports for clauses and clauses as blanks."""
    text = GHOST.sub(lambda m: blank(m[0]), source)
    while m := CLAUSE.search(text):
        depth, at = 1, m.end()
        while depth:
            depth += (text[at] == "{") - (text[at] == "}")
            at += 1
        text = text[: m.start()] + blank(text[m.start() : at]) + text[at:]
    return text


def products_of(source):
    """The products and quotients written in a source text, each as its line and the tokens around it."""
    found = []
    text = without_ghosts(source)
    tokens = [(m[0], text.count("\n", 0, m.start()) + 1) for m in TOKEN.finditer(text)]
    for i, (token, line) in enumerate(tokens):
        before = tokens[i - 1][0] if i else ";"
        of_number = before == "." or (before == "::" and tokens[i - 2][0] in NUMBERS)
        after = tokens[i + 1][0] if i + 1 < len(tokens) else ";"
        binary = re.fullmatch(r"\w+|[)\]]", before) and before not in KEYWORDS
        bad = (
            (token == "*" and (binary or after == "="))
            or (token in "/%" and not power_of_two(after))
            or (of_number and NAMED.fullmatch(token))
        )
        if bad:
            found.append((line, " ".join(t for t, _ in tokens[max(0, i - 3) : i + 4])))
    return found


def standing_on(crate, lines):
    """The crates of crates.txt that a crate stands on, also through others, and itself, in the order of the file."""
    below = {name.split()[0]: rest.split() for name, colon, rest in (line.partition(":") for line in lines) if colon}
    found, new = set(), [crate]
    while new:
        name = new.pop()
        if name in below and name not in found:
            found.add(name)
            new += below[name]
    return [name for name in below if name in found]


def instructions(listing):
    """Function by function, the mnemonics and operands of a listing by objdump."""
    functions = {}
    for line in listing.splitlines():
        if m := FUNCTION.fullmatch(line):
            current = functions.setdefault(m[1], [])
        elif m := INSTRUCTION.fullmatch(line):
            words = (m[1] + " " + m[2]).split("#")[0].split()
            while len(words) > 1 and words[0] in PREFIXES:
                words = words[1:]
            current.append((words[0], " ".join(words[1:])))
    return functions


def names(register):
    """A 64-bit register's name and those of its parts."""
    rest = register[2:]
    if rest[0].isdigit():
        return tuple(register + part for part in ("", "d", "w", "b"))
    return (register, f"%e{rest}", f"%{rest}", f"%{rest.rstrip('x')}l")


def counts_ones(code, i):
    """Is instruction i a product by the constant of count_ones, put into one of its registers last before it?"""
    for register in re.findall(r"%r\w+", code[i][1]):
        for mnemonic, operands in reversed(code[:i]):
            if operands.endswith(names(register)) and not READS_ONLY.match(mnemonic):
                if (mnemonic, operands) == ("movabs", f"${ONES:#x},{register}"):
                    return True
                break
    return False


def products_in(functions):
    """The functions' instructions that multiply or divide; those of count_ones apart, counted by function."""
    found, ones = [], Counter()
    for name, code in functions.items():
        for i, (mnemonic, operands) in enumerate(code):
            if PRODUCT.search(mnemonic):
                if mnemonic == "imul" and counts_ones(code, i):
                    ones[name] += 1
                else:
                    found.append(f"{name}: {mnemonic} {operands}")
    return found, ones


# A source text, and how many products and quotients it has.
TEXTS = [
    ("let from = 3 * i;", 1),
    ("let size = 64 * words_for(c, l);", 1),
    ("set[i] * 2 + (a) * b", 2),
    ("total *= 2;", 1),
    ("n % pow(c)", 1),
    ("w % (1u64 << n) / 10", 2),
    ("u64::wrapping_mul(a, b) + a.div_euclid(b) + usize::pow(2, k)", 3),
    ("*place = p as u64; if b { *met = 1; } return *x;", 0),
    ("set[n / 64] >> (n % 64) % 2 == 1 / 16777216", 0),
    ("w / 0x40u64 % 1_024", 0),
    ("crate::numbers::pow(k) fn pow(k: usize)", 0),
    ("ensures { result ≡ 4 * i % 3 } // 3 * i\nghost use Nat.{◌*◌, ◌/◌};", 0),
    ("requires low { x ≡ record { a = 4 * i } }\n    ensures { y % 3 ≡ 1 }\n{\n    3 * i\n}", 1),
]
# A listing, how many of its instructions multiply or divide, and how many are of count_ones.
LISTINGS = [
    ("0 <f>:\n   1:\timul   $0x18,%rax,%rcx\n   2:\tmul    %rdx\n   3:\tdivq   (%rsi)\n   4:\tpmuludq %xmm0,%xmm1", 4, 0),
    ("0 <f>:\n   1:\tshl    $0x3,%rax\n   2:\tlea    (%rax,%rax,2),%rcx\n   3:\tpsadbw %xmm0,%xmm1", 0, 0),
    ("0 <f>:\n   1:\tmovabs $0x101010101010101,%rdi\n   2:\tmov    %rax,%rsi\n   3:\timul   %rdi,%rsi", 0, 1),
    ("0 <f>:\n   1:\tmovabs $0x101010101010101,%rdi\n   2:\tmov    %eax,%edi\n   3:\timul   %rdi,%rsi", 1, 0),
    ("0 <f>:\n   1:\tmovabs $0x101010101010101,%rbp\n   2:\tmov    %al,%bl\n   3:\timul   %rbp,%rsi", 0, 1),
    ("0 <f>:\n   1:\tmovabs $0x101010101010101,%r10\n   2:\tmov    %eax,%r10d\n   3:\timul   %r10,%rsi", 1, 0),
    ("0 <f>:\n   1:\tmovabs $0x101010101010101,%rdi\n\n0 <g>:\n   3:\timul   %rdi,%rsi", 1, 0),
]


def sees():
    """The two tests find what they should in the texts and listings above; a crate is found through another."""
    if standing_on("c", ["# a line for each: its name", "a:", "x: a", "b: a io", "c: b"]) != ["a", "b", "c"]:
        raise SystemExit("products: not all that a crate stands on is found")
    for text, count in TEXTS:
        if len(products_of(text)) != count:
            raise SystemExit(f"products: {products_of(text)} found in {text!r}")
    for listing, count, ones in LISTINGS:
        found, of_ones = products_in(instructions(listing))
        if (len(found), of_ones.total()) != (count, ones):
            raise SystemExit(f"products: {found} found in {listing!r}")


def run(*command):
    return subprocess.run(command, check=True, capture_output=True, text=True).stdout


def main():
    sees()
    library = Path(sys.argv[1]) if len(sys.argv) > 1 else ROOT / "crates/capi/out/libcapi.a"
    bad = []
    crates = standing_on("capi", (ROOT / "crates.txt").read_text().splitlines())
    sources = [s for crate in crates for s in sorted((ROOT / "crates" / crate / "src").glob("**/*.rt"))]
    for source in sources:
        bad += [f"{source.relative_to(ROOT)}:{line}: {text}" for line, text in products_of(source.read_text())]
    functions = instructions(run("objdump", "-d", "--no-show-raw-insn", library))
    found, ones = products_in(functions)
    bad += found
    called = set(re.findall(r" U (\S+)", run("nm", "-u", library)))
    bad += [f"called outside the library: {name}" for name in sorted(called - OUTSIDE)]
    if not sources or "lodhrussi_judge" not in functions or sum(map(len, functions.values())) < 1000:
        bad.append("there is nothing to look at")
    if bad:
        raise SystemExit("\n".join(["products: found", *bad]))
    print(f"products: none in {len(sources)} files of {', '.join(crates)}")
    by_function = ", ".join(f"{name} {n}" for name, n in sorted(ones.items()))
    print(
        f"products: none in {len(functions)} functions and {sum(map(len, functions.values())):,} instructions of {library.name}"
        f" but count_ones's ({by_function or 'none'})"
    )


if __name__ == "__main__":
    main()
