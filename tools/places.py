#!/usr/bin/env python3
"""Places in src/ that an older form of the language left, by the points of docs/DESIGN-PASS.md.

usage: places.py [-v] [COMMIT]     the working tree, or a commit's; -v prints each place

It goes by text: a place is a line that one of the rules below finds. What is right to stay is for a reader to say.
"""
import re
import subprocess
import sys
from collections import Counter, defaultdict
from itertools import combinations
from pathlib import Path

ROOT = Path(__file__).resolve().parent.parent
# Numbers or flags that stand for a kind, a refusal or "none", as fields and parameters.
CODED = re.compile(r"(fault|number|offset|kind|sort|odd|code|filler|atom|place|limit|some|going|want|condition|first|second|verdict)$")
NUMBER = re.compile(r"(u8|u16|bool|\[u8; \d+\]|\[u16; \d+\])$")
# Variants of an enum of the shape of Option or Result.
NEITHER = re.compile(r"(Refused|Faulty|Failed|Unknown|Ending|Ended|Got|Next|Again|Whole)\b")
HAND = re.compile(r"(same|copy|fill|flag_of|word_of|entry_of|named_word|part_word|two_bytes|code|put_number|put_labelled|new_shape|found|token_at|fault_at|or_else|words|sized|put|put_place|first|none|moved|begun|refuse)$")


def sources(commit):
    if not commit:
        for path in sorted(ROOT.glob("crates/*/src/**/*.rt")):
            yield path.relative_to(ROOT).as_posix(), path.read_text()
        return
    listed = subprocess.run(["git", "ls-tree", "-r", "--name-only", commit, "crates"], cwd=ROOT, capture_output=True, text=True, check=True).stdout
    for name in listed.split("\n"):
        if re.fullmatch(r"crates/\w+/src/.*\.rt", name):
            yield name, subprocess.run(["git", "show", f"{commit}:{name}"], cwd=ROOT, capture_output=True, text=True, check=True).stdout


def closing(text, at):
    """The place behind the bracket that closes the one at a place."""
    pairs, depth = {"{": "}", "(": ")", "[": "]"}, 0
    opening = text[at]
    for i in range(at, len(text)):
        depth += (text[i] == opening) - (text[i] == pairs[opening])
        if not depth:
            return i + 1
    return len(text)


def split(inside, at=","):
    parts, depth, last = [], 0, 0
    for i, c in enumerate(inside):
        depth += (c in "([{<") - (c in ")]}" or (c == ">" and inside[i - 1] != "-"))
        if c == at and not depth:
            parts.append(inside[last:i])
            last = i + 1
    return [it.strip() for it in parts + [inside[last:]] if it.strip()]


class Function:
    def __init__(self, file, text, match):
        self.file, self.name = file, match[1]
        self.crate = file.split("/")[1]
        self.line = text.count("\n", 0, match.start()) + 1
        end = closing(text, match.end() - 1)
        self.parameters = [tuple(re.sub(r"^mut ", "", p).split(": ", 1)) for p in split(text[match.end():end - 1]) if ": " in p]
        rest = text[end:]
        result = re.match(r"\s*->\s*([^\n{]+?)\s*(?=\n|\{|requires)", rest)
        self.result = result[1] if result else ""
        self.facts, at = [], end
        while True:
            clause = re.compile(r"\s*(?:->\s*[^\n{]+)?\s*(requires|ensures\*?)(?:\s+\w+)?\s*(?=\{)").match(text, at)
            if not clause:
                break
            close = closing(text, clause.end())
            inside = text[clause.end() + 1:close - 1].strip()
            if clause[1] == "requires":
                self.facts += [re.sub(r"^\((.*)\)$", r"\1", it) for it in split(inside, "×")]
            at = close
        opening = text.find("{", at)
        self.body = text[opening:closing(text, opening)] if opening >= 0 else ""
        self.tokens = re.findall(r"\w+|[^\s\w]", self.body)


def functions(file, text):
    return [Function(file, text, m) for m in re.finditer(r"\bfn (\w+)(?:<[^>(]*>)?\(", text)]


def places(commit):
    found = defaultdict(list)
    everything = []
    for file, text in sources(commit):
        text = re.sub(r"//[^\n]*", "", text)
        own = functions(file, text)
        everything += own

        def add(point, at, what):
            found[point].append(f"{file}:{text.count(chr(10), 0, at) + 1}: {what}")

        for m in re.finditer(r"\b(struct|enum) (\w+)[^{;]*\{", text):
            inside = text[m.end():closing(text, m.end() - 1) - 1]
            for part in re.finditer(r"^\s*(?:pub )?(\w+)(: [^,\n]+)?[^\n]*", inside, re.M):
                kind = (part[2] or "")[2:]
                if m[1] == "enum" and NEITHER.match(part[1]) or m[1] == "struct" and CODED.match(part[1]) and NUMBER.match(kind):
                    add(1, m.end() + part.start(1), f"{m[2]}.{part[0].strip()}")
            if m[1] == "struct" and len(re.findall(r": \[\w+; \w+\]", inside)) > 1:
                add(6, m.start(), f"{m[2]}: arrays side by side")
            if m[1] == "struct" and re.search(r": \[\w+; \w+\]", inside) and re.search(r"\b(count|len|written): usize", inside):
                add(6, m.start(), f"{m[2]}: an array and its length")
        for m in re.finditer(r"const (FIRST|SECOND|EVERYTHING|NOTHING|FRESH)\b", text):
            add(1, m.start(), m[0])
        for m in re.finditer(r"^\s*(0x[0-9a-f]{2}[^\n]*=>|if \w+(?:\.\w+)? (?:==|!=|<|<=) 0x[0-9a-f]{2})", text, re.M):
            add(1, m.start(1), m[1])
        for f in own:
            at = [m.start() for m in re.finditer(rf"\bfn {f.name}\b", text)][0]
            if NUMBER.match(f.result) and f.result != "bool":
                add(1, at, f"fn {f.name} -> {f.result}")
            coded = [": ".join(p) for p in f.parameters if len(p) > 1 and CODED.match(p[0]) and NUMBER.match(p[1])]
            if coded:
                add(1, at, f"fn {f.name}({', '.join(coded)})")
            if HAND.match(f.name):
                add(4, at, f"fn {f.name}")
            names = [p[0] for p in f.parameters]
            lent = [p for p in f.parameters if len(p) > 1 and re.match(r"&(mut )?\[", p[1])]
            if lent and {"count", "c", "n", "at", "s"} & set(names):
                add(6, at, f"fn {f.name}({', '.join(': '.join(p) for p in lent)}, ..)")
            arms = re.findall(r"=> (\w+)\(", f.body)
            if arms and Counter(arms).most_common(1)[0][1] > 5:
                add(7, at, f"fn {f.name}: {Counter(arms).most_common(1)[0]}")
        for m in re.finditer(r"\bwhile [^{]*\{", text):
            body = text[m.end():closing(text, m.end() - 1)]
            if re.search(r"\b(\w+) = \1 \+ 1;|\b\w+ \+= 1;", body):
                add(3, m.start(), m[0])
        for m in re.finditer(r"\bfor (\w+) in (?:0|\w+)\.\.([^{]*)\{", text):
            body = text[m.end():closing(text, m.end() - 1)]
            uses = re.findall(rf"\b{m[1]}\b", body)
            if re.search(rf"\[(?:\w+ \+ )?{m[1]}\]", body):
                add(3, m.start(), m[0])

    by_crate = defaultdict(list)
    for f in everything:
        by_crate[f.crate].append(f)
    for crate, own in by_crate.items():
        for a, b in combinations(own, 2):
            if len(a.tokens) == len(b.tokens) > 14:
                differ = sum(x != y for x, y in zip(a.tokens, b.tokens))
                if differ * 5 <= len(a.tokens):
                    found[2].append(f"{a.file}:{a.line}: fn {a.name}, and fn {b.name} of {b.file}:{b.line} ({differ} of {len(a.tokens)} words differ)")
        facts = Counter(fact for f in own for fact in set(f.facts))
        for fact, n in facts.items():
            if n > 2:
                found[5].append(f"crates/{crate}: {n} functions require {fact}")
        taken = [frozenset(p for p in f.parameters if len(p) > 1) for f in own]
        together = {a & b for a, b in combinations(taken, 2) if len(a & b) > 1}
        together |= {a & b for a, b in combinations(together, 2) if len(a & b) > 1}
        support = {group: sum(group <= it for it in taken) for group in together}
        for group, n in support.items():
            if n > 2 and not any(group < other and support[other] == n for other in support):
                found[5].append(f"crates/{crate}: {n} functions take {' and '.join(sorted(': '.join(p) for p in group))}")
    return found


def main():
    words = sys.argv[1:]
    spoken = "-v" in words
    words = [w for w in words if w != "-v"]
    found = places(words[0] if words else None)
    for point in range(1, 8):
        print(f"point {point}: {len(found[point])}")
        if spoken:
            for line in found[point]:
                print("   ", line)


if __name__ == "__main__":
    main()
