#!/usr/bin/env python3
"""Asks other reasoners, by hand and not in the gate: judges random sheets without Boolean roles with the evening program and
compares each verdict with those of Konclude (OWL 2 functional-style syntax) and FaCT++ (its own syntax), Debian's packages
konclude and fact++. Prints a table; exits 1 if a verdict differs or the program refuses a sheet. A verdict that differs is
counted apart, under 'contradict', where the reasoner contradicts itself: a model of all axioms, yet none with one left out.
With --inclusions each sheet has role inclusions as well, between roles and their inverses.

    tools/outside.py [--inclusions] [--count N] [--seed N] [--program PATH] [--ask NAME ...] [--limit SECONDS]
"""

import argparse
import random
import shutil
import subprocess
import sys
import tempfile
from collections import Counter
from pathlib import Path

MOST_PARTS_AND_ROLES = 9
EVERYTHING, NOTHING, NAME, NOT, AND, OR, SOME, ONLY = range(1, 9)
ROLE, INVERSE, ROLE_AND, AXIOM, INCLUSION = 0x10, 0x11, 0x13, 0x20, 0x21
BODY = {EVERYTHING: 0, NOTHING: 0, NAME: 1, NOT: 1, AND: 2, OR: 2, SOME: 2, ONLY: 2, ROLE: 1, INVERSE: 1, AXIOM: 2, INCLUSION: 2}
MET, UNMET = "met", "unmet"
AGREE, DIFFER, WAVER, LATE, SILENT = COLUMNS = "agree", "differ", "contradict", "timeouts", "no answer"


# Random sheets: a concept is a tuple of a kind byte and what its body stands for.

def random_concept(rng, names, roles, depth):
    kinds = [EVERYTHING, NOTHING] + [NAME] * 10
    if depth > 0:
        kinds = [NAME] * 3 + [NOT] * 3 + [AND] * 4 + [OR] * 4 + [SOME] * 9 + [ONLY] * 9
    kind = rng.choice(kinds)
    if kind in (EVERYTHING, NOTHING):
        return (kind,)
    if kind == NAME:
        return kind, rng.randrange(names)
    if kind in (SOME, ONLY):
        return kind, random_role(rng, roles), random_concept(rng, names, roles, depth - 1)
    return kind, *(random_concept(rng, names, roles, depth - 1) for _ in range(BODY[kind]))


def random_role(rng, roles):
    return rng.choice((ROLE, INVERSE)), rng.randrange(roles)


def random_axiom(rng, names, roles):
    left = (EVERYTHING,) if rng.random() < 0.5 else random_concept(rng, names, roles, rng.choice((0, 0, 0, 1, 1, 2)))
    return AXIOM, left, random_concept(rng, names, roles, rng.choice((1, 1, 2, 2, 3)))


def parts(concept, positive):
    """The restrictions of a concept, each with its fresh name if its filler gets one."""
    kind = concept[0]
    if kind == NOT:
        return parts(concept[1], not positive)
    if kind in (AND, OR):
        return parts(concept[1], positive) + parts(concept[2], positive)
    if kind in (SOME, ONLY):
        return 1 + (not is_atom(concept[2], positive)) + parts(concept[2], positive)
    return 0


def is_atom(concept, positive):
    while concept[0] == NOT:
        concept, positive = concept[1], not positive
    return concept[0] in (EVERYTHING, NOTHING) or concept[0] == NAME and positive


def size(names, roles, axioms):
    return names + roles + sum(parts(left, False) + parts(right, True) for kind, left, right in axioms if kind == AXIOM)


def random_axioms(rng):
    """Axioms with few enough parts and roles for the evening program's set; about a third of the lists have no model."""
    while True:
        names, roles = rng.choice((1, 1, 2, 2, 3, 4)), rng.choice((1, 1, 1, 2, 2, 3))
        axioms = [random_axiom(rng, names, roles) for _ in range(rng.randint(3, 10))]
        if size(names, roles, axioms) <= MOST_PARTS_AND_ROLES:
            return axioms


def random_inclusion(rng, names, roles):
    """An inclusion and, as often as not, axioms on both of its roles: on the first some of a concept, on the second only of what
    is not of it."""
    first, second = random_role(rng, roles), random_role(rng, roles)
    rules = [(INCLUSION, first, second)]
    if rng.random() < 0.5:
        left, right, filler = (random_concept(rng, names, roles, 0) for _ in range(3))
        rules += [(AXIOM, rng.choice(((EVERYTHING,), left)), (SOME, first, filler))]
        rules += [(AXIOM, rng.choice(((EVERYTHING,), right)), (ONLY, second, (NOT, filler)))]
    return rules


def random_rules(rng):
    """The same with one to four role inclusions between roles and their inverses, on two roles or more mostly."""
    while True:
        names, roles = rng.choice((1, 1, 2, 2, 3)), rng.choice((1, 2, 2, 2, 3))
        rules = [random_axiom(rng, names, roles) for _ in range(rng.randint(1, 6))]
        for _ in range(rng.choice((1, 1, 2, 2, 3, 4))):
            rules += random_inclusion(rng, names, roles)
        rng.shuffle(rules)
        if size(names, roles, rules) <= MOST_PARTS_AND_ROLES:
            return rules


def sheet(rng, axioms):
    """The bytes: a leaf is written once or, now and then, again; every other record is named once."""
    data, leaves, count = bytearray(), {}, 0

    def put(*record):
        nonlocal count
        data.extend(record)
        count += 1
        return count - 1

    def write(node):
        kind, *body = node
        if kind in (EVERYTHING, NOTHING, NAME, ROLE, INVERSE):
            if node not in leaves or rng.random() < 0.2:
                leaves[node] = put(*node)
            return leaves[node]
        return put(kind, *[write(child) for child in body])

    for axiom in axioms:
        write(axiom)
    return bytes(data)


def without_inclusions(data):
    """The bytes with an and of the same roles, which no axiom reaches, in place of each inclusion."""
    data, at = bytearray(data), 0
    while at < len(data):
        length = 1 + BODY[data[at]]
        if data[at] == INCLUSION:
            data[at] = ROLE_AND
        at += length
    return bytes(data)


# What the other reasoners read, from the bytes alone.

def axioms_of(data):
    trees, axioms, at = [], [], 0
    while at < len(data):
        kind, body = data[at], data[at + 1:at + 1 + BODY[data[at]]]
        at += 1 + len(body)
        leaf = kind in (NAME, ROLE, INVERSE)
        trees.append((kind, *(body if leaf else (trees[r] for r in body))))
        if kind in (AXIOM, INCLUSION):
            axioms.append(trees[-1])
    return axioms


def names_and_roles(node):
    """Pairs of NAME or ROLE and a number."""
    kind, *body = node
    if kind in (NAME, ROLE, INVERSE):
        return {(NAME if kind == NAME else ROLE, body[0])}
    return set().union(*map(names_and_roles, body))


OWL = {
    EVERYTHING: "owl:Thing", NOTHING: "owl:Nothing", NAME: ":A{}", ROLE: ":r{}", INVERSE: "ObjectInverseOf(:r{})",
    NOT: "ObjectComplementOf({})", AND: "ObjectIntersectionOf({} {})", OR: "ObjectUnionOf({} {})",
    SOME: "ObjectSomeValuesFrom({} {})", ONLY: "ObjectAllValuesFrom({} {})", AXIOM: "SubClassOf({} {})",
    INCLUSION: "SubObjectPropertyOf({} {})",
}
OWL_DECLARED = {NAME: "Declaration(Class(:A{}))", ROLE: "Declaration(ObjectProperty(:r{}))"}
FACT = {
    EVERYTHING: "*TOP*", NOTHING: "*BOTTOM*", NAME: "A{}", ROLE: "r{}", INVERSE: "(inv r{})",
    NOT: "(not {})", AND: "(and {} {})", OR: "(or {} {})", SOME: "(some {} {})", ONLY: "(all {} {})", AXIOM: "(implies_c {} {})",
    INCLUSION: "(implies_r {} {})",
}
FACT_DECLARED = {NAME: "(defprimconcept A{})", ROLE: "(defprimrole r{})"}


def written(node, forms):
    kind, *body = node
    return forms[kind].format(*(written(child, forms) if isinstance(child, tuple) else child for child in body))


def ontology(axioms, forms, declared):
    used = sorted(set().union(*map(names_and_roles, axioms)))
    return [declared[kind].format(number) for kind, number in used] + [written(axiom, forms) for axiom in axioms]


def run(command, limit, **more):
    """What the command writes to standard output and standard error, None if it is late."""
    try:
        return subprocess.run(command, capture_output=True, timeout=limit, **more)
    except subprocess.TimeoutExpired:
        return None


def verdict(done, met, unmet):
    if done is None:
        return LATE
    said = (done.stdout + done.stderr).decode(errors="replace")
    answers = [answer for words, answer in ((met, MET), (unmet, UNMET)) if words in said]
    return answers[0] if len(answers) == 1 else SILENT


def konclude(folder, axioms, limit):
    lines = ontology(axioms, OWL, OWL_DECLARED)
    prefixes = ["Prefix(owl:=<http://www.w3.org/2002/07/owl#>)", "Prefix(:=<http://example.org/sheet#>)"]
    (folder / "sheet.ofn").write_text("\n".join([*prefixes, "Ontology(<http://example.org/sheet>", *lines, ")", ""]))
    done = run([COMMANDS["konclude"], "consistency", "-w", "2", "-i", "sheet.ofn"], limit, cwd=folder)
    return verdict(done, "is consistent.", "is inconsistent.")


def fact(folder, axioms, limit):
    (folder / "sheet.kb").write_text("\n".join([*ontology(axioms, FACT, FACT_DECLARED), ""]))
    (folder / "sheet.conf").write_text(
        "[LeveLogger]\nfile = sheet.log\nallowedLevel = 0\n[Tuning]\n[Query]\nTBox = sheet.kb\nTarget = *TOP*\n"
    )
    done = run([COMMANDS["fact++"], "sheet.conf"], limit, cwd=folder)
    return verdict(done, "concept is satisfiable w.r.t. TBox", "KB is inconsistent")


REASONERS = {"konclude": konclude, "fact++": fact}
COMMANDS = {"konclude": "Konclude", "fact++": "FaCT++"}


def opinion(ask, axioms, ours):
    """What a reasoner says beside the program's verdict."""
    theirs = ask(axioms)
    if theirs in (LATE, SILENT):
        return theirs
    if theirs == ours:
        return AGREE
    if theirs == MET and any(ask(axioms[:k] + axioms[k + 1:]) == UNMET for k in range(len(axioms))):
        return WAVER
    return DIFFER


def judged(program, data):
    """The program's verdict and the size of the initial domino set."""
    lines = subprocess.run([program], input=data, capture_output=True).stdout.decode().splitlines()
    if len(lines) != 3 or lines[2] not in ("can be met", "cannot be met"):
        sys.exit(f"{program}, sheet {data.hex(' ')}: {' / '.join(lines)}")
    return (MET if lines[2] == "can be met" else UNMET), int(lines[1].split()[1])


def main():
    home = Path(__file__).resolve().parent.parent
    options = argparse.ArgumentParser(description=__doc__, formatter_class=argparse.RawDescriptionHelpFormatter)
    options.add_argument("--inclusions", action="store_true", help="sheets with role inclusions too")
    options.add_argument("--count", type=int, default=2000, help="number of sheets (2000)")
    options.add_argument("--seed", type=int, default=1, help="seed of the sheets (1)")
    options.add_argument("--program", default=home / "crates/evening/out/evening", help="the evening program (crates/evening/out/evening)")
    options.add_argument("--ask", nargs="+", choices=REASONERS, default=list(REASONERS), help="which reasoners (both)")
    options.add_argument("--limit", type=float, default=10, help="seconds for one verdict (10)")
    given = options.parse_args()
    for command in (given.program, *(COMMANDS[name] for name in given.ask)):
        if not shutil.which(command):
            sys.exit(f"there is no program {command}")

    rng = random.Random(given.seed)
    own, others = Counter(), {name: Counter() for name in given.ask}
    with tempfile.TemporaryDirectory() as folder:
        for _ in range(given.count):
            data = sheet(rng, random_rules(rng) if given.inclusions else random_axioms(rng))
            ours, initial = judged(given.program, data)
            own[ours] += 1
            own["eliminated"] += ours == UNMET and initial > 0
            if given.inclusions and ours == UNMET:
                own["by inclusions"] += judged(given.program, without_inclusions(data))[0] == MET
            for name in given.ask:
                said = opinion(lambda axioms: REASONERS[name](Path(folder), axioms, given.limit), axioms_of(data), ours)
                others[name][said] += 1
                if said in (DIFFER, WAVER, SILENT):
                    print(f"{name}: {said}; the program: {ours}; sheet {data.hex(' ')}")

    print(f"seed {given.seed}: {given.count} sheets, {own[MET]} met, {own[UNMET]} unmet, "
          f"{own['eliminated']} of these with an initial domino set that is not empty"
          + f", {own['by inclusions']} met without their inclusions" * given.inclusions)
    print(f"{'':12}" + "".join(f"{column:>12}" for column in COLUMNS))
    for name in given.ask:
        print(f"{name:12}" + "".join(f"{others[name][column]:12}" for column in COLUMNS))
    sys.exit(any(counts[DIFFER] + counts[WAVER] for counts in others.values()))


if __name__ == "__main__":
    main()
