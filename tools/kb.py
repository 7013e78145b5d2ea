"""Worked sheets read by documents 01 and 02 alone: trees, a list of rules, and role sets and labels evaluated one by one."""

# S0 to S6
WORKED = [
    "",
    "01 1000 0300 070102 200003",
    "01 1000 0300 070102 200003 02 200205",
    "01 1000 0300 070102 200003 1100 02 080506 200207",
    "1000 01 080001 02 200203",
    "01 0300 1000 080200 060103 200004",
    "0300 1000 0400 070102 200003",
]
# Fillers that are no part.
EVERYTHING, NOTHING = 256, 257
BODY = {1: 0, 2: 0, 3: 1, 4: 1, 5: 2, 6: 2, 7: 2, 8: 2, 0x10: 1, 0x11: 1, 0x12: 1, 0x13: 2, 0x14: 2, 0x20: 2, 0x21: 2}


def records(data):
    out, at = [], 0
    while at < len(data):
        n = BODY[data[at]]
        out.append((data[at], *data[at + 1:at + 1 + n]))
        at += 1 + n
    return out


def concept(rs, r, positive):
    """Negation normal form of record r."""
    kind, *b = rs[r]
    if kind in (1, 2):
        return ("all",) if (kind == 1) == positive else ("none",)
    if kind == 3:
        return ("name", b[0]) if positive else ("lacks", b[0])
    if kind == 4:
        return concept(rs, b[0], not positive)
    if kind in (5, 6):
        return ("and" if (kind == 5) == positive else "or", concept(rs, b[0], positive), concept(rs, b[1], positive))
    return ("some" if (kind == 7) == positive else "only", b[0], concept(rs, b[1], positive))


def spelled(rs, r):
    """A role as text: alike for two records just if the roles are written alike."""
    kind, *b = rs[r]
    return f"{kind:x}({','.join(str(x) if kind in (0x10, 0x11) else spelled(rs, x) for x in b)})"


def flatten(rs, names):
    """The parts, one for each claim, and the flattened rules."""
    parts = [("name",)] * names
    claims = {}
    rules = [("or", concept(rs, r[1], False), concept(rs, r[2], True)) for r in rs if r[0] == 0x20]
    flat = []

    def meet(c):
        if c[0] in ("and", "or"):
            return (c[0], meet(c[1]), meet(c[2]))
        if c[0] not in ("some", "only"):
            return c
        kind, role, filler = c
        number = len(parts)
        if filler[0] in ("all", "none", "name"):
            code = {"all": EVERYTHING, "none": NOTHING}.get(filler[0]) or filler[-1]
            first = claims.setdefault((kind, spelled(rs, role), code), number)
            if first < number:
                return ("name", first)
            parts.append((kind, role, code))
        else:
            code = number + 1
            parts.extend([(kind, role, code), ("fresh",)])
            rules.append(("or", ("lacks", code), filler))
        return ("name", number)

    while rules:
        flat.append(meet(rules.pop(0)))
    return parts, flat


def true(c, label):
    if c[0] in ("all", "none"):
        return c[0] == "all"
    if c[0] in ("name", "lacks"):
        return bool(label >> c[1] & 1) == (c[0] == "name")
    return (all if c[0] == "and" else any)(true(d, label) for d in c[1:])


def holds(rs, r, roles):
    kind, *b = rs[r]
    if kind in (0x10, 0x11):
        return bool(roles >> (2 * b[0] + kind - 0x10) & 1)
    values = [holds(rs, x, roles) for x in b]
    return not values[0] if kind == 0x12 else (all if kind == 0x13 else any)(values)


def included(rs, roles):
    """Whether a role set meets every role inclusion."""
    return all(holds(rs, r[2], roles) or not holds(rs, r[1], roles) for r in rs if r[0] == 0x21)


def words(test, count):
    return " ".join(f"{sum(test(64 * w + k) << k for k in range(64)):016x}" for w in range(count))


def read(text):
    """Records, names, roles, parts and flattened rules of a sheet without faults; None where parts and roles are over 12."""
    rs = records(bytes.fromhex(text))
    names = max((r[1] + 1 for r in rs if r[0] == 3), default=0)
    roles = max((r[1] + 1 for r in rs if r[0] in (0x10, 0x11)), default=0)
    parts, flat = flatten(rs, names)
    return (rs, names, roles, parts, flat) if len(parts) + roles <= 12 else None
