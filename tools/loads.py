#!/usr/bin/env python3
"""Writes what crates/loads should write: the flattened knowledge base of each worked sheet."""

from kb import WORKED, holds, included, read, true, words

SHEETS = WORKED + [
    "01 1000 0300 070102 070103 200004 070102 200006",
    "0301 1003 1100 1202 130103 1001 1002 130506 140407 070800 1102 0409 080A0B 01 200D0C",
    "0300 0303 0401 050002 1000 070400 0306 060506 200307 0301 080409 0305 200A0B 01 0302 1100 02 070F10 050E11 0412 200D13",
    "1000 1001 1201 130002 1201 130004 1201 130600 0300 070308 0408 040A 07050B 070708 01 200E09 200E0C 200E0D",
    "030B 1000",
    "0300 0400 050101",
    "01 1000 1001 02 070100 200004 080203 200006 210102",
    "1000 1100 1001 1102 210002 210203 210100 01 0300 070308 200709",
    "1000 1101 1201 130002 1103 1204 140501 210306 1001 210104 0301 08080A 200A0B",
    "1000 1200 210100",
]
FAULTS = {"0300 0400 050101": (7, 6), "1000 1200 210100": (8, 4)}

for text in SHEETS:
    if text in FAULTS:
        print("refused", *FAULTS[text])
        continue
    kb = read(text)
    if kb is None:
        print("refused 9 0")
        continue
    rs, names, roles, parts, flat = kb
    print("kb", names, roles, len(parts))
    for p in parts:
        kind = ("name", "fresh", "some", "only").index(p[0])
        restriction = kind > 1
        print("part", kind, p[2] if restriction else 0, words(lambda R: restriction and holds(rs, p[1], R), 4))
    print("labels", words(lambda A: all(true(f, A) for f in flat), max(1, 2 ** len(parts) // 64)))
    print("role sets", words(lambda R: included(rs, R), 4))
