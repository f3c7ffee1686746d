#!/usr/bin/env python3
"""Spells the repository's own definitions, lemmas, members and local names in snake case, once, after the kit's port.py.

A name is its own where specs/ or a file of lemmas declares it: `inUse` becomes `in_use`, `climb-step` becomes `climb_step`.
Names of the library, names that the kit makes for a proof, functions of src/, exported names, strings, inputs and outputs
keep their spelling. It says where two names of one file fall together, and stops there before it writes anything.
"""
import re
import sys
from pathlib import Path

ROOT = Path(sys.argv[1] if len(sys.argv) > 1 else ".")
WORD = re.compile(r"[A-Za-zℕℤ_#·◌][\w'₀-₉·◌\-]*")
# Names that would fall together with another of their file get another one.
SPECIAL = {}
SPECIAL.update({line.split()[0]: line.split()[1] for line in """
is-long long_input
view-put view_of_put
view-appointed view_of_appointed
view-dismissed view_of_dismissed
view-granted view_of_granted
view-ruled view_of_ruled
view-taken view_of_taken
view-withdrawn view_of_withdrawn
view-sorted view_of_sorted
view_made view_of_made
view-after view_of_after
row-add row_add_of
on-table on_table_is
gain-first gain_first_answered
last-group last_group_answered
last-target last_target_answered
last-user last_user_answered
one-to-three one_to_three_passes
all-numbered all_numbered_told
appointment-in appointment_read
rule-in rule_read
sort-in sort_read
stored-in stored_read
club-card club_card_is
founding-card founding_card_is
founding-records founding_records_are
granted-of granted_users
by-byte by_byte_drops
line_after line_of_after
bit-and bit_under_and
bit-or bit_under_or
""".strip().splitlines()})


def snake(name):
    if name in SPECIAL:
        return SPECIAL[name]
    name = re.sub(r"(?<=[a-z0-9])([A-Z])(?=[a-z])", lambda m: "_" + m.group(1).lower(), name)
    name = re.sub(r"(?<=[a-z0-9])([A-Z])$", lambda m: "_" + m.group(1).lower(), name)
    return name.replace("-", "_")


def bare(text):
    return re.sub(r"--(?=\s|-)[^\n]*", "", text)


def declared(text):
    """Names that a file declares: at the head of a signature, as members and constructors, and bound ones."""
    text = bare(text)
    found = set()
    for line in text.split("\n"):
        m = re.match(r"\s*(?:(?:unfoldable|abbrev|pub|ruleset)\s+)*([^\s:(){}]+(?:\s+[^\s:(){}]+)*)\s+:(?:\s|$)", line)
        if m:
            found.update(m.group(1).split())
        m = re.match(r"\s*(?:pub\s+)?ruleset\s+(\S+)", line)
        if m:
            found.add(m.group(1))
    for m in re.finditer(r"[({]([^(){}:]+?)\s*:\s", text):
        found.update(m.group(1).split())
    for m in re.finditer(r"λ\s+([^.]*?)\.", text):
        found.update(re.split(r"[\s(),]+", m.group(1)))
    for m in re.finditer(r"\blet\s+([^\s:=]+)\s*[:=]", text):
        found.add(m.group(1))
    return found


def outside(text):
    """Names that a file brings in from the library."""
    found = set()
    for m in re.finditer(r"\buse\s+([\w.·]+?)\.\{([^}]*)\}", text):
        if re.match(r"Rattle\.(?!std\b)", m.group(1)):
            continue
        for part in m.group(2).split(","):
            found.update(part.split())
    return found


specs = sorted(ROOT.glob("crates/*/specs/**/*.antt"))
lemmas = sorted(ROOT.glob("crates/*/proofs/*.antt"))
walks = sorted(p for p in ROOT.glob("crates/*/proofs/*/**/*.antt"))
own, library = set(), set()
for path in specs + lemmas:
    text = path.read_text()
    own |= declared(text)
    library |= outside(text)
for path in walks:
    library |= outside(path.read_text())
shape = re.compile(r"[a-zℕℤ][\w'₀-₉ℕℤ\-]*$")
names = {n for n in own if shape.match(n) and snake(n) != n}
both = sorted(names & library)
names -= library

clash = []


def tokens(text):
    return set(WORD.findall(text))


def respell(text, path):
    here = tokens(text)
    made = {}
    for n in sorted(here & names):
        made.setdefault(snake(n), []).append(n)
    for new, olds in made.items():
        if len(olds) > 1 or (new in here and new not in names):
            clash.append((str(path), new, olds, new in here))
    return WORD.sub(lambda m: snake(m.group(0)) if m.group(0) in names else dotted(m.group(0)), text)


def dotted(word):
    return word


out = {}
for path in specs + lemmas + walks:
    out[path] = respell(path.read_text(), path)
for path in sorted(ROOT.glob("crates/*/src/**/*.rt")):
    text = path.read_text()
    parts = re.split(r'("(?:[^"\\]|\\.)*")', text)
    parts[::2] = [respell(t, path) for t in parts[::2]]
    out[path] = "".join(parts)
for path in sorted(ROOT.glob("crates/*/must-fail/**/*.edit")):
    out[path] = respell(path.read_text(), path)
for path in sorted([ROOT / "README.md", *ROOT.glob("docs/*.md"), *ROOT.glob("docs/changes/*.md")]):
    out[path] = re.sub(r"`[^`\n]*`", lambda m: respell(m.group(0), path), path.read_text())

print(f"{len(names)} names; kept, since the library has them too: {' '.join(both)}")
for c in clash:
    print("together:", *c)
if "--write" in sys.argv:
    for path, text in out.items():
        if text != path.read_text():
            path.write_text(text)
