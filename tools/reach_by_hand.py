#!/usr/bin/env python3
"""Reach and holdings by another route, from the words of document 01 alone.

The sheet is kept as plain dictionaries and one set of pairs. Reach is a
relation: each object in use with itself, and the direct memberships that
count, joined to itself until it stops growing.

    reach_by_hand.py               print reach and holdings after the script
    reach_by_hand.py --check FILE  compare FILE with that; exit 1 if they differ
"""
import sys
from itertools import zip_longest

GROUP, MEMBER, GEAR = 1, 2, 3
OWNER, MANAGER, ADMINISTRATOR = 1, 2, 3

# The founding. A number or place that is no key is empty.
sorts = {0: GROUP, 1: MEMBER}       # object: its sort as stored
inside = {(1, 0)}                   # (object, group) as stored
warrants = {0: (OWNER, 1, 0, 0)}    # place: kind, holder, A, B
rules = {}                          # place: U, T, operations


# The changes, bare: nobody's authority is asked.
def make(number, sort, group):
    for pair in [pair for pair in inside if number in pair]:
        inside.remove(pair)
    sorts[number] = sort
    inside.add((number, group))

def put(thing, group): inside.add((thing, group))
def take(thing, group): inside.discard((thing, group))
def appoint(place, kind, holder, a, b): warrants[place] = (kind, holder, a, b)
def dismiss(place): warrants.pop(place, None)
def grant(place, u, t, operations): rules[place] = (u, t, operations)
def withdraw(place): rules.pop(place, None)

def script():
    make(2, MEMBER, 0); make(3, GROUP, 0); make(4, GROUP, 3); make(5, GROUP, 4)
    make(6, GEAR, 5); make(7, GEAR, 3); make(8, MEMBER, 4); make(9, GROUP, 0)
    put(3, 5)                               # a circle 3-4-5
    put(9, 9)                               # a group in itself
    put(6, 9); put(8, 9)                    # 6 has two parents
    appoint(1, MANAGER, 2, 3, 0)
    appoint(2, ADMINISTRATOR, 8, 9, 4)
    appoint(3, OWNER, 8, 9, 0)
    appoint(4, ADMINISTRATOR, 8, 0, 9)
    appoint(5, MANAGER, 6, 0, 0)            # held by gear: nobody's
    appoint(6, 7, 2, 0, 0)                  # unknown kind: counts as empty
    grant(0, 4, 5, 6)
    grant(1, 9, 9, 255)
    grant(2, 0, 63, 255)                    # T is an empty object: covers nothing
    grant(3, 5, 3, 4)
    grant(40, 8, 6, 1)                      # no groups: each covers itself
    take(8, 4)
    make(10, 7, 0)                          # unknown sort: counts as empty
    make(11, GROUP, 0)
    put(10, 11)                             # 10 is empty: does not count
    dismiss(4); withdraw(3)
    put(7, 6)                               # in gear, which is no group: does not count
    put(2, 12); put(12, 3)                  # stored for an empty number ..
    make(12, GROUP, 9)                      # .. and cleared, on both sides, when it is made
    appoint(7, ADMINISTRATOR, 8, 2, 9)      # A of this and B of place 2 make no pair
    grant(41, 2, 7, 6)                      # U of this and T of place 0 permit nothing
    grant(5, 2, 6, 32); withdraw(5)         # the rule is gone again
    take(11, 0)                             # 11 is in nothing that is owned: an orphan
    make(10, 4, 0)                          # the first unknown sort
    grant(0, 9, 9, 2)                       # place 0 permits, below place 1
    appoint(31, MANAGER, 2, 9, 3)           # the last place, and a B that is not read
    make(1, MEMBER, 12); put(12, 0)         # 1 anew: the founder's number in another group
    take(7, 3)                              # a target that nobody owns


def report():
    """The lines: who is under whom, by group and by object, then the four holdings, then the orphans."""
    used = {x for x in range(64) if sorts.get(x) in (GROUP, MEMBER, GEAR)}
    under = {(x, x) for x in used}
    under |= {(x, g) for x, g in inside if x in used and g in used and sorts[g] == GROUP}
    before = None
    while under != before:
        before = under
        under = before | {(x, h) for x, g in before for f, h in before if g == f}

    held = [w for w in warrants.values() if w[1] in used and sorts[w[1]] == MEMBER]
    owns = {(u, x) for kind, u, a, _ in held if kind == OWNER for x, g in under if g == a}
    manages = {(u, x) for kind, u, a, _ in held if kind == MANAGER for x, g in under if g == a}
    administers = {(u, x, y) for kind, u, a, b in held if kind == ADMINISTRATOR
                   for x, g in under if g == a for y, h in under if h == b}
    permits = {(m, k, x, place) for place, (u, t, operations) in rules.items()
               for k in range(8) if operations // 2 ** k % 2 == 1
               for m, g in under if g == u and sorts[m] == MEMBER
               for x, h in under if h == t and sorts[x] == GEAR}

    def line(head, items):
        return " ".join([head + ":"] + [str(item) for item in items])

    for g in [*range(13), 63, 64]:
        yield line(f"under {g}", sorted(x for x, h in under if h == g))
    for x in [*range(13), 63, 64]:
        yield line(f"above {x}", sorted(g for y, g in under if y == x))
    for u in range(13):
        yield line(f"owns {u}", sorted(x for v, x in owns if v == u))
        yield line(f"manages {u}", sorted(x for v, x in manages if v == u))
    for u in range(13):
        for a in range(13):
            seconds = sorted(y for v, x, y in administers if (v, x) == (u, a))
            if seconds:
                yield line(f"administers {u} {a}", seconds)
    for u in range(13):
        for k in range(9):
            found = sorted((x, place) for v, j, x, place in permits if (v, j) == (u, k))
            lowest = dict(reversed(found))  # of several places the lowest comes last and stays
            if lowest:
                yield line(f"permitted {u} {k}", [f"{x}:{lowest[x]}" for x in sorted(lowest)])
    yield line("orphans", sorted(used - {x for _, x in owns}))


def main(arguments):
    script()
    ours = [text + "\n" for text in report()]
    if not arguments:
        sys.stdout.writelines(ours)
        return 0
    if len(arguments) != 2 or arguments[0] != "--check":
        sys.exit("usage: reach_by_hand.py [--check FILE]")
    with open(arguments[1], encoding="utf-8", errors="replace", newline="") as file:
        theirs = file.read().splitlines(keepends=True)
    for number, (want, got) in enumerate(zip_longest(ours, theirs), 1):
        if want != got:
            print(f"{arguments[1]}:{number}: by hand {want!r}, in the file {got!r}")
            return 1
    return 0


if __name__ == "__main__":
    sys.exit(main(sys.argv[1:]))
