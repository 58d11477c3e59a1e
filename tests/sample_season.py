#!/usr/bin/env python3
"""Makes the sample season of drift and what drift must print of it.

The rules are taken from docs/RULES.md and worked out here a second time, apart from the programs.
Run it at the top of the repository; it writes crates/drift/data/ and crates/drift/stdout."""
import random

random.seed(6)
CHANGEOVERS = 24
heating, auto = [], []
position = 0
for block in range(CHANGEOVERS + 1):
    for _ in range(random.randint(12, 22)):
        # the valve regulates around 240 steps, in drives of a few steps, and stands still at times
        pull = (240 - position) // 12
        drive = 0 if random.random() < 0.2 else max(-40, min(40, pull + random.randint(-9, 9)))
        heating.append(drive)
        auto.append(drive)
        position += drive
    if block < CHANGEOVERS:
        # a changeover parks the valve and restores it: one line, which should say 0
        heating.append(0)
        auto.append(-(position % 5) if random.random() < 0.95 else 0)


def wrap(n):
    return (n + 2**31) % 2**32 - 2**31


def report(name, drives):
    out = ["%s: %d drives, position %d" % (name, len(drives), wrap(sum(drives)))]
    for d in sorted(set(drives)):
        out.append("  drive %d: %d times" % (d, drives.count(d)))
    return out


def parting(a, b):
    p = q = 0
    for i, (x, y) in enumerate(zip(a, b), 1):
        p, q = wrap(p + x), wrap(q + y)
        if p != q:
            return "The positions part after drive %d: %d and %d, by %d steps" % (i, p, q, p - q)
    return "The positions never part, as far as both logs go."


for name, drives in (("auto", auto), ("heating", heating)):
    with open("crates/drift/data/%s.txt" % name, "w") as f:
        f.write("".join("%d\n" % d for d in drives))
with open("crates/drift/stdout", "w") as f:
    f.write("\n".join(report("auto.txt", auto) + report("heating.txt", heating) + [parting(auto, heating)]) + "\n")
print(len(auto), "drives,", sum(x != y for x, y in zip(auto, heating)), "of", CHANGEOVERS, "changeovers lose steps")
