#!/usr/bin/env python3
"""Makes the sample season of season_drift and what season_drift must print of it.

The rules are taken from docs/RULES.md and worked out here a second time, apart from the programs.
Run it at the top of the repository; it writes crates/season_drift/data/ and crates/season_drift/stdout."""
import random

random.seed(6)
CHANGEOVERS = 24
heating, auto = [], []
position = 0
for block in range(CHANGEOVERS + 1):
    for _ in range(random.randint(12, 22)):
        # the valve regulates around 240 steps, in drives of a few steps, and stands still at times
        pull = (240 - position) // 12
        drive = 0 if random.random() < 0.2 else max(-40, min(40, pull + random.randint(-9, 9)))
        heating.append(drive)
        auto.append(drive)
        position += drive
    if block < CHANGEOVERS:
        # the unit cools: the valve is parked, opened and shut again, and restored
        auto.append("park")
        opened = [random.randint(1, 60) for _ in range(random.randint(1, 4))]
        auto += opened + [-sum(opened)] + ["restore"]


def wrap(n):
    return (n + 2**31) % 2**32 - 2**31


def entries(log):
    """The entries of the book of a log: park enters the inverse of the total, restore the total."""
    book, parked = [], None
    for line in log:
        if line == "park":
            assert parked is None
            parked = wrap(sum(book))
            book.append(wrap(-parked))
        elif line == "restore":
            assert parked is not None
            book.append(parked)
            parked = None
        else:
            book.append(line)
    return book


def report(name, log):
    book = entries(log)
    out = ["%s: %d entries, total %d" % (name, len(book), wrap(sum(book)))]
    for e in sorted(set(book)):
        out.append("  entry %d: %d times" % (e, book.count(e)))
    return out


logs = (("auto", auto), ("heating", heating), ("fitter", list(auto)))
for name, log in logs:
    with open("crates/season_drift/data/%s.txt" % name, "w") as f:
        f.write("".join("%s\n" % line for line in log))
gap = wrap(sum(entries(auto))) - wrap(sum(entries(heating)))
with open("crates/season_drift/stdout", "w") as f:
    out = report("auto.txt", auto) + report("heating.txt", heating)
    out += ["The totals part by %d steps" % gap]
    out += report("fitter.txt", auto) + ["auto.txt and fitter.txt agree entry for entry"]
    f.write("\n".join(out) + "\n")
print(len(entries(auto)), "and", len(entries(heating)), "entries,", CHANGEOVERS, "changeovers, gap", gap)
