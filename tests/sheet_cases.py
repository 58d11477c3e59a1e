#!/usr/bin/env python3
"""Makes the seasons that the crate sheet_trials replays, and what each must come to.

The rules are taken from docs/RULES.md and worked out here a second time, apart from the programs: a
season is a plain list of entries, and every cell is joined anew from the entries that it spans.
Run it at the top of the repository, and then rt fmt; it writes crates/sheet_trials/src/cases.rt."""
import random

# how each kind reads a whole number as one of its entries, joins two and takes one back
KINDS = {
    "Steps": (lambda n: (n + 2**31) % 2**32 - 2**31, lambda a, b: a + b, lambda a: -a),
    "Counts": (lambda n: n % 2**32, lambda a, b: a + b, lambda a: -a),
    "Flags": (lambda n: n % 256, lambda a, b: a ^ b, lambda a: a),
    "Notch": (lambda n: n % 5, lambda a, b: a + b, lambda a: -a),
}
# how a Rattle program makes an entry of each kind of a whole number
ENTRY = {"Steps": "Steps::from", "Counts": "Counts::from", "Flags": "Flags::from", "Notch": "Notch::turned"}
MOST = 4294967295


def total(kind, entries):
    read, join, _ = KINDS[kind]
    joined = 0
    for e in entries:
        joined = read(join(joined, e))
    return joined


def inverse(kind, entry):
    read, _, back = KINDS[kind]
    return read(back(entry))


def season(kind, unit, length, calls):
    """The answer of every call, then the entries and the cells."""
    read, join, _ = KINDS[kind]
    entries, parked, told = [], None, []
    for call, *args in calls:
        n, free = len(entries), length - len(entries)
        place = 1 <= args[0] <= n if call in ("Correct", "Shift", "At") else True
        if not place or (call == "Total" and args[0] > n):
            told.append(("Err", "NoPlace"))
        elif call == "Park" and parked is not None:
            told.append(("Err", "AlreadyParked"))
        elif call == "Enter" and free < (1 if parked is None else 2) or call == "Park" and free < 2:
            told.append(("Err", "NoCells"))
        elif call == "Strike" and n == 0:
            told.append(("Err", "NothingToStrike"))
        elif call in ("Restore", "GiveUp") and parked is None:
            told.append(("Err", "WrongSlip"))
        elif call == "Enter":
            entries.append(args[0])
            told.append(("Number", n + 1))
        elif call == "Correct":
            told.append(("Entry", entries[args[0] - 1]))
            entries[args[0] - 1] = args[1]
        elif call == "Shift":
            entries[args[0] - 1] = read(join(entries[args[0] - 1], args[1]))
            told.append(("Entry", entries[args[0] - 1]))
        elif call == "Strike":
            told.append(("Entry", entries.pop()))
        elif call == "Park":
            parked = total(kind, entries)
            entries.append(inverse(kind, parked))
            told.append(("Slip", unit))
        elif call == "Restore":
            entries.append(parked)
            parked = None
            told.append(("Number", n + 1))
        elif call == "GiveUp":
            parked = None
            told.append(("Number", n))
        elif call == "At":
            told.append(("Entry", entries[args[0] - 1]))
        elif call == "Total":
            told.append(("Entry", total(kind, entries[: args[0]])))
        else:
            told.append(("Number", n))
    cells = []
    for j in range(1, length + 1):
        span = 1
        while j % (2 * span) == 0:
            span *= 2
        cells.append(total(kind, entries[j - span : j]) if j <= len(entries) else 0)
    return told, entries, cells


def at_random(kind, seed, length, calls):
    """Calls in any order, a few of them at places that are not there."""
    dice = random.Random(seed)
    read = KINDS[kind][0]
    draw = lambda: read(dice.choice([dice.randint(-50, 50), dice.randint(0, 2**32)]))
    out, n = [], 0
    for _ in range(calls):
        call = dice.choice(
            ["Enter"] * 8 + ["Correct"] * 3 + ["Shift"] * 3 + ["Strike", "Strike", "Park", "Park"]
            + ["Restore", "Restore", "GiveUp", "At", "At", "Total", "Total", "Count"]
        )
        n = min(length, n + 1) if call in ("Enter", "Park", "Restore") else n - (call == "Strike" and n > 0)
        if call == "Enter":
            out.append((call, draw()))
        elif call in ("Correct", "Shift"):
            out.append((call, dice.randint(0, n + 1), draw()))
        elif call in ("At", "Total"):
            out.append((call, dice.randint(0, n + 1)))
        else:
            out.append((call,))
    return out


E = lambda *entries: [("Enter", e) for e in entries]
PARK, RESTORE, GIVE_UP, STRIKE, COUNT = [("Park",)], [("Restore",)], [("GiveUp",)], [("Strike",)], [("Count",)]
C = lambda place, entry: [("Correct", place, entry)]
S = lambda place, amount: [("Shift", place, amount)]
A = lambda *places: [("At", p) for p in places]
T = lambda *counts: [("Total", i) for i in counts]

# test, name, kind, unit number, length of the table, calls
SEASONS = [
    ("entries_alter", "no calls", "Steps", 0, 3, []),
    ("sheets_park", "parked between drives", "Steps", 7, 6, E(40, -3) + PARK + E(7) + RESTORE + T(5)),
    ("entries_alter", "corrected and shifted", "Steps", 1, 8,
     E(5, -2, 9, 4) + C(2, 6) + S(3, -10) + A(2, 3) + T(4) + STRIKE + C(4, 1) + C(1, 0) + T(3) + COUNT),
    ("entries_alter", "corrected under wide cells", "Steps", 2, 8,
     E(1, 2, 3, 4, 5, 6, 7, 8) + C(1, 100) + S(4, 1000) + S(5, -5) + C(8, 0) + T(1, 2, 3, 4, 5, 6, 7, 8) + A(4, 8)),
    ("entries_alter", "struck to nothing", "Steps", 3, 4,
     STRIKE + E(1, 2, 3, 4, 5) + STRIKE * 4 + STRIKE + T(0) + E(8) + COUNT),
    ("entries_alter", "struck and entered again", "Steps", 3, 8, E(9, 8, 7, 6, 5) + STRIKE * 2 + E(-1) + STRIKE * 2 + E(3, 4, 5)),
    ("entries_alter", "places that are not there", "Steps", 4, 5,
     A(0, 1, MOST) + C(0, 1) + C(1, 1) + S(0, 1) + S(1, 1) + T(1, MOST, 0) + E(3)
     + A(0, 1, 2, MOST) + C(2, 5) + C(MOST, 5) + S(2, 5) + S(0, 5) + T(0, 1, 2, MOST) + COUNT),
    ("small_sheets", "no cells", "Steps", 5, 0, E(1) + STRIKE + PARK + RESTORE + GIVE_UP + T(0, 1) + A(1) + COUNT),
    ("small_sheets", "one cell", "Steps", 5, 1, PARK + E(9, 9) + PARK + S(1, 1) + STRIKE + PARK + RESTORE + GIVE_UP + E(2)),
    ("small_sheets", "two cells parked at once", "Steps", 5, 2, PARK + E(1) + PARK + RESTORE + E(1) + RESTORE),
    ("small_sheets", "two cells one taken", "Steps", 5, 2, E(6) + PARK + RESTORE + E(7) + PARK + E(8) + STRIKE * 2 + PARK),
    ("small_sheets", "two cells given up", "Steps", 5, 2, PARK + GIVE_UP + E(4) + GIVE_UP + PARK),
    ("small_sheets", "full and then parked", "Steps", 6, 3,
     E(3, 4, 5, 6) + PARK + STRIKE + PARK + STRIKE + PARK + E(1) + PARK + COUNT + RESTORE + E(1) + T(3)),
    ("small_sheets", "just two free", "Steps", 6, 5, E(10, 20, 30) + PARK + E(1) + PARK + T(4) + RESTORE + E(1) + A(4, 5)),
    ("sheets_park", "parked twice", "Steps", 8, 8, E(12) + PARK + PARK + E(5) + PARK + RESTORE + PARK + RESTORE + COUNT),
    ("sheets_park", "amount kept while entries alter", "Steps", 9, 8,
     E(10) + PARK + S(1, 5) + C(2, 0) + STRIKE * 2 + STRIKE + T(0) + RESTORE + RESTORE),
    ("sheets_park", "struck while parked", "Steps", 9, 3, E(4) + PARK + E(6) + STRIKE + E(6) + E(6) + RESTORE + E(6)),
    ("sheets_park", "given up and parked again", "Steps", 10, 8,
     E(2) + PARK + GIVE_UP + RESTORE + GIVE_UP + PARK + E(5) + GIVE_UP + E(1) + PARK + A(5, 6) + T(6)),
    ("sheets_park", "left parked", "Steps", 11, 4, E(-7, 3) + PARK),
    ("sheets_park", "lowest step", "Steps", MOST, 8,
     E(-(2**31)) + PARK + A(2) + T(2) + RESTORE + S(1, -(2**31)) + T(3) + E(2**31 - 1, 1) + T(4) + C(2, 1) + T(5)),
    ("counts_wrap", "counts that wrap", "Counts", 12, 8,
     E(MOST, 1) + T(2) + S(2, MOST) + E(MOST) + T(3) + PARK + A(4) + RESTORE + T(5) + C(1, 2) + T(5)),
    ("flags_undo_themselves", "flags undo themselves", "Flags", 13, 6,
     E(0b1100, 0b1010) + PARK + A(3) + T(3) + RESTORE + A(4) + T(4) + S(1, 0b1100) + A(1) + T(4) + C(2, 255)),
    ("notches_turn", "notches turn over", "Notch", 14, 6, E(4, 3, 4) + PARK + A(4) + RESTORE + S(2, 4) + C(1, 1) + T(5) + STRIKE + A(5)),
    ("steps_in_any_order", "any steps in few cells", "Steps", 15, 5, at_random("Steps", 1, 5, 40)),
    ("steps_in_any_order", "any steps", "Steps", 16, 21, at_random("Steps", 2, 21, 60)),
    ("counts_wrap", "any counts", "Counts", 17, 12, at_random("Counts", 3, 12, 40)),
    ("flags_undo_themselves", "any flags", "Flags", 18, 12, at_random("Flags", 4, 12, 40)),
    ("notches_turn", "any notches", "Notch", 19, 12, at_random("Notch", 5, 12, 40)),
]

HEAD = """//! Seasons, and what each must come to. Written by tests/sheet_cases.py: alter it there.
use crate::seasons::{Season, comes_to};
use kinds::Refusal::{AlreadyParked, NoCells, NoPlace, NothingToStrike, WrongSlip};
use kinds::{Counts, Flags, Steps};
use ledgers::Call;
use sheets::Answer::{Entry, Number, Slip};
use std::test::Fail;
use trials::Notch;
"""


def shown(call):
    name, *args = call
    return "Call::" + name + ("(%s)" % ", ".join(map(str, args)) if args else "")


def answered(answer, value):
    return "Err(%s)" % value if answer == "Err" else "Ok(%s(%d))" % (answer, value)


def written(name, kind, unit, length, calls):
    told, entries, cells = season(kind, unit, length, calls)
    out = ["        Season {", '            name: "%s",' % name, "            unit: %d," % unit, "            calls: &["]
    out += ["                (%s, %s)," % (shown(c), answered(*a)) for c, a in zip(calls, told)]
    out += ["            ],", "            entries: &%s," % entries, "            cells: &%s," % cells]
    out += ["            total: %d," % total(kind, entries), "        },"]
    return out


with open("crates/sheet_trials/src/cases.rt", "w") as f:
    f.write(HEAD)
    for group in dict.fromkeys(s[0] for s in SEASONS):
        seasons = [s[1:] for s in SEASONS if s[0] == group]
        out = ["", "#[test]", "fn %s(rt: HostRuntime) -> Result<(), Fail> {" % group, "    let heap = rt.alloc();"]
        out += ["    for season in ["]
        for s in seasons:
            out += written(*s)
        out += ["    ] {", "        comes_to(&rt, heap, season, &%s)?;" % ENTRY[seasons[0][1]], "    }", "    Ok(())", "}"]
        f.write("\n".join(out) + "\n")
print(len(SEASONS), "seasons,", sum(len(s[5]) for s in SEASONS), "calls")
