#!/usr/bin/env python3
"""What a change to crates has the gate do again: their proofs, tests, edits and programs, and those of all crates above them.

    bench/cost.py NAME..        what a change to all of these crates costs
    bench/cost.py --each NAME.. the same for each of them alone, dearest first; with no name for all crates
    bench/cost.py --ways        the ways that lead down by crates.txt, and the dearest names there that another name of their line leads to

It takes the crates from crates.txt, and the processor seconds of each from the table "The gate" of docs/PERFORMANCE.md; a crate that has no row
there counts as SMALL seconds of proof. Wall minutes are those of a schedule on two and on four processors, the longest chain of proofs
first, with the part of a processor's time that a run of the gate was seen to use. What the gate runs again in any case, the tests and programs
of the crates that didn't change, isn't counted.

Before and after the proof of a library `rt ci` sums the files of the library and of all that it uses, those of a crate once for each way that
leads down to it by crates.txt: some 2 ms a way each time. So MOST_WAYS is what is bearable. A name that another name of its line leads to is
taken out of the line where it adds many ways; the other crate then hands it on."""
import heapq
import os
import re
import sys

TOP = os.path.join(os.path.dirname(os.path.abspath(__file__)), "..")
SMALL = 8.0  # rows below ten seconds are left out of the table
USED = 0.83  # of each processor, in a whole run on four
MOST_WAYS = 750_000
COLUMNS = ("proof", "tests", "edits", "else")


def crates():
    """For each crate the crates of the repository that it stands on."""
    below = {}
    with open(os.path.join(TOP, "crates.txt"), encoding="utf-8") as file:
        for line in file:
            line = line.split("#")[0].strip()
            if line:
                name, _, names = line.partition(":")
                below[name.split()[0]] = names.split()
    return {name: [it for it in names if it in below] for name, names in below.items()}


def seconds():
    """For each crate of the gate's table the seconds of each column."""
    with open(os.path.join(TOP, "docs", "PERFORMANCE.md"), encoding="utf-8") as file:
        page = file.read()
    found = {}
    for name, cells in re.findall(r"^\| `(\w+)` \|((?: [\d·]+ \|){5})$", page.split("## The gate")[1], re.M):
        found[name] = dict(zip(COLUMNS, (0.0 if it == "·" else float(it) for it in cells.replace("|", " ").split())))
    return found


def above(changed, below):
    """The changed crates and all that stand on one of them."""
    users = {}
    for name, names in below.items():
        for it in names:
            users.setdefault(it, []).append(name)
    found, left = set(), list(changed)
    while left:
        name = left.pop()
        if name not in found:
            found.add(name)
            left.extend(users.get(name, []))
    return found


def ways(below):
    """Of each crate the ways that lead down from it, with that of no step, and those that lead down to it."""
    down, up, order = {}, dict.fromkeys(below, 1), []

    def count(name):
        if name not in down:
            down[name] = 1 + sum(count(it) for it in below[name])
            order.append(name)
        return down[name]

    for name in below:
        count(name)
    for name in reversed(order):
        for it in below[name]:
            up[it] += up[name]
    return down, up


def tell_ways(below):
    """Prints the ways, and the ten names of crates.txt that add most of them beside another name that leads to the same crate."""
    down, up = ways(below)
    print(f"{sum(down.values())} ways lead down by crates.txt; {MOST_WAYS} at most are bearable\n")
    print("| crate | uses | by this name alone | another name leads to it |\n|---|---|---|---|")
    over = {name: above([name], below) for name in below}
    rows = [(up[name] * down[it], name, it, [by for by in below[name] if by != it and by in over[it]]) for name in below for it in below[name]]
    for count, name, it, others in [row for row in sorted(rows, reverse=True) if row[3]][:10]:
        print(f"| {name} | {it} | {count} | {' '.join(others)} |")


def wall(again, below, spent, processors):
    """Minutes of a schedule: a crate's proof waits for those below it, its tests, edits and programs for its own proof."""
    proof = {name: spent[name]["proof"] for name in again}
    users = {name: [it for it in again if name in below[it]] for name in again}
    chain = {}

    def length(name):
        if name not in chain:
            chain[name] = proof[name] + max((length(it) for it in users[name]), default=0.0)
        return chain[name]

    waits = {name: sum(it in again for it in below[name]) for name in again}
    ready = [(-length(name), name, "proof", proof[name]) for name in again if not waits[name]]
    heapq.heapify(ready)
    running, now = [], 0.0
    while ready or running:
        while ready and len(running) < processors:
            _, name, what, takes = heapq.heappop(ready)
            heapq.heappush(running, (now + takes, name, what))
        now, name, what = heapq.heappop(running)
        if what == "proof":
            for it in users[name]:
                waits[it] -= 1
                if not waits[it]:
                    heapq.heappush(ready, (-length(it), it, "proof", proof[it]))
            for part in COLUMNS[1:]:
                if spent[name][part]:
                    heapq.heappush(ready, (-spent[name][part], name, part, spent[name][part]))
    return now / 60 / USED


def tell(changed, below, table):
    again = above(changed, below)
    spent = {name: table.get(name, {"proof": SMALL, "tests": 0.0, "edits": 0.0, "else": 0.0}) for name in again}
    sums = [sum(it[part] for it in spent.values()) / 60 for part in COLUMNS]
    return len(again), sums, wall(again, below, spent, 2), wall(again, below, spent, 4)


def main():
    sys.setrecursionlimit(10_000)
    words = sys.argv[1:]
    each = words[:1] == ["--each"]
    below, table = crates(), seconds()
    if words == ["--ways"]:
        return tell_ways(below)
    names = words[each:] or (list(below) if each else [])
    unknown = [it for it in names if it not in below]
    if unknown or not names:
        raise SystemExit(f"no crate of crates.txt: {', '.join(unknown)}" if unknown else __doc__)
    rows = [(it, *tell([it], below, table)) for it in names] if each else [(" ".join(names), *tell(names, below, table))]
    print("| changed | crates | proofs | tests | edits | else | processor minutes | on two processors | on four |")
    print("|---|---|---|---|---|---|---|---|---|")
    for name, count, sums, two, four in sorted(rows, key=lambda it: -sum(it[2])):
        cells = " | ".join(f"{it:.0f}" for it in [*sums, sum(sums), two, four])
        print(f"| {name} | {count} | {cells} |")


if __name__ == "__main__":
    main()
