#!/usr/bin/env python3
"""Makes docs/MAP.md: the rooms of the house as a picture, and a line for each crate.

    bench/map.py             what docs/MAP.md says otherwise than crates.txt and the crates; ends with 1 if there is any
    bench/map.py --write     writes docs/MAP.md anew
    bench/map.py --above NAME     the crates that stand on a crate: what a change of its contracts has proved again

The rooms are the headings of crates.txt. What a crate is says the first sentence of its `src/lib.rt` (of a program `src/main.rt`);
what it stands on says crates.txt, without what the crates that are named already stand on. A crate with no function that does anything is one of laws.
"""
import os
import re
import sys

TOP = os.path.join(os.path.dirname(os.path.abspath(__file__)), "..")
WIDTH = 100
HEAD = """# Map

Where everything is: the rooms of the house, and a line for each crate. This page is made by `bench/map.py --write` from `crates.txt`, whose
headings are the rooms, and the first sentence of each crate. `DESIGN.md` says why it is so, and `PROVED.md` what each crate's clauses say.

A room stands on rooms of the rows below its own, and on no other; a crate on crates of its room or of these. *Laws* are crates whose functions do
nothing: their contracts are statements. A crate's line ends with what it stands on directly, without what those stand on themselves.
"""


def read(*parts):
    try:
        with open(os.path.join(TOP, *parts), encoding="utf-8") as it:
            return it.read()
    except OSError:
        return None


def crates():
    """Each crate with the crates that it stands on, and those of others that it uses."""
    found = {}
    for line in read("crates.txt").splitlines():
        line = line.split("#")[0].strip()
        if line:
            name, rest = line.split(":")
            found[name] = rest.split()
    return {name: [it for it in rest if it in found] for name, rest in found.items()}


def rooms(known):
    """The rooms, each with its name, what it is, and its crates; and what is wrong with them."""
    found, faults = [], []
    for number, line in enumerate(read("crates.txt").splitlines(), 1):
        if line.startswith("# "):
            name, colon, about = line[2:].partition(": ")
            if not colon:
                faults.append(f"crates.txt:{number}: a heading is `# Name: what it is`")
            found.append((name, about, []))
        elif line.strip():
            if not found:
                faults.append(f"crates.txt:{number}: stands above the first heading")
                found.append(("", "", []))
            found[-1][2].append(re.split(r"[ :]", line)[0])
    return found, faults


def below(known):
    """All that each crate stands on, directly or through others."""
    found = {}

    def of(name):
        if name not in found:
            found[name] = set()
            for it in known[name]:
                found[name] |= {it} | of(it)
        return found[name]

    for it in known:
        of(it)
    return found


def levels(found, known, faults):
    """The rooms that each room stands on, and its row in the picture."""
    home = {it: at for at, (_, _, members) in enumerate(found) for it in members}
    stands = [set() for _ in found]
    for name, rest in known.items():
        for it in rest:
            if name in home and it in home and home[it] != home[name]:
                if home[it] > home[name]:
                    faults.append(f"{name} stands on {it}, whose room stands above its own")
                else:
                    stands[home[name]].add(home[it])
    row = []
    for at in range(len(found)):
        row.append(1 + max((row[it] for it in stands[at] if it < at), default=0))
    return stands, row


def sentence(name):
    """The first sentence of a crate's head."""
    text = read("crates", name, "src", "lib.rt") or read("crates", name, "src", "main.rt") or ""
    lines = []
    for line in text.splitlines():
        if not line.startswith("//!"):
            break
        lines.append(line[3:].strip())
    words = " ".join(lines).split("  ")[0]
    ends = [it.start() for it in re.finditer(r"(?<=[.:])\s+(?=[A-Z`])", words)]
    # not within brackets
    end = next((it for it in ends if words.count("(", 0, it) == words.count(")", 0, it)), len(words))
    first = words[:end].strip().rstrip(".:")
    return re.sub(r"[:,] (?:a law|laws|the laws of reading), (?:each )?the contract of a function that does nothing$", "", first)


def does_nothing(name):
    """Whether no function of a crate does anything."""
    bodies, top = [], os.path.join(TOP, "crates", name, "src")
    for at, _, files in os.walk(top):
        for it in files:
            if it.endswith(".rt"):
                with open(os.path.join(at, it), encoding="utf-8") as file:
                    text = file.read()
                heads = len(re.findall(r"^\s*(?:pub )?fn ", text, re.M))
                bodies.append((heads, len(re.findall(r"\{\}\s*$", text, re.M))))
    return sum(it for it, _ in bodies) > 0 and all(heads <= empty for heads, empty in bodies)


def picture(found, row):
    lines = []
    for height in range(max(row), 0, -1):
        here, line = [name for at, (name, _, _) in enumerate(found) if row[at] == height], ""
        for name in here:
            box = f"[ {name} ]"
            if line and len(line) + 2 + len(box) > WIDTH - 4:
                lines.append(line.center(WIDTH).rstrip())
                line = ""
            line = line + "  " + box if line else box
        lines.append(line.center(WIDTH).rstrip())
        if height > 1:
            lines.append("|".center(WIDTH).rstrip())
    return lines


def page():
    known = crates()
    found, faults = rooms(known)
    stands, row = levels(found, known, faults)
    all_below = below(known)
    count = sum(does_nothing(it) for it in known)
    out = [HEAD, f"{len(known)} crates in {len(found)} rooms, {count} of them of laws.", "", "```"] + picture(found, row) + ["```", ""]
    for at, (name, about, members) in enumerate(found):
        out += [f"## {name}", "", about[0].upper() + about[1:] + "."]
        if stands[at]:
            direct = [it for it in stands[at] if not any(it in reach(stands, other) for other in stands[at] if other != it)]
            out[-1] += " Stands on " + ", ".join(f"*{found[it][0]}*" for it in sorted(direct)) + "."
        out.append("")
        for it in members:
            named = [d for d in known[it] if not any(d in all_below[other] for other in known[it] if other != d)]
            law = " *Laws.*" if does_nothing(it) else ""
            over = " Over " + ", ".join(f"`{d}`" for d in named) + "." if named else ""
            out.append(f"- `{it}`: {sentence(it)}.{law}{over}")
        out.append("")
    return "\n".join(out).rstrip("\n") + "\n", faults


def reach(stands, at):
    found, waits = set(), [at]
    while waits:
        for it in stands[waits.pop()]:
            if it not in found:
                found.add(it)
                waits.append(it)
    return found


def main():
    if sys.argv[1:2] == ["--above"]:
        found = below(crates())
        above = sorted(it for it in found if sys.argv[2] in found[it])
        print(f"{len(above)} of {len(found)}: {' '.join(above)}")
        return
    text, faults = page()
    path = os.path.join(TOP, "docs", "MAP.md")
    if "--write" in sys.argv[1:]:
        with open(path, "w", encoding="utf-8") as it:
            it.write(text)
    elif read("docs", "MAP.md") != text:
        faults.append("docs/MAP.md isn't what crates.txt and the crates say: bench/map.py --write")
    for it in faults:
        print(it)
    sys.exit(1 if faults else 0)


if __name__ == "__main__":
    main()
