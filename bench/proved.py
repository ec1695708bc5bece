#!/usr/bin/env python3
"""Makes the tables of docs/PROVED.md: a row for each public call, with its clauses, and checks what the page says beside them.

    bench/proved.py             what the page says otherwise than the code; ends with 1 if there is any
    bench/proved.py --write     writes the tables anew

A table stands in each room (a heading of crates.txt) whose crates promise something. A call is public where its module is; its clauses are its `ensures`, by
their names or, without one, by the definitions that they name. The clauses of the top call have a list of their own, which is checked both ways. The page's
last table has the edits that the gate tries, as docs/EDITS.md tells of them.
"""
import os
import re
import sys

sys.dont_write_bytecode = True
import map as house
from definitions import uses_in

TOP = house.TOP
PAGE = os.path.join(TOP, "docs", "PROVED.md")
CALL = ("tool_driver", "driver", "mirdwarf")
LEFT_OUT = "Tests and measuring"


def modules(crate):
    """The text of each public module of a crate, by its path; that of the crate itself has none."""
    top = house.read("crates", crate, "src", "lib.rt") or ""
    found = {"": top}

    def look(folder, head):
        for name in re.findall(r"^pub mod ([a-z0-9_]+)", head or "", re.M):
            text = house.read(*folder, name + ".rt")
            if text is not None:
                found["::".join((*folder[3:], name))] = text
                look((*folder, name), text)

    look(("crates", crate, "src"), top)
    return found


def clauses(head, uses):
    """What each `ensures` of a call's head is called, or which definition it names."""
    found = []
    for label, rest in re.findall(r"\bensures(?: ([a-z]\w*))? (\{.*?)(?=\n\s*(?:ensures|requires)\b|\Z)", head, re.S):
        names = NAME.findall(re.sub(r"//.*", "", rest))
        defined = [it for it in names if it in uses and uses[it][0] != "std" and not uses[it][1].startswith("declared.")]
        found.append(label or (defined or ["result"])[0])
    return [it for at, it in enumerate(found) if it not in found[:at]]


NAME = re.compile(r"(?<![\w.])(?<!: )[A-Za-z_]\w*")
FORM = re.compile(
    r"^(?:impl(?:<[^{]*?>)? (?P<owner>\w+)[^{;]*?\{$|pub trait (?P<trait>\w+)[^{]*?\{$"
    r"|(?P<doc>(?:^ *///[^\n]*\n)*)(?P<in> *)(?P<pub>pub )?fn (?P<name>\w+)(?P<head>[^\n]*\{$|.*?(?:^(?P=in)\{|\{\}$|;$)))", re.M | re.S)


def calls(crate):
    """The public calls of a crate: (module, name, what it does, its clauses)."""
    found = []
    for module, text in modules(crate).items():
        text = re.sub(r"^#\[cfg\(test\)\].*\Z", "", text, flags=re.M | re.S)
        text = re.sub(r"^ *#\[.*?\]\n", "", text, flags=re.M | re.S)
        uses, owner, is_trait = uses_in(text), None, False
        for match in FORM.finditer(text):
            if match["owner"] or match["trait"]:
                owner, is_trait = match["owner"] or match["trait"], bool(match["trait"])
            elif match["pub"] or match["in"] and is_trait:
                doc = " ".join(line.strip()[3:].strip() for line in (match["doc"] or "").splitlines())
                first = re.split(r"(?<=[.:])\s+(?=[A-Z`])", doc + " ")[0].strip().rstrip(".:")
                name = f"{owner}::{match['name']}" if match["in"] and owner else match["name"]
                found.append((module, name, first, clauses(match["head"], uses)))
    return found


def table(crates):
    lines = ["| call | what it does | its clauses |", "|---|---|---|"]
    for crate in crates:
        for module, name, first, said in calls(crate):
            if (crate, module, name) != CALL and said:
                path = "::".join(it for it in (crate, module, name) if it)
                lines.append(f"| `{path}` | {first.replace('|', chr(92) + '|')} | " + ", ".join(f"`{it}`" for it in said) + " |")
    return lines if len(lines) > 2 else []


def edits():
    """The edits of the gate by docs/EDITS.md, each with what it guards."""
    rows = re.findall(r"^\| (`\w+`) \| (`\w+`) \| yes \| (.*?) \|$", house.read("docs", "EDITS.md"), re.M)
    return ["| crate | edit | what it guards |", "|---|---|---|", *(f"| {' | '.join(row)} |" for row in rows)]


def filled(page, mark, lines):
    """The page with these lines between a mark and its end."""
    before, rest = page.split(mark, 1)
    return before + mark + "".join(it + "\n" for it in lines) + "<!-- end -->" + rest.split("<!-- end -->", 1)[1]


def labels():
    """The names of the top call's clauses."""
    text = house.read("crates", CALL[0], "src", CALL[1] + ".rt")
    head = re.search(r"^pub fn %s\b(.*?)^\{" % CALL[2], text, re.M | re.S)[1]
    return re.findall(r"^    ensures ([a-z]\w*)", head, re.M)


def main():
    with open(PAGE, encoding="utf-8") as it:
        page = it.read()
    known = house.crates()
    found, faults = house.rooms(known)
    made = page
    for name, _, members in found:
        if name == LEFT_OUT:
            continue
        lines = table(members)
        mark = f"<!-- calls: {name} -->\n"
        if mark not in made:
            if lines:
                faults.append(f"docs/PROVED.md has no room {name}, with `{mark.strip()}` and `<!-- end -->`")
            continue
        made = filled(made, mark, lines)
    made = filled(made, "<!-- edits of the gate -->\n", edits())
    if "--write" in sys.argv[1:]:
        with open(PAGE, "w", encoding="utf-8") as it:
            it.write(made)
    elif made != page:
        faults.append("the tables of docs/PROVED.md aren't what the code says: bench/proved.py --write")
    told = set(re.findall(r"`(\w+)`", page.split("\n## ")[1]))
    faults += [f"docs/PROVED.md doesn't tell of the top call's clause {it}" for it in labels() if it not in told]
    listed = set(re.findall(r"^- \*\*((?:`\w+`(?:, )?)+)\*\*:", page, re.M))
    named = {it for group in listed for it in re.findall(r"`(\w+)`", group)}
    faults += [f"docs/PROVED.md tells of the crate {it}, which crates.txt hasn't" for it in sorted(named - set(known))]
    for name, _, members in found:
        faults += [f"docs/PROVED.md doesn't say what {it} says" for it in members if name != LEFT_OUT and it not in named and calls(it)]
    for it in faults:
        print(it)
    sys.exit(1 if faults else 0)


if __name__ == "__main__":
    main()
