#!/usr/bin/env python3
"""Draws docs/real.svg, the README's first picture, from the tables of docs/REAL.md.

    bench/real_picture.py     reads the tables, writes the picture

A bar for each program and each of the two whose objects gdb read: what it told of the variables of all frames at the walk's stops, as at -O0, otherwise, or
nothing. The standard library alone; bench/real.py and bench/real_walk.py with --write call it."""
import os
import re

TOP = os.path.realpath(os.path.join(os.path.dirname(os.path.abspath(__file__)), ".."))
PAGE, PICTURE = os.path.join(TOP, "docs", "REAL.md"), os.path.join(TOP, "docs", "real.svg")
# What a part of a bar stands for: the columns that are summed, its colour and its name.
EQUAL = ("as at -O0", "as at -O0, of type `unknown`")
PARTS = [(EQUAL, "#2e9e5b", "as at -O0"), (("otherwise",), "#d43f3a", "otherwise"),
         (("of another type", "no value"), "#c9c9c9", "no value, or of a type that isn't compared")]
LEFT, WIDTH, STEP = 260, 450, 26
HEAD = """<svg xmlns="http://www.w3.org/2000/svg" width="820" height="{height}" viewBox="0 0 820 {height}" font-family="sans-serif" font-size="13">
<title>What gdb tells of variables in Lua, zlib and bzip2, by the objects of mirdwarf and of clang -O2</title>
<rect width="820" height="{height}" fill="#ffffff"/>
"""


def tables(mark):
    """The rows of each table of a part of the page, as dictionaries by the heads of its columns."""
    with open(PAGE, encoding="utf-8") as it:
        part = re.search(rf"<!-- {mark} -->\n(.*?)<!-- end -->", it.read(), re.S)[1]
    found = []
    for block in re.findall(r"(?:^\|.*\n)+", part, re.M):
        head, _, *rows = [[cell.strip() for cell in line.strip("|\n ").split("|")] for line in block.splitlines()]
        found.append([dict(zip(head, row)) for row in rows])
    return found


def text(x, y, words, **more):
    """A line of text."""
    given = "".join(f' {name.replace("_", "-")}="{value}"' for name, value in more.items())
    return f'<text x="{x}" y="{y}" fill="#222222"{given}>{words.replace("&", "&amp;").replace("<", "&lt;")}</text>\n'


def bar(y, numbers, scale):
    """A bar of the parts, with each number that has room in it, and behind it how many differ."""
    drawn, x = "", LEFT
    for number, (_, colour, _) in zip(numbers, PARTS):
        wide = round(number * scale, 1)
        drawn += f'<rect x="{x:.1f}" y="{y}" width="{wide}" height="18" fill="{colour}"/>\n' if number else ""
        if wide > 9 * len(str(number)):
            drawn += text(f"{x + wide / 2:.1f}", y + 13, str(number), text_anchor="middle", font_size=11)
        x += wide
    return drawn + text(f"{x + 8:.1f}", y + 13, f"{numbers[1]} otherwise", font_size=12)


def counts():
    """The numbers that the README has of the tables: functions, those that are ours, those of each refusal, stops, and the values of each of the two."""
    (programs, refusals), (rows,) = tables("built"), tables("walk")

    def total(table, *columns):
        return sum(int(row[it]) for row in table for it in columns)

    ours, theirs = rows[::2], rows[1::2]
    return [total(programs, "functions"), total(programs, "ours"), *(int(it["functions"]) for it in refusals if it["functions"] != "1"), total(ours, "stops"),
            total(ours, *EQUAL, "otherwise"), total(theirs, *EQUAL, "otherwise"), total(theirs, "otherwise"),
            total(theirs, "of these in a register that the call may change")]


def drawn():
    """The picture's text."""
    (programs, _), (rows,) = tables("built"), tables("walk")
    ours = {it["program"].split("-")[0].lower(): f"{it['ours']} of {it['functions']} functions" for it in programs}
    counts = [[sum(int(row.get(it, 0)) for it in columns) for columns, _, _ in PARTS] for row in rows]
    scale, y = WIDTH / max(map(sum, counts)), 64
    parts = text(16, 24, f"Variables in all frames at {sum(int(row['stops']) for row in rows[::2])} stops under gdb, beside the same stops at -O0",
                 font_size=15, font_weight="bold")
    x = LEFT
    for _, colour, name in PARTS:
        parts += f'<rect x="{x}" y="38" width="12" height="12" fill="{colour}"/>\n' + text(x + 18, 49, name)
        x += 34 + 7 * len(name)
    for row, numbers in zip(rows, counts):
        first = row["by"] == "mirdwarf"
        y += 14 if first else 0
        if first:
            parts += text(16, y + 14, row["program"], font_weight="bold") + text(16, y + 14 + STEP, ours[row["program"].lower()], font_size=11)
        parts += text(LEFT - 8, y + 14, "mirdwarf" if first else "clang -O2", text_anchor="end", font_size=12) + bar(y, numbers, scale)
        y += STEP
    return HEAD.format(height=y + 12) + parts + "</svg>\n"


def main():
    with open(PICTURE, "w", encoding="utf-8") as it:
        it.write(drawn())


if __name__ == "__main__":
    main()
