#!/usr/bin/env python3
"""Are the edits as docs/EDITS.md says?

    bench/check_edits.py

An edit is a wrong body that the prover must refuse. It tells where the table of the page and the folders `crates/NAME/must-fail` don't
agree, where an edit changes another file than one of `src`, where a text to change doesn't stand just once, and where a name stands both
there and in `bench/edits`. It proves nothing. It ends with 1 where it told something.
"""
import re
import sys
from pathlib import Path

TOP = Path(__file__).resolve().parent.parent
ROW = re.compile(r"^\| `(\w+)` \| `(\w+)` \| (yes|·) \| (.+) \|$")


def faults_of(edit, crate):
    """What is wrong with one edit of a crate."""
    texts, file, old = {}, None, None
    for number, line in enumerate(edit.read_text().splitlines(), 1):
        word, _, rest = line.partition(": ")
        if word == "file":
            file = TOP / "crates" / crate / rest.strip()
            if not rest.startswith("src/") or not file.is_file():
                yield f"{number}: no file of src: {rest}"
                return
            texts.setdefault(file, file.read_text())
        elif word == "old" and file:
            old = rest
            if texts[file].count(old) != 1:
                yield f"{number}: stands {texts[file].count(old)} times in {file.name}: {old.strip()}"
        elif word == "new" and old is not None:
            texts[file] = texts[file].replace(old, rest)
            old = None
        elif line.strip() and line != "new:":
            yield f"{number}: is read as nothing: {line}"
    if all(text == file.read_text() for file, text in texts.items()):
        yield "changes nothing"


def main():
    told = []
    gate = {(p.parts[-3], p.stem): p for p in TOP.glob("crates/*/must-fail/*.edit")}
    kept = {(p.parts[-2], p.stem): p for p in TOP.glob("bench/edits/*/*.edit")}
    for (crate, _), path in sorted([*gate.items(), *kept.items()], key=lambda it: str(it[1])):
        told += [f"{path.relative_to(TOP)}:{fault}" for fault in faults_of(path, crate)]
    told += [f"{crate}/{name}: stands in the gate and in bench/edits" for crate, name in sorted(set(gate) & set(kept))]
    found = [m for m in map(ROW.match, (TOP / "docs/EDITS.md").read_text().splitlines()) if m]
    rows = [(m[1], m[2]) for m in found]
    tried = {(m[1], m[2]) for m in found if m[3] == "yes"}
    told += [f"docs/EDITS.md: {crate}/{name} has {rows.count((crate, name))} rows" for crate, name in sorted(set(rows))
             if rows.count((crate, name)) > 1]
    told += [f"docs/EDITS.md: no row with yes for {crate}/{name}" for crate, name in sorted(set(gate) - tried)]
    told += [f"docs/EDITS.md: no edit of the gate {crate}/{name}" for crate, name in sorted(tried - set(gate))]
    told += [f"docs/EDITS.md: no edit {crate}/{name}" for crate, name in sorted(set(rows) - tried - set(kept))]
    print(*told, sep="\n", end="\n" if told else "")
    print(f"{len(gate)} edits in the gate, {len(kept)} in bench/edits, {len(told)} faults")
    sys.exit(1 if told else 0)


main()
