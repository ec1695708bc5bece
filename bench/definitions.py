#!/usr/bin/env python3
"""Which definitions the top call's contract says, directly and through others, by crates and files.

    bench/definitions.py             what docs/DEFINITIONS.md must have and hasn't, what its table has and mustn't, and which definitions stand
                                     among proofs, where none that must be believed may be; ends with 1 if there is any
    bench/definitions.py --write     writes the table into docs/DEFINITIONS.md anew
    bench/definitions.py --list      each definition, with its file

It begins with the names in the contract of `tool_driver::driver::mirdwarf`, finds each by the `ghost use` lines of that file, and goes on from
the text of each definition by the `use` lines of the file where it stands. A type of code that a definition names stands for its `Model`: what
its view and its invariant name belongs to it.
"""
import os
import re
import sys
from functools import cache

TOP = os.path.join(os.path.dirname(os.path.abspath(__file__)), "..")
CRATES = os.path.join(TOP, "crates")
PAGE = os.path.join(TOP, "docs", "DEFINITIONS.md")
CALL = ("tool_driver", "driver", "mirdwarf")
NAME = re.compile(r"(?<![\w.'])[A-Za-z_][\w']*")
DOTTED = re.compile(r"(?<![\w.'])[a-z]\w*\.[A-Za-z_][\w']*")
USE = re.compile(r"^\s*(?:pub )?(?:ghost )?use Rattle\.([a-z0-9_]+)\.(specs|proofs)\.([\w.]+)\.\{([^}]*)\}", re.M)
# A whole module under a name of its own, and what is named of it.
MODULE = re.compile(r"^\s*(?:pub )?(?:ghost )?use Rattle\.([a-z0-9_]+)\.(specs|proofs)\.([\w.]+) as ([a-z]\w*)$", re.M)
# A module that a crate hands on, or the whole of another crate under that one's name.
HANDED = re.compile(r"^pub use Rattle\.([a-z0-9_]+)\.(specs|proofs)((?:\.\w+)*)(?: as (\w+))?$", re.M)
HEAD = re.compile(r"^( *)(?:(?:abbrev|unfoldable)(?: pub)?|(?:pub )?(?:record|data)) (◌\S+◌|[A-Za-z_][\w']*)")
MARKS = "<!-- made by bench/definitions.py -->", "<!-- end -->"


@cache
def text_of(*parts):
    try:
        with open(os.path.join(CRATES, *parts), encoding="utf-8") as it:
            return it.read()
    except OSError:
        return None


def names_in(text):
    """The names in a definition's text, without its comments and its texts in quotes; an operator with the places of what stands beside it."""
    text = re.sub(r'--.*|//.*|"[^"]*"', "", text)
    return set(NAME.findall(text)) | set(DOTTED.findall(text)) | {f"◌{it}◌" for it in text.split()}


def uses_in(text):
    """Of each name that a file imports: the crate, the module and the name there."""
    found = {}
    for crate, room, module, names in USE.findall(text):
        for name in names.split(","):
            words = name.split()
            if words:
                found[words[-1]] = (*home_of(crate, at(room, module)), words[0])
    for crate, room, module, short in MODULE.findall(text):
        crate, module = home_of(crate, at(room, module))
        for name in [] if module.startswith("declared.") else re.findall(r"(?<![\w.'])%s\.([A-Za-z_][\w']*)" % short, text):
            found[f"{short}.{name}"] = (crate, module, name)
    return found


def at(room, module):
    """A module's name here: one of `proofs` with its room before it."""
    return module if room == "specs" else f"proofs/{module}"


def path_of(crate, module):
    """The file of a module."""
    room, _, module = module.rpartition("/")
    return f"{crate}/{room or 'specs'}/{module.replace('.', '/')}.antt"


class File:
    """A file of definitions: what each is made of, and what is said at its head."""

    def __init__(self, text):
        self.uses, self.parts, name = uses_in(text), {}, None
        comment = re.match(r"((?:--.*\n)+)", text)
        self.head = " ".join(line[2:].strip() for line in comment[1].splitlines()) if comment else ""
        given = ""
        for line in text.splitlines():
            head = HEAD.match(line)
            if head:
                name, given = head[2], given if head[1] else ""
                self.parts[name] = self.parts.get(name, "") + given
            elif line.lstrip().startswith(("use ", "pub use ", "infix", "module ")) or re.match(r"(pub )?[A-Za-z_][\w'’-]* :", line) and name and not line.startswith(name):
                # What a module is given, each of its definitions has.
                name, given = None, line + "\n" if line.startswith("module ") else given
            if name:
                self.parts[name] += line + "\n"


FILES = {}


@cache
def home_of(crate, module):
    """Where a module stands that a crate may only hand on, by itself or with the whole crate that has it."""
    if text_of(path_of(crate, module)) is not None:
        return crate, module
    room, _, path = module.rpartition("/")
    first, *rest = path.split(".")
    for other, side, path, short in HANDED.findall(text_of(crate, room or "specs", "Lib.antt") or ""):
        if first == (short or path.split(".")[-1]):
            return home_of(other, at(side, ".".join([*path.split(".")[1:], *rest])))
    return crate, module


def file_of(crate, module):
    if (crate, module) not in FILES:
        text = text_of(path_of(crate, module))
        FILES[crate, module] = text is not None and File(text)
    return FILES[crate, module]


def model_of(crate, module, name):
    """The text of a type's Model, with the names that its file imports."""
    words = module.split(".")[1:]
    while words:
        for text in (text_of(crate, "src", *words[:-1], words[-1] + ".rt"), text_of(crate, "src", *words, "mod.rt")):
            if text is not None:
                body = re.search(r"^impl(?:<[^>]*>)? Model for %s\b.*?^}" % re.escape(name), text, re.M | re.S)
                return (body[0], uses_in(text)) if body else ("", {})
        words = words[:-1]
    return "", {}


def closure():
    """The definitions that the top call's contract says: (crate, module, name)."""
    crate, module, name = CALL
    text = text_of(crate, "src", module + ".rt")
    body = re.search(r"^pub fn %s\b(.*?)^{" % name, text, re.M | re.S)[1]
    found, waits = set(), [(uses_in(text), n) for n in sorted(names_in(body))]
    while waits:
        uses, name = waits.pop()
        if name not in uses:
            continue
        crate, module, name = uses[name]
        if crate == "std":
            continue
        if (crate, module, name) in found:
            continue
        if module.startswith("declared."):
            found.add((crate, module, name))
            body, uses = model_of(crate, module, name)
            waits += [(uses, n) for n in sorted(names_in(body))]
            continue
        file = file_of(crate, module)
        if not file:
            sys.exit(f"{path_of(crate, module)} isn't there")
        if name not in file.parts:
            if name in file.uses:
                waits.append((file.uses, name))
                continue
            # A case of a data type, or a name that stands in another: the whole file has it.
            name = next((n for n, t in file.parts.items() if re.search(r"^\s+(?:pub )?%s\b" % re.escape(name), t, re.M)), None)
            if name is None or (crate, module, name) in found:
                continue
        found.add((crate, module, name))
        here = {**file.uses, **{n: (crate, module, n) for n in file.parts}}
        waits += [(here, n) for n in sorted(names_in(file.parts[name]))]
    return found


def table_of(found):
    """The table of part 1: each file that has a definition of the contract's, how many of them, and what its head says."""
    files, types = {}, {}
    for crate, module, name in found:
        if module.startswith("declared."):
            types[crate] = types.get(crate, 0) + 1
        else:
            files.setdefault((crate, module), set()).add(name)
    crates = len({crate for crate, _ in files})
    lines = [
        f"{sum(map(len, files.values()))} definitions in {len(files)} files of {crates} crates, and the values of {sum(types.values())} types of code.",
        "", "| file | definitions | what it has |", "|---|---|---|"]
    for (crate, module), names in sorted(files.items()):
        head = file_of(crate, module).head.split(". ")[0].rstrip(".").replace("|", "\\|")
        lines.append(f"| `{path_of(crate, module)}` | {len(names)} | {head} |")
    return lines, files


def part(page, number):
    """One of the three parts of the page."""
    parts = re.split(r"^## (?=\d\. )", page, flags=re.M)
    return next((it for it in parts if it.startswith(f"{number}. ")), "")


def told(text):
    """The crates and the files that the entries of a part of the page tell of."""
    entries = re.findall(r"^\*\*[^*\n]+\*\* \(([^)]*)\)", text, re.M)
    return [path for it in entries for path in re.findall(r"`([a-z0-9_]+/(?:specs|proofs)/[\w/]*(?:\.antt)?)`", it)]


def main():
    found = closure()
    if "--list" in sys.argv[1:]:
        for crate, module, name in sorted(found):
            print(f"{path_of(crate, module)} {name}")
        return
    lines, files = table_of(found)
    with open(PAGE, encoding="utf-8") as it:
        page = it.read()
    before, rest = page.split(MARKS[0] + "\n", 1)
    old, after = rest.split(MARKS[1], 1)
    made = "\n".join(lines) + "\n"
    if "--write" in sys.argv[1:]:
        page = f"{before}{MARKS[0]}\n{made}{MARKS[1]}{after}"
        with open(PAGE, "w", encoding="utf-8") as it:
            it.write(page)
        old = made
    among = [f"{path_of(crate, module)} {name}: the contract says it, and it stands among proofs"
             for crate, module, name in sorted(found) if module.startswith("proofs/")]
    faults = among + ([] if old == made else ["the table of part 1 isn't what the contract says: bench/definitions.py --write"])
    paths = {path_of(crate, module) for crate, module in files}
    meant = [path for path in told(part(page, 1))]
    faults += [f"part 1 doesn't tell of {it}" for it in sorted({path.split("/")[0] for path in paths} - {path.split("/")[0] for path in meant})]
    for number in (1, 2, 3):
        for path in told(part(page, number)):
            is_in = any(it == path or path.endswith("/") and it.startswith(path) for it in paths)
            if number == 1 and not is_in and not any(it.startswith(path.split("/")[0] + "/") for it in paths):
                faults.append(f"part 1 tells of {path}, which isn't in the contract")
            if number != 1 and is_in:
                faults.append(f"part {number} tells of {path}, which is in the contract")
    for it in faults:
        print(it)
    sys.exit(1 if faults else 0)


if __name__ == "__main__":
    main()
