#!/usr/bin/env python3
"""Does each name that a file brings in exist?

    bench/check_uses.py [FOLDER]

It tells where a `use` or a path in code names a crate that crates.txt doesn't list for the file's own and that no listed one hands on, a
file or a function that isn't there, or an item that its file doesn't declare or that is private, and where `specs` names `proofs` of its
own crate. A crate hands on another one by `pub use` in its Lib.antt or lib.rt: what is named by it is looked up where it stands. It tells
which crates crates.txt lists for one that names them nowhere, or below it, which are handed on to nobody or under another name, and
which files no `mod` names; and where more ways lead down by crates.txt than `rt ci` walks in a bearable time (`bench/cost.py --ways`). It
doesn't look into the kit's libraries. FOLDER is another copy of the sources. It proves nothing, and takes some ten seconds. It ends with 1
where it told something.
"""
import re
import sys
from functools import cache
from pathlib import Path

sys.dont_write_bytecode = True
import cost

TOP = Path(sys.argv[1]).resolve() if sys.argv[1:] else Path(__file__).resolve().parent.parent
KIT = {"std", "core", "alloc", "mir", "lib", "borrow"}
USE = re.compile(r"^[ \t]*(pub )?(?:ghost )?use Rattle\.(\w+)\.([^\s{};]+?)(?:\.\{([^{}]*)\}|[ \t]+as[ \t]+(\S+?))?;?[ \t]*$", re.M)
WHOLE = re.compile(r"(?<![\w.])Rattle\.(\w+)\.((?:specs|proofs)\.[^\s{}();,]+)\.([^\s{}();,.]+)")
CODE_USE = re.compile(r"^[ \t]*(pub(?:\(\w+\))? )?use ([^;]+);", re.M)
CODE_PATH = re.compile(r"(?<![\w:.])(\w+)((?:::\w+)+)")
MOD = re.compile(r"^(pub(?:\(\w+\))? )?mod (\w+);?$", re.M)
SIGNED = re.compile(r"(\s*)((?:abbrev |unfoldable |pub )*)(record |data |ruleset )?([^\s(){}:]+(?: (?!= )[^\s(){}:]+)*?)(?= :| =| [({]|$)( :)?")
ITEM = re.compile(r"( *)(pub(?:\(\w+\))? )?(?:(?:const |unsafe )*(fn)|(struct|enum|trait|const|static|type)) (\w+)")
IMPL = re.compile(r"impl\b(?:<[^{]*?>)? *(?:([\w:]+)(?:<[^{]*?>)? for )?([\w:]+)")
REMARK = re.compile(r"(?:^|(?<=\s))-- .*$", re.M)
QUOTED = re.compile(r"//[^\n]*|\"(?:[^\"\\]|\\.)*\"|'(?:[^'\\\n]|\\[^\n])'", re.S)
TOLD = set()
READ = set()
LEADS = {}


def tell(file, number, what):
    TOLD.add((str(file.relative_to(TOP)), number, what))


def blank(pattern, text):
    return pattern.sub(lambda found: re.sub(r"[^\n]", " ", found[0]), text)


@cache
def text_of(file):
    """A file's text, with blanks for comments and, in code, for texts in quotes."""
    return blank(REMARK if file.suffix == ".antt" else QUOTED, file.read_text())


def matches(pattern, text):
    """What a pattern finds, with the numbers of the lines."""
    return [(text.count("\n", 0, m.start()) + 1, m) for m in pattern.finditer(text)]


def items_in(braces):
    """The items of a list: each as its name, and its name here."""
    return [(pair[0].strip(), pair[-1].strip()) for pair in (item.split(" as ") for item in (braces or "").split(",")) if pair[0].strip()]


def spread(tree):
    """The paths of a `use` in code: each as its parts, and its name here."""
    if not (found := re.match(r"([^{]*)\{(.*)\}\s*$", tree, re.S)):
        parts = [part.strip() for part in re.split("::| as ", tree)]
        return [(parts[:-1], parts[-1]) if " as " in tree else (parts, parts[-1])]
    begin = [part.strip() for part in found[1].split("::") if part.strip()]
    inner = [part for part in re.findall(r"[^,{}]*(?:\{(?:[^{}]|\{[^{}]*\})*\})|[^,{}]+", found[2]) if part.strip()]
    return [(begin, begin[-1]) if parts == ["self"] else (begin + parts, name) for part in inner for parts, name in spread(part)]


def src(crate, module):
    return TOP / "crates" / crate / "src" / f"{module}.rt"


@cache
def code_of(crate, module):
    """What a file of src declares: its items with `pub` or none, its types with their variants, and its functions with their types."""
    items, types, functions, impl, enum, depth = {}, {}, set(), "", None, 0
    text = text_of(src(crate, module))
    for line in text.splitlines():
        found = ITEM.match(line)
        if re.match(r"\w", line):
            of = IMPL.match(line)
            impl = of[2].split("::")[-1] + (of[1] or "").split("::")[-1] + "." if of else ""
        if found and found[3]:
            functions.add(impl * bool(found[1]) + found[5])
        if found and not found[1]:
            items[found[5]] = found[2] or ""
            impl = found[5] + "." if found[4] == "trait" else impl
            if found[4]:
                types[found[5]] = {}
                enum = found[5] if found[4] == "enum" else None
        elif enum and depth == 1 and (variant := re.match(r"\s*([A-Z]\w*)\s*(?:[,({=]|$)", line)):
            types[enum][variant[1]] = True
        depth += sum(map(line.count, "{(")) - sum(map(line.count, "})"))
    for _, m in matches(CODE_USE, text):
        items.update({name: m[1] for _, name in spread(m[2]) if m[1]})
    return items, types, functions


@cache
def theory_of(file):
    """What a file of specs or proofs declares or hands on, and whether it is pub. What is built of a data type stands there twice."""
    names, within = {}, None
    for line in text_of(file).splitlines():
        indent, words, kind, called, typed = found.groups() if (found := SIGNED.match(line)) else (" " * 99, "", None, "", None)
        within = within if within and len(indent) > within[0] else None
        for name in called.split() if (words or kind or typed) and called.split(" ")[0] not in ("use", "mod", "module") else []:
            for each in [f"{within[1]}.{name}", name][:1 + within[3]] if within else [name]:
                names[each] = names.get(each, False) or "pub " in words or bool(within and within[2])
        within = (len(indent), called.split()[0], "pub " in words, kind == "data ") if kind in ("data ", "record ") else within
    for _, m in matches(USE, text_of(file)):
        names.update({name: True for _, name in items_in(m[4])} if m[1] else {})
    return names


@cache
def lists_of(crate, side):
    """The modules of a side of a crate: pub or not, or where another crate has them. A file beside a folder lists the folder's."""
    found, folder = {}, TOP / "crates" / crate / side
    for file in folder.glob("*.antt"):
        if file.stem == "Lib" or file.with_suffix("").is_dir():
            prefix = "" if file.stem == "Lib" else file.stem + "."
            found.update({prefix + m[2]: bool(m[1]) for _, m in matches(MOD, text_of(file))})
            found.update({prefix + (m[5] or m[3].split(".")[-1]): (m[2], m[3]) for _, m in matches(USE, text_of(file)) if m[1] and not m[4]})
    return found


def made_from(crate, path):
    """The names of a path that is made from code; None where it isn't looked at which."""
    ends = path[0] == "proofs" and path[-1] in ("Goals", "Given")
    module, *rest = path[1:-1] if ends else path[2:]
    if not src(crate, module).is_file():
        return f"no file src/{module}.rt in {crate}"
    _, types, functions = code_of(crate, module)
    if ends:
        called = ".".join(rest).replace("+", "")
        beside = [name for file in src(crate, module).parent.glob("*.rt") for name in code_of(crate, file.stem)[2] if rest[0] in types]
        return None if called in functions or called in beside else f"no function {called} in {crate}/src/{module}.rt"
    if path[1] == "contracts" or not rest or rest[0] not in types:
        return None if path[1] == "contracts" else f"no type {'.'.join(rest)} in {crate}/src/{module}.rt"
    return types[rest[0]] if rest[1:] == ["TheVariants"] else f"is read as nothing: {rest}" if rest[1:] else {rest[0]: True}


@cache
def home_of(crate, path):
    """Where a path of specs or proofs leads behind what crates hand on: the crate that has it, and its path there."""
    side, *rest = path.split(".")
    for end in range(len(rest), 0, -1):
        handed = lists_of(crate, side).get(".".join(rest[:end]))
        if isinstance(handed, tuple) and handed[0] != crate:
            READ.add((crate, side, ".".join(rest[:end])))
            return home_of(handed[0], ".".join([handed[1], *rest[end:]]))
    return crate, path


@cache
def names_at(crate, path, own):
    """The names of a path of specs or proofs and whether they are pub, or None of a whole side; or a text, of what is wrong."""
    home, path = home_of(crate, path)
    crate, own = home, own and home == crate
    side, *rest = parts = path.split(".")
    if side not in ("specs", "proofs"):
        return f"is neither of specs nor of proofs: {path}"
    if not rest:
        return None if (TOP / "crates" / crate / side / "Lib.antt").is_file() else f"no {side} in {crate}"
    if rest[0] in ("declared", "contracts") and rest[1:] or rest[-1] in ("Goals", "Given") and rest[2:]:
        return made_from(crate, parts)
    listed, name = lists_of(crate, side), ".".join(rest)
    if rest[0] in ORDER and rest[0] not in listed:
        return f"{crate} doesn't hand on {side} of {rest[0]}"
    name, inner = (".".join(rest[:-1]), rest[-1] + ".") if name not in listed and ".".join(rest[:-1]) in listed else (name, "")
    file = TOP / "crates" / crate / side / (name.replace(".", "/") + ".antt")
    if not file.is_file() or name not in listed:
        return f"no {'file' if name in listed or not file.is_file() else 'mod line for'} {side}/{name.replace('.', '/')}.antt in {crate}"
    if not listed[name] and not own:
        return f"{side}/{name} of {crate} is private"
    names = {each.removeprefix(inner): pub for each, pub in theory_of(file).items() if each.startswith(inner)}
    return names or f"no {inner[:-1]} in {crate}.{side}.{name}"


def check_item(file, at, crate, other, path, item):
    """One name of a path of specs or proofs, or the path alone."""
    names = names_at(other, path, crate == other)
    if isinstance(names, str):
        tell(file, at, names)
    elif names is not None and item is not None and not names.get(item):
        tell(file, at, f"{item} in {other}.{path} is private" if item in names else f"no {item} in {other}.{path}")


@cache
def handed_on(crate):
    """What the root of a library has from another crate: its path there, by its name here."""
    uses = [each for _, m in matches(CODE_USE, text_of(src(crate, "lib"))) if m[1] for each in spread(m[2])] if src(crate, "lib").is_file() else []
    return {name: parts for parts, name in uses if parts[0] in ORDER and parts[0] != crate}


def check_path(file, at, crate, other, parts):
    """A path of code, behind the name of its crate."""
    if parts[0] in ("specs", "proofs"):
        check_item(file, at, crate, other, ".".join(parts[:-1]), parts[-1])
        return
    if parts[1:] and parts[0] in handed_on(other) and code_of(other, "lib")[0].get(parts[0]) == "pub ":
        READ.add((other, "src", parts[0]))
        other, *begin = handed_on(other)[parts[0]]
        check_path(file, at, crate, other, begin + parts[1:])
        return
    module = "lib" if src(other, "lib").is_file() else "main"
    if src(other, parts[0]).is_file():
        if MODS[other].get(parts[0]) != "pub " and crate != other:
            tell(file, at, f"module {parts[0]} of {other} is private")
        module, *parts = parts
    if parts and parts != ["*"]:
        items, types, functions = code_of(other, module)
        if not items.get(parts[0]) or items[parts[0]] != "pub " and crate != other:
            tell(file, at, f"{parts[0]} in {other}/src/{module}.rt is private" if parts[0] in items else f"no {parts[0]} in {other}/src/{module}.rt")
        elif parts[1:] and types.get(parts[0]) and parts[1] not in types[parts[0]] and parts[1][0].isupper():
            tell(file, at, f"no {parts[1]} in {parts[0]} of {other}/src/{module}.rt")


def check_file(file, crate, deps, side, named):
    """What a file brings in, and its paths that begin with a crate."""
    def reaches(other):
        named.add(other)
        if other not in (crate, *deps, *KIT):
            tell(file, at, f"crates.txt doesn't list {other} for {crate}")
        return other in ORDER
    text, rest = text_of(file), blank(USE, text_of(file))
    for at, m in matches(USE, text):
        if side == "specs" and m[2] == crate and m[3].startswith("proofs"):
            tell(file, at, f"specs names {m[3]} of its own crate")
        home, path = home_of(m[2], m[3])
        if m[1] and m[5] and "." not in path and m[5] != home:
            tell(file, at, f"hands on {home} as {m[5]}")
        if reaches(m[2]):
            LEADS.setdefault(file, []).append((at, m[2], m[3]))
            for item, _ in items_in(m[4]) or [(None, None)]:
                check_item(file, at, crate, m[2], m[3], item)
            called = rf"(?<![\w.◌]){re.escape(m[5])}\.([^\s(){{}}\[\].,;]+)" if m[5] and names_at(m[2], m[3], True) else "(?!)"
            for at, named_so in matches(re.compile(called), rest):
                check_item(file, at, crate, m[2], m[3], named_so[1])
    for at, m in matches(WHOLE, rest):
        if reaches(m[1]):
            LEADS.setdefault(file, []).append((at, m[1], m[2]))
            check_item(file, at, crate, m[1], m[2], m[3])
    if side == "src":
        paths = [(at, parts) for at, m in matches(CODE_USE, text) for parts, _ in spread(m[2]) if parts[0] not in ("self", "super")]
        paths += [(at, m[0].split("::")) for at, m in matches(CODE_PATH, blank(CODE_USE, rest)) if m[1] in ("crate", *ORDER)]
        for at, (other, *parts) in paths:
            other = crate if other == "crate" else other
            if not other[0].isupper() and reaches(other) and parts:
                check_path(file, at, crate, other, parts)
        for name, parts in handed_on(crate).items() if file == src(crate, "lib") else []:
            if name.endswith("_crate") and name != f"{parts[-1].removesuffix('_crate')}_crate":
                tell(file, 1, f"hands on {'::'.join(parts)} as {name}")


def check_mods(crate):
    """The `mod` lines of a crate, and its files that none names. It gives those of src."""
    mods, top = {}, TOP / "crates" / crate
    for root in filter(Path.is_file, (src(crate, "lib"), src(crate, "main"))):
        mods.update({m[2]: m[1] or "" for _, m in matches(MOD, text_of(root))})
    listed = {f"src.{name}": True for name in [*mods, root.stem]}
    listed.update({f"{side}.{name}": own for side in ("specs", "proofs") for name, own in lists_of(crate, side).items()})
    files = {".".join(file.relative_to(top).with_suffix("").parts): file for file in top.glob("*/**/*") if file.suffix in (".antt", ".rt")}
    for name, file in files.items():
        parts = name.split(".")
        made = parts[0] == "proofs" and parts[-1] in ("Answers", "Invariants") and parts[3:]
        what = made_from(crate, [*parts[:-1], "Goals"]) if made else "no mod line names this file"
        if what and parts[0] in ("src", "specs", "proofs") and parts[1:] != ["Lib"] and name not in listed:
            tell(file, 1, what)
    for name in (name for name in listed if name not in files and listed[name] in (True, False)):
        tell(top / name.split(".")[0], 1, f"no file for mod {name}")
    return mods


def check_clauses():
    """Where clauses lead, use by use, to a name that a crate hands on with all proofs of another one: the check refuses such clauses."""
    waits = [file for file, _, side in FILES if side in ("specs", "src") and file.name != "Lib.antt"]
    found = set(waits)
    while waits:
        file = waits.pop()
        for at, crate, path in LEADS.get(file, []):
            side, *rest = path.split(".")
            if side == "proofs" and rest and home_of(crate, f"{side}.{rest[0]}") != (crate, f"{side}.{rest[0]}") and "." not in home_of(crate, f"{side}.{rest[0]}")[1]:
                tell(file, at, f"a clause leads here, and {crate} hands on all proofs of {rest[0]}")
            home, path = home_of(crate, path)
            to = TOP / "crates" / home / (path.replace(".", "/") + ".antt")
            to = to if to.is_file() else to.parent.with_suffix(".antt")
            if to in LEADS and to not in found:
                found.add(to)
                waits.append(to)


LINES = [(at, line.split(":")) for at, line in enumerate((TOP / "crates.txt").read_text().splitlines(), 1) if line.strip() and line[0] != "#"]
ORDER = {name: (at, deps.split()) for at, (name, deps) in LINES}
MODS = {crate: check_mods(crate) for crate in ORDER}
FILES = [(file, *file.relative_to(TOP / "crates").parts[:2]) for suffix in (".antt", ".rt") for file in TOP.glob(f"crates/*/*/**/*{suffix}")]
for CRATE, (AT, DEPS) in ORDER.items():
    NAMED = set()
    for FILE, _, SIDE in (each for each in FILES if each[1] == CRATE and each[2] in ("src", "specs", "proofs")):
        check_file(FILE, CRATE, DEPS, SIDE, NAMED)
    for DEP in DEPS:
        if DEP not in NAMED:
            tell(TOP / "crates.txt", AT, f"no file of {CRATE} names {DEP}")
        if DEP in ORDER and ORDER[DEP][0] >= AT:
            tell(TOP / "crates.txt", AT, f"{DEP} doesn't stand above its user {CRATE}")
check_clauses()
for CRATE in ORDER:
    HANDED = [(side, name) for side in ("specs", "proofs") for name, to in lists_of(CRATE, side).items() if isinstance(to, tuple)]
    for SIDE, NAME in HANDED + [("src", name) for name in handed_on(CRATE) if name.endswith("_crate")]:
        if (CRATE, SIDE, NAME) not in READ:
            tell(TOP / "crates" / CRATE / SIDE, 1, f"hands on {NAME}, and nobody names it so")
WAYS = sum(cost.ways({crate: [dep for dep in deps if dep in ORDER] for crate, (_, deps) in ORDER.items()})[0].values())
if WAYS > cost.MOST_WAYS:
    tell(TOP / "crates.txt", 1, f"{WAYS} ways lead down, of {cost.MOST_WAYS} at most: bench/cost.py --ways")
print(*(f"{file}:{at}: {what}\n" for file, at, what in sorted(TOLD)), sep="", end="")
print(f"{len(FILES)} files of {len(ORDER)} crates, {WAYS} ways, {len(TOLD)} faults")
sys.exit(1 if TOLD else 0)
