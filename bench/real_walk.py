#!/usr/bin/env python3
"""Stops real programs under gdb, and compares the values of all frames with those of the same program at -O0, stopped at the same place.

    bench/real_walk.py [--write] [--all] FOLDER [PROGRAM [NAME..]]

FOLDER, PROGRAM and NAMEs are those of bench/real.py, by which the programs are built where they aren't: by mirdwarf, by clang at -O2, and at -O0 with a
pattern in what isn't assigned. Each is run on qemu and stopped at the functions of RUNS, each at the call of its number, and gdb tells the variables of
each frame. Frames are matched by the names of functions from `main` on, and compared where gdb names the same line: a caller's all, the innermost frame's
parameters; those of functions that mirdwarf doesn't take are left out of both. Addresses count as equal, null and what a string holds don't. What -O0 hasn't
assigned isn't compared. A value of the type `unknown`, eight bytes as a register has them, is compared by as many of its lowest bytes as the variable has.

Prints the table of docs/REAL.md, with --write puts it there and into docs/real.svg, and below it each value that differs, beside clang's at the same stop:
what both say alike against -O0 is what the compiler's marks say. With --all each frame's values are printed. Ends with 1 where mirdwarf's alone differs.
Debian's packages: those of bench/real.py, gdb-multiarch."""
import collections
import difflib
import json
import os
import re
import subprocess
import sys
import tempfile
import time

TOP = os.path.realpath(os.path.join(os.path.dirname(os.path.abspath(__file__)), ".."))
sys.path.insert(0, os.path.join(TOP, "tools"))
sys.path.insert(0, os.path.join(TOP, "bench"))
sys.dont_write_bytecode = True
import executable
import real

# Of each run: the program, its words, the file that it reads, and the stops in their order: functions with the number of the call from the last stop on, and
# which calls count. (Lua finds strings again by the numbers of their addresses, so how often it makes one depends on where the linker put them.)
FLUSH = f"$a2 == 5 && *(int *) $a1 == {int.from_bytes(b'flus', 'little')}"
RUNS = [
    ("Lua", ["lua", os.path.join(TOP, "bench", "real.lua")], None,
     [("luaH_resize", 4), ("luaS_newlstr", 1, FLUSH), ("luaK_exp2nextreg", 20), ("luaH_newkey", 30), ("luaV_concat", 1), ("luaL_tolstring", 20),
      ("luaO_tostring", 1), ("lua_pushfstring", 1), ("luaG_typeerror", 1), ("lua_getinfo", 2), ("luaF_close", 1)]),
    ("zlib", ["example", "tested"], None,
     [("deflateInit_", 1), ("_tr_flush_block", 1), ("inflateInit_", 1), ("inflate", 1), ("gzputs", 1), ("gzread", 1), ("deflate", 9), ("inflate", 4),
      ("adler32_z", 3), ("inflate_table", 1)]),
    ("bzip2", ["bzip2", "-1"], "sample1.ref",
     [("BZ2_bzCompressInit", 1), ("BZ2_bzWrite", 2), ("BZ2_compressBlock", 1), ("BZ2_blockSort", 1), ("BZ2_hbMakeCodeLengths", 3), ("BZ2_hbAssignCodes", 2)]),
    ("bzip2", ["bzip2", "-d"], "sample1.bz2", [("BZ2_decompress", 1), ("BZ2_hbCreateDecodeTables", 2), ("BZ2_bzRead", 2)]),
]
BUILDS = {"mirdwarf": real.KEEPING, "clang": real.CLANG, "O0": f"{real.CLANG} -Xclang -O0 -ftrivial-auto-var-init=pattern"}
SECONDS = 900
# What a variable holds at -O0 that nothing was assigned to.
PATTERN = re.compile(r"-1431655766|2863311530|-6148914691236517206|12297829382473034410|\\252|170 |0xaaaaaaaa|-3\.72066\d*e-103|43690|-21846")

# The registers that a call may change.
CHANGED = re.compile(r"(a\d|t\d|ra)$")

# What gdb runs: at each stop the frames, each with its name, its line, and the variables of its blocks, inner ones first.
WALK = r"""
import gdb, json, re, struct
for setting in ("pagination off", "confirm off", "style enabled off", "print repeats 8", "print elements 64", "backtrace past-main off"):
    gdb.execute("set " + setting)

# of a scalar the size, whether it is an address, and the value as a number without sign
def bits(value, kind):
    if kind.code == gdb.TYPE_CODE_FLT:
        return kind.sizeof, False, int.from_bytes(struct.pack("<d" if kind.sizeof == 8 else "<f", float(value)), "little")
    if kind.code in (gdb.TYPE_CODE_INT, gdb.TYPE_CODE_ENUM, gdb.TYPE_CODE_BOOL, gdb.TYPE_CODE_CHAR, gdb.TYPE_CODE_PTR):
        return kind.sizeof, kind.code == gdb.TYPE_CODE_PTR, int(value) % 256 ** kind.sizeof
    return None

# the register that a variable is in, or None
def register(frame, symbol):
    frame.select()
    said = gdb.execute("info address " + symbol.name, to_string=True)
    at = frame.pc() - bool(frame.newer())
    ranges = re.findall(r"Range 0x([0-9a-f]+)-0x([0-9a-f]+): (.*)", said)
    found = re.search(r"a variable in \$(\w+)", next((it for low, high, it in ranges if int(low, 16) <= at < int(high, 16)), said))
    return found and found[1]

# the type of a variable, its text, what bits tells, and its register
def told(frame, symbol, block):
    try:
        value = frame.read_var(symbol, block)
        kind = value.type.strip_typedefs()
        if value.is_optimized_out:
            return None
        text = re.sub(r"0x(?!a{16})[1-9a-f][0-9a-f]*( <[^>]*>)?", "P", value.format_string(max_depth=3))
        return [str(kind.unqualified()), text, bits(value, kind), register(frame, symbol)]
    except (gdb.error, RuntimeError):
        return None

def variables(frame):
    found = []
    try:
        block = frame.block()
    except RuntimeError:
        return found
    while block:
        for symbol in block:
            if symbol.is_variable or symbol.is_argument:
                found.append((symbol.name, bool(symbol.is_argument), told(frame, symbol, block)))
        if block.function:
            break
        block = block.superblock
    return found

stops = []
for name, call, *condition in it["stops"]:
    at = gdb.Breakpoint(name)
    at.condition = condition[0] if condition else None
    at.ignore_count = call - 1
    gdb.execute("continue", to_string=True)
    frames, frame = [], gdb.newest_frame() if gdb.selected_inferior().threads() else None
    while frame and frame.name():
        frames.append((frame.name(), frame.find_sal().line, variables(frame)))
        frame = frame.older()
    stops.append(frames)
    at.delete()
    if not frames:
        break
print("@@" + json.dumps(stops))
gdb.execute("kill")
"""


def walked(folder, words, source, stops):
    """The frames of each stop of a program's run, the innermost first."""
    with tempfile.NamedTemporaryFile("w", suffix=".py", encoding="utf-8") as script, open(os.path.join(folder, source) if source else os.devnull, "rb") as read:
        script.write(f"it = {{'stops': {stops!r}}}\n{WALK}")
        script.flush()
        port = executable.free_port()
        machine = subprocess.Popen(["qemu-riscv64", "-g", str(port), *words], cwd=folder, stdin=read, stdout=subprocess.DEVNULL, stderr=subprocess.DEVNULL)
        try:
            target = ["-ex", "set tcp connect-timeout 60", "-ex", f"target remote 127.0.0.1:{port}"]
            asked = ["gdb-multiarch", "-nx", "-batch", *target, "-x", script.name, words[0]]
            ran = subprocess.run(asked, cwd=folder, capture_output=True, text=True, errors="replace", timeout=SECONDS)
        finally:
            machine.kill()
            machine.wait()
    found = re.search(r"^@@(.*)$", ran.stdout, re.M)
    if not found:
        sys.exit(f"{' '.join(words)}: gdb: {ran.stdout[-500:]}{ran.stderr[-500:]}")
    return json.loads(found[1])


def matched(frames, others):
    """Pairs of frames of the same functions, the outermost first, each with its depth in the others and whether it is the innermost of the frames."""
    names, their = [it[0] for it in reversed(frames)], [it[0] for it in reversed(others)]
    for a, b, size in difflib.SequenceMatcher(None, names, their, autojunk=False).get_matching_blocks():
        for n in range(size):
            yield b + n, frames[-1 - a - n], others[-1 - b - n], a + n + 1 == len(names)


def unknown(value, wanted):
    """How eight bytes of the type `unknown` compare with a value: of an address whether it is null, else the lowest bytes."""
    if value[0] != "unknown" or not value[2] or not wanted[2] or wanted[2][0] > 8:
        return "untyped"
    size, address, number = wanted[2]
    same = bool(value[2][2]) == bool(number) if address else value[2][2] % 256 ** size == number
    return "unknown" if same else "other"


def compared(frames, truth, foreign):
    """The variables of the frames that can be compared, but for those of foreign functions, by depth and name: where, how they compare, both values, and
    whether the first one is in a register that the call for which the frame waits may change."""
    found = {}
    for depth, (name, line, ours), (_, other, theirs), innermost in matched(frames, truth):
        if name in foreign or line != other and not innermost:
            continue
        known = collections.defaultdict(list)
        for variable, argument, value in theirs:
            known[variable].append((argument, value))
        for variable, count in collections.Counter(it[0] for it in ours).items():
            # of two variables of a name the values can't be told apart by it
            if count != 1 or len(known[variable]) != 1:
                continue
            (argument, wanted), value = known[variable][0], next(it[2] for it in ours if it[0] == variable)
            if wanted is None or PATTERN.search(wanted[1]) or innermost and not argument:
                continue
            how = ("none" if value is None or "<optimized out>" in value[1] else unknown(value, wanted) if value[0] != wanted[0] else
                   "equal" if value[:2] == wanted[:2] else "other")
            changed = bool(value and not innermost and CHANGED.match(value[3] or ""))
            found[depth, variable] = f"{name}:{line} {variable}", how, value and value[1], wanted[1], changed
    return found


def main():
    given = [it for it in sys.argv[1:] if not it.startswith("--")]
    if not given:
        sys.exit(__doc__)
    room, every = os.path.abspath(given[0]), "--all" in sys.argv
    program = os.path.abspath(given[1]) if given[1:] else os.path.join(TOP, "crates", "mirdwarf", "out", "mirdwarf")
    real.fetch(room)
    counts, differing, alone = collections.defaultdict(collections.Counter), [], 0
    for title, words, source, stops in (it for it in RUNS if it[0] in (given[2:] or real.PROGRAMS)):
        builds = {kind: real.built(room, kind, title, program, by) for kind, by in BUILDS.items()}
        found = {kind: walked(folder, words, source, stops) for kind, (folder, _) in builds.items()}
        foreign = {name for names in real.row(*builds["mirdwarf"])[1].values() for name in names}
        for number, truth in enumerate(found["O0"]):
            values = {}
            for kind in ("mirdwarf", "clang"):
                frames = found[kind][number] if number < len(found[kind]) else []
                values[kind] = compared(frames, truth, foreign)
                counts[title, kind].update(it[1] for it in values[kind].values())
                counts[title, kind]["changed"] += sum(it[1] == "other" and it[4] for it in values[kind].values())
                counts[title, kind]["stops"] += bool(frames)
                counts[title, kind]["frames"] += sum(it[0] not in foreign for it in frames)
                if every:
                    print(kind, stops[number], *frames, sep="\n  ")
            for key, (where, how, value, wanted, _) in values["mirdwarf"].items():
                if how == "other":
                    theirs = values["clang"].get(key, ("", "", None, "", False))[2]
                    alone += theirs != value
                    differing.append(f"{title}, {stops[number][0]}: {where}: {value}, at -O0 {wanted}, by clang {theirs}"[:300])
    lines = [f"On {time.strftime('%Y-%m-%d')}:", "",
             "| program | by | stops | frames | as at -O0 | as at -O0, of type `unknown` | otherwise | of these in a register that the call may "
             "change | of another type | no value |", "|---|---|---|---|---|---|---|---|---|---|"]
    for (title, kind), its in counts.items():
        columns = [its[it] for it in ("stops", "frames", "equal", "unknown", "other", "changed", "untyped", "none")]
        lines.append(f"| {title} | {kind} | {' | '.join(map(str, columns))} |")
    real.put("walk", lines, "--write" in sys.argv)
    for it in differing:
        print(it)
    print(f"{alone} values that mirdwarf alone tells otherwise than -O0")
    return 1 if alone else 0


if __name__ == "__main__":
    sys.exit(main())
