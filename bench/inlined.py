#!/usr/bin/env python3
"""Has tools of others read the entries of inlined functions, and has gdb tell its frames at every instruction.

    bench/inlined.py [PROGRAM [FILE..]]

PROGRAM is crates/mirdwarf/out/mirdwarf where none is given. It compiles each file, those of examples/ with inlined code where none is given, with
--inline, with and without --frame, with no pass and with all.

- Tools: `llvm-dwarfdump --verify`, `llvm-dwarfdump --debug-rnglists` and `readelf --debug-dump=Ranges` have nothing to complain of.
- gdb, on qemu's processor: each function is called, and each instruction is stepped. At each one whose listed line has a debug location, the frames of
  `backtrace` up to the function's own have to be those of the location in the file: the subprogram of its scope at its line, then that of the call
  through which it was inlined at the call's line, and so on. Where code of a call begins, gdb may still show the frame of the caller alone, which hasn't
  entered it.

Prints a table, and as its last line `N passed, M failed`; ends with 1 if any failed. Debian's packages: llvm-19 (or llvm), binutils-multiarch,
gdb-multiarch, qemu-user."""
import glob
import json
import os
import re
import shutil
import subprocess
import sys
import tempfile

TOP = os.path.realpath(os.path.join(os.path.dirname(os.path.abspath(__file__)), ".."))
sys.path.insert(0, os.path.join(TOP, "tools"))
import dwarf
import executable

PROGRAM = sys.argv[1] if len(sys.argv) > 1 else os.path.join(TOP, "crates/mirdwarf/out/mirdwarf")
PACKAGES = {"readelf": "binutils-multiarch", "gdb-multiarch": "gdb-multiarch", "qemu-riscv64": "qemu-user"}
COMPLAINT = re.compile(r"^.*\b(warning|error|invalid|unknown|unsupported)\b.*$", re.M | re.I)
# The most seconds that gdb may take for a run, and the most instructions of it.
SECONDS, STEPS = 300, 2000
# The arguments of the runs of a function.
RUNS = {"digest": ["5 3"], "next": ["5"]}
OTHERS = ["5 3"]

# What gdb runs: at each instruction of `.text` the frames of `backtrace` up to the function's own, as names and lines.
WALK = r"""
import gdb
for setting in ("pagination off", "confirm off", "style enabled off", "trust-readonly-sections on"):
    gdb.execute("set " + setting)
gdb.execute("tbreak *%d" % it["low"], to_string=True)
gdb.execute("continue", to_string=True)
found = []
for _ in range(it["steps"]):
    frame = gdb.newest_frame()
    at = frame.pc()
    if at == it["back"]:
        break
    if at < it["text"]:
        frames = []
        while frame:
            frames.append((frame.name(), frame.find_sal().line))
            if frame.type() != gdb.INLINE_FRAME:
                break
            frame = frame.older()
        found.append((at, frames))
    gdb.execute("stepi", to_string=True)
print("@@" + json.dumps(found))
gdb.execute("kill")
"""

passed = failed = 0


def check(holds, what):
    """Counts a check, and tells one that failed."""
    global passed, failed
    passed, failed = passed + bool(holds), failed + (not holds)
    if not holds:
        print(f"FAILED {what}")


def metadata(text):
    """The nodes of a file that say where code was inlined: scopes and locations by their numbers, each with its fields."""
    nodes = {}
    for number, kind, fields in re.findall(r"^  !(\d+) = (?:distinct )?!(DI\w+)\((.*)\)$", text, re.M):
        nodes.setdefault(int(number), (kind, dict(re.findall(r"(\w+): (!\d+|\d+|\"[^\"]*\")", fields))))
    return nodes


def node(fields, key):
    """The number of the node in a field, or None."""
    return int(fields[key][1:]) if fields.get(key, "").startswith("!") else None


def subprogram(nodes, scope):
    """The name of the subprogram that a scope is in."""
    while scope in nodes:
        kind, fields = nodes[scope]
        if kind == "DISubprogram":
            return fields.get("name", '""')[1:-1]
        scope = node(fields, "scope")
    return ""


def frames_of(nodes, location):
    """The frames of a location, the innermost first: names and lines; and the calls between them."""
    frames, calls = [], []
    while location in nodes:
        fields = nodes[location][1]
        frames.append([subprogram(nodes, node(fields, "scope")), int(fields.get("line", 0))])
        location = node(fields, "inlinedAt")
        calls.append(location)
    return frames, calls


def listed(text, nodes):
    """The frames, and the calls between them, of each address whose line has a debug location of its own."""
    found = re.findall(r"^([0-9a-f]{8}) =\S+ .*debug-location !(\d+)$", text, re.M)
    return {int(at, 16): frames_of(nodes, int(location)) for at, location in found}


def fits(wanted, at, frames):
    """Whether frames are those of an address, or but for those of calls whose code begins there."""
    whole, calls = wanted[at]
    left = len(whole) - len(frames)
    before = wanted.get(at - 4, ([], []))[1]
    return frames == whole[left:] and not set(calls[:left]) & set(before) if 0 <= left < len(whole) else False


def complaint(words):
    """What a tool complains of, or None."""
    ran = subprocess.run(words, capture_output=True, text=True, errors="replace")
    if "--verify" in words:
        last = (ran.stdout.strip() or ran.stderr.strip() or "nothing").splitlines()[-1]
        return None if last == "No errors." else last
    found = ran.stderr.splitlines() + COMPLAINT.findall(ran.stdout)
    return found[0] if found else f"status {ran.returncode}" if ran.returncode else None


def walked(room, output, name, arguments):
    """The stops of a run of a function under gdb, each with its frames, or what gdb says in their place."""
    sections, functions, calls = output
    program = executable.program_of(sections, functions, calls, name, [int(it) for it in arguments.split()], b"")
    file, script = os.path.join(room, "program"), os.path.join(room, "walk.py")
    with open(file, "wb") as it:
        it.write(program.content)
    os.chmod(file, 0o755)
    asked = {"low": functions[name][0], "text": len(sections[".text"]), "back": program.back, "steps": STEPS}
    with open(script, "w", encoding="utf-8") as it:
        it.write(f"import json\nit = json.loads({json.dumps(asked)!r})\n{WALK}")
    for _ in range(2):
        # gdb may fail on a busy machine before it is connected
        said, _ = executable.in_gdb(file, script, SECONDS)
        if found := re.search(r"^@@(.*)$", said, re.M):
            return json.loads(found[1]), None
    return [], said.strip()[-300:]


def rows(room, file, what, output, text, nodes):
    """The rows of the table for the functions of an output."""
    wanted = listed(text, nodes)
    for name, (low, high) in output[1].items():
        stops, deepest, wrong = 0, 0, []
        for arguments in RUNS.get(name, OTHERS):
            found, told = walked(room, output, name, arguments)
            wrong += [told] if told else []
            for at, frames in found:
                if at in wanted:
                    frames = [list(it) for it in frames]
                    stops, deepest = stops + 1, max(deepest, len(frames) - 1)
                    wrong += [] if fits(wanted, at, frames) else [f"at {at:04x} {frames}, not {wanted[at][0]}"]
        check(stops and not wrong, f"{file}, {what}, {name}: {wrong[0] if wrong else 'no stop'}")
        print(f"| {file} | {what} | {name} | {(high - low) // 4} | {stops} | {deepest} |", flush=True)


def main():
    for tool, package in PACKAGES.items():
        if not shutil.which(tool):
            sys.exit(f"{tool} is missing: Debian's package {package} has it")
    tools = [[dwarf.dwarfdump(), "--verify"], [dwarf.dwarfdump(), "--debug-rnglists"], ["readelf", "--debug-dump=Ranges"]]
    given = sys.argv[2:] or [it for it in sorted(glob.glob(os.path.join(TOP, "examples", "*.mir"))) if "inlinedAt" in open(it, encoding="utf-8").read()]
    with tempfile.TemporaryDirectory() as room:
        print("| file | options | function | words | stops | most inlined frames |\n|---|---|---|---|---|---|")
        for path in given:
            with open(path, encoding="utf-8") as it:
                source = it.read()
            for what in ("--inline --passes=none", "--inline", "--inline --frame --passes=none", "--inline --frame"):
                ran = subprocess.run([PROGRAM, "compile", *what.split()], input=source, capture_output=True, text=True)
                if ran.returncode:
                    sys.exit(f"{os.path.relpath(path, TOP)}: {ran.stderr.strip()}")
                output, plain = executable.output_of(ran.stdout), os.path.join(room, "plain")
                with open(plain, "wb") as it:
                    it.write(executable.elf(*output[:2]))
                for tool in tools:
                    said = complaint([*tool, plain])
                    check(said is None, f"{os.path.basename(path)}, {what}: {' '.join(tool)}: {said}")
                rows(room, os.path.basename(path), what, output, ran.stdout, metadata(source))
    print(f"{passed} passed, {failed} failed")
    return 1 if failed else 0


if __name__ == "__main__":
    dwarf.end_with(main)
