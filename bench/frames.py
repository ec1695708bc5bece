#!/usr/bin/env python3
"""Has tools of others read `.debug_frame`, and has debuggers unwind by it at every instruction.

    bench/frames.py [PROGRAM [FILE..]]

PROGRAM is crates/mirdwarf/out/mirdwarf where none is given. It compiles each file, those of examples/ where none is given, with --frame, with no
pass and with all.

- Tools: `llvm-dwarfdump --verify`, `readelf --debug-dump=frames` and `eu-readelf --debug-dump=frames` have nothing to complain of.
- Debuggers, on qemu's processor: each function is called, with made-up values in the registers that it has to give back, and each instruction is
  stepped, prologue, epilogue, both words of a call and the callees in the file included. At each the debugger has to find each caller on the stack: the
  return address, the stack pointer (the CFA) and x8, x9 and x18 to x27, as they were when the callee was entered. That is read at its entry, where
  nothing is unwound. The runs of a function have to come to each of its words. `without it` has the stops at which gdb is wrong if the section is
  taken out: what the section is for. At a function's first instruction lldb goes by a plan of its own for that function (the CFA is x2, the return
  address in x1), and by the section for its callers; the plan needs the number that REGISTERS gives pc.

Prints a table, and as its last line `N passed, M failed`; ends with 1 if any failed. Debian's packages: llvm-19 (or llvm), binutils-multiarch,
elfutils, gdb-multiarch, qemu-user; and lldb-19 (or lldb) with python3-lldb-19, left out where it isn't there. lldb 22 goes by the code of the function
that runs, and asks the section for callers alone."""
import glob
import json
import os
import re
import shutil
import subprocess
import sys
import tempfile

TOP = os.path.realpath(os.path.join(os.path.dirname(os.path.abspath(__file__)), ".."))
sys.path.insert(0, os.path.join(TOP, "tools"))
import dwarf
import executable

PROGRAM = sys.argv[1] if len(sys.argv) > 1 else os.path.join(TOP, "crates/mirdwarf/out/mirdwarf")
PACKAGES = {"readelf": "binutils-multiarch", "eu-readelf": "elfutils", "gdb-multiarch": "gdb-multiarch", "qemu-riscv64": "qemu-user"}
COMPLAINT = re.compile(r"^.*\b(warning|error|invalid|unknown|unsupported)\b.*$", re.M | re.I)
# The most seconds that a debugger may take for a run.
SECONDS = 300

# The arguments of the runs of a function, so that they come to each of its words; those of any other function; and what calls of functions that
# the file doesn't have give, one after the other and then from the first again.
RUNS = {
    "price": ["5 0", "5 3"],
    "ledger": ["5 0 1 2 8 3 4 100", "5 2 1 2 8 3 4 10", "-10 2 1 2 8 3 4 10"],
    "total": ["5 0 2", "5 3 6"],
    "digest": ["5 0", "262144 1", "5 3"],
}
OTHERS = ["5 3"]
ANSWERS = [5, 7, 6]

# The description of qemu's registers that lldb is given. qemu's own has names without numbers; lldb finds DWARF's by the names, but none for pc, which
# has none (RISC-V ELF psABI). In its plan for a function's first instruction (ABISysV_riscv) pc is 11451. Where it isn't known by this number, lldb 19
# finds no caller there, in clang's programs neither. The registers stand as in the packet of all registers.
REGISTERS = r"""
import lldb

NAMES = ["zero", "ra", "sp", "gp", "tp", "t0", "t1", "t2", "fp", "s1", *("a%d" % n for n in range(8)), *("s%d" % n for n in range(2, 12)),
         "t3", "t4", "t5", "t6", "pc"]
ROLES = ["ra", "sp", "fp", "pc"]


def register(at, name):
    number = 11451 if name == "pc" else at
    it = {"name": name, "set": 0, "bitsize": 64, "offset": 8 * at, "encoding": lldb.eEncodingUint, "format": lldb.eFormatHex,
          "ehframe": number, "dwarf": number}
    return {**it, **({"generic": name} if name in ROLES else {}), **({"alt-name": "s0"} if name == "fp" else {})}


def get_dynamic_setting(target, name):
    return {"sets": ["general"], "registers": [register(at, it) for at, it in enumerate(NAMES)]}
"""

# What a debugger runs: it steps through a call of a function, and tells the stops, the addresses, and where it finds another stack than there is.
# What it was given stands in `it`.
WALK = r"""
KEPT = ["s0", "s1", *("s%d" % n for n in range(2, 12))]


class Gdb:
    def __init__(self):
        # qemu tells gdb nothing of address 0, where the first function is: so gdb reads code from the file
        for setting in ("pagination off", "confirm off", "style enabled off", "trust-readonly-sections on"):
            gdb.execute("set " + setting)

    def run_to(self, address):
        gdb.execute("tbreak *%d" % address, to_string=True)
        gdb.execute("continue", to_string=True)

    def step(self):
        gdb.execute("stepi", to_string=True)

    def frames(self):
        frame = gdb.newest_frame()
        while frame:
            yield frame
            frame = frame.older()

    def register(self, frame, name):
        return int(frame.read_register(name))

    def set(self, name, value):
        gdb.execute("set $%s = %d" % (name, value))


class Lldb:
    def __init__(self):
        lldb.debugger.SetAsync(False)
        self.target = lldb.debugger.GetSelectedTarget()

    def thread(self):
        return self.target.process.GetSelectedThread()

    def run_to(self, address):
        at = self.target.BreakpointCreateByAddress(address)
        self.target.process.Continue()
        self.target.BreakpointDelete(at.GetID())

    def step(self):
        self.thread().StepInstruction(False)

    def frames(self):
        thread = self.thread()
        return (thread.GetFrameAtIndex(n) for n in range(thread.GetNumFrames()))

    def register(self, frame, name):
        return frame.FindRegister(name).GetValueAsUnsigned()

    def set(self, name, value):
        self.thread().GetFrameAtIndex(0).FindRegister(name).SetValueFromCString(str(value))


def state_of(frame, place):
    names = {"return address": place, "CFA": "sp", **{name: name for name in KEPT}}
    return {what: debugger.register(frame, name) & 2**64 - 1 for what, name in names.items()}


def difference(entered):
    # what is wrong in the callers' frames, the innermost first
    frames = iter(debugger.frames())
    next(frames)
    for n, callers in enumerate(reversed(entered), 1):
        try:
            frame = next(frames, None)
            found = frame and state_of(frame, "pc")
        except Exception as error:
            return "frame %d: %s" % (n, error)
        if not found:
            return "frame %d isn't found" % n
        for what, value in callers.items():
            if found[what] != value:
                return "frame %d has %s %x, not %x" % (n, what, found[what], value)
    return None


def walk():
    debugger.run_to(it["low"])
    for n, name in enumerate(KEPT):
        # lldb believes in a caller without a row only where its s0 could be a stack pointer
        debugger.set(name, 0x0102030405060700 * (n + 1))
    # of each function that was entered and hasn't returned: what its caller has to find
    entered = [state_of(next(iter(debugger.frames())), "ra")]
    stops, seen, wrong, answers = 0, set(), [], 0
    while entered and stops < it["steps"]:
        here = debugger.register(next(iter(debugger.frames())), "pc")
        if any(low <= here < high for low, high in it["functions"]):
            stops += 1
            seen.add(here)
            if different := difference(entered):
                wrong.append("at %04x %s" % (here, different))
        debugger.step()
        frame = next(iter(debugger.frames()))
        now = debugger.register(frame, "pc")
        if here - 4 in it["calls"] and any(low == now for low, _ in it["functions"]):
            entered.append(state_of(frame, "ra"))
        elif here in it["returns"]:
            entered.pop()
        elif now in it["absent"]:
            debugger.set("a0", it["answers"][answers % len(it["answers"])])
            answers += 1
    if entered:
        wrong.append("no end after %d steps" % stops)
    print("@@" + json.dumps([stops, sorted(seen), wrong]))


try:
    import gdb
    debugger = Gdb()
except ImportError:
    import lldb
    debugger = Lldb()
try:
    walk()
except Exception as error:
    print("@@" + json.dumps([0, [], [str(error)]]))
if isinstance(debugger, Gdb):
    gdb.execute("kill")
else:
    debugger.target.process.Kill()
"""

passed = failed = 0


def check(holds, what):
    """Counts a check, and tells one that failed."""
    global passed, failed
    passed, failed = passed + bool(holds), failed + (not holds)
    if not holds:
        print(f"FAILED {what}")


def compiled(path, options):
    """What `compile` writes: sections, functions and calls."""
    with open(path, "rb") as given:
        ran = subprocess.run([PROGRAM, "compile", *options], stdin=given, capture_output=True, text=True)
    if ran.returncode:
        sys.exit(f"{os.path.relpath(path, TOP)}: {ran.stderr.strip()}")
    return executable.output_of(ran.stdout)


def complaint(words):
    """What a tool complains of, or None."""
    ran = subprocess.run(words, capture_output=True, text=True, errors="replace")
    if "--verify" in words:
        last = (ran.stdout.strip() or ran.stderr.strip() or "nothing").splitlines()[-1]
        return None if last == "No errors." else last
    found = ran.stderr.splitlines() + COMPLAINT.findall(ran.stdout)
    return found[0] if found else f"status {ran.returncode}" if ran.returncode else None


def lldb(registers):
    """The words of lldb that run a script on a program at a port, by a file that describes its registers; or None where it isn't there or has no
    Python."""
    program = shutil.which("lldb-19") or shutil.which("lldb")
    if not program or "yes" not in subprocess.run([program, "-b", "-o", "script print('y' + 'es')"], capture_output=True, text=True).stdout:
        return None
    return lambda file, script: lambda port: [
        program, "--no-lldbinit", "-b", "-o", f"settings set plugin.process.gdb-remote.target-definition-file {registers}",
        "-o", f"gdb-remote 127.0.0.1:{port}", "-o", f"command script import {script}", file]


def walked(room, output, name, arguments, debugger):
    """A run of a function under a debugger: the stops, the addresses, and what is wrong."""
    sections, functions, calls = output
    program = executable.program_of(sections, functions, calls, name, [int(it) for it in arguments.split()], b"")
    file, script = os.path.join(room, "program"), os.path.join(room, "walk.py")
    with open(file, "wb") as it:
        it.write(program.content)
    os.chmod(file, 0o755)
    text = sections[".text"]
    returns = [at for at in range(0, len(text), 4) if text[at:at + 4] == bytes.fromhex("67800000")]
    asked = {"low": functions[name][0], "functions": list(functions.values()), "calls": [at for at, _ in calls], "returns": returns,
             "absent": list(program.absent.values()), "answers": ANSWERS, "steps": 5000}
    with open(script, "w", encoding="utf-8") as it:
        it.write(f"import json\nit = json.loads({json.dumps(asked)!r})\n{WALK}")
    for _ in range(2):
        # a debugger may fail on a busy machine before it is connected
        said, ended = debugger(file, script)
        if found := re.search(r"^@@(.*)$", said, re.M):
            return json.loads(found[1])
    return 0, [], [f"no answer after {SECONDS} seconds" if not ended else f"it says {said.strip()[-300:]}"]


def by_debugger(room, output, name, debugger, what=None):
    """All runs of a function under a debugger: how many of its words they come to, the stops, and those at which the debugger is wrong. With `what`
    this is a check of that name."""
    low, high = output[1][name]
    stops, reached, wrong = 0, set(), []
    for arguments in RUNS.get(name, OTHERS):
        count, seen, said = walked(room, output, name, arguments, debugger)
        stops, reached = stops + count, reached | {at for at in seen if low <= at < high}
        wrong += [f"({arguments}) {it}" for it in said]
    if what:
        left = [f"{at:04x}" for at in range(low, high, 4) if at not in reached]
        check(not wrong and stops and not left, f"{what}: {wrong[0] if wrong else f'no run comes to {left}'}")
    return len(reached), stops, len(wrong)


def rows(room, file, passes, output, debuggers):
    """The rows of the table for the functions of an output."""
    without = ({name: it for name, it in output[0].items() if name != ".debug_frame"}, *output[1:])
    for name, (low, high) in output[1].items():
        cells = []
        for debugger, runs in debuggers.items():
            reached, stops, wrong = by_debugger(room, output, name, runs, f"{file}, passes {passes}, {name}, {debugger}")
            cells.append(f"{stops - wrong} of {stops}")
        _, stops, wrong = by_debugger(room, without, name, debuggers["gdb"])
        print(f"| {file} | {passes} | {name} | {(high - low) // 4} | {reached} | {' | '.join(cells)} | {wrong} of {stops} |", flush=True)


def main():
    debuggers = {"gdb": lambda file, script: executable.in_gdb(file, script, SECONDS)}
    for tool, package in PACKAGES.items():
        if not shutil.which(tool):
            sys.exit(f"{tool} is missing: Debian's package {package} has it")
    tools = [[dwarf.dwarfdump(), "--verify"], ["readelf", "--debug-dump=frames"], ["eu-readelf", "--debug-dump=frames"]]
    with tempfile.TemporaryDirectory() as room:
        registers = os.path.join(room, "registers.py")
        with open(registers, "w", encoding="utf-8") as it:
            it.write(REGISTERS)
        if words := lldb(registers):
            debuggers["lldb"] = lambda file, script: executable.debugged(file, words(file, script), SECONDS)
        else:
            print("lldb, or its Python, isn't there, and is left out")
        print(f"| file | passes | function | words | stopped at | {' | '.join(f'{it}: right of stops' for it in debuggers)} | gdb without it: wrong |")
        print(f"|{'---|' * (6 + len(debuggers))}")
        for path in sys.argv[2:] or sorted(glob.glob(os.path.join(TOP, "examples", "*.mir"))):
            for passes, options in (("none", ["--passes=none"]), ("all", [])):
                output, file = compiled(path, ["--frame", *options]), os.path.basename(path)
                plain = os.path.join(room, "plain")
                with open(plain, "wb") as it:
                    it.write(executable.elf(*output[:2]))
                for tool in tools:
                    said = complaint([*tool, plain])
                    check(said is None, f"{file}, passes {passes}: {' '.join(tool)}: {said}")
                rows(room, file, passes, output, debuggers)
    print(f"{passed} passed, {failed} failed")
    return 1 if failed else 0


if __name__ == "__main__":
    dwarf.end_with(main)
