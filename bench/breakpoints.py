#!/usr/bin/env python3
"""Has gdb and lldb stop at the name of each function of examples/, in the objects that `object --linkable` writes, linked with C.

    bench/breakpoints.py [PROGRAM [WORD]]

PROGRAM is crates/mirdwarf/out/mirdwarf where none is given; with a word only the programs whose names have it are made: those of bench/link.py, with no
pass and with all. The right place is the first instruction behind the words that the listing shows before the function's first block: its prologue. A
debugger has to put its breakpoint there, and the program that runs on qemu's processor has to stop there, for each function to which it comes.

Prints a table, and as its last line `N passed, M failed`; ends with 1 if any failed. Debian's packages: those of bench/link.py, and lldb-19."""
import os
import re
import shutil
import socket
import subprocess
import sys
import tempfile

sys.path.insert(0, os.path.dirname(os.path.abspath(__file__)))
import link

DEBUGGERS = {"gdb-multiarch": "gdb-multiarch", "lldb-19": "lldb-19"}
OPTIONS = ["--frame --passes=none", "--frame"]


def prologues(file, options):
    """The bytes of the prologue of each function, by the listing: up to the first word of a block."""
    words = [it for it in options.split() if it != "--frame"]
    with open(os.path.join(link.TOP, "examples", file + ".mir"), "rb") as given:
        text = subprocess.run([link.PROGRAM, "compile", *words], stdin=given, capture_output=True, text=True, check=True).stdout
    found = {}
    for part in re.split(r"^function ", text, flags=re.M)[1:]:
        name, low = part.split("\n")[0].split()[:2]
        behind = part.split("\nblock ", 1)[1]
        found[name] = int(re.search(r"^([0-9a-f]{8}) ", behind, re.M)[1], 16) - int(low, 16)
    return found


def told(debugger, program, name, words):
    """The address at which a debugger puts a breakpoint at a function's name, and the one at which the program stops there, if it comes to it."""
    with socket.socket() as free:
        free.bind(("127.0.0.1", 0))
        port = free.getsockname()[1]
    machine = subprocess.Popen(["qemu-riscv64", "-g", str(port), program, *words], stdout=subprocess.DEVNULL, stderr=subprocess.DEVNULL)
    gdb = ["set confirm off", "set pagination off", f"break {name}", f"target remote localhost:{port}", "continue", "printf \"@@%lx\\n\", $pc", "kill"]
    lldb = [f"breakpoint set -n {name}", f"gdb-remote localhost:{port}", "continue", "register read pc", "process kill"]
    try:
        if debugger == "lldb-19":
            said = link.said(debugger, "--no-lldbinit", "-b", *(it for line in lldb for it in ("-o", line)), program)
            put, stops = re.findall(r"address = 0x([0-9a-f]+)", said), re.findall(r"\bpc = 0x([0-9a-f]+)", said)
        else:
            said = link.said(debugger, "-nx", "-batch", *(it for line in gdb for it in ("-ex", line)), program)
            put, stops = re.findall(r"^Breakpoint 1 at 0x([0-9a-f]+)", said, re.M), re.findall(r"^@@([0-9a-f]+)", said, re.M)
        reached = re.search(r"Breakpoint 1, |stop reason = breakpoint", said)
        return int(put[0], 16) if put else None, int(stops[-1], 16) if reached and stops else None
    finally:
        machine.kill()
        machine.wait()


def row_of(room, row, options):
    """Asks the debuggers for each function of a row."""
    name = row.files[0].split("/")[0]
    what = f"{name} {options} {row.options}".strip()
    objects, starts = link.base_of(room, row, options), {}
    for file in row.files:
        path, own = link.object_of(room, file, f"{options} {row.options}"), os.path.basename(file)
        if own in row.data:
            objects.append(link.data_of(room, row, own, path, options))
        objects.append(path)
        starts.update(prologues(file, f"{options} {row.options}"))
    program = os.path.join(room, "program")
    if not link.linked(link.LINKERS[0], program, objects, what):
        return
    at = {it[2]: int(it[0], 16) for it in (line.split() for line in link.said("riscv64-linux-gnu-nm", program).splitlines()) if len(it) == 3}
    for debugger in DEBUGGERS:
        stopped = 0
        for function, size in starts.items():
            put, stops = told(debugger, program, function, row.runs[0])
            link.check(put == at[function] + size, f"{what}: {debugger}: break {function}: at {put}, not {at[function] + size}")
            link.check(stops in (None, put), f"{what}: {debugger}: break {function}: stops at {stops}, not at {put}")
            stopped += stops is not None
        print(f"| {name} | {options} | {debugger} | {len(starts)} | {stopped} |", flush=True)


def main():
    for tool, package in {**link.PACKAGES, **DEBUGGERS}.items():
        if not shutil.which(tool):
            sys.exit(f"{tool} is missing: Debian's package {package} has it")
    asked = sys.argv[2] if len(sys.argv) > 2 else ""
    print("| program | options | debugger | functions | stopped at |\n|---|---|---|---|---|")
    for row in link.ROWS:
        for options in OPTIONS if asked in row.files[0] else []:
            with tempfile.TemporaryDirectory() as room:
                row_of(room, row, options)
    print(f"{link.passed} passed, {link.failed} failed")
    return link.failed > 0


if __name__ == "__main__":
    sys.exit(main())
