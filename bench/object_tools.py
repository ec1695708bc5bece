#!/usr/bin/env python3
"""Asks tools of ELF and DWARF what they say of the objects that `object` writes of each file of examples/, with no pass and with all.

    bench/object_tools.py [PROGRAM]

PROGRAM is crates/mirdwarf/out/mirdwarf where none is given. A tool complains where it ends with another status than 0, writes to standard
error, or writes a line with `warning` or `error` in front; llvm-dwarfdump where it doesn't end with `No errors.` (it warns that the first
file stands twice in the line number table, as DWARF 5 has it). Debian's packages: binutils-multiarch (readelf, objdump), llvm-19
(llvm-readobj-19, llvm-dwarfdump-19), elfutils (eu-elflint; left out where it isn't there). Ends with 1 if any tool complains."""
import glob
import os
import re
import shutil
import subprocess
import sys
import tempfile

TOP = os.path.realpath(os.path.join(os.path.dirname(os.path.abspath(__file__)), ".."))
PROGRAM = sys.argv[1] if len(sys.argv) > 1 else os.path.join(TOP, "crates/mirdwarf/out/mirdwarf")
TOOLS = [["readelf", "-aW"], ["objdump", "-dlr"], ["llvm-readobj-19", "--all"],
         ["llvm-dwarfdump-19", "--verify"], ["eu-elflint", "--gnu-ld"]]
COMPLAINT = re.compile(r"^.*\b(warning|error): .*$", re.M | re.I)


def complaints(tool, path):
    """What a tool complains of."""
    ran = subprocess.run([*tool, path], capture_output=True, text=True, errors="replace")
    if tool[0] == "llvm-dwarfdump-19":
        last = (ran.stdout.strip() or "nothing").splitlines()[-1]
        return [] if last == "No errors." else [last]
    found = ran.stderr.splitlines() + COMPLAINT.findall(ran.stdout)
    return found or ([f"status {ran.returncode}"] if ran.returncode else [])


def main():
    tools = [tool for tool in TOOLS if shutil.which(tool[0])]
    for tool in TOOLS:
        if tool not in tools:
            print(f"{tool[0]}: isn't there, and is left out")
    count = bad = 0
    with tempfile.TemporaryDirectory() as folder:
        path = os.path.join(folder, "it.o")
        for file in sorted(glob.glob(os.path.join(TOP, "examples", "*.mir"))):
            for option in ([], ["--passes=none"]):
                with open(file, "rb") as given, open(path, "wb") as to:
                    ran = subprocess.run([PROGRAM, "object", *option], stdin=given, stdout=to, stderr=subprocess.PIPE, text=True)
                if ran.returncode:
                    sys.exit(f"{os.path.relpath(file, TOP)}: {ran.stderr.strip()}")
                for tool in tools:
                    count += 1
                    if said := complaints(tool, path):
                        bad += 1
                        print(f"{os.path.relpath(file, TOP)} {' '.join(option)}: {' '.join(tool)}: {said[0]}")
    print(f"{count} answers of {len(tools)} tools, {bad} with a complaint")
    return bad > 0


sys.exit(main())
