#!/usr/bin/env python3
"""Does what README.md and examples/calculator/README.md say, as a newcomer would, and tells of each command what it took and how it ended.

    bench/walk.py [--all]      at the top of a checkout in which the program is built; with --all the commands of `rt` are run too

The pages' indented blocks are commands, and below them what they print: each such line has to come, in this order; `...` stands for any lines.
A command that begins with a word of RUN is run, and its output is what it prints, or the file that it writes by `>`. FILE.c is a copy of
examples/ledger.c. Ends with 1 if a command fails, or a line that a page shows isn't printed. Debian's packages: those of the README."""
import os
import re
import shutil
import subprocess
import sys
import tempfile
import time

TOP = os.path.realpath(os.path.join(os.path.dirname(os.path.abspath(__file__)), ".."))
RUN = ("rt", "./mirdwarf", "tools/mirdwarf-cc", "qemu-riscv64", "clang-19", "llc-19", "examples/debug.py", "tools/view.py", "readelf", "objdump",
       "gdb-multiarch", "make", "(cd")
PAGES = ("README.md", "examples/calculator/README.md")


def blocks(text):
    """The lines of each indented block, continued lines joined."""
    for block in re.findall(r"(?:^    .*\n)+", text, re.M):
        yield re.sub(r" \\\n +", " ", re.sub(r"^    ", "", block, flags=re.M)).splitlines()


def lacking(shown, printed):
    """The first shown line that isn't printed behind the one above it, or None."""
    left = iter(it.strip() for it in printed.splitlines())
    return next((it for it in shown if it != "..." and not any(it.strip() == line for line in left)), None)


def main():
    every, failed = sys.argv[1:] == ["--all"], 0
    steps, text = [], ""
    for page in PAGES:
        with open(os.path.join(TOP, page), encoding="utf-8") as it:
            text += it.read() + "\n"
    for lines in blocks(text):
        for line in lines:
            if line.split()[0] in RUN:
                steps.append((line, []))
            elif steps:
                steps[-1][1].append(line)
    with tempfile.TemporaryDirectory() as room:
        shutil.copy(os.path.join(TOP, "examples", "ledger.c"), os.path.join(room, "FILE.c"))
        print("| command | seconds | status | what the page shows |\n|---|---|---|---|")
        for command, shown in steps:
            if command.startswith("rt ") and not every:
                print(f"| `{command}` | · | not run | |")
                continue
            line = re.sub(r"\bFILE(?=\.)", os.path.join(room, "FILE"), command)
            start = time.monotonic()
            ran = subprocess.run(["bash", "-c", line], cwd=TOP, stdin=subprocess.DEVNULL, capture_output=True, text=True, errors="replace")
            took = time.monotonic() - start
            printed = ran.stdout
            if written := re.search(r"> (\S+)$", line):
                with open(written[1], encoding="utf-8", errors="replace") as it:
                    printed = it.read()
            missing = lacking(shown, printed)
            failed += ran.returncode != 0 or missing is not None
            said = "" if not shown else f"lacks `{missing}`" if missing is not None else f"{len(shown)} lines, all there"
            print(f"| `{command}` | {took:.1f} | {ran.returncode} | {said} |")
            if ran.returncode:
                print(ran.stderr, file=sys.stderr)
    return 1 if failed else 0


sys.exit(main())
