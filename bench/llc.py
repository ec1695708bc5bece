#!/usr/bin/env python3
"""Compares the program with `llc` on the same functions from the same stage, by counted instructions.

  bench/llc.py [--linked] [OPTION..]

The functions are those of examples/ledger.c, 64, 128 and 256 of them under other names, by clang and `llc-19 -stop-after=virtregrewriter,1`; with
--linked those of the three files of examples/calculator, 60, 120 and 240 of them in one file, with global variables, strings, a table of function pointers,
calls by pointers, calls in tail position and calls that don't return. Each file is compiled by crates/mirdwarf/out/mirdwarf `compile` with the options
(--passes=none where there are no others), and by `llc-19 -start-after=virtregrewriter,1 -filetype=obj`, under valgrind's callgrind. What a program takes
to start counts in no growth: the last column is the ratio of what the functions more take, beside the line above.
The variable MIRDWARF names another program. Debian's packages: clang, clang-19, llvm-19, valgrind.
"""
import os
import re
import subprocess
import sys
import tempfile

TOP = os.path.join(os.path.dirname(os.path.abspath(__file__)), "..")
PROGRAM = os.environ.get("MIRDWARF", os.path.join(TOP, "crates/mirdwarf/out/mirdwarf"))
MACHINE = ["-mtriple=riscv64", "-mattr=-relax"]
CLANG = "--target=riscv64 -march=rv64i -mabi=lp64 -mno-relax -O2 -g -fno-inline -fno-vectorize -S -emit-llvm".split()
CALCULATOR = [f"calculator/{name}" for name in ("calculator.h", "numbers.c", "operations.c", "calculator.c")]
# Of each mode: the compiler's words, the files, the names in them that each copy has anew, how many functions a copy has, and how many copies are counted.
MODES = {
    False: (["clang", *CLANG], ["ledger.c"], r"\b(price|ledger)\b", 2, (32, 64, 128)),
    True: (["clang-19", *CLANG, "-fno-jump-tables"], CALCULATOR,
           r"\b(depth|push|pop|each_number|fail|operate|numbers|add|subtract|multiply|divide|operations|show|calculate|main)\b", 12, (5, 10, 20)),
}


def run(*words):
    ran = subprocess.run(words, capture_output=True, text=True)
    if ran.returncode:
        raise SystemExit("%s: %s" % (words[0], ran.stderr[-1000:]))
    return ran


def count(room, words, source=None):
    """The instructions that a run executes."""
    with open(source or os.devnull, "rb") as it:
        ran = subprocess.run(["valgrind", "--tool=callgrind", "--callgrind-out-file=" + os.path.join(room, "counts"), *words],
                             stdin=it, capture_output=True)
    if ran.returncode:
        raise SystemExit("%s: %s" % (words[0], ran.stderr[-1000:]))
    return int(re.search(rb"Collected : (\d+)", ran.stderr).group(1))


def functions(room, compiler, files, names, copies):
    """A file of so many copies of the functions, behind register allocation."""
    text = ""
    for name in files:
        with open(os.path.join(TOP, "examples", name), encoding="utf-8") as it:
            text += re.sub(r'#include ".*"\n', "", it.read())
    source = os.path.join(room, "many.c")
    with open(source, "w", encoding="utf-8") as it:
        for n in range(copies):
            it.write(re.sub(names, lambda found: "%s_%d" % (found[1], n), text))
    run(*compiler, source, "-o", os.path.join(room, "many.ll"))
    made = os.path.join(room, "many.mir")
    run("llc-19", *MACHINE, "-stop-after=virtregrewriter,1", os.path.join(room, "many.ll"), "-o", made)
    return made


def main():
    linked = "--linked" in sys.argv[1:]
    options = [it for it in sys.argv[1:] if it != "--linked"] or ["--passes=none"]
    compiler, files, names, each, sizes = MODES[linked]
    with tempfile.TemporaryDirectory() as room:
        last = None
        print("functions      bytes        mirdwarf             llc   ratio of growth")
        for copies in sizes:
            made = functions(room, compiler, files, names, copies)
            ours = count(room, [PROGRAM, "compile", *options, *(["--linked"] if linked else [])], made)
            theirs = count(room, ["llc-19", *MACHINE, "-start-after=virtregrewriter,1", "-filetype=obj", made, "-o", os.path.join(room, "many.o")])
            ratio = "%.3f" % ((ours - last[0]) / (theirs - last[1])) if last else ""
            print("%9d  %9d  %14d  %14d  %s" % (each * copies, os.path.getsize(made), ours, theirs, ratio), flush=True)
            last = ours, theirs


main()
