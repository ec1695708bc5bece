#!/usr/bin/env python3
"""Refuses one allocation of a run of the program, each in turn, by a library that is loaded before it (LD_PRELOAD) and counts calls of `malloc`
and `realloc`.

    bench/refused_memory.py [PROGRAM] [--step=N] [FILE..]

PROGRAM is crates/mirdwarf/out/mirdwarf where none is given (a word that doesn't end in .mir), and FILE.. is examples/*.mir. Of each file
`compile`, `compile --frame --inline --passes=none`, `object`, `strip`, `report` and `run NAME 100` of the first function are run, and `selftest 0 4`. Each N-th
allocation (1) is refused. A run has to end in status 3, with nothing on the output and `mirdwarf: memory` told; or in status 0 with its whole output, where
a container does without the room that it asked for. Others are printed. The last line counts them. Needs a C compiler, `cc`."""
import glob
import os
import re
import subprocess
import sys
import tempfile

TOP = os.path.realpath(os.path.join(os.path.dirname(os.path.abspath(__file__)), ".."))
LIBRARY = """
#include <errno.h>
#include <stdio.h>
#include <stdlib.h>
extern void *__libc_malloc(size_t);
extern void *__libc_realloc(void *, size_t);
static long count, refused = -1;
static int is_refused(void) {
  if (refused < 0) refused = atol(getenv("REFUSED"));
  return ++count == refused;
}
void *malloc(size_t size) { return is_refused() ? (errno = ENOMEM, NULL) : __libc_malloc(size); }
void *realloc(void *from, size_t size) { return is_refused() ? (errno = ENOMEM, NULL) : __libc_realloc(from, size); }
__attribute__((destructor)) static void tell(void) {
  if (refused == 0) dprintf(2, "%ld\\n", count);
}
"""


def commands(text):
    """The commands that are run on a text."""
    name = re.search(rb"^name: *(\S+)", text, re.M)
    run = [["run", name[1].decode(), "100"]] if name else []
    return [["compile"], ["compile", "--passes=none", "--frame", "--inline"], ["object"], ["strip"], ["report"], *run]


def ran(program, library, text, words, refused):
    """The status, the output and what is told of a run in which this allocation is refused."""
    ended = subprocess.run([program, *words], input=text, capture_output=True, env={"LD_PRELOAD": library, "REFUSED": str(refused)})
    return ended.returncode, ended.stdout, ended.stderr


def main():
    words = [it for it in sys.argv[1:] if not it.startswith("--")]
    files = [it for it in words if it.endswith(".mir")] or sorted(glob.glob(os.path.join(TOP, "examples", "*.mir")))
    program = os.path.abspath(next((it for it in words if not it.endswith(".mir")), os.path.join(TOP, "crates/mirdwarf/out/mirdwarf")))
    step = next((int(it[7:]) for it in sys.argv[1:] if it.startswith("--step=")), 1)
    refused = whole = others = 0
    with tempfile.TemporaryDirectory() as room:
        library = os.path.join(room, "refuse.so")
        subprocess.run(["cc", "-shared", "-fPIC", "-O1", "-x", "c", "-", "-o", library], input=LIBRARY, text=True, check=True)
        runs = [("", b"", ["selftest", "0", "4"])]
        for file in files:
            with open(file, "rb") as it:
                text = it.read()
            runs += [(os.path.basename(file), text, words) for words in commands(text)]
        for name, text, words in runs:
            status, output, told = ran(program, library, text, words, 0)
            allocations = int(told.split()[-1])
            print(f"{name} {' '.join(words)}: {allocations} allocations, status {status}", flush=True)
            for number in range(1, allocations + 1, step):
                ended = ran(program, library, text, words, number)
                if ended == (3, b"", b"mirdwarf: memory\n"):
                    refused += 1
                elif ended[:2] == (status, output) and status == 0:
                    whole += 1
                else:
                    others += 1
                    print(f"  allocation {number}: status {ended[0]}, told {ended[2]}, {len(ended[1])} bytes of output", flush=True)
    print(f"{refused} in status 3, {whole} with the whole output, {others} otherwise")
    sys.exit(others > 0)


main()
