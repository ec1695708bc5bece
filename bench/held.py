#!/usr/bin/env python3
"""Measures the most bytes that the program holds at once while it reads, with valgrind's massif: `run NOSUCH 0` on texts of some 1, 4 and 16 MB, which is
refused once they were read.

    bench/held.py [PROGRAM]

PROGRAM is crates/mirdwarf/out/mirdwarf where none is given. The functions of a text are all alike: 1,150 comments and a return, with an IR block in front and
without one; and 2,600 instructions and a return. Prints functions, bytes of text and bytes held, what the allocator adds to each allocation included."""
import os
import re
import subprocess
import sys
import tempfile

TOP = os.path.realpath(os.path.join(os.path.dirname(os.path.abspath(__file__)), ".."))
PROGRAM = sys.argv[1] if len(sys.argv) > 1 else os.path.join(TOP, "crates/mirdwarf/out/mirdwarf")
BLOCK = b"""--- |
  define i64 @f(i64 %a) !dbg !3 { ret i64 0 }
  !1 = !DIFile(filename: "t.c", directory: "/folder")
  !3 = distinct !DISubprogram(name: "f", scope: !1)
...
"""
COMMENTS = (b"    ; " + b"x" * 47 + b"\n") * 1150
INSTRUCTIONS = b"    $x10 = ADDI $x10, 1\n" * 2600


def functions(number, body):
    """So many functions with this body, and a return behind it."""
    return b"".join(b"---\nname: f%02d\nbody: |\n  bb.0:\n%s    PseudoRET\n...\n" % (n, body) for n in range(number))


def held(text):
    """The most bytes that a run which is refused behind its text holds at once."""
    with tempfile.TemporaryDirectory() as room:
        path = os.path.join(room, "massif")
        words = ["valgrind", "--tool=massif", "--massif-out-file=" + path, PROGRAM, "run", "NOSUCH", "0"]
        ran = subprocess.run(words, input=text, capture_output=True)
        if b"mirdwarf: line 0: UnknownFunction" not in ran.stderr:
            sys.exit(ran.stderr.decode(errors="replace"))
        with open(path, encoding="utf-8") as it:
            return max(int(a) + int(b) for a, b in re.findall(r"mem_heap_B=(\d+)\nmem_heap_extra_B=(\d+)", it.read()))


def main():
    for name, front, body in (("comments", BLOCK, COMMENTS), ("instructions", BLOCK, INSTRUCTIONS), ("comments without an IR block", b"", COMMENTS)):
        for number in (16, 64, 256):
            text = front + functions(number, body)
            print(f"{number} functions of {name}: {len(text)} bytes of text, {held(text)} held", flush=True)


main()
