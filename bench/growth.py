#!/usr/bin/env python3
"""Counts the instructions of the built program at inputs that double, with valgrind's callgrind.

  bench/growth.py compile [OPTION..]  the whole run with these options, or with --passes=none, on functions of 64 blocks and 512 items, and at the limits
  bench/growth.py strip               the whole run, on functions of 1,024 blocks and 8,192 items, with its peak memory
  bench/growth.py run                 the whole run, on steps of a loop with two variables, whose values are read before each step
  bench/growth.py selftest            the whole run, on the blocks of functions that are made up
  bench/growth.py alone LIST          what a list of passes takes: --passes=LIST over --passes=none, on blocks and items
  bench/growth.py inside LIST FUNCTION  what a function of the program takes with all that it calls, by its name (`nm`), with --passes=LIST: '*' stands
                                      for any letters, and those of the names that fit must not call each other
  bench/growth.py read                the same of the reading of a text, on functions, blocks, functions of a text and keys of an entry
  bench/growth.py layout              of frame and layout, on items, blocks and slots
  bench/growth.py locations           of frame, layout, values over all paths and location lists, on blocks, items and variables
  bench/growth.py sections            what the sections of `compile` take beside its listing, on functions with variables and lines
  bench/growth.py types               the whole run of `object --linkable`, on types that name one another
  bench/growth.py inlined             what `--inline` takes, on locations in chains of calls, calls around all locations, and items
  bench/growth.py passes              of copies, constants and spilled registers, in one block and in 1,024 blocks
  bench/growth.py scan                the whole run of `compile --passes=none` on a function with virtual registers, beside the same function with physical
                                      ones, and the registers' growth
  bench/growth.py worst [KIND..]      the whole run of `compile` on texts that were made to be slow: ladder, rounds, dead, swing, chain, ring, copies,
                                      lines, marks, meets, all
  bench/growth.py lex                 the whole run of crates/mirdwarf_bench/out/mirdwarf_bench, on texts of 1, 2 and 4 MiB

The program is crates/mirdwarf/out/mirdwarf, as the gate leaves it. Each line has the input's size, the count and its growth.
"""
import os
import re
import subprocess
import sys
import tempfile

TOP = os.path.join(os.path.dirname(os.path.abspath(__file__)), "..")


def count(program, words, text, *how):
    """The instructions that one run executes, or, by words for callgrind, those of a function."""
    with tempfile.TemporaryDirectory() as folder:
        run = subprocess.run(
            ["valgrind", "--tool=callgrind", "--callgrind-out-file=" + os.path.join(folder, "out"), *how, program, *words],
            input=text, capture_output=True)
    if run.returncode != 0:
        raise SystemExit("%s ended with %d: %s" % (program, run.returncode, run.stderr.decode()))
    return int(re.search(rb"Collected : (\d+)", run.stderr).group(1))


def one_line_functions(size):
    one = b"---\nname: f\nbody: |\n  $x10 = ADDI $x10, 1\n...\n"
    return one * (size // len(one))


def one_long_line(size):
    head, item, tail = b"---\nname: f\nbody: |\n", b" $x10 = ADDI $x10, 1,", b"\n...\n"
    return head + item * ((size - len(head) - len(tail)) // len(item)) + tail


def one_block(items):
    """A function in the first form: numbered sums, with a mark after each."""
    with open(os.path.join(TOP, "examples", "increment.mir"), "rb") as file:
        head = file.read().split(b"  bb.0:\n")[0] + b"  bb.0:\n"
    lines = []
    for n in range((items - 1) // 2):
        register = (5, 6, 7, 10, 11, 12, 13, 14)[n % 8]
        number = b", debug-instr-number %d" % (n + 1) if n < 4000 else b""
        lines.append(b"    $x%d = ADDI $x%d, %d%s\n" % (register, (register + n) % 32 or 1 if (register + n) % 32 != 2 else 3, n % 200, number))
        lines.append(b"    DBG_INSTR_REF !%d, !DIExpression(DW_OP_LLVM_arg, 0), dbg-instr-ref(%d, 0)\n" % ((4, 6)[n % 2], n % 4000 + 1))
    lines.extend(b"    $x28 = ADD $x10, $x11\n" for _ in range(items - 1 - len(lines)))
    return head + b"".join(lines) + b"    PseudoRET implicit $x10\n...\n"


def blocks(number):
    """A function of blocks of eight items, among them accesses of a slot and of an object."""
    head = b"---\nname: f\nstack:\n  - { id: 0, size: 8 }\n  - { id: 1, size: 24, alignment: 8 }\nbody: |\n"
    lines = []
    for n in range(number):
        lines.append(b"  bb.%d:\n    SD $x10, %%stack.0, 0\n    $x11 = LD %%stack.0, 0\n    $x12 = ADDI %%stack.1, 0\n" % n)
        lines.append(b"    $x13 = LW $x12, 4\n    SW $x13, %stack.1, 8\n    $x10 = ADD $x10, $x13\n")
        lines.append(b"    BEQ $x10, $x0, %%bb.%d\n    PseudoBR %%bb.%d\n" % (n // 2, (n + 1) % number))
    return head + b"".join(lines) + b"...\n"


def slots(number):
    """A function of 4,000 stores to and loads from so many slots in turn."""
    entries = b"".join(b"  - { id: %d, size: 8 }\n" % n for n in range(number))
    lines = b"".join(b"    SD $x10, %%stack.%d, 0\n    $x11 = LD %%stack.%d, 0\n" % (n % number, (n * 7) % number) for n in range(4000))
    return b"---\nname: f\nstack:\n" + entries + b"body: |\n  bb.0:\n" + lines + b"    PseudoRET\n...\n"


def located(blocks, items, variables):
    """A function of so many blocks and items over so many variables and 64 slots. Some blocks end with a branch up, some with one down."""
    registers = (5, 6, 7, 8, 9, 10, 11, 12, 13, 14, 15, 18, 19, 20, 21, 28)
    entries = b"".join(b"  - { id: %d, size: 8 }\n" % n for n in range(64))
    lines, number, marks = [], 0, 0
    for block in range(blocks):
        lines.append(b"  bb.%d:\n" % block)
        for n in range(items * block // blocks, items * (block + 1) // blocks - 1):
            to, one, other = (registers[(n * step + n // 16) % 16] for step in (3, 5, 7))
            variable, slot, kind = 4 + marks % variables, n * 11 % 64, (n + n // 8) % 8
            if kind < 2 and number < 4096:
                number += 1
                lines.append(b"    $x%d = ADD $x%d, $x%d, debug-instr-number %d\n" % (to, one, other, number))
            elif kind < 4 and number:
                marks += 1
                lines.append(b"    DBG_INSTR_REF !%d, !DIExpression(DW_OP_LLVM_arg, 0), dbg-instr-ref(%d, 0)\n" % (variable, number))
            elif kind == 4:
                marks += 1
                lines.append(b"    DBG_VALUE $x%d, $noreg, !%d, !DIExpression()\n" % (one, variable))
            elif kind == 5:
                lines.append(b"    SD $x%d, %%stack.%d, 0\n" % (one, slot))
            elif kind == 6:
                lines.append(b"    $x%d = LD %%stack.%d, 0\n" % (to, slot))
            else:
                lines.append(b"    $x%d = COPY $x%d\n" % (to, one))
        to = max(0, block - 1 - block % 7) if block % 3 == 0 else min(blocks - 1, block + 1 + block % 5)
        lines.append(b"    BNE $x10, $x11, %%bb.%d\n" % to if block < blocks - 1 else b"    PseudoRET\n")
    return b"---\nname: f\nstack:\n" + entries + b"body: |\n" + b"".join(lines) + b"...\n"


# A loop that calls `g` and sums what it gives.
LOOP = b"""---
name: sum
body: |
  bb.0:
    $x8 = COPY $x10
    $x9 = ADDI $x0, 0
  bb.1:
    $x10 = COPY $x8
    PseudoCALL @g, csr_ilp32_lp64, implicit-def dead $x1, implicit $x10, implicit-def $x10
    $x9 = ADD $x9, $x10
    $x8 = ADDI $x8, -1
    BNE $x8, $x0, %bb.1
  bb.2:
    $x10 = COPY $x9
    PseudoRET implicit $x10
...
"""

# The same with a variable in each of the two registers that live across the call.
READ_LOOP = LOOP
for line, register, variable in ((b"$x8 = COPY $x10", 8, 4), (b"$x9 = ADDI $x0, 0", 9, 5), (b"$x9 = ADD $x9, $x10", 9, 5), (b"$x8 = ADDI $x8, -1", 8, 4)):
    mark = b"\n    DBG_VALUE $x%d, $noreg, !%d, !DIExpression()" % (register, variable)
    READ_LOOP = READ_LOOP.replace(line, line + mark)


def functions(number):
    return b"".join(blocks(16).replace(b"name: f", b"name: f%d" % n) for n in range(number))


def many_located(number):
    one = located(64, 512, 32)
    return b"".join(one.replace(b"name: f", b"name: f%d" % n) for n in range(number))


def metadata():
    """64 locations from !10 on, and 1,024 variables from !100 on."""
    lines = [b"  !%d = !DILocation(line: %d, column: %d, scope: !3)\n" % (10 + n, n + 2, n % 40 + 1) for n in range(64)]
    lines.extend(b"  !%d = !DILocalVariable(name: \"v%d\", scope: !3, file: !1, line: %d, type: !2)\n" % (100 + n, n, n + 1) for n in range(1024))
    return b"--- |\n" + b"".join(lines) + b"...\n"


def debug_blocks():
    """1,024 blocks of eight items: a numbered sum and its mark, marks of a register and of a constant, a phi, and accesses of 224 slots."""
    lines = []
    for n in range(1024):
        a, b, c = (5 + (n + k) % 3 for k in range(3))
        at = b", debug-location !%d\n" % (10 + n % 64)
        lines.append(b"  bb.%d:\n" % n)
        lines.append(b"    $x%d = ADD $x%d, $x%d, debug-instr-number %d" % (a, b, c, n + 1) + at)
        lines.append(b"    DBG_INSTR_REF !%d, !DIExpression(DW_OP_LLVM_arg, 0), dbg-instr-ref(%d, 0)" % (100 + n, n + 1) + at)
        lines.append(b"    DBG_VALUE $x%d, $noreg, !%d, !DIExpression()" % (b, 100 + n * 7 % 1024) + at)
        lines.append(b"    DBG_VALUE %d, $noreg, !%d, !DIExpression()" % (n % 100, 100 + n * 5 % 1024) + at)
        lines.append(b"    DBG_PHI $x%d, %d\n" % (c, 1025 + n))
        lines.append(b"    SD $x%d, %%stack.%d, 0" % (a, n % 224) + at)
        lines.append(b"    $x%d = LD %%stack.%d, 0" % (b, n * 3 % 224) + at)
        lines.append((b"    BEQ $x%d, $x0, %%bb.%d" % (c, n // 2) if n < 1023 else b"    PseudoRET implicit $x10") + at)
    return b"".join(lines)


def large_functions(number):
    slots = b"".join(b"  - { id: %d, size: 8 }\n" % n for n in range(224))
    body = b"stack:\n" + slots + b"body: |\n" + debug_blocks() + b"...\n"
    return metadata() + b"".join(b"---\nname: f%d\n" % n + body for n in range(number))


def entry_keys(number):
    keys = b", ".join(b"k%d: 1" % n for n in range(number))
    return b"---\nname: f\nstack:\n  - { id: 0, size: 8, " + keys + b" }\nbody: |\n  bb.0:\n    PseudoRET\n...\n"


MARK = b"    DBG_INSTR_REF !4, !DIExpression(DW_OP_LLVM_arg, 0), dbg-instr-ref(%d, 0)\n"


def copies_line(n, number):
    """First the sum that is copied, and a copy of it that stays; then copies with numbers, and a mark behind each."""
    if n < 2:
        return (b"    $x10 = ADDI $x10, 5\n", b"    $x11 = COPY $x10\n")[n]
    return b"    $x11 = COPY $x10, debug-instr-number %d\n" % number if n % 2 == 0 else MARK % number


def constants_line(n, number):
    """First the constant; then stores of it, loads of the slot with numbers, a mark behind each, and copies."""
    if n == 0:
        return b"    $x10 = ADDI $x0, 5\n"
    load = b"    $x11 = LD %%stack.0, 0, debug-instr-number %d\n" % number
    return (b"    $x12 = COPY $x10\n", b"    SD $x10, %stack.0, 0\n", load, MARK % number)[n % 4]


def registers_line(n, number):
    """Sums of x9 in x18 and of x18 in x9, a mark or a phi behind each, and marks of x5."""
    mark = b"    DBG_VALUE $x%d, $noreg, !4, !DIExpression()\n"
    phi = b"    DBG_PHI $x9, %d\n" % number
    return (b"    $x18 = ADDI $x9, 5\n", mark % 18, b"    $x9 = ADDI $x18, 5\n", phi, mark % 5)[n % 5]


def repeated(line, number, items):
    """A function of so many blocks and items: each block begins anew, and each number is used once."""
    text = [b"---\nname: f\nstack:\n  - { id: 0, size: 8 }\nbody: |\n"]
    given = 0
    for block in range(number):
        text.append(b"  bb.%d:\n" % block)
        for n in range(items // number - (block == number - 1)):
            if line(n, 0) != line(n, 1) and not line(n, 0).startswith(b"    DBG_INSTR_REF"):
                given += 1
            text.append(line(n, given))
    text.append(b"    PseudoRET\n...\n")
    return b"".join(text)


# Of each kind of function: the options of its pass, and the function's lines.
PASSES = {
    "copies": (["--passes=copy"], copies_line),
    "constants": (["--passes=remat"], constants_line),
    "registers": (["--passes=spill", "--reserve=x9,x18"], registers_line),
}

# What is counted inside the program: the reading of a text; frame and layout; these with values over all paths and location lists; all passes.
READING, LAYOUT, LOCATIONS = "read_program::program::read_program", "emit_function::code::code_of", "compile_function::emit::compiled"
RUN_PASSES = "pass_manager::run::run_passes"


def lined(number):
    """So many functions of four variables and 64 lines."""
    head = [b"--- |\n  !1 = !DIFile(filename: \"t.c\", directory: \"/d\")\n  !2 = !DIBasicType(name: \"long\", size: 64, encoding: DW_ATE_signed)\n"]
    head.append(b"  !3 = distinct !DISubprogram(name: \"f\", scope: !1, file: !1, line: 1)\n")
    head += [b"  !%d = !DILocalVariable(name: \"v%d\", scope: !3, file: !1, line: 1, type: !2)\n" % (4 + n, n) for n in range(4)]
    head += [b"  !%d = !DILocation(line: %d, column: %d, scope: !3)\n" % (10 + n, n * 7 % 64 + 2, n % 9 + 1) for n in range(64)]
    body = b"".join(b"    DBG_VALUE $x%d, $noreg, !%d, !DIExpression()\n    $x%d = ADDI $x%d, 1, debug-location !%d\n"
                    % (10 + n % 4, 4 + n % 4, 10 + (n + 2) % 4, 10 + n % 4, 10 + n) for n in range(64))
    return b"".join(head) + b"...\n" + b"".join(b"---\nname: f%d\nbody: |\n  bb.0:\n%s    PseudoRET\n...\n" % (n, body) for n in range(number))


def inlined(items, locations, calls, shared=0):
    """A function of so many items, at so many locations one after the other, each inlined through so many calls of its own, and in these through so many that all share."""
    call = b"  !%d = !DILocation(line: %d, column: %d, scope: !%d"
    head = [b"--- |\n  !1 = !DIFile(filename: \"t.c\", directory: \"/d\")\n",
            *(b"  !%d = distinct !DISubprogram(name: \"%s\", scope: !1, file: !1, line: %d)\n" % (n, name, n) for n, name in ((2, b"f"), (3, b"g")))]
    for n in range(shared):
        head.append(call % (10 + n, n + 1, 1, 2 if n == 0 else 3) + (b", inlinedAt: !%d" % (9 + n) if n else b"") + b")\n")
    first = 10 + shared
    for location in range(locations):
        at = first + location * (calls + 1)
        for n in range(calls + 1):
            around = at + n - 1 if n else 9 + shared if shared else 0
            head.append(call % (at + n, location + 1, n % 40 + 1, 3 if around else 2) + (b", inlinedAt: !%d" % around if around else b"") + b")\n")
    body = b"".join(b"    $x10 = ADDI $x10, 1, debug-location !%d\n" % (first + n * locations // items * (calls + 1) + calls) for n in range(items - 1))
    return b"".join(head) + b"...\n---\nname: f\nbody: |\n  bb.0:\n" + body + b"    PseudoRET\n...\n"


def with_types(lines):
    """A function whose text has these lines of types, from !10 on, and one variable."""
    head = (b"--- |\n  define i64 @f(i64 %a) !dbg !3 { ret i64 0 }\n  !1 = !DIFile(filename: \"t.c\", directory: \"/d\")\n"
            b"  !2 = !DIBasicType(name: \"long\", size: 64, encoding: DW_ATE_signed)\n"
            b"  !3 = distinct !DISubprogram(name: \"f\", scope: !1, file: !1, line: 1)\n"
            b"  !4 = !DILocalVariable(name: \"v\", scope: !3, file: !1, line: 2, type: !2)\n  !5 = !DILocation(line: 3, column: 1, scope: !3)\n")
    body = b"  bb.0:\n    DBG_VALUE $x10, $noreg, !4, !DIExpression(), debug-location !5\n    PseudoRET, debug-location !5\n"
    return head + b"".join(b"  !%d = %s\n" % (10 + n, line) for n, line in enumerate(lines)) + b"...\n---\nname: f\nbody: |\n" + body + b"...\n"


POINTER = b"!DIDerivedType(tag: DW_TAG_pointer_type, baseType: !%d, size: 64)"
MEMBER = b"!DIDerivedType(tag: DW_TAG_member, name: \"m%d\", baseType: !%d, size: 64, offset: %d)"
STRUCTURE = b"distinct !DICompositeType(tag: DW_TAG_structure_type, name: \"s%d\", size: %d, elements: !%d)"


def records(number):
    """Structures, each with the one before it as its member."""
    return with_types(line for n in range(number) for line in (
        STRUCTURE % (n, 64, 11 + 3 * n), b"!{!%d}" % (12 + 3 * n), MEMBER % (0, 7 + 3 * n if n else 2, 0)))


def pointers(number):
    """Pointers in a circle, none of which stands."""
    return with_types(POINTER % (10 + (n + 1) % number) for n in range(number))


def signatures(number):
    """Functions, each with a parameter of the type of the one before it."""
    return with_types(line for n in range(number) for line in (b"!DISubroutineType(types: !%d)" % (11 + 2 * n), b"!{!2, !%d}" % (8 + 2 * n if n else 2)))


def members(number):
    """One structure with so many members."""
    names = b", ".join(b"!%d" % (12 + n) for n in range(number))
    return with_types([STRUCTURE % (0, 64 * number, 11), b"!{" + names + b"}", *(MEMBER % (n, 2, 64 * n) for n in range(number))])


def made_slow(entries, blocks, slots=0, variables=0):
    """A function of these lines of substitutions and of each block, with so many spill slots, and so many variables from !10 on."""
    meta = (b"--- |\n  !1 = !DIFile(filename: \"t.c\", directory: \"/d\")\n  !2 = !DIBasicType(name: \"long\", size: 64, encoding: DW_ATE_signed)\n"
            b"  !3 = distinct !DISubprogram(name: \"f\", scope: !1, file: !1, line: 1)\n  !5 = !DILocation(line: 2, column: 1, scope: !3)\n"
            b"  !4 = !DILocalVariable(name: \"v\", scope: !3, file: !1, line: 1, type: !2)\n"
            + b"".join(b"  !%d = !DILocalVariable(name: \"v%d\", scope: !3, file: !1, line: 1, type: !2)\n" % (10 + n, n) for n in range(variables))
            + b"...\n---\nname: f\n")
    stack = b"".join(b"  - { id: %d, size: 8 }\n" % n for n in range(slots))
    lines = b"".join(b"  bb.%d:\n" % n + b"".join(b"    " + line + b"\n" for line in block) for n, block in enumerate(blocks))
    return meta + (b"debugValueSubstitutions:\n" + b"".join(entries) if entries else b"") + (b"stack:\n" + stack if slots else b"") + b"body: |\n" + lines + b"...\n"


ASKED = b"DBG_INSTR_REF !4, !DIExpression(DW_OP_LLVM_arg, 0), dbg-instr-ref(%d, 0), debug-location !5"
RETURN = b"PseudoRET implicit $x10"


def ladder(blocks):
    """Each block branches to the one before it, and has two numbers that marks ask for."""
    def block(n):
        sums = [line for k in (1, 2) for line in (b"$x10 = ADDI $x10, 1, debug-instr-number %d" % (2 * n + k), ASKED % (2 * n + k))]
        return [b"$x8 = ADDI $x10, 1", *sums, b"BNE $x5, $x6, %%bb.%d" % n]
    return made_slow([], [[b"$x11 = ADDI $x11, 1"], *(block(n) for n in range(blocks - 2)), [b"$x10 = ADD $x10, $x12", RETURN]])


def rounds(loops):
    """Loops of two blocks through which dead code goes to and fro: a round of `dead` finds one piece of it; then as many blocks that branch one back."""
    first = [block for n in range(loops) for block in (
        [b"$x8 = ADDI $x%d, 1" % (12 if n else 10)], [b"$x11 = ADDI $x9, 1"],
        [b"$x12 = ADDI $x11, 1", b"$x9 = ADDI $x8, 1", b"BNE $x5, $x6, %%bb.%d" % (3 * n + 1)])]
    behind = [[b"$x10 = ADDI $x7, 1"], *([b"BNE $x5, $x6, %%bb.%d" % (3 * loops + n)] for n in range(3 * loops))]
    return made_slow([], [*first, *behind, [RETURN]])


def dead(blocks):
    """Dead sums of one register: each is found only when the one behind it, in the next block, has gone."""
    return made_slow([], [[b"$x11 = ADDI $x11, 1", *(b"$x10 = ADDI $x10, %d" % n for n in range(4))] for _ in range(blocks - 1)]
                     + [[b"$x10 = ADDI $x0, 1", RETURN]])


def swing(slots):
    """Copies from slot to slot in a loop of blocks: each sweep over the values tells one slot apart from the others."""
    copies = [line for n in range(slots - 1, 0, -1) for line in (b"$x6 = LD %%stack.%d, 0" % (n - 1), b"SD $x6, %%stack.%d, 0" % n)]
    first = [b"$x5 = ADDI $x0, 1", *(b"SD $x5, %%stack.%d, 0" % n for n in range(slots))]
    loop = [[*copies, b"SD $x10, %stack.0, 0"], *([b"$x11 = ADDI $x11, 1"] for _ in range(4 * slots)), [b"BNE $x11, $x12, %bb.1"]]
    return made_slow([], [first, *loop, [b"$x10 = LD %%stack.%d, 0, debug-instr-number 1" % (slots - 1), ASKED % 1, RETURN]], slots)


def substituted(entries, last):
    """Substitutions in one chain that ends at this number, and a mark of the chain's head for each tenth."""
    line = b"  - { srcinst: %d, srcop: 0, dstinst: %d, dstop: 0, subreg: 0 }\n"
    chain = [line % (10000 + n, 10000 + n + 1 if n < entries - 1 else last) for n in range(entries)]
    return made_slow(chain, [[b"$x11 = ADDI $x11, 1, debug-instr-number 1", *([ASKED % 10000] * (entries // 10)), RETURN]])


def copies(number):
    """Dead copies with numbers, each with a mark behind it."""
    lines = [line for n in range(number) for line in (b"$x12 = ADDI $x10, %d" % (n % 2000), b"$x11 = COPY $x12, debug-instr-number %d" % (n + 1), ASKED % (n + 1))]
    return made_slow([], [[*lines, RETURN]])


ASKED_BY = b"DBG_INSTR_REF !%d, !DIExpression(DW_OP_LLVM_arg, 0), dbg-instr-ref(%d, 0), debug-location !5"


def quiet_lines(variables):
    """Variables in two registers, and seven times as many sums of another one: no variable's location changes any more."""
    first = [b"DBG_VALUE $x%d, $noreg, !%d, !DIExpression(), debug-location !5" % (8 + n % 2, 10 + n) for n in range(variables)]
    return made_slow([], [[*first, *([b"$x11 = ADDI $x11, 1"] * (7 * variables)), RETURN]], 0, variables)


def marks(variables):
    """One number, and eight marks of it for each variable, in turn."""
    turns = [ASKED_BY % (10 + n % variables, 1) for n in range(8 * variables - 3)]
    return made_slow([], [[b"$x11 = ADDI $x11, 1, debug-instr-number 1", *turns, RETURN]], 0, variables)


def meets(blocks):
    """Diamonds: where two paths meet, registers, slots and variables have another value on each."""
    lines = []
    for n in range(blocks // 3):
        registers, slot = [5 + (n + k) % 3 for k in range(3)], n % min(blocks // 4, 224)
        sums = [line for k, r in enumerate(registers) for line in (
            b"$x%d = ADDI $x%d, 1, debug-instr-number %d" % (r, r, 3 * n + k + 1), b"SD $x%d, %%stack.%d, 0" % (r, slot),
            ASKED_BY % (10 + (3 * n + k) % (blocks // 4), 3 * n + k + 1))]
        lines += [[b"BEQ $x10, $x11, %%bb.%d" % (3 * n + 2)], sums, [b"$x12 = ADDI $x10, 1"]]
    return made_slow([], [*lines, [RETURN]], min(blocks // 4, 224), blocks // 4)


# Of each kind of slow text: what is doubled, from what on, how often, and the text of a size. Passes would take away what makes these slow:
NO_PASSES = ("lines", "marks", "meets")
WORST = {
    "ladder": ("blocks", 64, 3, ladder),
    "rounds": ("loops of two blocks", 10, 3, rounds),
    "dead": ("blocks", 32, 3, dead),
    "swing": ("slots, four blocks each", 28, 3, swing),
    "chain": ("substitutions", 1000, 3, lambda n: substituted(n, 1)),
    "ring": ("substitutions", 1000, 3, lambda n: substituted(n, 10000)),
    "copies": ("copies", 250, 3, copies),
    "lines": ("variables, seven lines each", 128, 2, quiet_lines),
    "marks": ("variables, eight marks each", 256, 2, marks),
    "meets": ("blocks, a variable and a slot for four", 128, 3, meets),
    "all": ("blocks, a variable and eight items each", 128, 3, lambda n: located(n, 8 * n, n)),
}


def with_registers(blocks, items, virtual):
    """A function of so many items in which a register is set in each second one and read by some of the next eight, which are virtual or not."""
    near, rest = 8, [5, 7, 8, 9, *range(11, 18), *range(18, 30)]
    registers = items // 2 - 1
    name = (lambda k: b"%%%d" % k) if virtual else (lambda k: b"$x%d" % rest[k % len(rest)])
    target = (lambda k: b"%%%d:gpr" % k) if virtual else name
    ends = [b == blocks - 1 or (b % 3 == 1 and b + 2 < blocks) for b in range(blocks)]
    lines = [b"    %s = ADDI $x10, %d\n" % (target(k), k) for k in range(near)]
    body, made, last = [], near, items - near - sum(ends) - 1
    for n in range(last):
        b = n * blocks // last
        while len(body) <= b:
            if body and ends[len(body) - 1]:
                lines.append(b"    BEQ %s, $x0, %%bb.%d\n" % (name(made - 1), len(body)))
            body.append(b)
            lines.insert(0 if b == 0 else len(lines), b"  bb.%d:\n" % b)
        if made < near + (registers - near) * (n + 1) // last:
            lines.append(b"    %s = ADD %s, %s, debug-location !2\n" % (target(made), name(made - 1 - n % near), name(made - 1 - n // near % near)))
            made += 1
        elif n % 3 == 0:
            lines.append(b"    DBG_VALUE %s, $noreg, !4, !DIExpression(), debug-location !2\n" % name(made - 1 - n // 3 % near))
        else:
            lines.append(b"    $x10 = ADD $x10, %s, debug-location !2\n" % name(made - 1 - n // 3 % near))
    lines.append(b"    $x10 = COPY %s\n    PseudoRET implicit $x10\n" % name(made - 1))
    head = b"""--- |
  define i64 @f(i64 %a) !dbg !1 { ret i64 0 }
  !0 = !DIFile(filename: "f.c", directory: "/d")
  !1 = distinct !DISubprogram(name: "f", scope: !0, file: !0, line: 1)
  !2 = !DILocation(line: 2, column: 1, scope: !1)
  !3 = !DIBasicType(name: "long", size: 64, encoding: DW_ATE_signed)
  !4 = !DILocalVariable(name: "v", scope: !1, file: !0, line: 1, type: !3)
...
---
name: f
body: |
"""
    return head + b"".join(lines) + b"...\n"


def table(name, program, words, sizes, make):
    print(name)
    before = None
    for size in sizes:
        instructions = count(os.path.join(TOP, program), words, make(size))
        print("  %9d  %13d  %s" % (size, instructions, "%.3f" % (instructions / before) if before else ""))
        before = instructions


def by_bytes(name, program, words, sizes, make):
    """A table with the bytes of each input, the instructions for each of them, and the peak of memory."""
    program = os.path.join(TOP, program)
    print(name)
    before = None
    for size in sizes:
        text = make(size)
        instructions = count(program, words, text)
        growth = "%.3f" % (instructions / before) if before else ""
        print("  %9d  %9d bytes  %13d  %d a byte  %d KiB  %s" % (size, len(text), instructions, instructions // len(text), peak(program, words, text), growth))
        before = instructions


def peak(program, words, text):
    """The greatest memory of a run, in KiB."""
    run = subprocess.run(["/usr/bin/time", "-f", "%M", program, *words], input=text, stdout=subprocess.DEVNULL, stderr=subprocess.PIPE)
    return int(run.stderr.split()[-1])


def more(name, words, others, sizes, make):
    """A table of the instructions that a run with these words takes more than one with others."""
    program = os.path.join(TOP, "crates/mirdwarf/out/mirdwarf")
    print(name)
    last = None
    for size in sizes:
        text = make(size)
        instructions = count(program, words, text) - count(program, others, text)
        print("  %9d  %13d  %s" % (size, instructions, "%.3f" % (instructions / last) if last else ""))
        last = instructions


def inside(name, words, function, sizes, make):
    """A table of the instructions that a function of the program takes, with all that it calls, in a run with these words."""
    program = os.path.join(TOP, "crates/mirdwarf/out/mirdwarf")
    print(name)
    last = None
    for size in sizes:
        instructions = count(program, words, make(size), "--toggle-collect=" + function)
        print("  %9d  %13d  %s" % (size, instructions, "%.3f" % (instructions / last) if last else ""))
        last = instructions


SCANNED = (("one block", lambda items: 1), ("blocks of 128 items", lambda items: items // 128), ("blocks of eight items", lambda items: items // 8))


def main():
    what = sys.argv[1:]
    if what == ["lex"]:
        program, sizes = "crates/mirdwarf_bench/out/mirdwarf_bench", [n << 20 for n in (1, 2, 4)]
        table("functions of one line, by bytes", program, [], sizes, one_line_functions)
        table("one long line, by bytes", program, [], sizes, one_long_line)
    elif what == ["read"]:
        words, function = ["strip"], READING
        inside("one block, by items", words, function, (1000, 2000, 4000, 8000), one_block)
        inside("one function, by blocks of eight items", words, function, (128, 256, 512, 1024), blocks)
        inside("functions of sixteen blocks, by functions", words, function, (32, 64, 128, 256), functions)
        inside("one stack entry, by its keys", words, function, (500, 1000, 2000, 4000), entry_keys)
    elif what == ["strip"]:
        by_bytes("functions of 1,024 blocks, by functions", "crates/mirdwarf/out/mirdwarf", ["strip"], (1, 2, 4, 8, 16), large_functions)
    elif what == ["layout"]:
        words, function = ["listing", "--passes=none"], LAYOUT
        inside("one block, by items", words, function, (1000, 2000, 4000, 8000), one_block)
        inside("one function, by blocks of eight items", words, function, (128, 256, 512, 1024), blocks)
        inside("8,001 items, by slots", words, function, (28, 56, 112, 224), slots)
    elif what == ["locations"]:
        words, function = ["listing", "--passes=none"], LOCATIONS
        inside("8,192 items, 256 variables, by blocks", words, function, (64, 128, 256, 512, 1024), lambda n: located(n, 8192, 256))
        inside("one block, 256 variables, by items", words, function, (1024, 2048, 4096, 8192), lambda n: located(1, n, 256))
        inside("1,024 blocks, 256 variables, by items", words, function, (2048, 4096, 8192), lambda n: located(1024, n, 256))
        inside("1,024 blocks of eight items, by variables", words, function, (16, 32, 64, 128, 256, 512, 1024), lambda n: located(1024, 8192, n))
    elif what == ["run"]:
        program = os.path.join(TOP, "crates/mirdwarf/out/mirdwarf")
        print("steps of a loop with two variables")
        words, last = ["--args=1000000", "--answers=5,7", "--passes=none"], None
        none = count(program, ["run", "sum", "0", *words], READ_LOOP)
        for steps in (125000, 250000, 500000, 1000000):
            instructions = count(program, ["run", "sum", str(steps), *words], READ_LOOP) - none
            print("  %9d  %13d  %d a step  %s" % (steps, instructions, instructions // steps, "%.3f" % (instructions / last) if last else ""))
            last = instructions
    elif what == ["selftest"]:
        program = os.path.join(TOP, "crates/mirdwarf/out/mirdwarf")
        for number in (0, 1, 7):
            print("the functions of number %d, by blocks" % number)
            last = None
            for size in (64, 128, 256, 512):
                instructions = count(program, ["selftest", str(number), str(size)], b"")
                print("  %9d  %13d  %s" % (size, instructions, "%.3f" % (instructions / last) if last else ""))
                last = instructions
    elif what[:1] == ["worst"] and all(kind in WORST for kind in what[1:]):
        for kind in what[1:] or WORST:
            by, first, times, make = WORST[kind]
            words = ["compile", "--passes=none"] if kind in NO_PASSES else ["compile"]
            table("%s, by %s" % (kind, by), "crates/mirdwarf/out/mirdwarf", words, [first << n for n in range(times + 1)], make)
    elif what == ["sections"]:
        more("functions of four variables and 64 lines, by functions", ["compile", "--passes=none"], ["listing", "--passes=none"], (32, 64, 128, 256), lined)
    elif what == ["types"]:
        program, words = "crates/mirdwarf/out/mirdwarf", ["object", "--linkable", "--passes=none"]
        for make, of in ((records, "structures"), (pointers, "pointers"), (signatures, "functions"), (members, "members")):
            table("%s, by %s" % (make.__doc__.rstrip(".").lower(), of), program, words, (2500, 5000, 10000), make)
    elif what == ["inlined"]:
        words, none = ["compile", "--inline", "--passes=none"], ["compile", "--passes=none"]
        more("locations, an item each, in chains of 100 calls", words, none, (250, 500, 1000, 2000), lambda n: inlined(n, n, 100))
        more("calls around 1,000 locations, an item each", words, none, (50, 100, 200, 400), lambda n: inlined(1000, 1000, 1, n))
        more("items at 8 locations in chains of 100 calls", words, none, (1024, 2048, 4096, 8192), lambda n: inlined(n, 8, 100))
    elif what == ["scan"]:
        program, words = os.path.join(TOP, "crates/mirdwarf/out/mirdwarf"), ["compile", "--passes=none"]
        for name, blocks in SCANNED:
            print("%s, by items: with virtual registers, with physical ones, growth and ratio" % name)
            last = None
            for items in (2048, 4096, 8192):
                virtual = count(program, words, with_registers(blocks(items), items, True))
                physical = count(program, words, with_registers(blocks(items), items, False))
                growth = "%.3f" % (virtual / last) if last else ""
                print("  %9d  %13d  %13d  %5s  %.3f" % (items, virtual, physical, growth, virtual / physical))
                last = virtual
    elif what == ["passes"]:
        for kind, (passes, line) in PASSES.items():
            words = ["listing", *passes]
            inside("%s in one block, by items" % kind, words, RUN_PASSES, (1024, 2048, 4096, 8192), lambda n: repeated(line, 1, n))
            inside("%s in 1,024 blocks, by items" % kind, words, RUN_PASSES, (4096, 8192), lambda n: repeated(line, 1024, n))
    elif len(what) == 3 and what[0] == "inside":
        inside("1,024 blocks, 256 variables, by items", ["compile", "--passes=" + what[1]], what[2], (2048, 4096, 8192), lambda n: located(1024, n, 256))
        inside("one block, 256 variables, by items", ["compile", "--passes=" + what[1]], what[2], (1024, 2048, 4096, 8192), lambda n: located(1, n, 256))
        inside("8,192 items, 256 variables, by blocks", ["compile", "--passes=" + what[1]], what[2], (256, 512, 1024), lambda n: located(n, 8192, 256))
        inside("8,001 items, by slots", ["compile", "--passes=" + what[1]], what[2], (28, 56, 112, 224), slots)
    elif len(what) == 2 and what[0] == "alone":
        words, none = ["compile", "--passes=" + what[1]], ["compile", "--passes=none"]
        more("1,024 blocks, 256 variables, by items", words, none, (2048, 4096, 8192), lambda n: located(1024, n, 256))
        more("one block, 256 variables, by items", words, none, (1024, 2048, 4096, 8192), lambda n: located(1, n, 256))
        more("8,192 items, 256 variables, by blocks", words, none, (256, 512, 1024), lambda n: located(n, 8192, 256))
    elif what[:1] == ["compile"]:
        program, words = "crates/mirdwarf/out/mirdwarf", ["compile", *(what[1:] or ["--passes=none"])]
        by_bytes("functions of 64 blocks and 512 items, by functions", program, words, (16, 32, 64, 128, 256), many_located)
        by_bytes("8,192 items, 256 variables, by blocks", program, words, (256, 512, 1024), lambda n: located(n, 8192, 256))
        by_bytes("1,024 blocks, 256 variables, by items", program, words, (2048, 4096, 8192), lambda n: located(1024, n, 256))
        by_bytes("1,024 blocks of eight items, by variables", program, words, (256, 512, 1024), lambda n: located(1024, 8192, n))
    else:
        raise SystemExit(__doc__)


main()
