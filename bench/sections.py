#!/usr/bin/env python3
"""Has tools of others read the sections of two examples: llvm-dwarfdump and readelf, of Debian's packages llvm and binutils-multiarch.

  bench/sections.py

It needs the built program, crates/mirdwarf/out/mirdwarf, which compiles the examples. The sections of each become an ELF file for 64-bit
RISC-V, and what the tools say of it is compared with what the example says. It ends with 1 where they differ.
"""
import os
import re
import shutil
import struct
import subprocess
import sys
import tempfile

TOP = os.path.join(os.path.dirname(os.path.abspath(__file__)), "..")
PROGRAM = os.path.join(TOP, "crates", "mirdwarf", "out", "mirdwarf")
TOOLS = {"llvm-dwarfdump": "llvm", "readelf": "binutils-multiarch"}

# readelf 2.40 tells the offset of a variable's list only where there is a section of texts, though no entry here names a text in it.
TEXTS = {".debug_str": bytes(1)}

# A function of two words at one line, with a variable.
TEXT = """--- |
  define i64 @f(i64 %%v) !dbg !1 { ret i64 0 }
  !1 = distinct !DISubprogram(name: "f", scope: !2, file: !2, line: 3)
  !2 = !DIFile(filename: "t.c", directory: "/d")
  !3 = !DIBasicType(name: "long", size: 64, encoding: DW_ATE_signed)
  !4 = !DILocalVariable(name: "v", scope: !1, file: !2, line: 3, type: !3)
  !5 = !DILocation(line: 3, column: 1, scope: !1)
...
---
name: f
body: |
  bb.0:
%s    $x11 = ADDI $x0, 0, debug-location !5
    PseudoRET implicit $x10, debug-location !5
...
"""

MARK = "    DBG_VALUE $x%d, $noreg, !4, !DIExpression(%s), debug-location !5\n"

# Where the variable is: in x10 throughout; or its low four bytes in x10 throughout, and the next four in x11 until that is set to 0.
EXAMPLES = {
    "whole": TEXT % (MARK % (10, "")),
    "pieces": TEXT % (MARK % (10, "DW_OP_LLVM_fragment, 0, 32") + MARK % (11, "DW_OP_LLVM_fragment, 32, 32")),
}

# Each range of the variable's list: its ends, and its location in the words of llvm-dwarfdump and of readelf.
LISTS = {
    "whole": [(0, 8, "DW_OP_reg10 X10", "DW_OP_reg10 (a0)")],
    "pieces": [
        (0, 4, "DW_OP_reg10 X10, DW_OP_piece 0x4, DW_OP_reg11 X11, DW_OP_piece 0x4",
         "DW_OP_reg10 (a0); DW_OP_piece: 4; DW_OP_reg11 (a1); DW_OP_piece: 4"),
        (4, 8, "DW_OP_reg10 X10, DW_OP_piece 0x4", "DW_OP_reg10 (a0); DW_OP_piece: 4"),
    ],
}

# The entries of both examples: how deep each stands, its tag, and its attributes in the words of llvm-dwarfdump, but for the list.
ENTRIES = [
    (0, "DW_TAG_compile_unit", [
        ("DW_AT_language", "DW_LANG_C99"), ("DW_AT_name", '"t.c"'), ("DW_AT_comp_dir", '"/d"'), ("DW_AT_stmt_list", "0x00000000"),
        ("DW_AT_low_pc", "0x0000000000000000"), ("DW_AT_high_pc", "0x0000000000000008"), ("DW_AT_loclists_base", "0x0000000c")]),
    (1, "DW_TAG_base_type", [("DW_AT_name", '"long"'), ("DW_AT_byte_size", "0x08"), ("DW_AT_encoding", "DW_ATE_signed")]),
    (1, "DW_TAG_subprogram", [
        ("DW_AT_name", '"f"'), ("DW_AT_low_pc", "0x0000000000000000"), ("DW_AT_high_pc", "0x0000000000000008")]),
    (2, "DW_TAG_variable", [("DW_AT_name", '"v"'), ("DW_AT_type", '0x0000002a "long"')]),
]

# The rows of both examples: address, line, column, file, and whether the sequence ends.
ROWS = [(0, 3, 1, 1, False), (8, 3, 1, 1, True)]


def sections_of(text):
    """The sections that the program writes of a text."""
    ran = subprocess.run([PROGRAM, "compile", "--passes=none"], input=text, capture_output=True, text=True)
    if ran.returncode:
        raise SystemExit("%s ended with %d: %s" % (PROGRAM, ran.returncode, ran.stderr))
    sections, left = {}, 0
    for line in ran.stdout.splitlines():
        words = line.split()
        if left:
            sections[name] += bytes.fromhex(line)
            left = size - len(sections[name])
        elif words[0] == "section":
            name, size = words[1], int(words[2])
            sections[name], left = b"", size
        else:
            break
    return sections


def elf(sections):
    """An ELF file of sections: 64-bit, little-endian, RISC-V, with `.text` at address 0."""
    names, header, content = b"\0", [bytes(64)], b""
    for name, body in [*sections.items(), (".shstrtab", None)]:
        at = len(names)
        names += name.encode() + b"\0"
        kind, flags = (1, 6 if name == ".text" else 0) if body is not None else (3, 0)
        body = names if body is None else body
        header.append(struct.pack("<IIQQQQIIQQ", at, kind, flags, 0, 64 + len(content), len(body), 0, 0, 4 if flags else 1, 0))
        content += body
    content += bytes(-len(content) % 8)
    identity = b"\x7fELF" + bytes([2, 1, 1]) + bytes(9)
    first = struct.pack("<16sHHIQQQIHHHHHH", identity, 1, 243, 1, 0, 0, 64 + len(content), 0, 64, 0, 0, 64, len(header), len(header) - 1)
    return first + content + b"".join(header)


def run(*words):
    """What a tool says, and what it warns of."""
    ran = subprocess.run(words, capture_output=True, text=True)
    return ran.returncode, ran.stdout, ran.stderr.strip()


def dumped_entries(text):
    """The entries and the list that llvm-dwarfdump shows."""
    entries, ranges = [], []
    for line in text.splitlines():
        entry = re.match(r"0x[0-9a-f]{8}:( *)(DW_TAG_\w+)$", line)
        attribute = re.match(r" +(DW_AT_\w+)\t\((.*)\)$", line)
        place = re.match(r" +\[0x([0-9a-f]+), 0x([0-9a-f]+)\): (.*?)\)?$", line)
        if entry:
            entries.append((len(entry[1]) // 2, entry[2], []))
        elif attribute:
            entries[-1][2].append((attribute[1], attribute[2]))
        elif place:
            ranges.append((int(place[1], 16), int(place[2], 16), place[3]))
    return entries, ranges


def dumped_rows(text):
    """The rows that llvm-dwarfdump shows."""
    rows = re.findall(r"^0x([0-9a-f]{16}) +(\d+) +(\d+) +(\d+) +\d+ +\d+ +is_stmt( end_sequence)?$", text, re.M)
    return [(int(address, 16), int(line), int(column), int(file), bool(end)) for address, line, column, file, end in rows]


def check(name, path):
    """What differs, in words."""
    status, said, warned = run("llvm-dwarfdump", "--verify", path)
    yield "llvm-dwarfdump --verify", (status, warned, said.splitlines()[-1]), (0, "", "No errors.")

    _, said, warned = run("llvm-dwarfdump", "--debug-info", path)
    entries, ranges = dumped_entries(said)
    yield "llvm-dwarfdump --debug-info, entries", (warned, entries), ("", ENTRIES)
    yield "llvm-dwarfdump --debug-info, list", ranges, [(lo, hi, there) for lo, hi, there, _ in LISTS[name]]

    _, said, warned = run("llvm-dwarfdump", "--debug-line", path)
    yield "llvm-dwarfdump --debug-line", (warned, dumped_rows(said)), ("", ROWS)

    _, said, warned = run("readelf", "--debug-dump=loc", path)
    found = [(int(lo, 16), int(hi, 16), there) for lo, hi, there in re.findall(r"^ +[0-9a-f]{8} ([0-9a-f]{16}) ([0-9a-f]{16}) (.*)$", said, re.M)]
    yield "readelf --debug-dump=loc", (warned, found), ("", [(lo, hi, there) for lo, hi, _, there in LISTS[name]])

    _, said, warned = run("readelf", "--debug-dump=decodedline", path)
    found = re.findall(r"^t\.c +(\d+|-) +(?:0x)?([0-9a-f]+)", said, re.M)
    yield "readelf --debug-dump=decodedline", (warned, found), ("", [("-" if end else str(line), "%x" % at) for at, line, _, _, end in ROWS])

    _, said, warned = run("readelf", "--debug-dump=info", path)
    found = [re.findall(r"\((DW_TAG_\w+)\)", said)]
    found += [re.findall(r"%s +: (.*)$" % key, said, re.M) for key in ("DW_AT_name", "DW_AT_type", "DW_AT_location")]
    names = [value.strip('"') for _, _, attributes in ENTRIES for key, value in attributes if key == "DW_AT_name"]
    wanted = [[tag for _, tag, _ in ENTRIES], names, ["<0x2a>"], ["(index: 0): 0x10 (location list)"]]
    yield "readelf --debug-dump=info", (warned, found), ("", wanted)


def main():
    if sys.argv[1:]:
        raise SystemExit(__doc__)
    for tool, package in TOOLS.items():
        if not shutil.which(tool):
            raise SystemExit("%s is missing: Debian's package %s has it" % (tool, package))
    wrong = 0
    with tempfile.TemporaryDirectory() as folder:
        for name, text in EXAMPLES.items():
            path = os.path.join(folder, name + ".elf")
            with open(path, "wb") as file:
                file.write(elf({**sections_of(text), **TEXTS}))
            for what, found, wanted in check(name, path):
                print("%-8s %-38s %s" % (name, what, "ok" if found == wanted else "differs"))
                if found != wanted:
                    wrong += 1
                    print("  found  %r\n  wanted %r" % (found, wanted))
    return 1 if wrong else 0


sys.exit(main())
