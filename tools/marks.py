#!/usr/bin/env python3
"""Says which marks of a file give their variable no value, and why.

    tools/marks.py FILE.mir

Of each variable of each function: its marks, and how many of them give no value, by cause. From such a mark to the next one the variable has no
place. It reads the text by itself, and says nothing of what passes lose: `report` does. Standard library alone."""
import collections
import re
import sys

# Of each cause: what it is called, and what helps.
CAUSES = {
    "none": ("the compiler says that it has none", None),
    "memory": ("the value is in memory", "llc-19 -experimental-debug-variable-locations=true"),
    "expression": ("an expression over the value", None),
    "several": ("several values together (DBG_VALUE_LIST)", None),
    "else": ("no register of RV64I, x2, or no number of 64 bits", None),
}
MARK = re.compile(r"\s*(DBG_VALUE_LIST|DBG_VALUE|DBG_INSTR_REF) (.*)")
VALUE = re.compile(r"(.*?), (\S+), !(\d+), !DIExpression\(([^()]*)\)")
REFERENCE = re.compile(r"!(\d+), !DIExpression\(([^()]*)\)(.*)")
PART = re.compile(r"(?:DW_OP_LLVM_fragment, \d+, \d+)?\Z")


def judged(opcode, rest):
    """The node of a mark's variable, and the cause for which it gives no value or None; or None if it is no mark."""
    found = (VALUE if opcode == "DBG_VALUE" else REFERENCE).match(rest)
    if not found:
        return None
    if opcode == "DBG_VALUE":
        first, second, node, expression = found.groups()
        number = re.fullmatch(r"(?:i\d+ )?(-?\d+)", first)
        if first == "$noreg":
            return node, "none"
        if second != "$noreg" or first.startswith("%"):
            return node, "memory"
        if not PART.match(expression):
            return node, "expression"
        plain = number and -2**63 <= int(number[1]) < 2**63 or re.fullmatch(r"(?:(?:renamable|killed) )*\$x\d+", first) and not first.endswith("$x2")
        return node, None if plain else "else"
    node, expression, behind = found.groups()
    if opcode == "DBG_VALUE_LIST":
        return node, "several"
    if not PART.match(re.sub(r"\ADW_OP_LLVM_arg, 0(?:, )?", "", expression)):
        return node, "expression"
    return node, None if re.match(r", dbg-instr-ref\(\d+, \d+\)", behind) else "none" if ", $noreg" in behind else "else"


def main():
    if len(sys.argv) != 2 or sys.argv[1].startswith("-"):
        print(__doc__)
        return 2
    try:
        with open(sys.argv[1], encoding="utf-8", errors="replace") as it:
            lines = it.read().splitlines()
    except OSError as fault:
        print(f"marks.py: {sys.argv[1]}: {fault.strerror}", file=sys.stderr)
        return 1
    names, marks, helps, function = {}, collections.OrderedDict(), set(), None
    for line in lines:
        if named := re.match(r"\s*!(\d+) = !DILocalVariable\(.*?name: \"([^\"]*)\"", line):
            names[named[1]] = named[2]
        if line == "---":
            function = None
        if named := re.match(r"name: +['\"]?([^'\"\s]+)", line):
            function = function or named[1]
        mark = MARK.match(line)
        if mark and (found := judged(*mark.groups())):
            marks.setdefault((function, found[0]), collections.Counter())[found[1]] += 1
    for (function, node), counts in marks.items():
        lacking = [f"{count} ({CAUSES[cause][0]})" for cause, count in counts.items() if cause]
        helps.update(CAUSES[cause][1] for cause in counts if cause and CAUSES[cause][1])
        print(f"{function} {names.get(node, f'!{node}')}: marks {sum(counts.values())}, without a value "
              f"{', '.join(lacking) if lacking else 'none'}")
    for it in sorted(helps):
        print(f"What helps, if it wasn't given: {it}.")
    if not marks:
        print(f"{sys.argv[1]} has no mark of MIR: compile with -g, and give the file that llc stopped at writes", file=sys.stderr)
    return 0 if marks else 1


sys.exit(main())
