#!/usr/bin/env python3
"""Tests of ./mirdwarf, examples/debug.py, tools/view.py and tools/marks.py, run by hand.

  bench/scripts.py [PROGRAM]

PROGRAM is the built program where it isn't crates/mirdwarf/out/mirdwarf. Debian's packages: llvm-19 (or llvm), gdb-multiarch, qemu-user. The last line is
'N passed, M failed'."""
import os
import re
import subprocess
import sys
import tempfile

TOP = os.path.realpath(os.path.join(os.path.dirname(os.path.abspath(__file__)), ".."))
PROGRAM = os.path.abspath(sys.argv[1]) if sys.argv[1:] else os.path.join(TOP, "crates", "mirdwarf", "out", "mirdwarf")
LEDGER, TOTALS, VIRTUAL = "examples/ledger.mir", "examples/totals.mir", "examples/ledger_virtual.mir"

# Words that the wrapper refuses, and what its first line has.
WORDS = [
    ("compil", "no command `compil`. Did you mean `compile`?"),
    ("--version", "no command `--version`"),
    ("--passes=none compile", "the command stands first"),
    ("compile --pases=none", "no option `--pases`. Did you mean `--passes`?"),
    ("compile --passes", "wants its value behind `=`"),
    ("compile --passes none " + LEDGER, "wants its value behind `=`"),
    ("compile --passes=", "names ``, which is no pass"),
    ("compile --passes=nope", "names `nope`, which is no pass. Did you mean `none`?"),
    ("compile --passes=none,copy", "names `none` in a list; it stands alone"),
    ("compile --passes=copy,copy", "names `copy` twice"),
    ("compile --passes=none --passes=none", "--passes is given twice"),
    ("compile --reserve=x5", "`x5`, which is no register that may be reserved"),
    ("compile --reserve=s0", "`s0`, which is no register that may be reserved"),
    ("compile --args=5", "`compile` takes no --args"),
    ("compile --frame=1", "--frame has no value"),
    ("compile --frame --frame", "--frame is given twice"),
    ("compile --fram", "no option `--fram`. Did you mean `--frame`?"),
    ("report --frame", "`report` takes no --frame; compile, object do"),
    ("object --linked", "`object` takes --linked beside --linkable alone"),
    ("object --linkable --inline", "`object` takes no --inline; compile does"),
    ("object --linkable --abi=lp64", "--abi names `lp64`, and takes lp64d alone"),
    ("object --linkable=1", "--linkable has no value"),
    ("compile --linkable", "`compile` takes no --linkable; object does"),
    ("compile nofile.mir", "there is no file `nofile.mir`"),
    ("compile examples", "`examples` is a folder"),
    ("compile /dev/null", "`/dev/null` is no plain file"),
    (f"compile {LEDGER} {TOTALS}", "takes one file"),
    ("run", "NAME is missing"),
    ("run price", "STEPS is missing"),
    ("run price abc", "STEPS is `abc`, and has to be a number"),
    ("run price 05", "STEPS is `05`, and has to be a number"),
    ("run price 2000000", "STEPS is 2000000, and has to be from 0 to 1,000,000"),
    ("run price 5 --args=1,2,3,4,5,6,7,8,9", "--args has 9 numbers"),
    ("run price 5 --args=-1", "--args has `-1`"),
    ("run price 5 --symbols=g=1", "`run` takes --symbols beside --linked alone"),
    ("run price 5 --linked --symbols=g", "gives `g` the address ``"),
    ("run price 5 --linked --symbols=g=1,g=2", "--symbols has `g` twice"),
    ("run price 5 --linked --symbols", "wants its value behind `=`, in one word, as --symbols=g=4096"),
    ("compile --symbols=g=1", "`compile` takes no --symbols; run does"),
    ("gen 0 0", "BLOCKS is 0, and has to be from 1 to 512"),
    ("gen 70000 1", "NUMBER is 70000, and has to be from 0 to 65,536"),
    ("gen 0 1 file", "`gen` reads nothing"),
    ("selftest 0", "BLOCKS is missing"),
    ("strip --passes=none", "`strip` takes no --passes"),
]

# A line that a function of a text has in front of its return, and what is told of its refusal.
REFUSED = [
    ("PseudoTAIL target-flags(riscv-call) @g, implicit $x2, implicit $x10", "UnknownOpcode", "A tail call is read with --linked alone", "-fno-optimize-sibling-calls"),
    ("renamable $x12 = PseudoMovAddr target-flags(riscv-hi) @__const.f.w, target-flags(riscv-lo) @__const.f.w", "UnknownOpcode",
     "a local array or struct begins with", "one by one"),
    ("PseudoCALLIndirect killed renamable $x12, csr_ilp32_lp64, implicit-def dead $x1", "UnknownOpcode", "by a pointer is read with --linked alone", "by its name"),
    ("$x10 = PseudoMovAddr target-flags(riscv-hi) @.str, target-flags(riscv-lo) @.str", "UnknownOpcode", "The address of a global", "as an argument"),
    ("$x10 = PseudoMovAddr target-flags(riscv-hi) @switch.table.f, target-flags(riscv-lo) @switch.table.f", "UnknownOpcode", "a switch", "-fno-jump-tables"),
    ("$x11 = LUI target-flags(riscv-hi) @counter", "BadOperands", "The address of a global", "as an argument"),
    ("$x11 = LUI target-flags(riscv-hi) %const.0", "BadLine", "constant pool", "-riscv-disable-using-constant-pool-for-large-ints"),
    ("INLINEASM &nop, 1 /* sideeffect attdialect */", "BadByte", "Inline assembler", "call a function"),
    ("UNIMP", "UnknownOpcode", "A trap isn't read", "return"),
    ("$x10 = MUL $x10, $x11", "UnknownOpcode", "M extension", "-march=rv64i"),
    ("$x10 = ADDI $x10, 1, implicit %5", "VirtualRegister", "An implicit virtual register", "as llc writes it"),
    ("$x2 = ADDI $x2, -16", "StackPointerUse", "the stack pointer", "virtregrewriter"),
    ("ADJCALLSTACKDOWN 8, 0, implicit-def dead $x2, implicit $x2", "BadOperands", "arguments on the stack; a call has at most eight", "a struct"),
]

# Of the program that is read with --linked alone: each file, the line at which it is refused without, a run in it, and how that ends.
LINKED = [
    ("numbers", 269, "BlockEnd", "push 20 --args=7 --symbols=depth=65536,numbers=131072", "stop returned 7"),
    ("numbers", 269, "BlockEnd", "fail 20 --args=7", "stop gone @abort"),
    ("operations", 245, "UnknownOpcode", "divide 9 --args=7,2", "stop tailed @__divdi3"),
    ("operations", 245, "UnknownOpcode", "operate 20 --args=43,7,2", "stop gone @fail"),
    ("calculator", 493, "UnknownOpcode", "calculate 30 --args=4096 --answers=2,7,9", "stop tailed @push"),
]

# Texts that are no file of llc's, and what is told of them.
OTHERS = [
    ("; ModuleID = 't.c'\nsource_filename = \"t.c\"\n", "This is LLVM IR"),
    ("define i64 @f(i64 %0) {\n  ret i64 %0\n}\n", "This is LLVM IR"),
    ("#include <stdint.h>\nlong f(long a) {\n  return a;\n}\n", "This looks like C"),
    ("long keep(long);\n", "This looks like C"),
    ("\t.text\n\t.globl\tf\n", "This is assembler text"),
    ("section .text 4\n67800000\n", "This is what `compile` writes"),
    ("function f 00000000 00000004\nblock 0\n", "This is what `listing` writes"),
]

BODY = "--- |\n...\n---\nname: small\nbody: |\n  bb.0:\n    PseudoRET\n...\n---\nname: f\n%sbody: |\n  bb.0:\n%s    PseudoRET\n...\n"

# Words for examples/debug.py with the file of ledger.mir, and what it writes; and those with the file of totals.mir.
DEBUGGED = [
    ("price 5 3", r"0014 line 4: long each = item \+ 3;\n     item=5 count=3 each=- left=3 whole=0\n", r"result 22\n\Z", 0),
    ("ledger 5 2 1 2 8 3 4 10", r"No errors", r"result 70\n\Z", 0),
    ("price 5 3000", r"No errors", r"stopped after 2000 steps, at line \d+\n\Z", 1),
    ("nope 5", r"has no function nope; it has price, ledger", r"", 1),
    ("price x", r"the argument `x` is no number", r"", 1),
    ("price @1", r"@1 names no --bytes or --longs", r"", 1),
    ("price 1 2 3 4 5 6 7 8 9", r"9 arguments", r"", 1),
    ("price 99999999999999999999", r"doesn't fit into 64 bits", r"", 1),
    ("--elf /nonexist/x.elf price 5", r"\A--elf names /nonexist/x.elf, and there is no folder /nonexist\n", r"", 1),
    ("--elf /tmp price 5", r"\A--elf names /tmp, which is a folder\n", r"", 1),
    ("--elf /dev/null price 5", r"\A--elf names /dev/null, which is no plain file\n", r"", 1),
    ("--backtrace price price 5", r"has no section .debug_frame, by which frames are found: `compile --frame` writes it", r"", 1),
    ("--source nofile.c price 5", r"\Athere is no file nofile.c, which --source names\n\Z", r"", 1),
    ("--bytes text", r"\AFUNCTION is missing\n--bytes took the word `text`\n", r"", 1),
]
# The same with the file of ledger.mir by --frame.
FRAMED = [
    ("--backtrace price ledger 5 2 1 2 8 3 4 10", r"#0 0000 price, line 0\n     item=5 count=1 each=- left=1 whole=-\n     CFA=[0-9a-f]+ return=00f0\n",
     r"#1 00f0 ledger, behind its call, line 19: long cost = .*\n     CFA=\w+ return=\w+ x8=3 x9=a x18=0 x19=5 x20=8 .*\n#2 \w+ the start, .*\n.*\n\Z", 0),
    ("--backtrace 10 price 5 0", r"#0 0020 price, line 10: return whole;\n", r"\n#1 \w+ the start, behind its call\n\Z", 0),
    ("--backtrace ledger price 5", r"No errors", r"stopped behind the function's return; the run never came to ledger\n\Z", 1),
    ("--backtrace 99 price 5", r"--backtrace names 99, which is neither a function \(price, ledger\) nor the number of a line with code", r"", 1),
]
CALLED = [
    ("total 3 4", r"\Anot in .*: price, called by total\n", r"stopped in a call of price, which the output doesn't have; .*\n\Z", 1),
    ("--answers 5,6,7,8 total 3 4", r"cost=8\*", r"result 26\n\Z", 0),
    ("--answers 5 total 3 4", r"cost=5\*", r"stopped in a call of price, .*\n\Z", 1),
]
# A variable in two parts, and then in one.
PARTS = """--- |
  define i64 @f(i64 %v) !dbg !1 { ret i64 0 }
  !1 = distinct !DISubprogram(name: "f", scope: !2, file: !2, line: 3)
  !2 = !DIFile(filename: "t.c", directory: "/d")
  !3 = !DIBasicType(name: "long", size: 64, encoding: DW_ATE_signed)
  !4 = !DILocalVariable(name: "v", scope: !1, file: !2, line: 3, type: !3)
  !5 = !DILocation(line: 3, column: 1, scope: !1)
  !6 = !DILocation(line: 4, column: 1, scope: !1)
...
---
name: f
body: |
  bb.0:
    DBG_VALUE $x10, $noreg, !4, !DIExpression(DW_OP_LLVM_fragment, 0, 32), debug-location !5
    DBG_VALUE $x11, $noreg, !4, !DIExpression(DW_OP_LLVM_fragment, 32, 32), debug-location !5
    $x11 = ADDI $x0, 0, debug-location !5
    $x12 = LBU $x10, 1, debug-location !6
    PseudoRET
...
"""
# A parameter and two variables without a type, and two of one name, of which the second has a type.
UNTYPED = """--- |
  define i64 @f(i64 %v) !dbg !1 { ret i64 0 }
  !1 = distinct !DISubprogram(name: "f", scope: !2, file: !2, line: 3)
  !2 = !DIFile(filename: "t.c", directory: "/d")
  !3 = !DIBasicType(name: "long", size: 64, encoding: DW_ATE_signed)
  !4 = !DILocalVariable(name: "v", arg: 1, scope: !1, file: !2, line: 3)
  !5 = !DILocation(line: 3, column: 1, scope: !1)
  !6 = !DILocation(line: 4, column: 1, scope: !1)
  !7 = !DILocalVariable(name: "w", scope: !1, file: !2, line: 3)
  !8 = !DILocalVariable(name: "i", scope: !1, file: !2, line: 3)
  !9 = !DILocalVariable(name: "i", scope: !1, file: !2, line: 3, type: !3)
...
---
name: f
body: |
  bb.0:
    DBG_VALUE $x10, $noreg, !4, !DIExpression(), debug-location !5
    DBG_VALUE $x10, $noreg, !7, !DIExpression(), debug-location !5
    DBG_VALUE $x10, $noreg, !8, !DIExpression(), debug-location !5
    DBG_VALUE $x10, $noreg, !9, !DIExpression(), debug-location !5
    $x11 = ADDI $x0, 0, debug-location !5
    $x12 = ADDI $x0, 1, debug-location !6
    PseudoRET
...
"""

passed = failed = 0


def run(*words, given=""):
    ran = subprocess.run(words, cwd=TOP, input=given, capture_output=True, text=True, env={**os.environ, "MIRDWARF": PROGRAM})
    return ran.returncode, ran.stdout, ran.stderr


def shell(line):
    return run("bash", "-c", line)


def check(what, holds, got):
    global passed, failed
    passed, failed = passed + bool(holds), failed + (not holds)
    if not holds:
        print(f"FAILED {what}:\n{got}")


def wrapper(room):
    status, said, _ = run("./mirdwarf")
    check("no words", status == 2 and "./mirdwarf run price 12 --args=5,3 examples/ledger.mir" in said, said)
    status, said, _ = run("./mirdwarf", "--help")
    check("--help", status == 0 and "COMMAND WORDS.. [FILE]" in said, said)
    for words, wanted in WORDS:
        status, said, told = run("./mirdwarf", *words.split(" "))
        check(words, status == 2 and not said and wanted in told.split("\n")[0], told)
    for words in (["compile", "--passes=none"], ["compile", "--frame"], ["report"], ["strip"], ["run", "price", "12", "--args=5,3"]):
        with open(os.path.join(TOP, LEDGER), encoding="utf-8") as it:
            text = it.read()
        plain = subprocess.run([PROGRAM, *words], input=text, capture_output=True, text=True)
        for got in (run("./mirdwarf", *words, LEDGER), run("./mirdwarf", *words, given=text)):
            check(" ".join(words), got == (plain.returncode, plain.stdout, plain.stderr), got[2])
    file = os.path.join(room, "f.mir")
    for line, name, cause, helps in REFUSED:
        with open(file, "w", encoding="utf-8") as it:
            it.write(BODY % ("", f"    {line}\n"))
        status, said, told = run("./mirdwarf", "listing", "--passes=none", file)
        wanted = [f"mirdwarf: line 13: {name}\n{file}:13: {name}, in function f\n    {line[:60]}", cause, helps]
        check(line, status == 1 and not said and all(it in told for it in wanted), told)
    with open(file, "w", encoding="utf-8") as it:
        it.write(BODY % ("stack:\n  - { id: 0, size: 2033 }\n", ""))
    status, _, told = run("./mirdwarf", "listing", file)
    check("a large frame", status == 1 and "FrameTooLarge, in function f\n" in told and "Of the file's 2 functions 1 can be read.\n" in told, told)
    with open(file, "w", encoding="utf-8") as it:
        it.write(BODY % ("", "    $x5 = ADD $x6, $x7\n    $x28 = ADD $x29, $x30\n    %0 = COPY $x10\n"))
    status, _, told = run("./mirdwarf", "listing", file)
    check("a virtual register", status == 1 and f"{file}:15: NoRegister, in function f\n    %0 = COPY $x10\n" in told and "virtregrewriter" in told, told)
    status, said, told = run("./mirdwarf", "report", "--passes=none", VIRTUAL)
    check("before register allocation", status == 0 and said.startswith("function price\nwords 18\n") and "cover whole 15 of 18\n" in said, told)
    with open(file, "w", encoding="utf-8") as it:
        it.write(BODY % ("", "    UNIMP\n") + BODY.split("...\n", 1)[1].replace("name: f", "name: g") % ("", "    $x10 = MUL $x10, $x11\n"))
    status, _, told = run("./mirdwarf", "listing", file)
    check("two refused functions", status == 1 and "Of the file's 4 functions 2 can be read; refused besides: g (line 26: UnknownOpcode).\n" in told, told)
    with open(file, "w", encoding="utf-8") as it:
        it.write(BODY % ("fixedStack:\n  - { id: 0, type: default, offset: 0, size: 8 }\n", ""))
    status, _, told = run("./mirdwarf", "listing", file)
    check("an argument on the stack", status == 1 and f"{file}:12: StackObject, in function f\n" in told, told)
    for text, wanted in OTHERS:
        status, said, told = run("./mirdwarf", "compile", given=text)
        check(text, status == 1 and not said and f"\n  {wanted}.\n  What helps: " in told, told)
    piped = shell(f"cat {LEDGER} | ./mirdwarf report /dev/stdin && ./mirdwarf report <(cat {LEDGER})")
    check("a pipe as a file", piped == (0, run("./mirdwarf", "report", LEDGER)[1] * 2, ""), piped)
    status, said, told = shell("./mirdwarf --help | (exec 0<&-; sleep 0.2)")
    check("--help that nothing reads", status == 0 and not told, told)
    status, _, told = run("./mirdwarf", "run", "pricy", "5", LEDGER)
    check("another name", status == 1 and "The file has: price, ledger. Did you mean `price`?" in told, told)


def compiled(room, name, text, *options):
    status, said, told = run("./mirdwarf", "compile", "--passes=none", *options, given=text)
    check(f"compile of {name}", status == 0, told)
    file = os.path.join(room, name)
    with open(file, "w", encoding="utf-8") as it:
        it.write(said)
    return file


def linked(room):
    for name, line, cause, words, ending in LINKED:
        file = f"examples/calculator/{name}.mir"
        status, said, told = run("./mirdwarf", "compile", "--passes=none", file)
        check(f"{name} without --linked", status == 1 and not said and told.startswith(f"mirdwarf: line {line}: {cause}\n"), told)
        for command in ("compile", "listing", "report", "strip"):
            status, said, told = run("./mirdwarf", command, "--linked", file)
            check(f"{command} --linked of {name}", status == 0 and said and not told, told)
        status, said, told = run("./mirdwarf", "run", *words.split(" "), "--linked", file)
        check(f"{name}: run {words}", status == 0 and said.endswith(f"\n{ending}\n"), said + told)
    with open(os.path.join(TOP, "examples", "calculator", "operations.mir"), encoding="utf-8") as it:
        output = compiled(room, "operations.txt", it.read(), "--linked")
    for name, status, wanted in (("add", 0, "result 8\n"), ("operate", 1, "target-flags(riscv-hi) @operations"), ("divide", 1, "target-flags(riscv-hi) @.str.2"),
                                 ("multiply", 1, "PseudoTAIL @__muldi3")):
        got = run("examples/debug.py", output, name, "5", "3")
        check(f"debug.py of {name}", got[0] == status and wanted in got[1] + got[2], got[1] + got[2])


def debugger(room):
    files = {}
    for name in (LEDGER, TOTALS):
        with open(os.path.join(TOP, name), encoding="utf-8") as it:
            files[name] = compiled(room, os.path.basename(name) + ".txt", it.read())
    with open(os.path.join(TOP, LEDGER), encoding="utf-8") as it:
        files["framed"] = compiled(room, "framed.txt", it.read(), "--frame")
    for name, rows in ((LEDGER, DEBUGGED), (TOTALS, CALLED), ("framed", FRAMED)):
        for words, wanted, ending, wants in rows:
            words = words.split(" ")
            options = words[:2] if words[0].startswith("--") else []
            status, said, told = run("examples/debug.py", *options, files[name], *words[len(options):])
            check(f"debug.py {' '.join(words)}", status == wants and re.search(wanted, said + told) and re.search(ending, said), said + told)
    status, said, told = run("examples/debug.py", files[LEDGER] + ".not", "price")
    check("debug.py without a file", status == 1 and "there is no file" in told, told)
    took = f"price is wanted as OUTPUT, and there is no file of this name\n--bytes took the word `{files[LEDGER]}`\n"
    for words, wanted in (([], "OUTPUT, a file of what `compile` wrote, and FUNCTION are missing\n"), (["examples"], "examples is no plain file\n"),
                          (["--bytes", files[LEDGER], "price"], took)):
        status, said, told = run("examples/debug.py", *words)
        check(f"debug.py {' '.join(words)}", status == 1 and not said and told.startswith(wanted), told)
    bare = compiled(room, "bare.txt", BODY % ("", ""))
    status, said, told = run("examples/debug.py", bare, "f")
    check("debug.py without debug information", status == 1 and told.startswith(f"{bare}: no function has debug information: "), said + told)
    status, said, told = run("examples/debug.py", compiled(room, "untyped.txt", UNTYPED), "f", str(5 << 32))
    check("debug.py without types", status == 0 and "v=(no type) w=(no type) i=(no type) i=21474836480" in re.sub(r"\*", "", said), said + told)
    status, said, told = shell(f"examples/debug.py {files[LEDGER]} price 5 3 | (exec 0<&-; sleep 0.2)")
    check("debug.py that nothing reads", status == 0 and not told, told)
    parts = compiled(room, "parts.txt", PARTS)
    status, said, told = run("examples/debug.py", "--bytes", "ab\\n", parts, "f", "@1", "7")
    check("debug.py with parts and memory", status == 0 and "v=30066868224" in said and "v=(4 of 8 bytes)*" in said, said + told)
    return files[LEDGER]


def view(room, ledger):
    status, said, told = run("tools/view.py", "--plain", "--function", "price", "--names", "a,b", ledger, ledger, "examples/ledger.c")
    check("view.py", status == 0 and "  a: 54 of 80 (67 %)\n  b: 54 of 80 (67 %)\n" in said and "long each = item + 3;" in said, said + told)
    for words, wanted in (([], "FILE and FILE.c are missing\n"), ([ledger], f"one file is given, {ledger}: FILE or FILE.c is missing\n"),
                          (["--html", "/nonexist/page", ledger, "examples/ledger.c"], "--html names /nonexist/page, and there is no folder")):
        status, said, told = run("tools/view.py", *words)
        check(f"view.py {' '.join(words)}", status == 1 and not said and told.startswith(wanted), told)
    page = os.path.join(room, "page.html")
    status, said, told = run("tools/view.py", "--html", page, ledger, "examples/ledger.c")
    with open(page, encoding="utf-8") as it:
        check("view.py --html", status == 0 and not said and "item: 4 of 6 words" in it.read(), told)


def marks(room):
    wanted = {
        "DBG_VALUE renamable $x10, $noreg, !5, !DIExpression(DW_OP_LLVM_fragment, 0, 32)": "none",
        "DBG_VALUE -1, $noreg, !5, !DIExpression()": "none",
        "DBG_VALUE $noreg, $noreg, !5, !DIExpression()": "1 (the compiler says that it has none)",
        "DBG_VALUE %stack.0, 0, !5, !DIExpression()": "1 (the value is in memory)",
        "DBG_VALUE $x10, 0, !5, !DIExpression()": "1 (the value is in memory)",
        "DBG_VALUE $x10, $noreg, !5, !DIExpression(DW_OP_plus_uconst, 3, DW_OP_stack_value)": "1 (an expression over the value)",
        "DBG_VALUE $x2, $noreg, !5, !DIExpression()": "1 (no register of RV64I, x2, or no number of 64 bits)",
        "DBG_VALUE_LIST !5, !DIExpression(DW_OP_LLVM_arg, 0, DW_OP_LLVM_arg, 1, DW_OP_plus), $x10, $x11": "1 (several values together (DBG_VALUE_LIST))",
        "DBG_INSTR_REF !5, !DIExpression(DW_OP_LLVM_arg, 0), dbg-instr-ref(1, 0)": "none",
        "DBG_INSTR_REF !5, !DIExpression(DW_OP_LLVM_arg, 0, DW_OP_deref), dbg-instr-ref(1, 0)": "1 (an expression over the value)",
    }
    for line, cause in wanted.items():
        file = os.path.join(room, "marks.mir")
        with open(file, "w", encoding="utf-8") as it:
            it.write(f'  !5 = !DILocalVariable(name: "v", scope: !3)\n---\nname: f\nbody: |\n    {line}, debug-location !7\n...\n')
        status, said, told = run("tools/marks.py", file)
        check(f"marks.py {line}", status == 0 and not told and f"f v: marks 1, without a value {cause}\n" in said, said + told)
    status, said, told = run("tools/marks.py", "nosuch")
    check("marks.py nosuch", status == 1 and not said and told == "marks.py: nosuch: No such file or directory\n", told)


def main():
    with tempfile.TemporaryDirectory() as room:
        marks(room)
        wrapper(room)
        linked(room)
        view(room, debugger(room))
    print(f"{passed} passed, {failed} failed")
    return 1 if failed else 0


sys.exit(main())
