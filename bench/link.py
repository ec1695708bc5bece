#!/usr/bin/env python3
"""Links the objects that `object --linkable` writes of the files of examples/ with C, runs the programs, and has gdb tell each frame.

    bench/link.py [PROGRAM [WORD]]

PROGRAM is crates/mirdwarf/out/mirdwarf where none is given; with a word only the programs whose names have it are made. Each is made with no pass and
with all, with and without --frame, and by GNU ld and by ld.lld.

- Tools: eu-elflint has nothing to complain of in an object, nor llvm-dwarfdump --verify in an object and in a program. Both linkers make the same bytes
  of the object's sections, at each of three addresses.
- Runs: on qemu's processor a program prints what it does where clang, without optimization, compiles the functions (or, where there is no C or code is
  inlined, llc the same MIR), and ends as it does.
- gdb: where a function of an object is entered, the functions on the stack are those that are there at the same entry of the same run of that other
  program. Where that is C that clang compiles without optimization, each frame has the line that it has there, and each variable that gdb shows the
  value that it has there: in the frame that is entered the parameters, in the others all variables. llc's code has no `.debug_frame`, and gdb may lose
  the outer frames there.

Prints a table, and as its last line `N passed, M failed`; ends with 1 if any failed. Debian's packages: clang-19, llvm-19, lld-19, gdb-multiarch,
binutils-riscv64-linux-gnu, elfutils (eu-elflint), qemu-user."""
import json
import os
import re
import shutil
import struct
import subprocess
import sys
import tempfile
from dataclasses import dataclass, field

TOP = os.path.realpath(os.path.join(os.path.dirname(os.path.abspath(__file__)), ".."))
sys.path.insert(0, os.path.join(TOP, "tools"))
import executable

PROGRAM = sys.argv[1] if len(sys.argv) > 1 else os.path.join(TOP, "crates/mirdwarf/out/mirdwarf")
PACKAGES = {"clang-19": "clang-19", "llc-19": "llvm-19", "llvm-dwarfdump-19": "llvm-19", "ld.lld-19": "lld-19", "gdb-multiarch": "gdb-multiarch",
            "riscv64-linux-gnu-ld": "binutils-riscv64-linux-gnu", "eu-elflint": "elfutils", "qemu-riscv64": "qemu-user"}
LINKERS = [["riscv64-linux-gnu-ld", "-m", "elf64lriscv", "--no-relax"], ["ld.lld-19", "-m", "elf64lriscv", "--no-relax"]]
OPTIONS = ["--passes=none", "--frame --passes=none", "--frame", "--frame --abi=lp64d"]
# The addresses at which both linkers place an object, and the sections whose bytes they have to make alike.
PLACES = [0x10000, 0x12345000, 0x7FFF0000]
SECTIONS = [".text", ".debug_abbrev", ".debug_info", ".debug_line", ".debug_loclists", ".debug_frame"]
# The most seconds of a run under gdb, and the most stops of it.
SECONDS, STOPS = 300, 200

# What a program stands on: its start, two calls of the system, multiplications and divisions, and numbers on the output.
RUNTIME = r"""
static long asked(long number, long first, long second, long third) {
  register long a asm("a0") = first, b asm("a1") = second, c asm("a2") = third, n asm("a7") = number;
  asm volatile("ecall" : "+r"(a) : "r"(b), "r"(c), "r"(n) : "memory");
  return a;
}
_Noreturn void exit(int status) { for (;;) asked(93, status, 0, 0); }
_Noreturn void abort(void) { exit(134); }
int puts(const char *text) {
  long length = 0;
  while (text[length]) length++;
  asked(64, 1, (long)text, length);
  return asked(64, 1, (long)"\n", 1);
}
long __muldi3(long a, long b) { return a * b; }
long __divdi3(long a, long b) { return a / b; }
unsigned long __udivdi3(unsigned long a, unsigned long b) { return a / b; }
void print(long number) {
  char digits[17] = {0};
  for (int n = 15; n >= 0; n--, number = (unsigned long)number >> 4) digits[n] = "0123456789abcdef"[number & 15];
  puts(digits);
}
asm(".globl _start\n_start: ld a0, 0(sp)\n addi a1, sp, 8\n call main\n call exit\n");
"""


@dataclass
class Row:
    """A program: the files of examples/ without their endings; the C files of the same functions, if there are some; calls whose results are printed
    (where there are none, the files have `main`); the words of each run; C text of what the files name and don't define, for all of them and for each,
    whose own names begin with its number; and what is printed, where nothing else makes the program."""
    files: list
    sources: list
    calls: list = field(default_factory=list)
    runs: list = field(default_factory=lambda: [[]])
    others: str = ""
    data: dict = field(default_factory=dict)
    options: str = ""
    wanted: str = None


LEDGER = ["price(5L, 0L)", "price(5L, 3L)", "ledger(5L, 0L, 1L, 2L, 8L, 3L, 4L, 100L)", "ledger(5L, 2L, 1L, 2L, 8L, 3L, 4L, 10L)",
          "ledger(-10L, 5L, 1L, 2L, 8L, 3L, 4L, 10L)"]
CALCULATOR = {
    "numbers": 'long depth, numbers[64];\nconst char a[] asm("numbers.str") = "too many numbers", b[] asm("numbers.str.1") = "a number is missing";',
    "operations": 'long add(long, long), subtract(long, long), multiply(long, long), divide(long, long);\n'
                  "long (*const operations[128])(long, long) = {['+'] = add, ['-'] = subtract, ['*'] = multiply, ['/'] = divide};\n"
                  'const char a[] asm("operations.str") = "an unknown operation", b[] asm("operations.str.2") = "a division by zero";',
    "calculator": 'const char a[] asm("calculator.str") = "nothing is left";',
}
ROWS = [
    Row(["ledger"], ["ledger"], LEDGER),
    Row(["ledger_virtual"], ["ledger"], LEDGER),
    Row(["nested"], ["nested"], ["next(5L)", "digest(5L, 3L)", "digest(262144L, 1L)"]),
    Row(["totals"], [], ["total(5L, 0L, 2L)", "total(5L, 3L, 6L)", "twice(21L)"], others="long price(long a, long b) { return 3 * a - b; }"),
    Row(["increment"], [], ["f(41L)"]),
    Row(["clobbered"], [], ["f(41L)"], wanted="%016x\n" % 42),
    Row(["moved"], [], ["f(30L, 5L)"], wanted="%016x\n" % 42),
    Row(["calculator/numbers", "calculator/operations", "calculator/calculator"], [],
        runs=["3 4 + 5 *".split(), [], "7 2 /".split(), "1 0 /".split(), "1 2 3".split(), "+".split(), "1 2 %".split(), "10 20 - 3 *".split()],
        data=CALCULATOR, options="--linked"),
]

# What gdb runs: at each entry of functions, the frames: their names, their lines, and their variables as (name, is a parameter, value).
WALK = r"""
import gdb
for setting in ("pagination off", "confirm off", "style enabled off", "breakpoint pending off"):
    gdb.execute("set " + setting)
for name in it["names"]:
    gdb.execute("break " + it["at"] + name, to_string=True)

def variables(frame):
    found = {}
    try:
        block = frame.block()
    except RuntimeError:
        return []
    while block:
        for symbol in block:
            if (symbol.is_argument or symbol.is_variable) and symbol.name not in found:
                try:
                    value = symbol.value(frame)
                    told = None if value.is_optimized_out else int(value)
                except gdb.error:
                    told = None
                found[symbol.name] = (symbol.name, symbol.is_argument, told)
        if block.function:
            break
        block = block.superblock
    return list(found.values())

stops = []
for _ in range(it["stops"]):
    try:
        gdb.execute("continue", to_string=True)
        frame = gdb.newest_frame()
    except gdb.error:
        break
    frames = []
    while frame:
        if frame.type() != gdb.INLINE_FRAME:
            frames.append((frame.name(), frame.find_sal().line, variables(frame)))
        frame = frame.older()
    stops.append(frames)
print("@@" + json.dumps(stops))
try:
    gdb.execute("kill")
except gdb.error:
    pass
"""

passed = failed = 0


def check(holds, what):
    """Counts a check, and tells one that failed."""
    global passed, failed
    passed, failed = passed + bool(holds), failed + (not holds)
    if not holds:
        print(f"FAILED {what}", flush=True)
    return holds


def said(*words):
    """What a command prints, with its complaints."""
    ran = subprocess.run(words, capture_output=True, text=True, errors="replace")
    return ran.stdout + ran.stderr


def made(*words):
    """Runs a command that has to do what it does."""
    ran = subprocess.run(words, capture_output=True, text=True)
    if ran.returncode:
        sys.exit(f"{' '.join(words)}: {ran.stderr[-1000:]}")


def machine(options):
    """The words of clang for the machine."""
    return ["--target=riscv64", *("-march=rv64imfd -mabi=lp64d" if "lp64d" in options else "-march=rv64im -mabi=lp64").split(), "-mno-relax", "-fno-pic"]


def compiled(room, name, text, options, *more):
    """The object of a C text."""
    source, to = os.path.join(room, name + ".c"), os.path.join(room, name + ".o")
    with open(source, "w", encoding="utf-8") as file:
        file.write(text)
    made("clang-19", *machine(options), "-O1", "-ffreestanding", "-w", *more, "-c", source, "-o", to)
    return to


def object_of(room, file, options):
    """The object of a file, as the program writes it."""
    to = os.path.join(room, os.path.basename(file) + ".ours.o")
    with open(os.path.join(TOP, "examples", file + ".mir"), "rb") as given, open(to, "wb") as out:
        ran = subprocess.run([PROGRAM, "object", "--linkable", *options.split()], stdin=given, stdout=out, stderr=subprocess.PIPE, text=True)
    if ran.returncode:
        sys.exit(f"object --linkable {options} of {file}: {ran.stderr.strip()}")
    return to


def theirs_of(room, row):
    """The objects of the same functions by clang without optimization, or by llc of the same text; or none."""
    found = []
    for source in row.sources:
        found.append(os.path.join(room, os.path.basename(source) + ".theirs.o"))
        made("clang-19", *machine(""), "-O0", "-g", "-ffreestanding", "-c", os.path.join(TOP, "examples", source + ".c"), "-o", found[-1])
    if row.sources or row.wanted is not None:
        return found
    for source in row.files:
        text, found = os.path.join(room, "theirs.mir"), [*found, os.path.join(room, os.path.basename(source) + ".theirs.o")]
        with open(os.path.join(TOP, "examples", source + ".mir"), encoding="utf-8") as given, open(text, "w", encoding="utf-8") as out:
            # llc 19 has one word for calls by name
            out.write(given.read().replace("riscv-plt", "riscv-call"))
        made("llc-19", "-mtriple=riscv64", "-mattr=-relax", "-start-after=virtregrewriter,1", "-filetype=obj", text, "-o", found[-1])
    return found


def symbols(path):
    """The names that an object defines, and those that it doesn't."""
    rows = [row.split() for row in said("riscv64-linux-gnu-nm", path).splitlines()]
    return [row[2] for row in rows if len(row) == 3], [row[1] for row in rows if len(row) == 2]


def contents(path):
    """The bytes of each section of an ELF file (System V gABI, chapter 4), by its name."""
    with open(path, "rb") as file:
        whole = file.read()
    at, = struct.unpack_from("<Q", whole, 40)
    size, count, last = struct.unpack_from("<HHH", whole, 58)
    headers = [struct.unpack_from("<IIQQQQ", whole, at + size * n) for n in range(count)]
    bodies = [b"" if kind == 8 else whole[offset:offset + length] for _, kind, _, _, offset, length in headers]
    return {bodies[last][header[0]:].split(b"\0")[0].decode(): body for header, body in zip(headers, bodies)}


def verified(path):
    """The last line of what llvm-dwarfdump says of a file."""
    return (said("llvm-dwarfdump-19", "--verify", path).strip() or "nothing").splitlines()[-1]


def tools(what, path):
    """Asks tools what they say of an object, and has both linkers place it."""
    told = said("eu-elflint", "--gnu-ld", path).strip()
    check(told == "No errors", f"{what}: eu-elflint: {told}")
    check(verified(path) == "No errors.", f"{what}: llvm-dwarfdump: {verified(path)}")
    for place in PLACES:
        given = [f"--defsym={name}={place + 0x1000 * (number + 1):#x}" for number, name in enumerate(symbols(path)[1])]
        for linker in LINKERS:
            told = said(*linker, "-e", "0", f"-Ttext={place:#x}", *given, path, "-o", f"{path}.{linker[0]}").strip()
            check(not told, f"{what}: {linker[0]} at {place:#x}: {told}")
        one, other = (contents(f"{path}.{linker[0]}") for linker in LINKERS)
        check(all(one.get(it) == other.get(it) for it in SECTIONS), f"{what}: at {place:#x} the linkers differ")


def stops_of(room, program, names, at, words):
    """The stops of a run under gdb, each with its frames, or what gdb says in their place. It stops at the first instruction of functions, where `at` is
    a star, and otherwise behind their prologues, where code without optimization has stored the parameters."""
    script = os.path.join(room, "walk.py")
    with open(script, "w", encoding="utf-8") as file:
        file.write(f"import json\nit = json.loads({json.dumps({'names': names, 'at': at, 'stops': STOPS})!r})\n{WALK}")
    for _ in range(2):
        # gdb may fail on a busy machine before it is connected
        told, _ = executable.in_gdb(program, script, SECONDS, words)
        if found := re.search(r"^@@(.*)$", told, re.M):
            return json.loads(found[1]), None
    return [], told.strip()[-300:]


def compared(ours, theirs, names, whole):
    """How many frames, and with them lines and values if they are wanted, of stops were compared, and what differs."""
    frames = values = 0
    wrong = [] if [stop[0][0] for stop in ours] == [stop[0][0] for stop in theirs] else ["other functions are entered"]
    for number, (mine, wanted) in enumerate(zip(ours, theirs)):
        found, true = [it[0] for it in mine], [it[0] for it in wanted]
        if found[-1] != "main" or found != true and (whole or found[:len(true)] != true):
            wrong.append(f"stop {number}: {found}, where the frames are {true}")
            continue
        for depth, ((name, line, variables), (_, true_line, others)) in enumerate(zip(mine, wanted)):
            if name not in names:
                continue
            frames += 1
            if not whole:
                continue
            if depth and line != true_line:
                wrong.append(f"stop {number} frame {depth}: {name} is at line {line}, not {true_line}")
            known = {variable: value for variable, parameter, value in others if parameter or depth}
            for variable, _, value in variables:
                if value is not None and variable in known:
                    values += 1
                    if value != known[variable]:
                        wrong.append(f"stop {number} frame {depth}: {name}'s {variable} is {value}, not {known[variable]}")
    return frames, values, wrong


def ran(program, words):
    """What a program prints, and how it ends."""
    it = subprocess.run(["qemu-riscv64", program, *words], capture_output=True, text=True)
    return it.stdout, it.returncode


def linked(linker, to, objects, what):
    """Links a program."""
    it = subprocess.run([*linker, "-static", "-e", "_start", *objects, "-o", to], capture_output=True, text=True, errors="replace")
    told = it.stderr.strip() or (f"status {it.returncode}" if it.returncode else "")
    return check(not told, f"{what}: {linker[0]}: {told}")


def main_of(row):
    """The C text of the main function, or of none."""
    if not row.calls:
        return row.others
    names = sorted({call.split("(")[0] for call in row.calls})
    return "%s\nlong %s;\nvoid print(long);\nint main(void) {\n%s  return 0;\n}\n" % (
        row.others, ", ".join(name + "()" for name in names), "".join(f"  print({call});\n" for call in row.calls))


def base_of(room, row, options):
    """The objects on which a program stands, and its main function."""
    return [compiled(room, "runtime", RUNTIME, options), compiled(room, "main", main_of(row), options, "-gdwarf-4", "-std=c17")]


def data_of(room, row, own, path, options):
    """The object of the data that the file of an object names and doesn't define. Data may name the file's own functions: they are seen from outside."""
    local = [it[2] for it in (line.split() for line in said("riscv64-linux-gnu-nm", path).splitlines()) if it[1:2] == ["t"]]
    said("riscv64-linux-gnu-objcopy", *(f"--redefine-sym={it}={own}{it}" for it in symbols(path)[1] if it.startswith(".str")),
         *(f"--globalize-symbol={it}" for it in local), path)
    return compiled(room, own + "_data", row.data[own].replace(" a[]", f" {own}_a[]").replace(" b[]", f" {own}_b[]"), options)


def row_of(room, row, options):
    """Makes the programs of a row with these options."""
    name = row.files[0].split("/")[0]
    what = f"{name} {options} {row.options}".strip()
    theirs, oracle = theirs_of(room, row), os.path.join(room, "oracle")
    if theirs and not linked(LINKERS[1], oracle, [*base_of(room, row, ""), *theirs], what + ", clang's"):
        return
    base, ours, data, defined = base_of(room, row, options), [], [], []
    for file in row.files:
        path, own = object_of(room, file, f"{options} {row.options}"), os.path.basename(file)
        tools(f"{what}, {own}", path)
        defined += symbols(path)[0]
        if own in row.data:
            data.append(data_of(room, row, own, path, options))
        ours.append(path)
    for linker in LINKERS:
        program = os.path.join(room, "program")
        if not linked(linker, program, [*base, *data, *ours], what):
            continue
        check(verified(program) == "No errors.", f"{what}: {linker[0]}: llvm-dwarfdump: {verified(program)}")
        stops = frames = values = 0
        for words in row.runs:
            wanted = ran(oracle, words) if theirs else (row.wanted, 0)
            check(ran(program, words) == wanted, f"{what}: {linker[0]}: {words}: {ran(program, words)}, not {wanted}")
            if theirs and "--frame" in options:
                mine, told = stops_of(room, program, defined, "*", words)
                truth, others = stops_of(room, oracle, defined, "" if row.sources else "*", words)
                found = compared(mine, truth, defined, bool(row.sources))
                check(mine and not told and not others and not found[2], f"{what}: {linker[0]}: {words}: gdb: {told or others or found[2][:6]}")
                stops, frames, values = stops + len(mine), frames + found[0], values + found[1]
        print(f"| {name} | {options} | {linker[0]} | {len(row.runs)} | {stops} | {frames} | {values} |", flush=True)


def main():
    for tool, package in PACKAGES.items():
        if not shutil.which(tool):
            sys.exit(f"{tool} is missing: Debian's package {package} has it")
    asked = sys.argv[2] if len(sys.argv) > 2 else ""
    print("| program | options | linker | runs | stops in gdb | frames | values |\n|---|---|---|---|---|---|---|")
    for row in ROWS:
        for options in OPTIONS if asked in row.files[0] else []:
            with tempfile.TemporaryDirectory() as room:
                row_of(room, row, options)
    print(f"{passed} passed, {failed} failed")
    return failed > 0


if __name__ == "__main__":
    sys.exit(main())
