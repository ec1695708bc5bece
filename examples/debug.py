#!/usr/bin/env python3
"""Makes a program for a debugger of what `mirdwarf compile` writes, and shows it there.

  examples/debug.py [OPTION..] OUTPUT FUNCTION [ARGUMENT ..]

OUTPUT is a file with what `compile` wrote, FUNCTION one of its functions, and the ARGUMENTs its arguments, at most eight: a number, or @N, the
address of what the Nth --bytes or --longs puts into memory.

  --bytes TEXT       these bytes and a 0 behind them; \\n, \\t, \\0, \\\\ and \\xNN stand for one byte each
  --longs N,N,..     these numbers, eight bytes each
  --answers N,N,..   what calls of functions give that OUTPUT doesn't have, one each
  --backtrace WHERE  the frames, where the run first comes to WHERE, a function of OUTPUT or the number of a line, in place of the steps; OUTPUT has to
                     be of `compile --frame`, since gdb finds them by .debug_frame
  --source FILE.c    where the C source is; else it is looked for beside OUTPUT, here and beside this script
  --elf FILE         keeps the ELF file, for other tools, and for gdb by hand: `qemu-riscv64 -g 1234 FILE &`, then
                     `gdb-multiarch -ex 'set trust-readonly-sections on' -ex 'target remote :1234' FILE`

The sections go into an ELF file for 64-bit RISC-V as they are; beside them comes a start that calls the function and ends with its result. Where
a function of OUTPUT is called, the two words of the call get its distance, as a linker does it; a function with addresses of symbols, calls in tail
position or calls that don't return (`compile --linked`) isn't run. Then llvm-dwarfdump verifies the sections, and gdb
steps through the function on qemu's processor, line by line, and prints its variables: `-` is one without a place, `*` stands behind each that
differs from the stop before. The last line says the result if the function returned, else where it stopped and why. Of a frame it prints the CFA
(the stack pointer that the caller had at the call) and the return address; of the innermost one also the variables, and of each other one the
registers that what it called has to give back. No variable of an outer frame is printed: its list may name a register that the callee has changed.
Debian's packages: llvm-19 (or llvm), gdb-multiarch, qemu-user.
"""
import json
import os
import re
import shutil
import struct
import subprocess
import sys
import tempfile

sys.path.insert(0, os.path.join(os.path.dirname(os.path.abspath(__file__)), "..", "tools"))
import dwarf
import executable

# How many words gdb steps over at most, and how many seconds it takes at most.
STEPS, SECONDS = 2000, 120

TOOLS = {"gdb-multiarch": "gdb-multiarch", "qemu-riscv64": "qemu-user"}


def partly_known(file):
    """The ranges in which a variable has places for some of its bytes alone, or has no type: its name, which of this name its function has it is, the
    ends, and what is shown."""
    found = []
    for it in dwarf.functions(file):
        names = []
        for variable in it.variables:
            nth = names.count(variable.name)
            names.append(variable.name)
            for low, high, place in variable.ranges:
                known = dwarf.known_bytes(place, variable.size)
                if not variable.typed:
                    # gdb takes a local variable without a type for an int of four bytes
                    found.append((variable.name, nth, low, high, "(no type)"))
                elif known < variable.size:
                    found.append((variable.name, nth, low, high, f"({known} of {variable.size} bytes)"))
    return found


def has_debug_information(file):
    """Whether any function has a variable or a source line."""
    return any(it.variables for it in dwarf.functions(file)) or any(line for _, _, line in dwarf.lines(file))


# Steps through the function, and at each new line tells the address, the line, the file and the variables; or tells the frames at a place. What it was
# given stands in `it`.
SHOW = r"""
import gdb
for setting in ("pagination off", "confirm off", "style enabled off", "print repeats 0"):
    gdb.execute("set " + setting)
# qemu tells gdb nothing of address 0, where the first function is: so gdb reads code from the file
gdb.execute("set trust-readonly-sections on")
# what a function gives back as it was, but for x1 and x2 (RISC-V ELF psABI, "Integer Register Convention")
KEPT = ["x8", "x9", *("x%d" % n for n in range(18, 28))]


def tell(what, *values):
    print("@@" + json.dumps([what, *values]))


def pc():
    return int(gdb.parse_and_eval("(unsigned long)$pc"))


def run_to(place):
    gdb.execute("tbreak *%d" % place, to_string=True)
    gdb.execute("continue", to_string=True)


def shown(symbol, nth, frame, here):
    for name, which, low, high, text in it["partly"]:
        if name == symbol.name and which == nth and low <= here < high:
            # gdb would show what isn't known as 0
            return text
    try:
        value = symbol.value(frame)
        text = "-" if value.is_optimized_out else str(value)
        return {"<optimized out>": "-", "void": "(no type)"}.get(text, text)
    except gdb.error as error:
        return "<%s>" % error


def variables():
    frame, here = gdb.newest_frame(), pc()
    symbols = [s for s in frame.block() if s.is_variable or s.is_argument]
    return [(s.name, shown(s, [s.name for s in symbols[:n]].count(s.name), frame, here)) for n, s in enumerate(symbols)]


def go_on_to(places):
    # to a breakpoint at one of the places; absent functions give their answers on the way, and without one this tells where it ended
    for place in it["absent"].values():
        gdb.execute("break *%d" % place, to_string=True)
    while True:
        gdb.execute("continue", to_string=True)
        here = pc()
        if here in places:
            break
        name = next((name for name, place in it["absent"].items() if place == here), None)
        if name is None:
            return "at %x, in a call" % here
        if not it["answers"]:
            return "in a call of %s, which the output doesn't have; --answers gives what it returns" % name
        gdb.execute("set $a0 = %d" % it["answers"].pop(0))
    for breakpoint in gdb.breakpoints():
        breakpoint.delete()
    return None


def over_call(at):
    # behind a call, in this very frame: other calls of the function may come by there too
    stack = int(gdb.parse_and_eval("(unsigned long)$sp"))
    gdb.execute("tbreak *%d if (unsigned long)$sp == %d" % (at + 8, stack), to_string=True)
    return go_on_to([at + 8])


def number(frame, register):
    return int(frame.read_register(register)) & 2**64 - 1


def frames():
    # from the innermost one on, as far as the output has a function for it
    frame = gdb.newest_frame()
    level = 0
    while True:
        # behind a call may be another function already
        inside = frame.pc() - (level > 0)
        name = next((name for name, (low, high) in it["functions"].items() if low <= inside < high), None)
        if name is None:
            tell("outside", level, frame.pc())
            return
        outer = frame.older()
        if outer is None:
            tell("stopped", "at frame %d: %s" % (level, gdb.frame_stop_reason_string(frame.unwind_stop_reason())))
            return
        place = frame.find_sal()
        registers = [(register, number(frame, register)) for register in KEPT] if level else []
        tell("frame", level, name, frame.pc(), place.line, place.symtab.filename if place.symtab else None, [] if level else variables(),
             number(outer, "sp"), outer.pc(), registers)
        frame, level = outer, level + 1


def show_frames():
    run_to(it["low"])
    places = [*it["where"], it["back"]]
    for place in places:
        gdb.execute("break *%d" % place, to_string=True)
    why = None if it["low"] in it["where"] else go_on_to(places)
    if why:
        tell("stopped", why)
    elif pc() == it["back"]:
        tell("stopped", "behind the function's return; the run never came to %s" % it["backtrace"])
    else:
        frames()


def walk():
    run_to(it["low"])
    before = None
    for count in range(it["steps"]):
        here = pc()
        if here == it["back"]:
            tell("result", int(gdb.parse_and_eval("(long)$a0")))
            return
        if not it["low"] <= here < it["high"]:
            tell("stopped", "at %x, outside the function" % here)
            return
        place = gdb.selected_frame().find_sal()
        if place.line != before:
            before = place.line
            tell("stop", here, place.line, place.symtab.filename if place.symtab else None, variables())
        if here in it["calls"]:
            why = over_call(here)
            if why:
                tell("stopped", why)
                return
        else:
            gdb.execute("stepi", to_string=True)
    tell("stopped", "after %d steps, at line %s" % (it["steps"], before))


try:
    if it["where"]:
        show_frames()
    else:
        walk()
except gdb.error as error:
    try:
        tell("stopped", "at %x: %s" % (pc(), error))
    except gdb.error:
        tell("stopped", str(error))
try:
    gdb.execute("kill")
except gdb.error:
    pass
"""


def bytes_of(text):
    """The bytes that a text means, with a 0 behind them."""
    escapes = {"n": "\n", "t": "\t", "0": "\0", "\\": "\\"}
    spelled = re.sub(r"\\(x[0-9a-fA-F]{2}|[nt0\\])", lambda m: chr(int(m[1][1:], 16)) if m[1][0] == "x" else escapes[m[1]], text)
    return b"".join(bytes([ord(it)]) if ord(it) < 256 else it.encode() for it in spelled) + b"\0"


def number_of(word, what):
    try:
        value = int(word, 0)
    except ValueError:
        sys.exit(f"{what} `{word}` is no number")
    if not -2**63 <= value < 2**64:
        sys.exit(f"{what} {word} doesn't fit into 64 bits")
    return value


def read_words(words):
    """The options, the other words, and the options that took the word behind them, each with the word."""
    given, memory, rest, taken = {"answers": [], "backtrace": None}, [], [], []
    while words:
        word = words.pop(0)
        if word in ("-h", "--help"):
            print(__doc__)
            sys.exit(0)
        if not word.startswith("--"):
            rest.append(word)
            continue
        option, equals, value = word.partition("=")
        if option not in ("--bytes", "--longs", "--answers", "--backtrace", "--source", "--elf"):
            sys.exit(f"there is no option {option}; the options are --bytes, --longs, --answers, --backtrace, --source and --elf")
        if not equals:
            if not words:
                sys.exit(f"{option} wants a word behind it")
            value = words.pop(0)
            taken.append((option, value))
        if option == "--bytes":
            memory.append(bytes_of(value))
        elif option == "--longs":
            memory.append(b"".join(struct.pack("<Q", number_of(it, "the number") & 2**64 - 1) for it in value.split(",")))
        elif option == "--answers":
            given["answers"] = [number_of(it, "the answer") for it in value.split(",")]
        else:
            given[option[2:]] = value
    if given.get("source") and not os.path.isfile(given["source"]):
        sys.exit(f"there is no file {given['source']}, which --source names")
    if given.get("elf"):
        dwarf.writable("--elf", given["elf"])
        if os.path.exists(given["elf"]) and not os.path.isfile(given["elf"]):
            sys.exit(f"--elf names {given['elf']}, which is no plain file")
    return given, memory, rest, taken


def placed(memory):
    """The bytes of the memory, each part at a multiple of 16, and the parts' addresses."""
    content, places = b"", []
    for part in memory:
        content += bytes(-len(content) % 16)
        places.append(executable.MEMORY + len(content))
        content += part
    return content, places


def arguments(words, places):
    numbers = []
    for word in words:
        if word.startswith("@"):
            if not word[1:].isdigit() or not 1 <= int(word[1:]) <= len(places):
                sys.exit(f"{word} names no --bytes or --longs: there {'is one' if len(places) == 1 else f'are {len(places)}'}, counted from @1")
            numbers.append(places[int(word[1:]) - 1])
        else:
            numbers.append(number_of(word, "the argument"))
    if len(numbers) > 8:
        sys.exit(f"there are {len(numbers)} arguments, and registers for eight")
    return numbers


def source_of(name, given, beside):
    """The lines of the source, or none where it isn't found."""
    here = os.path.dirname(os.path.abspath(__file__))
    places = [given] if given else [name, *(os.path.join(it, os.path.basename(name)) for it in (beside, ".", here))]
    for place in places:
        if os.path.isfile(place):
            with open(place, encoding="utf-8", errors="replace") as it:
                return it.read().splitlines()
    return []


def show_frame(level, function, at, text, variables, cfa, back, registers):
    """Prints a frame: where it stands or which call it waits for, the variables of the innermost one, and what is to be found by .debug_frame."""
    print(f"#{level} {at:04x} {function}{', behind its call' if level else ''}, {text}")
    if not level:
        print("     " + " ".join(f"{name}={value}" for name, value in variables))
    print("     " + " ".join([f"CFA={cfa:x} return={back:04x}", *(f"{name}={value:x}" for name, value in registers)]))


def show(said, given, beside):
    """Prints what gdb told, and gives whether the function returned, or all frames were found."""
    sources, last = {}, {}

    def line_of(file, number):
        if file and file not in sources:
            sources[file] = source_of(file, given, beside)
        lines = sources.get(file, [])
        text = lines[number - 1].strip() if 0 < number <= len(lines) else ""
        return f"line {number}{': ' if text else ''}{text}"

    for line in said.splitlines():
        if not line.startswith("@@"):
            continue
        what, *values = json.loads(line[2:])
        if what == "stop":
            address, number, file, variables = values
            print(f"{address:04x} {line_of(file, number)}")
            # of a function's variables, by their order: several may have one name
            before = last.get(names := tuple(name for name, _ in variables), [value for _, value in variables])
            print("     " + " ".join(f"{name}={value}{'*' if value != was else ''}" for (name, value), was in zip(variables, before)))
            last[names] = [value for _, value in variables]
        elif what == "frame":
            level, function, at, number, file, *others = values
            show_frame(level, function, at, line_of(file, number), *others)
        elif what == "outside":
            print(f"#{values[0]} {values[1]:04x} the start, behind its call")
            if values[0] > 1:
                print("Variables of frames that wait for a call aren't shown: a list may name a register that the callee has changed.")
            return True
        elif what == "result":
            print(f"result {values[0]}")
            return True
        else:
            print(f"stopped {values[0]}")
            return False
    return None


def places_of(where, file, functions):
    """The addresses that `--backtrace` names: that of a function, or those of a line."""
    if where is None:
        return []
    if where in functions:
        return [functions[where][0]]
    places = [low for low, _, line in dwarf.lines(file) if where == str(line)]
    if not places:
        sys.exit(f"--backtrace names {where}, which is neither a function ({', '.join(functions)}) nor the number of a line with code")
    return places


def main():
    given, memory, words, taken = read_words(sys.argv[1:])
    if words and not os.path.isfile(words[0]):
        wrong = "is no plain file" if os.path.exists(words[0]) else "is wanted as OUTPUT, and there is no file of this name"
        sys.exit(f"{words[0]} {wrong}{dwarf.took(taken)}")
    if len(words) < 2:
        missing = "FUNCTION is missing" if words else "OUTPUT, a file of what `compile` wrote, and FUNCTION are missing"
        sys.exit(f"{missing}{dwarf.took(taken)}\n\n{__doc__}")
    for tool, package in TOOLS.items():
        if not shutil.which(tool):
            sys.exit(f"{tool} is missing: Debian's package {package} has it")
    dwarfdump = dwarf.dwarfdump()
    with open(words[0], encoding="utf-8", errors="replace") as it:
        text = it.read()
        try:
            sections, functions, calls = executable.output_of(text)
        except ValueError:
            sections = {}
    if ".text" not in sections:
        sys.exit(f"{words[0]} isn't what `compile` writes: it has no section .text")
    if words[1] not in functions:
        sys.exit(f"{words[0]} has no function {words[1]}; it has {', '.join(functions)}")
    if line := executable.left_open(text, functions, calls, words[1]):
        sys.exit(f"{words[1]} or what it calls has code that a linker completes, and this script fills in the distances of calls that return alone:\n  {line}")
    if len(sections[".text"]) > executable.START:
        sys.exit(f"the code has {len(sections['.text'])} bytes, and this script has room for {executable.START}")
    if given["backtrace"] and ".debug_frame" not in sections:
        sys.exit(f"{words[0]} has no section .debug_frame, by which frames are found: `compile --frame` writes it")
    content, places = placed(memory)
    numbers = arguments(words[2:], places)
    if absent := executable.absent(functions, calls):
        calling = sorted({name for name, (first, end) in functions.items() for at, to in calls if to in absent and first <= at < end})
        print(f"not in {words[0]}: {', '.join(absent)}, called by {', '.join(calling)}")
    made = executable.program_of(sections, functions, calls, words[1], numbers, content)
    with tempfile.TemporaryDirectory() as room:
        file = given.get("elf") or os.path.join(room, "program")
        with open(file, "wb") as it:
            it.write(made.content)
        os.chmod(file, 0o755)
        if not has_debug_information(file):
            sys.exit(f"{words[0]}: no function has debug information: compile the C file with clang -g")
        verified = subprocess.run([dwarfdump, "--verify", file], capture_output=True, text=True)
        print(f"llvm-dwarfdump --verify: {(verified.stdout.strip() or verified.stderr.strip()).splitlines()[-1]}")
        script = os.path.join(room, "show.py")
        low, high = functions[words[1]]
        asked = {"low": low, "high": high, "back": made.back, "steps": STEPS, "calls": [at for at, _ in calls], "absent": made.absent,
                 "answers": given["answers"], "partly": partly_known(file), "functions": functions, "backtrace": given["backtrace"],
                 "where": places_of(given["backtrace"], file, functions)}
        with open(script, "w", encoding="utf-8") as it:
            it.write(f"import json\nit = json.loads({json.dumps(asked)!r})\n{SHOW}")
        said, ended = executable.in_gdb(file, script, SECONDS)
        if "@@" not in said and ended:
            # gdb may fail on a busy machine before it is connected
            said, ended = executable.in_gdb(file, script, SECONDS)
        returned = show(said, given.get("source"), os.path.dirname(os.path.abspath(words[0])))
        if not ended:
            print(f"stopped after {SECONDS} seconds")
        elif returned is None:
            sys.exit(f"gdb said nothing of the function:\n{said}")
    return 0 if returned else 1


if __name__ == "__main__":
    dwarf.end_with(main)
