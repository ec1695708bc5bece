"""What llvm-dwarfdump (Debian's packages llvm, llvm-19) says of an object: its functions, their variables with the ranges in which each has a place, and lines."""
import os
import re
import shutil
import subprocess
import sys
from dataclasses import dataclass, field

TAG = re.compile(r"0x[0-9a-f]{8}:( *)(DW_TAG_\w+|NULL)$")
ATTRIBUTE = re.compile(r" +(DW_AT_\w+)\t\((.*)$")
RANGE = re.compile(r" +\[0x([0-9a-f]+), 0x([0-9a-f]+)\): (.*?)\)?$")
ROW = re.compile(r"^0x([0-9a-f]{16}) +(\d+) +\d+ +\d+ +\d+ +\d+ +(?:\d+ +)?(.*)$", re.M)


@dataclass
class Variable:
    """A variable or a parameter; each range has its ends and its location in words."""
    name: str
    ranges: list = field(default_factory=list)
    size: int = 0
    typed: bool = True

    def place_at(self, address):
        """Its location in words at an address, or None."""
        return next((place for low, high, place in self.ranges if low <= address < high), None)


@dataclass
class Function:
    name: str
    low: int
    high: int
    variables: list = field(default_factory=list)


def end_with(main):
    """Runs a script to its end, and ends quietly where nothing reads what it prints any more, as in `| head`."""
    try:
        try:
            status = main()
        finally:
            if sys.stdout:
                sys.stdout.flush()
    except BrokenPipeError:
        os.dup2(os.open(os.devnull, os.O_WRONLY), 1)
        # as the shell says it of a program that SIGPIPE ended
        status = 141
    sys.exit(status)


def took(words):
    """What is said of options that took the word behind them, where a word is missing or wrong."""
    return "".join(f"\n{option} took the word `{word}`" for option, word in words)


def writable(option, path):
    """Ends the script where an option names a file that can't be written."""
    room = os.path.dirname(path) or "."
    if os.path.isdir(path):
        sys.exit(f"{option} names {path}, which is a folder")
    if not os.path.isdir(room):
        sys.exit(f"{option} names {path}, and there is no folder {room}")
    if not os.access(path if os.path.exists(path) else room, os.W_OK):
        sys.exit(f"{option} names {path}, which can't be written")


def dwarfdump():
    """The program llvm-dwarfdump, or the script's end where it isn't there."""
    program = shutil.which("llvm-dwarfdump") or shutil.which("llvm-dwarfdump-19")
    if not program:
        sys.exit("llvm-dwarfdump is missing: Debian's packages llvm and llvm-19 have it")
    return program


def dumped(what, path):
    ran = subprocess.run([dwarfdump(), what, path], capture_output=True, text=True)
    if ran.returncode:
        sys.exit(f"llvm-dwarfdump: {ran.stderr.strip()}")
    return ran.stdout


def name_in(text):
    """The name in the words of an attribute."""
    found = re.search(r'"(.*)"', text)
    return found[1] if found else ""


def entries(text):
    """The entries of a dump: depth, tag, attributes, and the ranges of its location."""
    found = []
    for line in text.splitlines():
        if tag := TAG.match(line):
            found.append((len(tag[1]), tag[2], {}, []))
        elif attribute := ATTRIBUTE.match(line):
            found[-1][2][attribute[1]] = attribute[2].removesuffix(")")
            last = attribute[1]
        elif found and (place := RANGE.match(line)) and last == "DW_AT_location":
            found[-1][3].append((int(place[1], 16), int(place[2], 16), place[3]))
    return found


def functions(path):
    """The functions that have code, in the order of the unit."""
    found, inside, sizes = [], None, {}
    all_entries = entries(dumped("--debug-info", path))
    for _, tag, attributes, _ in all_entries:
        if tag == "DW_TAG_base_type":
            sizes[name_in(attributes.get("DW_AT_name", ""))] = int(attributes.get("DW_AT_byte_size", "0"), 16)
    for depth, tag, attributes, ranges in all_entries:
        if tag == "DW_TAG_subprogram":
            inside = None
            if "DW_AT_low_pc" in attributes:
                low = int(attributes["DW_AT_low_pc"], 16)
                high = int(attributes["DW_AT_high_pc"], 16)
                name = name_in(attributes.get("DW_AT_name", attributes.get("DW_AT_abstract_origin", "")))
                inside, at = Function(name, low, high), depth
                found.append(inside)
        elif tag in ("DW_TAG_variable", "DW_TAG_formal_parameter") and inside and depth > at:
            name = name_in(attributes.get("DW_AT_name", attributes.get("DW_AT_abstract_origin", "")))
            place = attributes.get("DW_AT_location", "")
            if not ranges and place.startswith("DW_OP"):
                ranges = [(inside.low, inside.high, place)]
            size = sizes.get(name_in(attributes.get("DW_AT_type", "")), 8)
            inside.variables.append(Variable(name, ranges, size, "DW_AT_type" in attributes))
        elif tag != "NULL" and inside and depth <= at:
            inside = None
    return found


def lines(path):
    """The spans of the line table: low, high, line."""
    spans, before = [], None
    for address, line, flags in ROW.findall(dumped("--debug-line", path)):
        address, line = int(address, 16), int(line)
        if before and before[0] < address:
            spans.append((before[0], address, before[1]))
        before = None if "end_sequence" in flags else (address, line)
    return spans


def known_bytes(place, size):
    """How many bytes of a variable of this size a location in words tells."""
    pieces, known, parts = re.split(r",? *DW_OP_piece 0x([0-9a-f]+),? *", place), 0, 0
    for expression, length in zip(pieces[::2], pieces[1::2]):
        parts += 1
        known += int(length, 16) if expression else 0
    return known if parts else size
