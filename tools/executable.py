"""Makes a program for qemu-riscv64 (Debian's package qemu-user) of what `mirdwarf compile` writes, and has gdb look at it."""
import re
import socket
import struct
import subprocess
from dataclasses import dataclass

# Where the start stands: behind the most that `.text` may have here; and the memory that arguments point to.
START, MEMORY = 0x100000, 0x200000


def output_of(text):
    """The sections, the functions with their addresses, and the calls: the address and the name of each."""
    sections, functions, calls, name = {}, {}, [], None
    for line in text.splitlines():
        words = line.split(" ")
        if words[0] == "section" and len(words) == 3:
            name = words[1]
            sections[name] = b""
        elif words[0] == "function" and len(words) == 4:
            name = None
            functions[words[1]] = (int(words[2], 16), int(words[3], 16))
        elif name is not None:
            sections[name] += bytes.fromhex(line)
        else:
            called = re.match(r"([0-9a-f]{8}) \S+ PseudoCALL @([^, ]+)", line)
            if called:
                calls.append((int(called[1], 16), called[2]))
    return sections, functions, calls


def left_open(text, functions, calls, name):
    """The first line of a function, or of those that it calls, that needs more of a linker than the distance of a call that returns: a half of an address,
    a call in tail position or one that doesn't return; or None."""
    reached, waiting = {}, [name]
    while waiting:
        one = waiting.pop()
        if one in functions and one not in reached:
            low, high = reached[one] = functions[one]
            waiting += [to for at, to in calls if low <= at < high]
    for line in text.splitlines():
        found = re.match(r"([0-9a-f]{8}) \S+ (noreturn |PseudoTAIL |.*target-flags\(riscv-)", line)
        if found and any(low <= int(found[1], 16) < high for low, high in reached.values()):
            return line
    return None


def addi(rd, rs, n):
    return (n & 0xFFF) << 20 | rs << 15 | rd << 7 | 0x13


def constant(rd, value):
    """Words that put a number into a register: its lowest 64 bits, eleven at a time (RISC-V Unprivileged ISA, RV64I)."""
    value &= 2**64 - 1
    words = [addi(rd, 0, value >> 55)]
    for shift in (44, 33, 22, 11, 0):
        words += [11 << 20 | rd << 15 | 1 << 12 | rd << 7 | 0x13, addi(rd, rd, value >> shift & 0x7FF)]
    return words


def call(distance):
    """The two words of a call over a distance: AUIPC x1 and JALR x1."""
    high = (distance + 0x800) >> 12
    return [(high & 0xFFFFF) << 12 | 0x97, (distance - (high << 12) & 0xFFF) << 20 | 0xE7 | 1 << 15]


def start_of(entry, numbers, absent):
    """The code that calls a function with arguments and ends with its result, and behind it a word for each absent function that returns at
    once; with the address that the function returns to, and those of the absent ones."""
    words = [word for n, number in enumerate(numbers) for word in constant(10 + n, number)]
    words += call(entry - START - 4 * len(words))
    back = START + 4 * len(words)
    words += [addi(17, 0, 93), 0x73]
    others = {name: START + 4 * (len(words) + n) for n, name in enumerate(absent)}
    return [*words, *(0x8067 for _ in absent)], back, others


def linked(text, functions, calls, others):
    """The bytes of `.text` with its calls."""
    text = bytearray(text)
    for at, name in calls:
        to = functions[name][0] if name in functions else others[name]
        text[at:at + 8] = struct.pack("<II", *call(to - at))
    return bytes(text)


def elf(sections, functions, start=b"", memory=b"", others=None):
    """An ELF file (System V ABI): `.text` at address 0, the start and the memory behind it, and the sections for the debugger. `others` are the
    functions of the start, with their addresses."""
    names, symbols, strings = b"\0", [bytes(24)], b"\0"
    for section, its in ((1, functions), (2, others or {})):
        for name, (low, high) in its.items():
            symbols.append(struct.pack("<IBBHQQ", len(strings), 0x12, 0, section, low, high - low))
            strings += name.encode() + b"\0"
    loaded = [(".text", 6, 0, sections[".text"]), (".start", 6, START, start), *([(".data", 3, MEMORY, memory)] if memory else [])]
    parts = [(n, 1, flags, at, body, 0, 0, 4, 0) for n, flags, at, body in loaded]
    parts += [(n, 1, 0, 0, body, 0, 0, 1, 0) for n, body in sections.items() if n != ".text"]
    parts += [(".symtab", 2, 0, 0, b"".join(symbols), len(parts) + 2, 1, 8, 24), (".strtab", 3, 0, 0, strings, 0, 0, 1, 0)]
    parts.append((".shstrtab", 3, 0, 0, None, 0, 0, 1, 0))
    content, header, loads = b"", [bytes(64)], []
    first = 64 + 56 * len(loaded)
    for name, kind, flags, address, body, link, info, align, size in parts:
        at = len(names)
        names += name.encode() + b"\0"
        body = names if body is None else body
        if flags:
            # a loaded part stands in the file at a place that is like its address, page by page
            content += bytes((address - first - len(content)) % 4096)
            loads.append(struct.pack("<IIQQQQQQ", 1, 5 if flags & 4 else 6, first + len(content), address, address, len(body), len(body), 4096))
        else:
            content += bytes(-(first + len(content)) % align)
        header.append(struct.pack("<IIQQQQIIQQ", at, kind, flags, address, first + len(content), len(body), link, info, align, size))
        content += body
    content += bytes(-(first + len(content)) % 8)
    identity = b"\x7fELF" + bytes([2, 1, 1]) + bytes(9)
    top = struct.pack("<16sHHIQQQIHHHHHH", identity, 2, 243, 1, START, 64, first + len(content), 0, 64, 56, len(loads), 64, len(header), len(header) - 1)
    return top + b"".join(loads) + content + b"".join(header)


@dataclass
class Program:
    """An ELF file that calls a function: its bytes, the address behind the call, and the addresses of the functions that the output doesn't have."""
    content: bytes
    back: int
    absent: dict


def absent(functions, calls):
    """The names of the called functions that the output doesn't have."""
    return sorted({name for _, name in calls if name not in functions})


def program_of(sections, functions, calls, name, numbers, memory):
    """The program that calls a function with numbers as arguments and ends with its result, with bytes of memory for them."""
    start, back, others = start_of(functions[name][0], numbers, absent(functions, calls))
    text = linked(sections[".text"], functions, calls, others)
    # a debugger tells frames apart by the addresses of their functions, so the start has to be one
    parts = {"_start": (START, back + 8), **{name: (at, at + 4) for name, at in others.items()}}
    return Program(elf({**sections, ".text": text}, functions, struct.pack("<%dI" % len(start), *start), memory, parts), back, others)


def free_port():
    with socket.socket() as it:
        it.bind(("127.0.0.1", 0))
        return it.getsockname()[1]


def debugged(file, debugger, seconds, words=()):
    """What a debugger says of a program on qemu's processor, and whether it ended in time; `debugger` gives its words for a port of this machine, and
    `words` are those of the program. What the program prints is lost."""
    port = free_port()
    machine = subprocess.Popen(["qemu-riscv64", "-g", str(port), file, *words], stdout=subprocess.DEVNULL, stderr=subprocess.DEVNULL)
    try:
        ran = subprocess.run(debugger(port), capture_output=True, text=True, timeout=seconds)
        return ran.stdout + ran.stderr, True
    except subprocess.TimeoutExpired as late:
        return (late.stdout or b"").decode(errors="replace"), False
    finally:
        machine.kill()
        machine.wait()


def in_gdb(file, script, seconds, words=()):
    """What gdb says that runs a script on a program with these words, and whether it ended in time."""
    def gdb(port):
        target = ["-ex", "set tcp connect-timeout 60", "-ex", f"target remote 127.0.0.1:{port}"]
        return ["gdb-multiarch", "-nx", "-batch", *target, "-x", script, file]
    return debugged(file, gdb, seconds, words)
