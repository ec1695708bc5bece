#!/usr/bin/env python3
"""Compares the program's code with `llc`'s on functions with large local arrays: what they return, and all memory that they show to calls.

  bench/objects.py [NUMBER [SEED [OPTION..]]]

So many random C functions (300) with local arrays of together 1,500 to 2,030 bytes, from which on llc's LocalStackSlotAllocation places stack
objects and lets code go from one to another. Each is compiled to MIR once, and from there by crates/mirdwarf/out/mirdwarf `compile` with
the options (--passes=none where there are none) and by llc; both run under qemu on the same arguments. Each function that differs is
named with its seed and kept in the folder that is told, and the last line counts all. Debian's packages: clang-19, llvm-19, lld-19, qemu-user."""
import os
import random
import re
import subprocess
import sys
import tempfile

TOP = os.path.realpath(os.path.join(os.path.dirname(os.path.abspath(__file__)), ".."))
PROGRAM = os.path.join(TOP, "crates/mirdwarf/out/mirdwarf")
TARGET = ["--target=riscv64", "-march=rv64i", "-mabi=lp64", "-mno-relax"]
MACHINE = ["-mtriple=riscv64", "-mattr=-relax"]
PLAIN = ["-fno-vectorize", "-fno-builtin", "-fno-optimize-sibling-calls", "-fno-jump-tables"]
TYPES = [("char", 1), ("short", 2), ("int", 4), ("long", 8)]
ARGUMENTS = [(0, 0), (1, 2), (5, 3), (7, -1), (-9, 4), (12, 15)]

# What the functions call, and what runs them: `show` writes the bytes that it is shown.
RUNTIME = """
long f(long, long);
static long call(long n, long a, long b, long c) {
  register long x17 asm("a7") = n, x10 asm("a0") = a, x11 asm("a1") = b, x12 asm("a2") = c;
  asm volatile("ecall" : "+r"(x10) : "r"(x17), "r"(x11), "r"(x12) : "memory");
  return x10;
}
static void put(unsigned long n, int digits) {
  char text[17];
  for (int i = 0; i < digits; i++) text[digits - 1 - i] = "0123456789abcdef"[n >> 4 * i & 15];
  text[digits] = '\\n';
  call(64, 1, (long)text, digits + 1);
}
long show(volatile unsigned char *bytes, long count) {
  long sum = count;
  for (long i = 0; i < count; i++) { put(bytes[i], 2); sum = (sum << 1) + bytes[i]; }
  return sum;
}
void *memset(void *to, int byte, unsigned long count) {
  for (unsigned long i = 0; i < count; i++) ((volatile char *)to)[i] = byte;
  return to;
}
void *memcpy(void *to, const void *from, unsigned long count) {
  for (unsigned long i = 0; i < count; i++) ((volatile char *)to)[i] = ((const char *)from)[i];
  return to;
}
long __muldi3(long a, long b) {
  unsigned long sum = 0;
  for (unsigned long x = a, y = b; y; x <<= 1, y >>= 1) if (y & 1) sum += x;
  return sum;
}
void _start(void) {
  static const long arguments[][2] = {%s};
  for (unsigned long i = 0; i < sizeof arguments / sizeof *arguments; i++) put(f(arguments[i][0], arguments[i][1]), 16);
  call(93, 0, 0, 0);
}
""" % ", ".join("{%d, %d}" % pair for pair in ARGUMENTS)


def run(*words, text=None):
    ran = subprocess.run(words, capture_output=True, text=True, input=text)
    if ran.returncode:
        raise ValueError("%s: %s" % (words[0], (ran.stderr or ran.stdout)[-500:]))
    return ran.stdout


class Source:
    """A random function: arrays and scalars, all written first, then statements on them, then what they hold."""

    def __init__(self, seed):
        self.r = random.Random(seed)
        self.arrays, left = [], self.r.randrange(1500, 2031)
        while left > 0:
            kind, size = self.r.choice(TYPES)
            count = max(1, min(left // size, self.r.choice([1, 2, 3, 7, 16, 40, 100, 200, 250])))
            if left < size:
                break
            self.arrays.append(("a%d" % len(self.arrays), kind, count))
            left -= count * size
        self.scalars = ["b%d" % n for n in range(self.r.randrange(0, 4))]

    def index(self, count):
        return str(self.r.randrange(count)) if self.r.random() < 0.6 else "(unsigned long)(%s) %% %d" % (self.value(), 1 << count.bit_length() - 1)

    def place(self):
        if self.scalars and self.r.random() < 0.3:
            return self.r.choice(self.scalars)
        name, _, count = self.r.choice(self.arrays)
        return "%s[%s]" % (name, self.index(count))

    def value(self):
        r = self.r
        return r.choice(["n", "m", str(r.randrange(-99, 100)), "n + m", "n - %d" % r.randrange(9), "(m ^ %d)" % r.randrange(64)])

    def statement(self, depth):
        r, what = self.r, self.r.random()
        if what < 0.55 or depth > 1 and what < 0.85:
            return "%s %s %s;" % (self.place(), r.choice(["=", "+=", "-=", "^="]), r.choice([self.value(), self.place()]))
        if what < 0.7:
            name, _, count = r.choice(self.arrays)
            return "n += show((volatile unsigned char *)%s, sizeof %s);" % (name, name)
        if what < 0.85:
            return "if (%s < %s) { %s }" % (self.value(), self.place(), self.statement(depth + 1))
        name, _, count = r.choice(self.arrays)
        return "for (long i = 0; i < %d; i++) { %s[i] += %s; %s }" % (min(count, 9), name, self.value(), self.statement(depth + 2))

    def text(self):
        r = self.r
        declared = ["%s%s %s[%d];" % (r.choice(["", "volatile "]), kind, name, count) for name, kind, count in self.arrays]
        declared += ["%slong %s;" % (r.choice(["", "volatile "]), name) for name in self.scalars]
        r.shuffle(declared)
        first = ["for (long i = 0; i < %d; i++) %s[i] = i + %s;" % (count, name, self.value()) for name, _, count in self.arrays]
        first += ["%s = %s;" % (name, self.value()) for name in self.scalars]
        body = [self.statement(0) for _ in range(r.randrange(3, 14))]
        last = ["show((volatile unsigned char *)%s, sizeof %s);" % (name, name) for name, _, _ in self.arrays if r.random() < 0.5]
        sums = [self.place() for _ in range(5)]
        lines = declared + first + body + last + ["return n + %s;" % " + ".join(sums)]
        return "long show(volatile unsigned char *, long);\nlong f(long n, long m) {\n  " + "\n  ".join(lines) + "\n}\n"


def assembled(output):
    """The program's code as assembly: its words, but calls by name."""
    code = bytes.fromhex("".join(re.match(r"section \.text \d+\n((?:[0-9a-f]+\n)*)", output)[1].split()))
    calls = {int(at, 16): name for at, name in re.findall(r"^([0-9a-f]{8}) [=<]\S+ PseudoCALL @(\w+)", output, re.M)}
    lines, at = [".globl f", "f:"], 0
    while at < len(code):
        if at in calls:
            lines.append("call %s" % calls[at])
            at += 8
        else:
            lines.append(".word 0x%08x" % int.from_bytes(code[at:at + 4], "little"))
            at += 4
    return "\n".join(lines) + "\n"


def outcome(room, name):
    """What the program writes that is linked from this object."""
    linked = os.path.join(room, name)
    run("ld.lld-19", os.path.join(room, name + ".o"), os.path.join(room, "runtime.o"), "-o", linked)
    return run("qemu-riscv64", linked)


def differs(room, seed, options):
    """Whether the two codes of a function write otherwise; None where the program refuses it."""
    at = lambda name: os.path.join(room, name)
    with open(at("f.c"), "w", encoding="utf-8") as it:
        it.write(Source(seed).text())
    run("clang-19", *TARGET, "-O%d" % (1 + seed % 2), *PLAIN, "-S", "-emit-llvm", at("f.c"), "-o", at("f.ll"))
    run("llc-19", *MACHINE, "-stop-after=virtregrewriter,1", "-riscv-disable-using-constant-pool-for-large-ints", at("f.ll"), "-o", at("f.mir"))
    run("llc-19", *MACHINE, "-start-after=virtregrewriter,1", "-filetype=obj", at("f.mir"), "-o", at("theirs.o"))
    with open(at("f.mir"), encoding="utf-8") as it:
        text = it.read()
    ran = subprocess.run([PROGRAM, "compile", *options], input=text, capture_output=True, text=True)
    if ran.returncode:
        return None, "local-offset" in text
    with open(at("ours.s"), "w", encoding="utf-8") as it:
        it.write(assembled(ran.stdout))
    run("clang-19", *TARGET, "-c", at("ours.s"), "-o", at("ours.o"))
    return outcome(room, "ours") != outcome(room, "theirs"), text.count("local-offset") > 1


def main():
    number, seed = [int(word) for word in (sys.argv[1:3] + ["300", "0"][len(sys.argv[1:3]):])]
    options = sys.argv[3:] or ["--passes=none"]
    room = tempfile.mkdtemp()
    with open(os.path.join(room, "runtime.c"), "w", encoding="utf-8") as it:
        it.write(RUNTIME)
    run("clang-19", *TARGET, "-O1", "-ffreestanding", "-fno-builtin", "-c", os.path.join(room, "runtime.c"), "-o", os.path.join(room, "runtime.o"))
    same, other, refused, placed = 0, 0, 0, 0
    while same + other < number:
        found, is_placed = differs(room, seed, options)
        if found is None:
            refused += 1
        else:
            same, other, placed = same + (not found), other + found, placed + is_placed
        if found:
            print("seed %d differs" % seed, flush=True)
            os.rename(os.path.join(room, "f.c"), os.path.join(room, "%d.c" % seed))
        seed += 1
        if refused > 20 * (number + same + other):
            break
    print("in %s: %d same, %d other, %d refused; %d placed by llc" % (room, same, other, refused, placed))
    return other != 0


if __name__ == "__main__":
    sys.exit(main())
