#!/usr/bin/env python3
"""C files that are refused, and what ./mirdwarf says of each: its line, its function, the cause and what helps; and C files that are read.

    bench/c_files.py [PROGRAM]

Each file is compiled by the flags of the README, or without those that its row names. Where what helps is such a flag, the file is compiled
again with it, and must be read then. Debian's packages: clang-19, llvm-19. The last line is 'N passed, M failed'."""
import os
import re
import subprocess
import sys
import tempfile

TOP = os.path.realpath(os.path.join(os.path.dirname(os.path.abspath(__file__)), ".."))
PROGRAM = os.path.abspath(sys.argv[1]) if sys.argv[1:] else os.path.join(TOP, "crates", "mirdwarf", "out", "mirdwarf")
CLANG = "clang-19 --target=riscv64 -march=rv64i -mabi=lp64 -mno-relax -O2 -g -fno-optimize-sibling-calls -fno-jump-tables -S -emit-llvm".split()
LLC = ("llc-19 -mtriple=riscv64 -mattr=-relax -stop-after=virtregrewriter,1 -experimental-debug-variable-locations=true "
       "-riscv-disable-using-constant-pool-for-large-ints").split()
TAILS, TABLES, POOL = "-fno-optimize-sibling-calls", "-fno-jump-tables", "-riscv-disable-using-constant-pool-for-large-ints"

# Of each refused file: what it shows, its text, the flag that is left out, the refusal, the cause, and what helps.
REFUSED = [
    ("a tail call", "long g(long);\nlong f(long a) { return g(a + 1); }", TAILS, "UnknownOpcode", "A tail call is read with --linked alone", TAILS),
    ("a struct's copy", "struct s { long a[40]; };\nvoid f(struct s *to, struct s *from) { *to = *from; }", TAILS, "UnknownOpcode",
     "A tail call is read with --linked alone", TAILS),
    ("a call by a pointer", "long f(long (*g)(long), long a) { return g(a) + 1; }", None, "UnknownOpcode", "by a pointer is read with --linked alone", "by its name"),
    ("a string", "long g(const char *);\nlong f(void) { return g(\"text\") + 1; }", None, "UnknownOpcode", "a string or a function is read with --linked",
     "as an argument"),
    ("a global variable", "long counter;\nlong f(void) { return ++counter; }", None, "BadOperands", "The address of a global variable", "as an argument"),
    ("a large constant", "long f(long a) { return a ^ 0x123456789abcdef1; }", POOL, "BadLine", "a constant pool is read with --linked", POOL),
    ("inline assembler", "long f(long a) { __asm__ volatile(\"nop\"); return a; }", None, "BadByte", "Inline assembler isn't read", "Call a function"),
    ("a trap", "long f(long a) { if (a) __builtin_trap(); return a; }", None, "UnknownOpcode", "A trap isn't read", "__builtin_trap()"),
    ("a ninth argument", "long f(long a, long b, long c, long d, long e, long g, long h, long i, long j) { return a + j; }", None, "StackObject",
     "A stack entry", "at most eight"),
    ("a call with nine", "long g(long, long, long, long, long, long, long, long, long);\nlong f(long a) { return g(a, 2, 3, 4, 5, 6, 7, 8, 9) + 1; }",
     None, "BadOperands", "a call has at most eight", "a struct"),
    ("variable arguments", "long f(long n, ...) { __builtin_va_list it; __builtin_va_start(it, n); long a = __builtin_va_arg(it, long); "
     "__builtin_va_end(it); return a + n; }", None, "StackObject", "A stack entry", "`...`"),
    ("an array of variable size", "void g(long *);\nlong f(long n) { long a[n]; g(a); return a[0]; }", None, "StackObject", "A stack entry",
     "arrays of variable size"),
    ("a large frame", "void g(long *);\nlong small(long a) { return a; }\nlong f(void) { long a[300]; g(a); return a[0]; }", None, "FrameTooLarge",
     "more than 2,032 bytes", "smaller"),
    ("a switch by a table", "long f(long a) { switch (a) { case 0: return 7; case 1: return 3; case 2: return 9; case 3: return 1; case 4: return 8; "
     "default: return 0; } }", TABLES, "", "", TABLES),
    ("a fence", "long f(long *a) { __atomic_thread_fence(__ATOMIC_SEQ_CST); return *a; }", None, "UnknownOpcode", "A fence or an atomic", "without atomics"),
]

# Of each file that is read: what it shows, and its text.
READ = [
    ("strings", "long length(const char *s) { long n = 0; while (s[n]) n++; return n; }\n"
     "void copy(char *to, const char *from) { while ((*to++ = *from++)); }"),
    ("structs", "struct point { long x, y; };\nlong area(const struct point *p, long n) { long sum = 0; for (long i = 0; i < n; i++) "
     "sum += p[i].x - p[i].y; return sum; }\nlong first(void) { struct point p = {1, 2}; return area(&p, 1) + p.x; }"),
    ("recursion", "long fib(long n) { return n < 2 ? n : fib(n - 1) + fib(n - 2); }"),
    ("a switch", "long f(long a) { switch (a) { case 1: return 7; case 10: return 3; case 200: return 9; default: return 0; } }"),
    ("products", "long f(long a, long b) { return a * b / 3 % 5; }"),
    ("floating point", "double f(double a, double b) { return a * b + 1.5; }"),
    ("a large constant", "long f(long a) { return a ^ 0x123456789abcdef1; }"),
    ("a tail call", "long g(long);\nlong f(long a) { return g(a + 1); }"),
]

passed = failed = 0


def check(what, holds, got):
    global passed, failed
    passed, failed = passed + bool(holds), failed + (not holds)
    if not holds:
        print(f"FAILED {what}:\n{got}")


def said_of(room, text, without):
    """What ./mirdwarf says of a C text that is compiled without a flag: status, standard error, and the file's lines."""
    file = os.path.join(room, "it")
    with open(f"{file}.c", "w", encoding="utf-8") as it:
        it.write(text + "\n")
    for words, ends in ((CLANG, (".c", ".ll")), (LLC, (".ll", ".mir"))):
        subprocess.run([*(it for it in words if it != without), file + ends[0], "-o", file + ends[1]], check=True)
    ran = subprocess.run([os.path.join(TOP, "mirdwarf"), "compile", "--passes=none", f"{file}.mir"], capture_output=True, text=True,
                         env={**os.environ, "MIRDWARF": PROGRAM})
    with open(f"{file}.mir", encoding="utf-8") as it:
        return ran.returncode, ran.stderr, it.read().splitlines()


def main():
    print("| file | compiled without | what is said |\n|---|---|---|")
    with tempfile.TemporaryDirectory() as room:
        for what, text, without, name, cause, helps in REFUSED:
            status, told, lines = said_of(room, text, without)
            place = re.search(r"it\.mir(?::(\d+))?: (\w+), in function f\n(?:    (.*)\n)?  (.*)\n  What helps: (.*)\.\n", told)
            holds = status == 1 and place and place[1] and name in place[2] and cause.lower() in place[4].lower() and helps.lower() in place[5].lower()
            if holds:
                holds = lines[int(place[1]) - 1].strip().startswith(place[3].removesuffix(" ..")[:100])
            check(what, holds, told)
            print(f"| {what} | {without or ''} | {place and f'line {place[1]}: {place[2]}: {place[4]} {place[5]}'} |")
            if without:
                status, told, _ = said_of(room, text, None)
                check(f"{what}, with {without}", status == 0, told)
        for what, text in READ:
            status, told, _ = said_of(room, text, None)
            check(what, status == 0 and not told, told)
            print(f"| {what} | | {'read' if status == 0 else told} |")
    print(f"{passed} passed, {failed} failed")
    return 1 if failed else 0


sys.exit(main())
