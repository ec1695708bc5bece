#!/usr/bin/env python3
"""Small C programs by tools/mirdwarf-cc, linked by both linkers and run on qemu: what they print, and what is told of functions that aren't ours.

    bench/programs.py [PROGRAM]

Each row of ROWS is a program of one or more files whose parts have to be put together rightly: names that are local to a file, tables that name functions,
weak ones, constructors, the parts that llc compiles. PROGRAM is crates/mirdwarf/out/mirdwarf where none is given. Debian's packages: those of
tools/mirdwarf-cc. The last line is 'N passed, M failed'."""
import os
import subprocess
import sys
import tempfile

TOP = os.path.realpath(os.path.join(os.path.dirname(os.path.abspath(__file__)), ".."))
COMPILER = os.path.join(TOP, "tools", "mirdwarf-cc")
PROGRAM = os.path.abspath(sys.argv[1]) if sys.argv[1:] else os.path.join(TOP, "crates", "mirdwarf", "out", "mirdwarf")
PRINTS = "#include <stdio.h>\n"
MAIN = PRINTS + "int f(int); int main(int n, char **w) { printf(\"%d\\n\", f(n)); return 0; }"
LOCAL = ("static int count = {0}; static int __attribute__((noinline)) add(int a) {{ return a + count; }} static int (*const each[])(int) = {{add, add}};\n"
         "int {1}(int n) {{ count += n; return each[n & 1](n); }}")

# Of each program: what it shows, its files, what it prints, and what is said of functions that aren't ours.
ROWS = [
    ("local names", [PRINTS + "int f(int); int g(int); int main(int n, char **w) { printf(\"%d %d\\n\", f(n), g(n)); return 0; }",
                     LOCAL.format(10, "f"), LOCAL.format(100, "g")], "12 102\n", ""),
    ("a weak function that is replaced", [MAIN, "__attribute__((weak)) int f(int n) { return 1; } int g(int n) { return f(n); }", "int f(int n) { return 2; }"],
     "2\n", ""),
    ("a weak name that nothing has", [MAIN, "__attribute__((weak)) int none(void); int f(int n) { return none ? none() : 7; }"], "7\n", ""),
    ("a constructor", [MAIN, "static int at; __attribute__((constructor)) static void first(void) { at = 5; } int f(int n) { return at + n; }"], "6\n", ""),
    ("floating point", [PRINTS + "#include <math.h>\nint main(int n, char **w) { printf(\"%.3f %d\\n\", sqrt(n + 1) / 3, (int)(n * 2.5)); return 0; }"],
     "0.471 2\n", ""),
    ("errno and files", [PRINTS + "#include <errno.h>\nint main(void) { FILE *it = fopen(\"nosuch\", \"r\"); printf(\"%d %d\\n\", !it, errno); return 3; }"],
     "1 2\n", ""),
    ("assembly in a function", [MAIN, "static int add(int n) { return n + 1; }\nint g(int n) { return add(n); }\n"
                                "int f(int n) { __asm__ volatile(\"addi %0, %0, 2\" : \"+r\"(n)); return g(n); }"], "4\n", "in f, so it is llc's"),
    ("labels' addresses", [MAIN, "int g(int n) { return n + 1; }\nint f(int n) { "
                           "static void *const to[] = {&&a, &&b}; goto *to[n & 1]; a: return 1; b: return g(8); }"],
     "9\n", "in f, so it is llc's"),
    ("a variable of a thread", [MAIN, "static _Thread_local int at = 4; int g(int n) { return n; }\nint f(int n) { at += n; return g(at); }"], "5\n",
     "in f, so it is llc's"),
    ("an alias", [MAIN, "int g(int n) { return n + 2; }\nint f(int) __attribute__((alias(\"g\")));"], "3\n", "an alias, so the file is llc's"),
    ("data alone", [MAIN, "const int table[] = {1, 2, 3};", "extern const int table[]; int f(int n) { return table[n]; }"], "2\n", ""),
]

passed = failed = 0


def check(what, holds, got):
    global passed, failed
    passed, failed = passed + bool(holds), failed + (not holds)
    if not holds:
        print(f"FAILED {what}: {got}")


def run(words, room):
    ran = subprocess.run(words, cwd=room, capture_output=True, text=True, env={**os.environ, "MIRDWARF": PROGRAM})
    return ran.returncode, ran.stdout, ran.stderr


def main():
    with tempfile.TemporaryDirectory() as room:
        for what, files, printed, told in ROWS:
            said, objects = "", []
            for number, text in enumerate(files):
                with open(os.path.join(room, f"{number}.c"), "w", encoding="utf-8") as it:
                    it.write(text + "\n")
                status, _, more = run([COMPILER, "-c", f"{number}.c", "-o", f"{number}.o"], room)
                said, objects = said + more, [*objects, f"{number}.o"]
            check(what, told in said if told else not said, said)
            for word in ("-fuse-ld=lld", "-fuse-ld=bfd"):
                status, _, more = run([COMPILER, word, *objects, "-lm", "-o", "program"], room)
                check(f"{what}, {word}", status == 0, more)
                status, out, more = run(["qemu-riscv64", "program"], room)
                check(f"{what}, {word}, run", out == printed, f"status {status}, {out}{more}")
            print(f"{what}: {said.strip() or 'all ours'}", flush=True)
    print(f"{passed} passed, {failed} failed")
    return 1 if failed else 0


sys.exit(main())
