#!/usr/bin/env python3
"""Builds real C programs by tools/mirdwarf-cc, links them by both linkers and runs their tests on qemu: Lua, zlib and bzip2, by Debian's source packages.

    bench/real.py [--write] [--count] FOLDER [PROGRAM [NAME..]]

FOLDER is where sources are fetched to and built: `apt-get source --download-only` brings lua5.4, zlib and bzip2 where they are missing (a line `deb-src` in
apt's list is needed). Each program is built by its own Makefile with CC=tools/mirdwarf-cc, in FOLDER/mirdwarf, then linked by ld.lld and by GNU ld, and its
tests are run: those of zlib and bzip2 are their Makefiles', and Lua, whose source has none, has to print for bench/real.lua what the build by clang in
FOLDER/clang prints. The tables of docs/REAL.md are printed, with --write put there and drawn in docs/real.svg. A function is ours where mirdwarf wrote its
code; the others are told by name. A program that is built already isn't built again.

With --count it counts by valgrind's callgrind the instructions that mirdwarf and llc execute for the same files behind register allocation, those that are
wholly ours, two runs at a time. PROGRAM is crates/mirdwarf/out/mirdwarf where none is given, and NAMEs are those of PROGRAMS, all where none is given.
Debian's packages: those of tools/mirdwarf-cc, dpkg-dev, make, valgrind."""
import collections
import concurrent.futures
import glob
import os
import re
import shutil
import subprocess
import sys
import time

sys.dont_write_bytecode = True
import real_picture

TOP = real_picture.TOP
PAGE, COMPILER = real_picture.PAGE, os.path.join(TOP, "tools", "mirdwarf-cc")
CLANG, KEEPING = f"{COMPILER} --clang", f"{COMPILER} -save-temps"
OBJECT = "object --linkable --linked --frame".split()
LLC = "llc-19 -x=mir -O2 -mtriple=riscv64 -start-after=virtregrewriter,1 -filetype=obj".split()
QEMU = "qemu-riscv64 ./"
# Of each program: its package, the folder of its Makefile, what comes before make, make's words, the programs that are linked, and the tests: commands
# that end with 0.
PROGRAMS = {
    "bzip2": ("bzip2", "bzip2-*", None, ["bzip2", "bzip2recover", "AR=llvm-ar-19"], ["bzip2", "bzip2recover"],
              [f"{QEMU}bzip2 -{n} < sample{n}.ref | cmp - sample{n}.bz2" for n in (1, 2, 3)] +
              [f"{QEMU}bzip2 -d{'s' if n == 3 else ''} < sample{n}.bz2 | cmp - sample{n}.ref" for n in (1, 2, 3)]),
    "zlib": ("zlib", "zlib-*", ["./configure", "--static"], ["static", "infcover", "AR=llvm-ar-19"], ["example", "minigzip", "infcover"],
             [f"{QEMU}example tested", f"{QEMU}minigzip < zlib.h | {QEMU}minigzip -d | cmp - zlib.h", f"{QEMU}infcover"]),
    "Lua": ("lua5.4", "lua-*/src", None, ["generic", "AR=llvm-ar-19 rcu"], ["lua", "luac"],
            [f"{QEMU}lua {TOP}/bench/real.lua > printed && cmp printed {{clang}}/printed",
             f"{QEMU}luac -o out {TOP}/bench/real.lua && {QEMU}lua out | cmp - printed"]),
}
LINKERS = {"ld.lld": "", "GNU ld": " -fuse-ld=bfd"}
TOLD = re.compile(r"^mirdwarf-cc: (\S+): (.*?)(?: in (\S+))?, so (?:it|the file) is llc's$", re.M)


def fetch(room):
    """The sources, where they aren't there yet."""
    os.makedirs(os.path.join(room, "sources"), exist_ok=True)
    for package, files, *_ in PROGRAMS.values():
        if not glob.glob(os.path.join(room, "sources", files)):
            for words in (["apt-get", "source", "--download-only", package], ["sh", "-c", f"for it in {package}_*.orig.tar.*; do tar xf $it; done"]):
                ran = subprocess.run(words, cwd=os.path.join(room, "sources"), capture_output=True, text=True)
                if ran.returncode:
                    sys.exit(f"{' '.join(words)}: {ran.stderr[-500:]}")


def shell(folder, command, program):
    """Runs a command, with the program that mirdwarf-cc calls."""
    words = command if isinstance(command, list) else ["bash", "-o", "pipefail", "-c", command]
    return subprocess.run(words, cwd=folder, capture_output=True, text=True, errors="replace", env={**os.environ, "MIRDWARF": program, "CC": COMPILER})


def built(room, kind, title, program, compiler):
    """The folder of a program that is built so, and what was said."""
    _, files, before, words, _, _ = PROGRAMS[title]
    source = glob.glob(os.path.join(room, "sources", files))[0]
    top = os.path.join(room, kind, os.path.relpath(source, os.path.join(room, "sources")).split(os.sep)[0])
    folder, log = os.path.join(room, kind, os.path.relpath(source, os.path.join(room, "sources"))), f"{top}.log"
    if not os.path.exists(log):
        shutil.rmtree(top, ignore_errors=True)
        shutil.copytree(os.path.join(room, "sources", os.path.basename(top)), top)
        if before:
            shell(folder, before, program)
        ran = shell(folder, ["make", f"CC={compiler}", "RANLIB=llvm-ranlib-19", *words], program)
        if ran.returncode:
            sys.exit(f"{kind}, {title}: make: {ran.stderr[-2000:]}")
        with open(log, "w", encoding="utf-8") as it:
            it.write(ran.stderr)
    with open(log, encoding="utf-8") as it:
        return folder, it.read()


def tested(folder, clang, title, program, compiler):
    """How many of a program's tests pass, linked by each linker, and what failed."""
    *_, words, programs, tests = PROGRAMS[title]
    results, faults = [], []
    for linker, word in LINKERS.items():
        for name in programs:
            if os.path.exists(os.path.join(folder, name)):
                os.remove(os.path.join(folder, name))
        ran = shell(folder, ["make", f"CC={compiler}{word}", "RANLIB=llvm-ranlib-19", *words], program)
        faults += [f"{title}, {linker}: make: {ran.stderr[-300:]}"] if ran.returncode else []
        good = 0
        for command in tests:
            ran = shell(folder, command.replace("{clang}", clang), program)
            good += ran.returncode == 0
            faults += [f"{title}, {linker}: {command}: status {ran.returncode} {ran.stderr[-200:]}"] if ran.returncode else []
        results.append(f"{good} of {len(tests)}")
    return results, faults


def functions(path):
    """The names of an object's functions."""
    ran = subprocess.run(["llvm-nm-19", "--defined-only", path], capture_output=True, text=True)
    return [it[2] for it in map(str.split, ran.stdout.splitlines()) if it[1] in "tTWw" and not it[2].startswith(".L")]


def refusals(said):
    """What was refused of each file, by the end of its object's name: functions, None for the whole file, with why."""
    found = collections.defaultdict(dict)
    for source, why, name in TOLD.findall(said):
        found[os.path.splitext(os.path.basename(source))[0]][name or None] = why
    return found


def row(folder, said):
    """The counts of a program: files, those wholly ours, functions, ours; and its refusals with the names of functions."""
    refused, counts, left = refusals(said), [0, 0, 0, 0], collections.defaultdict(list)
    for path in sorted(glob.glob(os.path.join(folder, "*.o"))):
        stem, names = os.path.splitext(os.path.basename(path))[0], functions(path)
        if not names:
            continue
        whole, why = refused[stem], refused[stem].get(None)
        lost = names if why else [it for it in names if it in whole]
        for name in lost:
            left[whole.get(name, why)].append(name)
        counts = [a + b for a, b in zip(counts, (1, not lost, len(names), len(names) - len(lost)))]
    return counts, left


def versions():
    """The tools' versions."""
    asked = {"clang-19": r"version ([\d.]+)", "llc-19": r"version ([\d.]+)", "ld.lld-19": r"LLD ([\d.]+)", "riscv64-linux-gnu-ld": r"(\d+\.\d+)$",
             "qemu-riscv64": r"version ([\d.]+)"}
    found = []
    for tool, shows in asked.items():
        ran = subprocess.run([tool, "--version"], capture_output=True, text=True)
        found.append(f"{tool} {re.search(shows, ran.stdout.strip(), re.M)[1]}")
    return ", ".join(found)


def counted(words, file):
    """The instructions that a run executes. Of a stack object that is several variables only the first one is given: llc can't read more again."""
    with open(file, encoding="utf-8", errors="surrogateescape") as it:
        text = re.sub(r"(debug-info-\w+: '!(?:\d+|\w+\(.*?\)))!.*?'", r"\1'", it.read()).encode(errors="surrogateescape")
    ran = subprocess.run(["valgrind", "--tool=callgrind", f"--callgrind-out-file={os.devnull}", *words], input=text, capture_output=True)
    return int(re.search(rb"Collected : (\d+)", ran.stderr)[1]) if ran.returncode == 0 else None


def instructions(room, program, titles):
    """A table of what mirdwarf and llc execute for the files of each program that are wholly ours; rows of other programs stay."""
    lines = [f"On {time.strftime('%Y-%m-%d')}:", "", "| program | files | bytes | mirdwarf | `llc` | ratio |", "|---|---|---|---|---|---|"]
    before = {row["program"]: "| " + " | ".join(row.values()) + " |" for rows in real_picture.tables("instructions") for row in rows}
    for title in PROGRAMS:
        if title not in titles:
            lines += [before[title]] if title in before else []
            continue
        folder, said = built(room, "mirdwarf", title, program, KEEPING)
        refused, files = refusals(said), sorted(glob.glob(os.path.join(folder, "*.mir")))
        files = [it for it in files if os.path.splitext(os.path.basename(it))[0] not in refused and functions(it[:-3] + "o")]
        with concurrent.futures.ThreadPoolExecutor(2) as pool:
            ours = pool.map(lambda it: counted([program, *OBJECT], it), files)
            theirs = pool.map(lambda it: counted([*LLC, "-o", os.devnull], it), files)
            both = [(os.path.getsize(file), a, b) for file, a, b in zip(files, ours, theirs) if a and b]
        size, ours, theirs = map(sum, zip(*both))
        lines.append(f"| {title} | {len(both)} | {size:,} | {ours:,} | {theirs:,} | {ours / theirs:.3f} |")
        print(lines[-1], file=sys.stderr, flush=True)
    return lines


def put(mark, lines, write):
    """Prints a part of the page, or puts it between its mark and the next end."""
    text = "\n".join(lines) + "\n"
    if not write:
        print(text)
        return
    with open(PAGE, encoding="utf-8") as it:
        page = it.read()
    page = re.sub(rf"(<!-- {mark} -->\n).*?(<!-- end -->\n)", lambda found: found[1] + text + found[2], page, flags=re.S)
    with open(PAGE, "w", encoding="utf-8") as it:
        it.write(page)
    real_picture.main()


def main():
    given = [it for it in sys.argv[1:] if not it.startswith("--")]
    if not given:
        sys.exit(__doc__)
    room, write = os.path.abspath(given[0]), "--write" in sys.argv
    program = os.path.abspath(given[1]) if given[1:] else os.path.join(TOP, "crates", "mirdwarf", "out", "mirdwarf")
    titles = given[2:] or list(PROGRAMS)
    fetch(room)
    if "--count" in sys.argv:
        put("instructions", instructions(room, program, titles), write)
        return 0
    lines, left, wrong = [], collections.defaultdict(list), []
    for title in titles:
        clang, faults = "", []
        if any("{clang}" in it for it in PROGRAMS[title][-1]):
            clang = built(room, "clang", title, program, CLANG)[0]
            faults = tested(clang, clang, title, program, CLANG)[1]
        folder, said = built(room, "mirdwarf", title, program, KEEPING)
        results, more = tested(folder, clang, title, program, KEEPING)
        counts, refused = row(folder, said)
        for why, names in refused.items():
            left[why] += names
        wrong += [f"by clang: {it}" for it in faults] + more
        name = os.path.relpath(folder, os.path.join(room, "mirdwarf")).split(os.sep)[0]
        lines.append(f"| {name} | {' | '.join(str(it) for it in counts)} | {' | '.join(results)} |")
        print(lines[-1], file=sys.stderr, flush=True)
    text = [f"On {time.strftime('%Y-%m-%d')}, by {versions()}:", "",
            "| program | files | wholly ours | functions | ours | tests, ld.lld | tests, GNU ld |", "|---|---|---|---|---|---|---|", *lines, "",
            "| refusal | functions | which |", "|---|---|---|"]
    text += [f"| {why} | {len(names)} | {', '.join(names)} |" for why, names in sorted(left.items(), key=lambda it: -len(it[1]))]
    put("built", text, write)
    for it in wrong:
        print(f"FAILED {it}")
    return 1 if wrong else 0


if __name__ == "__main__":
    sys.exit(main())
