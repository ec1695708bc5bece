#!/usr/bin/env python3
"""Checks the pages: that each name and path in the Markdown files exists, and that what pages say of the code is so.

    bench/check_pages.py     tells what is wrong, page by page; ends with 1 if there is any

- A link leads to a file. A path in backquotes is there, from the top, the page's folder, crates/ or a crate; `{A,B}` stands for either name.
- A name in backquotes stands in the code, comments left out: `crate::module::name` in that crate, or in the one that it hands on, another one anywhere.
- What PROVED.md says of a crate names what stands in that crate, or in one on which it stands.
- The clauses that the README names are clauses of the top call.
- DESIGN.md, "Where a change goes": for each class of operations the list has the files that name at least half of its operations, and no others;
  and the numbers of files and crates that name a case are right.
- No line of the README is wider than a terminal.
- What the README says of real programs has the numbers of REAL.md's tables, and its picture is drawn from them.
- MAP.md, PROVED.md and DEFINITIONS.md are what their scripts make.
"""
import glob
import os
import re
import subprocess
import sys

sys.dont_write_bytecode = True
import map as house
import proved
import real_picture

TOP = house.TOP
WIDE = 80
WORD = re.compile(r"[A-Za-z_][\w']*")
# Words in backquotes that no code of this repository has: of LLVM, of debuggers, of the toolchain's commands and files.
OTHERS = set("""ADDI LD SD LUI COPY FENCE PseudoTAIL DBG_VALUE DBG_INSTR_REF DBG_PHI alloca switch clang llc rt gdb qemu python3 binutils valgrind
backtrace virtregrewriter gen echo __muldi3 MachineConstantPool setjmp luaV_execute DW_AT_type MachineFunction MachineBasicBlock MachineInstr DebugVariable InstrRefBasedLDV ValueIDNum up void""".split())


def sources():
    """The text of each file of code, comments left out, by its path below crates/."""
    found, crates = {}, os.path.join(TOP, "crates")
    for at, folders, files in os.walk(crates):
        folders[:] = [it for it in folders if it not in ("out", ".inc", "must-fail")]
        for it in files:
            if it.endswith((".rt", ".antt")):
                path = os.path.join(at, it)
                with open(path, encoding="utf-8") as file:
                    found[os.path.relpath(path, crates)] = re.sub(r"--.*|//.*", "", file.read())
    return found


def braces(path):
    """The paths that a path with braces stands for."""
    cut = re.match(r"(.*?)\{([^{}]*)\}(.*)$", path)
    return [it for name in cut[2].split(",") for it in braces(cut[1] + name + cut[3])] if cut else [path]


def prose(text):
    """A page's lines without its code: blocks between fences, and those that are indented, with their numbers."""
    fenced, after_blank = False, True
    for number, line in enumerate(text.splitlines(), 1):
        if line.startswith("```"):
            fenced = not fenced
        elif not fenced and not (line.startswith("    ") and after_blank):
            yield number, line
        after_blank = not line.strip() or (after_blank and line.startswith("    "))


class Pages:
    def __init__(self):
        self.code = sources()
        self.words, self.by_crate = set(), {}
        for path, text in self.code.items():
            words = set(WORD.findall(text)) | set(re.split(r"[/.]", path))
            self.words |= words
            self.by_crate.setdefault(path.split("/")[0], set()).update(words)
        for it in glob.glob(os.path.join(TOP, "*", "*.py")) + glob.glob(os.path.join(TOP, "examples", "*")) + glob.glob(
                os.path.join(TOP, "tools", "*")):
            if os.path.isfile(it):
                with open(it, encoding="utf-8", errors="replace") as file:
                    self.words |= set(WORD.findall(file.read()))
        for at, folders, files in os.walk(TOP):
            folders[:] = [it for it in folders if it not in ("out", ".inc", ".git")]
            self.words |= {it[:-len(".edit")] for it in files if it.endswith(".edit")}
        self.known = house.crates()
        self.tests = {it for name, _, members in house.rooms(self.known)[0] if name == proved.LEFT_OUT for it in members}
        self.below = house.below(self.known)
        self.words |= set(self.known) | OTHERS
        self.words |= set(WORD.findall(house.read("crates.txt")))
        self.files = {os.path.basename(it) for it in self.code}
        self.faults = []

    def fault(self, page, number, words):
        self.faults.append(f"{page}:{number}: {words}")

    def is_path(self, page, path):
        """Whether a path is there."""
        roots = [TOP, os.path.join(TOP, os.path.dirname(page)), os.path.join(TOP, "crates"), os.path.join(TOP, "crates", "*")]
        for it in braces(re.sub(r"\bNAME\b", "*", path.rstrip("/"))):
            at = [os.path.join(root, it + ending) for root in roots for ending in ("", ".antt", ".rt")]
            if not any(glob.glob(one) for one in at):
                return False
        return True

    def name(self, page, number, text):
        """Checks one text in backquotes."""
        word = text.split(" ")[0] if re.match(r"(?:bench|examples|tools|docs|crates)/\S+ ", text) else text
        if re.fullmatch(r"[\w.+-]*(?:/[\w.+*{},-]*)+", word) and not word.startswith("/"):
            if not self.is_path(page, word) and "/out/" not in word:
                self.fault(page, number, f"no such path: {text}")
        elif re.fullmatch(r"[\w{},]+\.(?:antt|rt)", word):
            for it in braces(word):
                if it not in self.files:
                    self.fault(page, number, f"no such file: {text}")
        elif re.fullmatch(r"[\w-]+\.(?:md|py|txt|mir|c)", word):
            at = [os.path.join(TOP, it, word) for it in ("", "docs", "bench", "examples", "tools")]
            if not any(map(os.path.exists, at)) and word not in ("FILE.c", "FILE.mir"):
                self.fault(page, number, f"no such file: {text}")
        elif re.search(r"\w::\w", word):
            parts = [it for it in re.split(r"::|[^\w]", word) if it]
            # A crate that another one hands on.
            while parts[1:] and parts[1].endswith("_crate") and parts[1] in self.by_crate.get(parts[0], ()):
                parts[:2] = [parts[1].removesuffix("_crate")]
            among = self.by_crate.get(parts[0], self.words)
            for it in parts[1:] if parts[0] in self.by_crate else parts:
                if it not in among:
                    self.fault(page, number, f"no such name: {text}")
                    break
        elif re.fullmatch(r"[A-Za-z_]\w*", word) and word not in self.words and not word.endswith("_"):
            self.fault(page, number, f"no such name: {text}")

    def page(self, page, text):
        for number, line in prose(text):
            for target in re.findall(r"\]\(([^)#]+)(?:#[^)]*)?\)|^\[[^\]]+\]: (\S+)", line):
                target = target[0] or target[1]
                if "://" not in target and not os.path.exists(os.path.join(TOP, os.path.dirname(page), target)):
                    self.fault(page, number, f"a link to nowhere: {target}")
            for it in re.findall(r"`([^`]+)`", line):
                self.name(page, number, it)

    def proved(self, page, text):
        """What PROVED.md says of a crate names what stands in it."""
        for match in re.finditer(r"^- \*\*((?:`\w+`(?:, )?)+)\*\*:(.*?)(?=^- |^$|^<!--)", text, re.M | re.S):
            crates = re.findall(r"`(\w+)`", match[1])
            among = set(self.known) | {it for crate in crates for one in {crate} | self.below.get(crate, set()) for it in self.by_crate.get(one, ())}
            number = text[:match.start()].count("\n") + 1
            for it in re.findall(r"`(\w+)(?:::(\w+))?`", match[2]):
                for word in it:
                    if word and word not in among | OTHERS:
                        self.fault(page, number, f"not in {', '.join(crates)}: {word}")

    def readme(self, page, text):
        for number, line in enumerate(text.splitlines(), 1):
            if len(line) > WIDE:
                self.fault(page, number, f"{len(line)} columns, of {WIDE} at most")
        said = re.search(r"^## What is proved\n(.*?)(?=^## |\Z)", text, re.M | re.S)
        for it in re.findall(r"\(`(\w+)`(?:, `(\w+)`)*\)", said[1]) if said else []:
            for word in it:
                if word and word not in proved.labels():
                    self.fault(page, 1, f"no clause of the top call: {word}")

        shown = re.search(r"!\[[^]]*\]\[picture\]\n\n(.*?)\n\n", text, re.S)
        for it in real_picture.counts():
            if not re.search(rf"(?<![\d,]){it:,}(?!,?\d)", shown[1]):
                self.fault(page, 1, f"REAL.md's tables have the number {it:,}")
        if house.read(os.path.relpath(real_picture.PICTURE, TOP)) != real_picture.drawn():
            self.fault(page, 1, "docs/real.svg isn't drawn from REAL.md: bench/real_picture.py")

    def files_with(self, names):
        """How many of some names each file has, but for those of crates that test or measure."""
        found = {}
        for path, text in self.code.items():
            if not re.match(r"test_|\w+_tests/", path) and path.split("/")[0] not in self.tests:
                count = sum(1 for it in names if re.search(rf"(?<!\w){it}(?!\w)", text))
                if count:
                    found[path] = count
        return found

    def design(self, page, text):
        enums = dict(re.findall(r"^pub enum (\w+) \{(.*?)^\}", self.code["rv64_instr/src/op.rt"], re.M | re.S))
        found = re.search(r"^## Where a change goes\n(.*?)(?=^## )", text, re.M | re.S)
        for title, name, rows in re.findall(r"^\*\*([^*\n]+)\*\* \(`(\w+)`\)\n(.*?)(?=^\*\*)", found[1], re.M | re.S):
            operations = re.findall(r"^    (\w+),", enums.get(name, ""), re.M)
            if not operations:
                self.fault(page, 1, f"no class of operations: {name}")
                continue
            need = {path for path, count in self.files_with(operations).items() if 2 * count >= len(operations)}
            has = {it for path in re.findall(r"`(\w+/[^`]*)`", rows) for it in braces(path)}
            for it in sorted(need - has):
                self.fault(page, 1, f"{title}: {it} is missing")
            for it in sorted(has - need):
                self.fault(page, 1, f"{title}: {it} doesn't decide over {name}")
        for names, files, crates in re.findall(r"files that name ((?:`\w+`(?: or )?)+) \((\d+) in (\d+) crates\)", found[1]):
            among = self.files_with(re.findall(r"`(\w+)`", names))
            if (len(among), len({it.split("/")[0] for it in among})) != (int(files), int(crates)):
                self.fault(page, 1, f"{names}: {len(among)} files in {len({it.split('/')[0] for it in among})} crates")


def main():
    pages = Pages()
    for path in sorted(glob.glob(os.path.join(TOP, "*.md")) + glob.glob(os.path.join(TOP, "docs", "*.md"))):
        page = os.path.relpath(path, TOP)
        text = house.read(page)
        pages.page(page, text)
        if page == "README.md":
            pages.readme(page, text)
        elif page.endswith("PROVED.md"):
            pages.proved(page, text)
        elif page.endswith("DESIGN.md"):
            pages.design(page, text)
    for it in pages.faults:
        print(it)
    bad = bool(pages.faults)
    for script in ("map.py", "proved.py", "definitions.py"):
        bad |= subprocess.run([sys.executable, os.path.join(TOP, "bench", script)], check=False).returncode != 0
    sys.exit(1 if bad else 0)


if __name__ == "__main__":
    main()
