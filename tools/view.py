#!/usr/bin/env python3
"""Shows which variable can be found at which source line.

    tools/view.py [OPTION..] FILE FILE.c            one output
    tools/view.py [OPTION..] FILE FILE FILE.c       two side by side, as of llc and of mirdwarf, or with and without passes

    FILE is what `mirdwarf compile` wrote, or an object or ELF file with DWARF sections, as of `llc -filetype=obj`.

    --function NAME    this function alone
    --names A,B        what the two are called; else by their files
    --html PAGE        writes one HTML page in place of the text: standard library alone, no network, for dark and light browsers
    --plain            text without colours

A row is a source line, a column a variable; the second of one name is called name#2, and so on. Of the machine words of the line, the variable can be found at all of them (a full block), at some
(how many of how many), or at none (a dot); by the location lists alone, whatever is said of their truth. docs/coverage.png is a page of two files in a
browser: what `compile --passes=none` writes of examples/ledger.mir, and what llc-19 makes of the same file by -mtriple=riscv64 -mattr=-relax
-start-after=virtregrewriter,1 -filetype=obj. Debian's package: llvm-19 (or llvm)."""
import collections
import html
import os
import re
import sys
import tempfile

import dwarf
import executable

COLOURS = {"all": "\x1b[42;30m", "some": "\x1b[43;30m", "none": "\x1b[2m"}


def read(path):
    """The functions and the lines of an output or an object."""
    if not os.path.isfile(path):
        sys.exit(f"there is no file {path}")
    with open(path, "rb") as it:
        content = it.read()
    if content[:4] == b"\x7fELF":
        return dwarf.functions(path), dwarf.lines(path)
    sections, functions, _ = executable.output_of(content.decode("utf-8", "replace"))
    if ".text" not in sections:
        sys.exit(f"{path} is neither an ELF file nor what `compile` writes: it has no section .text")
    with tempfile.TemporaryDirectory() as room:
        file = os.path.join(room, "program")
        with open(file, "wb") as it:
            it.write(executable.elf(sections, functions))
        return dwarf.functions(file), dwarf.lines(file)


def coverage(function, spans):
    """Of each line of a function how many words it has, and of each of its variables at how many it can be found."""
    words = {}
    for address in range(function.low, function.high, 4):
        line = next((line for low, high, line in spans if low <= address < high), 0)
        words.setdefault(line, []).append(address)
    # variables of one name are told apart by their order
    counts, named = collections.Counter(), []
    for variable in function.variables:
        counts[variable.name] += 1
        named.append((variable.name if counts[variable.name] == 1 else f"{variable.name}#{counts[variable.name]}", variable))
    found = {name: {} for name, _ in named}
    for line, addresses in words.items():
        for name, variable in named:
            found[name][line] = sum(variable.place_at(address) is not None for address in addresses)
    return {line: len(addresses) for line, addresses in words.items()}, found


def kind(seen, of):
    return "none" if not seen else "all" if seen == of else "some"


def sums(found, words):
    """At how many of a function's words its variables can be found, in all."""
    return sum(sum(lines.values()) for lines in found.values()), sum(words.values()) * len(found)


def shown_lines(tables):
    return sorted({line for words, _ in tables for line in words})


def as_text(name, titles, tables, names, source, coloured):
    width = max([len(it) for it in names] + [5])
    print(f"\n{name}")
    for title, (words, found) in zip(titles, tables):
        seen, of = sums(found, words)
        print(f"  {title}: {seen} of {of} ({100 * seen // of if of else 0} %)")
    block = (len(names) * (width + 1) + 6)
    print(" " * 52 + "".join(f"{title[:block - 2]:{block}}" for title in titles))
    print(" " * 52 + "".join("words " + " ".join(f"{it:{width}}" for it in names) + " " for _ in tables))
    for line in shown_lines(tables):
        text = (source[line - 1] if 0 < line <= len(source) else "(no line)").rstrip()
        row = f"{line:4} {text[:46]:46} "
        for words, found in tables:
            of = words.get(line, 0)
            row += f"{of or '':5} "
            for it in names:
                seen = found.get(it, {}).get(line, 0)
                cell = "" if not of else "·" if not seen else "█" * width if seen == of else f"{seen}/{of}"
                cell = f"{cell:{width}}"
                row += (COLOURS[kind(seen, of)] + cell + "\x1b[0m" if coloured and of else cell) + " "
        print(row.rstrip())


PAGE = """<!doctype html>
<html lang="en"><meta charset="utf-8"><meta name="viewport" content="width=device-width"><title>%s</title>
<style>
:root { color-scheme: light dark; --all: #2e9e5b; --some: #d9a521; --none: #8883; --line: #8885; }
body { font: 14px/1.4 system-ui, sans-serif; margin: 2rem; }
h2 { font-size: 1.15rem; margin: 1.6rem 0 .4rem; }
.scroll { overflow-x: auto; }
table { border-collapse: collapse; }
td, th { padding: 1px 3px; border: 1px solid var(--line); font-weight: normal; text-align: center; white-space: nowrap; }
td.code { font-family: ui-monospace, monospace; text-align: left; white-space: pre; border: 0; padding-right: 1rem; max-width: 25rem; overflow: hidden; text-overflow: ellipsis; }
td.number { color: #888; border: 0; text-align: right; }
td.gap, th.gap { border: 0; min-width: 1.2rem; }
th.name { writing-mode: vertical-rl; transform: rotate(180deg); padding: 4px 1px; text-align: left; }
th.title { border: 0; text-align: left; font-weight: 600; padding-top: .4rem; }
th.blank { border: 0; }
.all { background: var(--all); color: #fff; } .some { background: var(--some); color: #000; } .none { background: var(--none); }
td.cell { min-width: 1.6rem; font-size: 10px; }
.legend span { display: inline-block; padding: 0 .6rem; margin-right: .4rem; }
</style>
<p class="legend"><span class="all">found at each word of the line</span><span class="some">at some</span><span class="none">at none</span></p>
%s
</html>
"""


def as_html(name, titles, tables, names, source):
    rows = ['<tr><th class="blank"></th><th class="blank"></th>' + "".join(
        f'<th class="title" colspan="{len(names)}">{html.escape(title)}: {seen} of {of}</th><th class="gap"></th>'
        for title, (seen, of) in zip(titles, (sums(found, words) for words, found in tables))) + "</tr>"]
    heads = "".join(f'<th class="name">{html.escape(it)}</th>' for it in names) + '<th class="gap"></th>'
    rows.append('<tr><th class="blank"></th><th class="blank"></th>' + heads * len(tables) + "</tr>")
    for line in shown_lines(tables):
        text = source[line - 1] if 0 < line <= len(source) else "(no line)"
        row = f'<td class="number">{line or ""}</td><td class="code">{html.escape(text.rstrip())}</td>'
        for words, found in tables:
            of = words.get(line, 0)
            for it in names:
                seen = found.get(it, {}).get(line, 0)
                label = "" if not of or seen in (0, of) else f"{seen}/{of}"
                title = f"{it}: {seen} of {of} words"
                row += f'<td class="cell {kind(seen, of) if of else ""}" title="{html.escape(title)}">{label}</td>'
            row += '<td class="gap"></td>'
        rows.append(f"<tr>{row}</tr>")
    return f'<h2>{html.escape(name)}</h2>\n<div class="scroll"><table>\n' + "\n".join(rows) + "\n</table></div>"


def main():
    words, options, files, taken = sys.argv[1:], {}, [], []
    while words:
        word = words.pop(0)
        option, equals, value = word.partition("=")
        if word in ("-h", "--help"):
            print(__doc__)
            return
        if option in ("--function", "--names", "--html"):
            if not equals and not words:
                sys.exit(f"{option} wants a word behind it")
            options[option] = value if equals else words.pop(0)
            if not equals:
                taken.append((option, options[option]))
        elif word == "--plain":
            options[word] = word
        elif word.startswith("--"):
            sys.exit(f"there is no option {word}; the options are --function, --names, --html and --plain")
        else:
            files.append(word)
    if len(files) not in (2, 3):
        wrong = f"there are {len(files)} files, and three at most are shown: two outputs and the C source"
        if len(files) < 2:
            wrong = f"one file is given, {files[0]}: FILE or FILE.c is missing" if files else "FILE and FILE.c are missing"
        sys.exit(f"{wrong}{dwarf.took(taken)}\n\n{__doc__}")
    *outputs, source = files
    if not os.path.isfile(source):
        sys.exit(f"there is no file {source}{dwarf.took(taken)}")
    if "--html" in options:
        dwarf.writable("--html", options["--html"])
    with open(source, encoding="utf-8", errors="replace") as it:
        source = it.read().splitlines()
    titles = options["--names"].split(",") if "--names" in options else [os.path.basename(it) for it in outputs]
    if len(titles) != len(outputs):
        sys.exit(f"--names gives {len(titles)} names for {len(outputs)} files")
    made = [read(it) for it in outputs]
    chosen = [it.name for it in made[0][0] if options.get("--function", it.name) == it.name]
    if not chosen:
        sys.exit(f"no function {options.get('--function', '')}; there are {', '.join(it.name for it in made[0][0])}")
    pages = []
    for name in chosen:
        tables, names = [], []
        for functions, spans in made:
            function = next((it for it in functions if it.name == name), dwarf.Function(name, 0, 0))
            tables.append(coverage(function, spans))
            names += [it for it in tables[-1][1] if it not in names]
        if "--html" in options:
            pages.append(as_html(name, titles, tables, names, source))
        else:
            as_text(name, titles, tables, names, source, "--plain" not in options and sys.stdout.isatty())
    if "--html" in options:
        with open(options["--html"], "w", encoding="utf-8") as it:
            it.write(PAGE % (html.escape(", ".join(titles)), "\n".join(pages)))


dwarf.end_with(main)
