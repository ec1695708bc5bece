#!/usr/bin/env python3
"""Runs the rows of files, which docs/ROWS.md describes, on a program that is built.

    bench/rows.py PROGRAM FILE..

Each run that doesn't come out as written is printed, and the last line counts all. A row that asks for faults of input or output is
passed over, and so are its further runs: only crates/test_program makes such runs."""
import re
import subprocess
import sys

NUMBERS = ("status", "read", "write", "gives", "takes", "room", "tells", "reads", "writes")
FAULTS = {"read", "write", "gives", "takes", "room", "tells"}


def lines_of(text):
    """Lines with their line ends."""
    return re.findall(r"[^\n]*\n|[^\n]+\Z", text)


def number_at(term, turn):
    """The turn's number times the factor behind `*`, the rest of this by the number behind `%`, and the one behind `+` more."""
    factor, modulus, summand = re.fullmatch(r"(?:\*(\d+))?(?:%(\d+))?(?:\+(\d+))?", term).groups()
    product = turn * int(factor or 1)
    return (product % int(modulus) if modulus else product) + int(summand or 0)


def repeated(text, count):
    """A text so many times, in which `{n}` stands for a number of the turn."""
    if "{n" not in text:
        return (text * count).encode()
    turns = (re.sub(r"\{n([^}]*)\}", lambda found: str(number_at(found[1], turn)), text) for turn in range(count))
    return "".join(turns).encode()


def bytes_of(lines, texts):
    """What the lines of a part stand for."""
    out = b""
    for line in lines:
        body = line.rstrip("\n")
        if body == "\\":
            out = out.removesuffix(b"\n")
        elif found := re.fullmatch(r"@hex ([0-9a-f]*)", body):
            out += bytes.fromhex(found[1])
        elif found := re.fullmatch(r"@(\d+) @(.*)", body):
            out += repeated(texts[found[2]].decode(), int(found[1]))
        elif found := re.fullmatch(r"@(\d+) (.*)", body):
            out += repeated(found[2] + "\n", int(found[1]))
        elif body.startswith("@"):
            out += texts[body[1:]]
        else:
            out += line.encode()
    return out


def parts_of(path):
    """The parts of a file: a word, what stands behind it, and the lines below."""
    with open(path, encoding="utf-8", newline="") as it:
        text = it.read()
    parts = []
    for line in lines_of(text):
        if line.startswith("==== "):
            word, _, rest = line[5:].rstrip("\n").partition(" ")
            parts.append((word, rest, []))
        elif parts:
            parts[-1][2].append(line)
        else:
            sys.exit(f"{path}: no part at the start")
    return parts


def rows_of(path):
    """The rows of a file."""
    texts, rows = {}, []
    for word, rest, lines in parts_of(path):
        if word == "let":
            texts[rest] = bytes_of(lines, texts)
        elif word == "row":
            rows.append({"name": rest, "words": [], "texts": [], "piped": [], "outputs": []})
        elif word == "words":
            rows[-1]["words"].append(["" if it == '""' else it for it in rest.split(" ")] if rest else [])
        elif word == "output":
            rows[-1]["outputs"].append((rest, bytes_of(lines, texts)))
        elif word == "text":
            rows[-1]["texts"].append(bytes_of(lines, texts))
        elif word == "piped":
            rows[-1]["piped"].append(rest.split(" "))
        elif word == "told":
            rows[-1]["told"] = bytes_of(lines, texts)
        elif word in NUMBERS:
            rows[-1][word] = int(rest)
        elif word in ("rooms", "differs"):
            rows[-1][word] = True
        else:
            sys.exit(f"{path}: no part is called {word}")
    return rows


def stands(place, want, output):
    """Whether bytes stand on the output where they should."""
    places = {"": output == want, "begins": output.startswith(want), "ends": output.endswith(want), "holds": want in output}
    return places[place]


def is_as_written(row, ended):
    """Whether a run ended as its row says."""
    outputs = row["outputs"] or [("", b"")]
    told = ended.stderr == row.get("told", b"")
    return ended.returncode == row.get("status", 0) and told and all(stands(*it, ended.stdout) for it in outputs)


def main():
    program, as_written, others, passed_over = sys.argv[1], 0, 0, 0
    for path in sys.argv[2:]:
        for row in rows_of(path):
            piped = [subprocess.run([program, *words], input=b"", capture_output=True).stdout for words in row["piped"]]
            runs = [(words, text) for words in row["words"] for text in row["texts"] + piped or [b""]]
            if FAULTS & row.keys():
                passed_over += len(runs)
                continue
            for words, text in runs:
                ended = subprocess.run([program, *words], input=text, capture_output=True)
                if is_as_written(row, ended) != row.get("differs", False):
                    as_written += 1
                    continue
                others += 1
                told, output = (it.decode(errors="replace") for it in (ended.stderr, ended.stdout))
                print(f"{path}: {row['name']}: {' '.join(words)}: status {ended.returncode}, told {told!r}, output:\n{output}")
    print(f"{as_written} runs as written, {others} otherwise, {passed_over} passed over")
    sys.exit(others > 0)


main()
