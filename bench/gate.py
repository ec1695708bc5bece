#!/usr/bin/env python3
"""What one run of the gate takes, by crates: processor seconds of proofs, tests, edits and all else.

    bench/gate.py COMMAND..        runs the command, as `rt ci`, and prints the table when it has ended
    bench/gate.py --join LOG..     one table of those in the logs of runs that went on from one another: of each crate the largest of each number

A run that is interrupted (SIGINT, SIGTERM) is ended, and the table tells of what it had done.
It looks twice a second at the processes that the command has started, and adds up what each took by the crate that it
worked on and by what it did. A process that lives for less than half a second may be missed, so each number is a little too low. Linux only."""
import os
import re
import signal
import subprocess
import sys
import time

TICKS = os.sysconf("SC_CLK_TCK")
CRATE = re.compile(r"--crate-name[= ]([a-z0-9_]+)")
FOLDER = re.compile(r"/crates/([a-z0-9_]+)")
COLUMNS = ("proof", "tests", "edits", "else")


def seen(pid):
    """The command line, the folder, the parent, the start and the processor seconds of a process, or None where it has gone."""
    try:
        with open(f"/proc/{pid}/cmdline", "rb") as it:
            words = it.read().replace(b"\0", b" ").decode("utf-8", "replace")
        folder = os.readlink(f"/proc/{pid}/cwd")
        with open(f"/proc/{pid}/stat") as it:
            fields = it.read().rsplit(")", 1)[1].split()
        # (one that is ending has no words any more: what it was last seen to do stands)
        if not words:
            return None
        return words, folder, fields[1], fields[19], (int(fields[11]) + int(fields[12])) / TICKS
    except (OSError, IndexError, ValueError):
        return None


def sort_of(words, folder):
    """The crate that a process works on and what it does there, or None where it is no work of the gate."""
    found = CRATE.search(words) or FOLDER.search(folder) or FOLDER.search(words)
    if not found:
        return None
    if "rt-edit" in folder or "rt-edit" in words:
        return found.group(1), "edits"
    if " --test" in words:
        return found.group(1), "tests"
    return found.group(1), "proof" if " check " in words or " build " in words else "else"


def is_below(pid, top, parents):
    while pid in parents and pid != top:
        pid = parents[pid]
    return pid == top


def show(table, least=0):
    """Prints a table, dearest crate first, without the crates below so many seconds."""
    print("\n| crate | proof | tests | edits | else | all |\n|---|---|---|---|---|---|")
    for crate, row in sorted(table.items(), key=lambda it: -sum(it[1].values())):
        cells = [row.get(what, 0) for what in COLUMNS]
        if sum(cells) >= least:
            print(f"| `{crate}` | " + " | ".join(f"{it:.0f}" if it >= 0.5 or not least else "·" for it in [*cells, sum(cells)]) + " |")
    sums = [sum(row.get(what, 0) for row in table.values()) for what in COLUMNS]
    print(f"\nAll: {sum(sums):.0f}, of which " + ", ".join(f"{what} {it:.0f}" for what, it in zip(COLUMNS, sums)))


def join(logs):
    table = {}
    for log in logs:
        with open(log, encoding="utf-8", errors="replace") as it:
            text = it.read()
        for crate, cells in re.findall(r"^\| `(\w+)` \|((?: *\d+ *\|){5})$", text, re.M):
            row = table.setdefault(crate, {})
            for what, seconds in zip(COLUMNS, cells.split("|")):
                row[what] = max(row.get(what, 0), int(seconds))
    show(table, 10)


def main():
    if sys.argv[1:2] == ["--join"]:
        return join(sys.argv[2:])
    spent = {}
    run = subprocess.Popen(sys.argv[1:])
    for it in (signal.SIGINT, signal.SIGTERM):
        signal.signal(it, lambda *_: run.send_signal(signal.SIGTERM))
    while run.poll() is None:
        all_now = {pid: seen(pid) for pid in os.listdir("/proc") if pid.isdigit()}
        parents = {pid: now[2] for pid, now in all_now.items() if now}
        for pid, now in all_now.items():
            sort = now and sort_of(now[0], now[1])
            if sort and is_below(pid, str(run.pid), parents):
                spent[pid, now[3]] = (sort, now[4])
        time.sleep(0.5)
    table = {}
    for (crate, what), seconds in spent.values():
        row = table.setdefault(crate, {})
        row[what] = row.get(what, 0) + seconds
    show(table)
    sys.exit(run.returncode)


main()
