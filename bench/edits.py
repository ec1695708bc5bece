#!/usr/bin/env python3
"""Tries the edits of `bench/edits`, wrong bodies that the prover must refuse and that the gate doesn't try.

    bench/edits.py [CRATE..]            of these crates, or of all that have some
    bench/edits.py --since COMMIT       of the crates whose files are others than at the commit

It copies the repository as it stands to a temporary folder, puts the edits of the crates in the place of those that the gate tries, and
runs `rt must-fail` there. It ends as that does. Whoever changes a crate tries its edits. The crates below are to be proved already, by
`rt check` in the crate's folder: else they are proved there first.
"""
import shutil
import subprocess
import sys
import tempfile
from pathlib import Path

TOP = Path(__file__).resolve().parent.parent
EDITS = TOP / "bench/edits"


def changed_since(commit):
    """The crates with edits whose files, or edits, are others than at a commit."""
    words = ["git", "-C", TOP, "diff", "--name-only", commit, "--", "crates", "bench/edits"]
    names = subprocess.run(words, capture_output=True, check=True, text=True).stdout.splitlines()
    found = {name.removeprefix("bench/edits/").removeprefix("crates/").split("/")[0] for name in names}
    return sorted(crate for crate in found if (EDITS / crate).is_dir())


def main():
    if sys.argv[1:2] == ["--since"]:
        crates = changed_since(sys.argv[2])
        if not crates:
            sys.exit("no crate with edits in bench/edits has changed")
    else:
        crates = sys.argv[1:] or sorted(p.name for p in EDITS.iterdir())
    for crate in crates:
        if not (EDITS / crate).is_dir():
            sys.exit(f"no edits of {crate} in bench/edits")
    with tempfile.TemporaryDirectory(prefix="edits-") as folder:
        copy = Path(folder) / "copy"
        words = ["git", "-C", TOP, "ls-files", "-z", "--cached", "--others", "--exclude-standard"]
        for name in subprocess.run(words, capture_output=True, check=True).stdout.decode().split("\0"):
            if name and (TOP / name).is_file() and "must-fail" not in Path(name).parts and not name.startswith("bench/edits/"):
                (copy / name).parent.mkdir(parents=True, exist_ok=True)
                shutil.copy2(TOP / name, copy / name)
        for crate in crates:
            shutil.copytree(EDITS / crate, copy / "crates" / crate / "must-fail")
        sys.exit(subprocess.run(["rt", "must-fail", *crates], cwd=copy).returncode)


main()
