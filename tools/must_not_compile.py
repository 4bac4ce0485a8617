#!/usr/bin/env python3
"""Tries each edit crates/NAME/must-not-compile/*.edit on a copy of the repository: the compiler must refuse it.

An edit has the lines 'error: NAME', 'file: PATH' (in the crate), 'old: TEXT' and 'new: TEXT', as a must-fail edit has; TEXT of
'old' stands in the file exactly once. It is refused as it must be only where the copy compiles without it, and where the first
error with it is the one named. Nothing in the repository changes.
"""
import pathlib
import re
import shutil
import subprocess
import sys
import tempfile

TOP = pathlib.Path(__file__).resolve().parent.parent


def first_error(crate):
    """The name of the first error that the compiler gives for a crate; none where it compiles."""
    run = subprocess.run(["rt", "check", "--only", ""], cwd=crate, capture_output=True, text=True)
    found = re.search(r"error\[([\w-]+)\]", run.stdout + run.stderr)
    if found:
        return found.group(1)
    return None if run.returncode == 0 else "an error without a name"


def refusal(crate, edit):
    """The error that refuses an edit, or what is wrong with the edit; and the error that it names."""
    lines = dict(line.split(": ", 1) for line in edit.read_text(encoding="utf-8").splitlines())
    path = crate / lines["file"]
    text = path.read_text(encoding="utf-8")
    if text.count(lines["old"]) != 1:
        return "its old text does not stand there once", lines["error"]
    path.write_text(text.replace(lines["old"], lines["new"]), encoding="utf-8")
    got = first_error(crate)
    path.write_text(text, encoding="utf-8")
    return got, lines["error"]


def tried(copy, folder):
    """How many edits of a folder are refused as they must be, and how many are not."""
    crate = copy / folder.parent.relative_to(TOP)
    edits = sorted(folder.glob("*.edit"))
    broken = first_error(crate)
    if broken:
        print(f"{crate.name} does not compile as it stands: {broken}")
        return 0, len(edits)
    refused = 0
    for edit in edits:
        got, wanted = refusal(crate, edit)
        refused += got == wanted
        print(f"{crate.name}/{edit.name}: " + (f"refused, as it must be: {got}" if got == wanted else f"NOT refused by {wanted}: {got}"))
    return refused, len(edits) - refused


def main():
    folders = sorted(TOP.glob("crates/*/must-not-compile"))
    with tempfile.TemporaryDirectory() as work:
        copy = pathlib.Path(work) / "repository"
        shutil.copytree(TOP, copy, symlinks=True, ignore=shutil.ignore_patterns(".git", "out"))
        counts = [tried(copy, folder) for folder in folders]
    refused, others = (sum(column) for column in zip(*counts)) if counts else (0, 0)
    print(f"must-not-compile edits: {refused} refused, {others} not")
    return 0 if refused and not others else 1


if __name__ == "__main__":
    sys.exit(main())
