#!/usr/bin/env python3
"""Tries the edits of edits/CRATE/NAME.edit, which stand outside the gate: the prover must refuse each. Most are of
calls whose contract is an equation with a definition, which refuses any other value, so they show less than those of
crates/CRATE/must-fail/. They have the same form, and are tried when such a contract or its definition is changed.

In a temporary copy of the crates the edits of a crate are put in the place of its own must-fail edits, and
`rt must-fail` tries them, for one crate after the other. Prints a line for each edit. Ends with status 0 where each is
refused, 1 where one is not or could not be tried, 2 where there is nothing to try.

    try_edits.py [CRATE ..]     the crates whose edits are tried, all where none is given
"""
import os
import re
import shutil
import subprocess
import sys
import tempfile

TOP = os.path.dirname(os.path.dirname(os.path.abspath(__file__)))
EDITS = os.path.join(TOP, "edits")
LINE = re.compile(r"(?:rt: )?(must-fail (\S+)/(\S+?\.edit): .*)")


def edits_of(crate):
    """The names of a crate's edits, in order."""
    folder = os.path.join(EDITS, crate)
    return sorted(name for name in os.listdir(folder) if name.endswith(".edit")) if os.path.isdir(folder) else []


def copied(folder):
    """Makes a copy of the crates, without their own edits and what was made of them; it is a repository of its own, whose
    search for a root ends there."""
    os.makedirs(os.path.join(folder, ".git"))
    for name in ("HANDLES", "crates.txt"):
        shutil.copy2(os.path.join(TOP, name), folder)
    shutil.copytree(
        os.path.join(TOP, "crates"), os.path.join(folder, "crates"), ignore=shutil.ignore_patterns("out", "must-fail", ".*")
    )


def tried(folder, crate):
    """How many edits of a crate are not refused, each told by a line."""
    names = edits_of(crate)
    place = os.path.join(folder, "crates", crate, "must-fail")
    os.makedirs(place)
    for name in names:
        shutil.copy2(os.path.join(EDITS, crate, name), place)
    done = subprocess.run(
        ["rt", "must-fail", crate], cwd=folder, stdin=subprocess.DEVNULL, stdout=subprocess.PIPE, stderr=subprocess.STDOUT, text=True, check=False
    )
    told = {found[3]: found[1] for found in map(LINE.match, done.stdout.splitlines()) if found and found[2] == crate}
    for name in names:
        print(told.get(name, f"must-fail {crate}/{name}: NOT TRIED: rt must-fail says nothing of it"), flush=True)
    if any(name not in told for name in names):
        print(*done.stdout.splitlines()[-20:], sep="\n", file=sys.stderr)
    return sum(": refused, as it must be" not in told.get(name, "") for name in names)


def main():
    crates = sys.argv[1:] or sorted(os.listdir(EDITS) if os.path.isdir(EDITS) else [])
    lacking = [crate for crate in crates if not edits_of(crate)]
    for crate in lacking:
        print(f"edits/{crate} has no edit", file=sys.stderr)
    if lacking or not crates:
        print("there is nothing to try", file=sys.stderr)
        return 2
    with tempfile.TemporaryDirectory(prefix="try-edits-") as folder:
        copied(folder)
        missed = [tried(folder, crate) for crate in crates]
    count = sum(len(edits_of(crate)) for crate in crates)
    print(f"edits: {count - sum(missed)} of {count} refused, of {len(crates)} crates")
    return 1 if sum(missed) else 0


if __name__ == "__main__":
    sys.exit(main())
