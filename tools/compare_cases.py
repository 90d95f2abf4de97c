#!/usr/bin/env python3
"""Runs the program over a folder of cases and compares what it writes, byte for byte, and its status.

A case is a folder with `source.c`, `options` (words), `flow` (what `ppd flow OPTIONS source.c` writes
without input), `status` (its status), and perhaps `show` (what `ppd show` writes for an accepted source, with
the same options but the budget). The folders of cases stand in folders of their kind, as `run` and `refused`;
each kind is counted by itself. With `--command show` the tables are compared, and a refused source has the
line of `flow` there too; a case of an accepted source without `show` is left out.

With `--part summary` only the lines `process` and `print` of a run are compared, and the race list only where
there is one process; tables and refusals are compared whole all the same.

Prints each difference and how many cases of each kind are alike. Ends with status 0 where all are, 1 where
one differs, 2 where there is nothing to compare. It stands outside the gate."""
import argparse
import difflib
import os
import subprocess
import sys

MOST_LINES = 20


def arguments():
    parser = argparse.ArgumentParser(description=__doc__, formatter_class=argparse.RawDescriptionHelpFormatter)
    parser.add_argument("program", help="the built program, as crates/ppd/out/ppd")
    parser.add_argument("folder", help="the folder that holds a folder for each kind of case")
    parser.add_argument("--kind", action="append", help="only this kind of case (may be given again)")
    parser.add_argument("--part", choices=("whole", "summary"), default="whole", help="what is compared (default: whole)")
    parser.add_argument("--command", choices=("flow", "show"), default="flow", help="what is run (default: flow)")
    parser.add_argument("--seconds", type=float, default=20.0, help="the most that one run may take (default: 20)")
    return parser.parse_args()


def bytes_of(folder, name):
    with open(os.path.join(folder, name), "rb") as file:
        return file.read()


def folders_in(folder):
    """The folders in a folder, numbers in their names in the order of numbers."""
    names = [name for name in os.listdir(folder) if os.path.isdir(os.path.join(folder, name))]
    return sorted(names, key=lambda name: [int(part) if part.isdigit() else part for part in name.split("-")])


def wanted_of(case, command):
    """The status and what is to be written, or None where the case does not say."""
    status = int(bytes_of(case, "status"))
    if command == "flow" or status != 0:
        return status, bytes_of(case, "flow")
    if not os.path.isfile(os.path.join(case, "show")):
        return None
    return status, bytes_of(case, "show")


def words_of(case, command):
    """The options of the command: `show` has no budget."""
    words = bytes_of(case, "options").decode().split()
    if command == "flow" or "--budget" not in words:
        return words
    at = words.index("--budget")
    return words[:at] + words[at + 2:]


def answer_of(program, case, command, seconds):
    """The status and what is written, or None where the time is over."""
    command = [program, command, *words_of(case, command), "source.c"]
    try:
        done = subprocess.run(command, cwd=case, stdin=subprocess.DEVNULL, capture_output=True, timeout=seconds, check=False)
    except subprocess.TimeoutExpired:
        return None
    return done.returncode, done.stdout


def summary_part(text):
    """The lines of the processes, and the race list where there is one process."""
    lines = text.splitlines(keepends=True)
    alone = sum(line.startswith(b"process ") for line in lines) == 1
    return b"".join(line for line in lines if alone or not line.startswith((b"races ", b"race ")))


def differences(wanted, answer, part):
    """What differs, as lines; none where both are alike."""
    if answer is None:
        return ["no answer in time"]
    (wanted_status, wanted_text), (status, text) = wanted, answer
    if part == "summary" and wanted_status == 0:
        wanted_text, text = summary_part(wanted_text), summary_part(text)
    told = []
    if status != wanted_status:
        told.append(f"status {status} in place of {wanted_status}")
    if text != wanted_text:
        before, after = (side.decode(errors="backslashreplace").splitlines() for side in (wanted_text, text))
        lines = list(difflib.unified_diff(before, after, "wanted", "written", n=1, lineterm=""))
        told += lines[:MOST_LINES] if lines else ["the bytes differ in their line ends"]
    return told


def compare_kind(kind, folder, given):
    """How many cases of a kind there are, and how many are alike."""
    cases = {name: wanted_of(os.path.join(folder, name), given.command) for name in folders_in(folder)}
    names = [name for name, wanted in cases.items() if wanted is not None]
    part = given.part if given.command == "flow" else "whole"
    alike = 0
    for name in names:
        answer = answer_of(given.program, os.path.join(folder, name), given.command, given.seconds)
        told = differences(cases[name], answer, part)
        if told:
            print(f"{kind}/{name} differs:")
            print("".join(f"    {line}\n" for line in told), end="")
        else:
            alike += 1
    print(f"{kind}: {alike} of {len(names)} alike", flush=True)
    return len(names), alike


def main():
    given = arguments()
    given.program = os.path.abspath(given.program)
    if not os.access(given.program, os.X_OK):
        print(f"there is no program {given.program}")
        return 2
    kinds = given.kind or folders_in(given.folder)
    counts = [compare_kind(kind, os.path.join(given.folder, kind), given) for kind in kinds]
    cases, alike = (sum(column) for column in zip(*counts)) if counts else (0, 0)
    if cases == 0:
        print("there is no case")
        return 2
    return 0 if alike == cases else 1


if __name__ == "__main__":
    sys.exit(main())
