#!/usr/bin/env python3
"""Writes the count of crates in README.md anew. With --check it writes nothing, and status 1 says that the count is
stale. With --print it prints a table for each group of crates.txt, with each crate's name and the first sentence of its
root file.
"""
import os
import re
import sys

TOP = os.path.dirname(os.path.dirname(os.path.abspath(__file__)))
README = os.path.join(TOP, "README.md")
COUNT = re.compile(r"\b\d+ crates\b")


def text_of(name):
    with open(name, encoding="utf-8") as file:
        return file.read()


def groups():
    """The groups of crates.txt: what it says of each, and its crates."""
    found = []
    for line in text_of(os.path.join(TOP, "crates.txt")).splitlines():
        if line.startswith("#"):
            found.append((line.strip("# "), []))
        head, colon, _ = line.split("#")[0].partition(":")
        if colon:
            found[-1][1].append(head.split()[0])
    return [(said, crates) for said, crates in found if crates]


def sentence_of(crate):
    """The first sentence of a crate's root file."""
    roots = [os.path.join(TOP, "crates", crate, "src", root) for root in ("lib.rt", "main.rt")]
    lines = []
    for line in text_of(next(root for root in roots if os.path.isfile(root))).splitlines():
        if not line.startswith("//!"):
            break
        lines.append(line[3:].strip())
    said = re.match(r"(.*?\.)(?= |$)", " ".join(lines))
    if not said:
        sys.exit(f"crates_table.py: the root file of {crate} begins with no sentence")
    return said[1]


def tables():
    """The tables, one for each group, and how many crates they have."""
    found = groups()
    parts = []
    for said, crates in found:
        rows = [f"### {said.split(':')[0].rstrip('.')}", "", "| Crate | What it is |", "|---|---|"]
        rows += [f"| `{crate}` | {sentence_of(crate)} |" for crate in crates]
        parts.append("\n".join(rows) + "\n")
    return "\n".join(parts), sum(len(crates) for _, crates in found)


def main():
    readme = text_of(README)
    said, count = tables()
    if "--print" in sys.argv[1:]:
        print(said, end="")
        return 0
    counted = COUNT.sub(f"{count} crates", readme)
    if "--check" in sys.argv[1:]:
        if counted != readme:
            print("README.md is stale: run tools/crates_table.py", file=sys.stderr)
            return 1
        return 0
    with open(README, "w", encoding="utf-8") as file:
        file.write(counted)
    return 0


if __name__ == "__main__":
    sys.exit(main())
