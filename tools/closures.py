#!/usr/bin/env python3
"""Compares the slice of each item of a run with what the answers of `why` lead to, one after another.

    closures.py PROGRAM SOURCE ..

Each SOURCE is run and its recording kept in a folder that is removed; a run with races, or with more items than one
session can be asked of, is told and passed over. The status is 1 where a slice differs. It stands outside the gate."""
import os
import subprocess
import sys
import tempfile

# the items of a run that is compared: a session answers at most 65,536 lines, and two belong to each question
MOST_ITEMS = 30_000


def call(program, words, given=""):
    done = subprocess.run([program, *words], input=given, capture_output=True, text=True, check=False)
    return done.returncode, done.stdout.splitlines()


def asked(program, recording, lines):
    """The answer to each line: the session's lines, cut at the answer to a line that is no command."""
    text = "".join(f"{line}\n=\n" for line in lines)
    answers = [[]]
    for line in call(program, ["debug", recording], text)[1]:
        if line == "? command":
            answers.append([])
        else:
            answers[-1].append(line)
    return answers[: len(lines)]


def origins(answer):
    """The items from which the edges of an answer to `why` come."""
    found = []
    for line in answer[1:]:
        words = line.rsplit(" from ", 1)[-1].split(" ")
        if len(words) == 3:
            found.append((words[0], int(words[1]), int(words[2])))
    return found


def closure(edges, start):
    """Each item with the least number of edges that lead to it, by depth."""
    depths, level, depth = {start: 0}, [start], 0
    while level:
        depth += 1
        level = [item for item in dict.fromkeys(o for at in level for o in edges[at]) if item not in depths]
        depths.update((item, depth) for item in level)
    return depths


def differing(program, recording, names):
    """How many items the run has, and those whose slices differ, or None where there are too many to ask of."""
    blocks = asked(program, recording, [f"blocks {name}" for name in names])
    intervals = [(name, k) for name, answer in zip(names, blocks) for k in range(len(answer))]
    if len(intervals) > MOST_ITEMS:
        return len(intervals), None
    opened = asked(program, recording, [f"open {name} {k}" for name, k in intervals])
    items = [(name, k, j) for (name, k), answer in zip(intervals, opened) for j in range(len(answer))]
    if len(items) > MOST_ITEMS:
        return len(items), None
    answers = asked(program, recording, [f"why {name} {k} {j}" for name, k, j in items])
    edges = {item: origins(answer) for item, answer in zip(items, answers)}
    order = {name: number for number, name in enumerate(names)}
    wrong = []
    for item in items:
        depths = closure(edges, item)
        rows = sorted(depths, key=lambda at: (depths[at], order[at[0]], at[1], at[2]))
        wanted = [f"at {depths[at]} {at[0]} {at[1]} {at[2]}" for at in rows]
        if call(program, ["slice", recording, *map(str, item)]) != (0, wanted):
            wrong.append(item)
    return len(items), wrong


def main(program, sources):
    status = 0
    with tempfile.TemporaryDirectory() as folder:
        for source in sources:
            recording = os.path.join(folder, "recording")
            ended, summary = call(program, ["run", source, recording])
            if ended != 0 or summary[-1] != "races 0":
                print(f"{source}: passed over, status {ended}, {summary[-1] if summary else 'nothing written'}")
                continue
            names = [line.split(" ")[1] for line in summary if line.startswith("process ")]
            count, wrong = differing(program, recording, names)
            if wrong is None:
                print(f"{source}: passed over, {count} items or more")
                continue
            print(f"{source}: {count - len(wrong)} of {count} slices")
            for item in wrong:
                status = 1
                print(f"  differs: {' '.join(map(str, item))}")
    return status


if __name__ == "__main__":
    sys.exit(main(os.path.abspath(sys.argv[1]), sys.argv[2:]))
