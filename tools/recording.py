#!/usr/bin/env python3
"""Reads a recording by docs/formats.md alone, and tells what it holds. It needs no program that is built.

  about FILE       version, options, how each process ended, and the source
  edges FILE       each internal edge: the synchronizations that begin and end it, the cells read and written in it
  races FILE       the race list as `./ppd debug` answers it, and below each race its two edges and the statements that can
                   access the cell there, with their text
  same FILE FILE   whether two recordings have the same synchronization, and else the first difference

Status 0; 1 where `same` finds a difference or `races` a race; 2 where a file is no recording that can be read. What is
refused and why is told by `./ppd debug`, which tests more."""
import argparse
import os
import sys
from bisect import bisect_left
from dataclasses import dataclass, field

sys.path.insert(0, os.path.dirname(os.path.abspath(__file__)))
from statements import NotRead, Source

KINDS = {1: "P", 2: "V", 3: "send", 4: "recv", 5: "done"}
STATUSES = ("ended", "trap overflow", "trap zero", "trap index", "trap assert", "trap depth", "budget", "blocked")


class NotARecording(Exception):
    """Bytes, or logs, that are not as docs/formats.md says."""


class Fields:
    """The fields of a recording, one after the other."""

    def __init__(self, content):
        self.content = content
        self.at = 0

    def bytes(self, count):
        if self.at + count > len(self.content):
            raise NotARecording(f"the bytes end inside the field at {self.at}")
        self.at += count
        return self.content[self.at - count : self.at]

    def number(self, count):
        return int.from_bytes(self.bytes(count), "big")

    def value(self):
        return int.from_bytes(self.bytes(8), "big", signed=True)

    def values(self):
        return [self.value() for _ in range(self.number(2))]

    def cells(self):
        return [self.number(2) for _ in range(self.number(2))]


@dataclass
class Sync:
    """A synchronization: its kind and object, and its number among those."""

    kind: str
    object: str
    number: int
    reads: list
    writes: list

    def key(self):
        return (self.kind, self.object, self.number)

    def __str__(self):
        return f"{self.kind} {self.object} {self.number}"


@dataclass
class Process:
    name: str
    entries: int = 0
    syncs: list = field(default_factory=list)
    status: str | None = None
    reads: list = field(default_factory=list)
    writes: list = field(default_factory=list)


class Recording:
    def __init__(self, content):
        fields = Fields(content)
        if fields.bytes(4) != b"PPDR":
            raise NotARecording("the first four bytes are not PPDR")
        self.version = fields.number(1)
        if self.version not in (1, 2):
            raise NotARecording(f"version {self.version} is neither 1 nor 2")
        self.budget, self.leaf, self.loops = fields.number(4), fields.number(2), fields.number(2)
        self.text = fields.bytes(fields.number(4))
        try:
            self.source = Source(self.text)
        except NotRead as place:
            raise NotARecording(f"the source is none of the language at {place}") from None
        self.cells = self.source.cells()
        if fields.number(1) != len(self.source.processes):
            raise NotARecording(f"the source has {len(self.source.processes)} processes, and the byte at {fields.at - 1} says another count")
        self.processes = [self.log(fields, body.name) for body in self.source.processes]
        if fields.at != len(content):
            raise NotARecording(f"bytes follow the last entry, from {fields.at}")

    def log(self, fields, name):
        process = Process(name, fields.number(4))
        for _ in range(process.entries):
            at = fields.at
            tag = fields.number(1)
            if tag in (1, 2, 4):
                fields.number(2)
                fields.values()
            elif tag == 3:
                sync = self.sync(fields, at)
                if process.status is None:
                    process.syncs.append(sync)
            elif tag == 5:
                self.end(fields, at, process)
            else:
                raise NotARecording(f"the entry at {at} has the tag {tag}")
        return process

    def sync(self, fields, at):
        kind, number_of_object = KINDS.get(fields.number(1)), fields.number(1)
        names = list(self.source.semaphores if kind in ("P", "V") else self.source.channels)
        if kind is None or number_of_object >= len(names):
            raise NotARecording(f"the synchronization at {at} has no kind or object")
        number = fields.number(4)
        fields.value()
        return Sync(kind, names[number_of_object], number, self.named(fields), self.named(fields))

    def end(self, fields, at, process):
        status = fields.number(1)
        if status >= len(STATUSES):
            raise NotARecording(f"the end at {at} has the status {status}")
        fields.number(4)
        reads, writes = self.named(fields), self.named(fields)
        if process.status is None:
            process.status, process.reads, process.writes = STATUSES[status], reads, writes

    def named(self, fields):
        numbers = fields.cells()
        if any(number >= len(self.cells) for number in numbers):
            raise NotARecording(f"a cell before {fields.at} is none of the source")
        return numbers

    def cell_text(self, number):
        name, index = self.cells[number]
        return name if index is None else f"{name}[{index}]"

    # internal edges

    def edge(self, process, number):
        """What begins and ends an internal edge, and its cells: a process has one edge more than synchronizations."""
        syncs = process.syncs
        begin = syncs[number - 1] if number else None
        last = syncs[number] if number < len(syncs) else process
        return begin, last, last.reads, last.writes

    def before_by_pairs(self, sync):
        """The synchronization whose number leads to this one, or none: docs/formats.md, internal edges."""
        number, name = sync.number, sync.object
        if sync.kind == "P":
            return ("V", name, number) if number > self.source.semaphores[name] else None
        if sync.kind == "V":
            return None
        capacity = self.source.channels[name]
        if sync.kind == "recv":
            return ("send", name, number)
        if sync.kind == "done":
            return ("recv", name, number)
        if capacity == 0:
            return ("done", name, number - 1) if number > 1 else None
        return ("recv", name, number - capacity) if number > capacity else None

    def times(self):
        """Of each synchronization, for each process, how many of its synchronizations are it or happened before it."""
        places = {}
        for p, process in enumerate(self.processes):
            for i, sync in enumerate(process.syncs):
                if places.setdefault(sync.key(), (p, i)) != (p, i):
                    raise NotARecording(f"{sync} stands twice")
        times = [[] for _ in self.processes]
        moved = True
        while moved:
            moved = False
            for p, process in enumerate(self.processes):
                while len(times[p]) < len(process.syncs):
                    i = len(times[p])
                    wanted = self.before_by_pairs(process.syncs[i])
                    time = list(times[p][-1]) if i else [0] * len(self.processes)
                    if wanted is not None:
                        if wanted not in places:
                            raise NotARecording(f"{' '.join(map(str, wanted))} is missing")
                        q, j = places[wanted]
                        if j >= len(times[q]):
                            break
                        time = [max(pair) for pair in zip(time, times[q][j])]
                    time[p] = i + 1
                    times[p].append(time)
                    moved = True
        for p, process in enumerate(self.processes):
            if len(times[p]) < len(process.syncs):
                raise NotARecording("synchronizations wait for one another in a circle")
        return times

    def races(self):
        """Each race as process, edge, process, edge, cell and kind, in the order of the race list."""
        times = self.times()
        accesses = [{} for _ in self.cells]
        for p, process in enumerate(self.processes):
            for i in range(len(process.syncs) + 1):
                _, _, reads, writes = self.edge(process, i)
                for cell in set(reads) | set(writes):
                    accesses[cell].setdefault(p, []).append((i, cell in reads, cell in writes))
        found = []
        for cell, by_process in enumerate(accesses):
            for p, mine in by_process.items():
                for q, others in by_process.items():
                    if p < q:
                        found += self.races_of(times, cell, (p, mine), (q, others))
        return sorted(found)

    @staticmethod
    def races_of(times, cell, one, other):
        (p, mine), (q, others) = one, other
        numbers = [j for j, _, _ in others]
        found = []
        for i, reads, writes in mine:
            # edge j of q is before edge i of p where j is below what the synchronization that begins i counts of q
            at = bisect_left(numbers, times[p][i - 1][q] if i else 0)
            for j, other_reads, other_writes in others[at:]:
                # and edge i is before edge j where the one that begins j counts the one that ends i
                if j and times[q][j - 1][p] > i:
                    break
                pairs = ((reads, other_writes), (writes, other_reads), (writes, other_writes))
                found += [(p, i, q, j, cell, kind) for kind, both in enumerate(pairs) if all(both)]
        return found


RACE_KINDS = (("read", "write"), ("write", "read"), ("write", "write"))


def edge_words(begin, last):
    ends = str(last) if isinstance(last, Sync) else f"its end ({last.status or 'no end in the log'})"
    return f"from {begin or 'its start'} to {ends}"


def about(recording):
    print(f"version {recording.version}, budget {recording.budget}, leaf {recording.leaf}, loops {recording.loops}")
    for process in recording.processes:
        print(f"process {process.name}: {process.status or 'no end in the log'}, {process.entries} entries, {len(process.syncs)} synchronizations")
    print(f"source, {len(recording.text)} bytes:")
    lines = recording.source.text.split("\n")
    for number, line in enumerate(lines[:-1] if lines[-1] == "" else lines, 1):
        print(f"{number:5} | {line}")
    return 0


def edges(recording):
    def texts(cells):
        return " ".join(map(recording.cell_text, cells)) or "-"

    for process in recording.processes:
        for number in range(len(process.syncs) + 1):
            begin, last, reads, writes = recording.edge(process, number)
            print(f"{process.name} {number} {edge_words(begin, last)}: reads {texts(reads)}, writes {texts(writes)}")
    return 0


def side(recording, process_number, edge_number, cell, kind):
    process = recording.processes[process_number]
    begin, last, _, _ = recording.edge(process, edge_number)
    print(f"  {process.name} {edge_number} {kind}s it {edge_words(begin, last)}, here:")
    if isinstance(last, Sync):
        end = (last.kind, last.object)
    else:
        end = last.status if last.status in ("ended", "blocked") else None
    source = recording.source
    begun = (begin.kind, begin.object) if begin else None
    for number in source.between(source.processes[process_number], begun, end):
        statement = source.statements[number]
        accesses = statement.reads if kind == "read" else statement.writes
        if any(access.can_be(recording.cells[cell]) for access in accesses):
            print(f"    {statement.line}:{statement.column} {statement.text}")


def races(recording):
    found = recording.races()
    print(f"races {len(found)}")
    for p, i, q, j, cell, kind in found:
        names = RACE_KINDS[kind]
        print(f"race {recording.processes[p].name} {i} {recording.processes[q].name} {j} {recording.cell_text(cell)} {'-'.join(names)}")
        side(recording, p, i, cell, names[0])
        side(recording, q, j, cell, names[1])
    return 1 if found else 0


def same(recording, other):
    if recording.text != other.text:
        print("the sources differ")
        return 1
    for one, two in zip(recording.processes, other.processes):
        for number in range(max(len(one.syncs), len(two.syncs))):
            both = [process.syncs[number] if number < len(process.syncs) else None for process in (one, two)]
            if None in both or both[0].key() != both[1].key():
                first, second = (str(sync) if sync else "no more" for sync in both)
                print(f"process {one.name}, synchronization {number}: {first} in the first, {second} in the second")
                return 1
    print("the same synchronization")
    return 0


def main(words):
    parser = argparse.ArgumentParser(description=__doc__, formatter_class=argparse.RawDescriptionHelpFormatter)
    parser.add_argument("command", choices=("about", "edges", "races", "same"))
    parser.add_argument("files", nargs="+", metavar="FILE")
    given = parser.parse_args(words)
    if len(given.files) != (2 if given.command == "same" else 1):
        parser.error("same takes two files, and the others take one")
    read = []
    for name in given.files:
        try:
            with open(name, "rb") as file:
                read.append(Recording(file.read()))
        except (OSError, NotARecording) as fault:
            print(f"{name}: {fault}", file=sys.stderr)
            return 2
    try:
        return {"about": about, "edges": edges, "races": races, "same": same}[given.command](*read)
    except NotARecording as fault:
        print(f"{given.files[0]}: {fault}", file=sys.stderr)
        return 2
    except BrokenPipeError:
        os.dup2(os.open(os.devnull, os.O_WRONLY), sys.stdout.fileno())
        return 0


if __name__ == "__main__":
    sys.exit(main(sys.argv[1:]))
