#!/usr/bin/env python3
"""Tests of tools/recording.py, on recordings that were written down by hand."""
import contextlib
import io
import os
import re
import sys
import tempfile
import unittest

sys.path.insert(0, os.path.dirname(os.path.abspath(__file__)))
import recording


def number(count, value):
    return value.to_bytes(count, "big")


def header(source, processes, version=1):
    return b"PPDR" + number(1, version) + number(4, 100_000) + number(4, 0) + number(4, len(source)) + source + number(1, processes)


def cells(*numbers):
    return number(2, len(numbers)) + b"".join(number(2, cell) for cell in numbers)


def log(*entries):
    return number(4, len(entries)) + b"".join(entries)


def sync(kind, object, nth, reads=(), writes=(), value=0):
    return number(1, 3) + number(1, kind) + number(1, object) + number(4, nth) + number(8, value) + cells(*reads) + cells(*writes)


def end(reads=(), writes=(), status=0):
    return number(1, 5) + number(1, status) + number(4, 0) + cells(*reads) + cells(*writes)


# the example of docs/formats.md
SMALLEST = (
    bytes.fromhex("50504452 01 000186A0 0000 0000 00000030")
    + b"shared int x; process a { x = 2; print(x + 3); }"
    + bytes.fromhex("01 00000004 0100000000 0200000001 0000000000000000 0400000000 0500 00000003 00010000 00010000".replace(" ", ""))
)

UNGUARDED = b"shared int x;\nprocess a { x = x + 1; }\nprocess b { x = x + 1; }\n"
WITHOUT_LOCK = header(UNGUARDED, 2) + 2 * log(end([0], [0]))

GUARDED = b"shared int x; sem m = 1;\nprocess a {\n  P(m);\n  x++;\n  V(m);\n}\nprocess b {\n  P(m);\n  x++;\n  V(m);\n}\n"
FIRST = log(sync(1, 0, 1), sync(2, 0, 2, [0], [0]), end())
SECOND = log(sync(1, 0, 2), sync(2, 0, 3, [0], [0]), end())
A_FIRST = header(GUARDED, 2) + FIRST + SECOND
B_FIRST = header(GUARDED, 2) + SECOND + FIRST

# x is read in every schedule before it is written
RENDEZVOUS = (
    header(b"shared int x; chan c[0]; process a { send(c, 7); x = 1; } process b { int v; print(x); v = recv(c); }", 2, 2)
    + log(sync(3, 0, 1, value=7), sync(5, 0, 1), end([], [0]))
    + log(sync(4, 0, 1, [0], value=7), end())
)

# the receive comes after the send, and nothing before the second write; a function writes the second element
ELEMENTS = (
    b"shared int x[2]; chan c[1];\n"
    b"void fill(int i) {\n  x[i] = 1;\n}\n"
    b"process a {\n  x[0] = 5;\n  send(c, 1);\n  fill(1);\n}\n"
    b"process b {\n  x[0] = recv(c);\n  if (x[1] > x[0]) {\n    print(1);\n  }\n}\n"
)
CHANNEL = header(ELEMENTS, 2) + log(sync(3, 0, 1, [], [0], 1), end([], [1])) + log(sync(4, 0, 1, value=1), end([0, 1], [0]))


class WithFiles(unittest.TestCase):
    def said(self, command, *contents):
        with tempfile.TemporaryDirectory() as folder:
            names = []
            for n, content in enumerate(contents):
                names.append(os.path.join(folder, str(n)))
                with open(names[-1], "wb") as file:
                    file.write(content)
            out, errors = io.StringIO(), io.StringIO()
            with contextlib.redirect_stdout(out), contextlib.redirect_stderr(errors):
                status = recording.main([command, *names])
            return status, out.getvalue().splitlines() or [errors.getvalue().split(": ", 1)[1].rstrip()]


class RecordingTest(WithFiles):
    def test_about(self):
        self.assertEqual(
            self.said("about", SMALLEST),
            (
                0,
                [
                    "version 1, budget 100000, leaf 0, loops 0",
                    "process a: ended, 4 entries, 0 synchronizations",
                    "source, 48 bytes:",
                    "    1 | shared int x; process a { x = 2; print(x + 3); }",
                ],
            ),
        )

    def test_edges(self):
        self.assertEqual(self.said("edges", SMALLEST), (0, ["a 0 from its start to its end (ended): reads x, writes x"]))
        self.assertEqual(
            self.said("edges", RENDEZVOUS),
            (
                0,
                [
                    "a 0 from its start to send c 1: reads -, writes -",
                    "a 1 from send c 1 to done c 1: reads -, writes -",
                    "a 2 from done c 1 to its end (ended): reads -, writes x",
                    "b 0 from its start to recv c 1: reads x, writes -",
                    "b 1 from recv c 1 to its end (ended): reads -, writes -",
                ],
            ),
        )

    def test_no_race(self):
        for content in (SMALLEST, A_FIRST, B_FIRST, RENDEZVOUS):
            self.assertEqual(self.said("races", content), (0, ["races 0"]))

    def test_races_and_their_lines(self):
        reads = ["  {0} 0 reads it from its start to its end (ended), here:", "    {1}:13 x = x + 1;"]
        writes = [line.replace("reads", "writes") for line in reads]

        def both(one, other):
            return [line.format("a", 2) for line in one] + [line.format("b", 3) for line in other]

        self.assertEqual(
            self.said("races", WITHOUT_LOCK),
            (
                1,
                ["races 3", "race a 0 b 0 x read-write"]
                + both(reads, writes)
                + ["race a 0 b 0 x write-read"]
                + both(writes, reads)
                + ["race a 0 b 0 x write-write"]
                + both(writes, writes),
            ),
        )

    def test_lines_in_functions(self):
        self.assertEqual(
            self.said("races", CHANNEL),
            (
                1,
                [
                    "races 1",
                    "race a 1 b 1 x[1] write-read",
                    "  a 1 writes it from send c 1 to its end (ended), here:",
                    "    3:3 x[i] = 1;",
                    "  b 1 reads it from recv c 1 to its end (ended), here:",
                    "    12:3 if (x[1] > x[0])",
                ],
            ),
        )

    def test_same(self):
        self.assertEqual(self.said("same", A_FIRST, A_FIRST), (0, ["the same synchronization"]))
        self.assertEqual(
            self.said("same", A_FIRST, B_FIRST), (1, ["process a, synchronization 0: P m 1 in the first, P m 2 in the second"])
        )
        self.assertEqual(self.said("same", A_FIRST, SMALLEST), (1, ["the sources differ"]))

    def test_no_recording(self):
        self.assertEqual(self.said("about", b"shared int x;"), (2, ["the first four bytes are not PPDR"]))
        self.assertEqual(self.said("about", SMALLEST[:-1]), (2, ["the bytes end inside the field at 105"]))
        self.assertEqual(self.said("about", SMALLEST + b"\0"), (2, ["bytes follow the last entry, from 107"]))
        missing = header(GUARDED, 2) + SECOND + log(end())
        self.assertEqual(self.said("races", missing), (2, ["V m 2 is missing"]))


TOP = os.path.dirname(os.path.dirname(os.path.abspath(__file__)))


def content_of(name):
    with open(os.path.join(TOP, name), "rb") as file:
        return file.read()


def adds(first, second, done):
    """The log of a process of docs/debugging/lost.c: the numbers of its `P`s of m, and that of its `V` of done."""
    return log(
        sync(1, 0, first), sync(2, 0, first + 1, [0]), sync(1, 0, second), sync(2, 0, second + 1, [], [0]), sync(2, 1, done), end()
    )


LOST = header(content_of("docs/debugging/lost.c"), 3)
CHECK = log(sync(1, 1, 1), sync(1, 1, 2), end([0], status=4))
# the recordings that docs/debugging.md names
NAMED = {
    "race.rec": header(content_of("docs/debugging/race.c"), 2) + 2 * log(end([0], [0])),
    "lost.rec": LOST + adds(1, 4, 2) + adds(2, 3, 1) + CHECK,
    "good.rec": LOST + adds(1, 2, 1) + adds(3, 4, 2) + CHECK,
    "docs/debugging/buffer.rec": content_of("docs/debugging/buffer.rec"),
}


class DocumentTest(WithFiles):
    def test_sessions_of_debugging(self):
        session = r"^\$ tools/recording\.py (\w+)([^|\n]*)(?:\| head -n (\d+))?\n((?:(?!\$ |```).*\n)*)"
        sessions = re.findall(session, content_of("docs/debugging.md").decode(), re.MULTILINE)
        self.assertEqual([session[0] for session in sessions], ["races", "same", "about", "edges"])
        for command, names, most, told in sessions:
            _, said = self.said(command, *(NAMED[name] for name in names.split()))
            self.assertEqual(said[: int(most) if most else None], told.splitlines())


if __name__ == "__main__":
    unittest.main()
