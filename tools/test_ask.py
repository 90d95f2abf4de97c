#!/usr/bin/env python3
"""Tests of tools/ask, tools/until and tools/unproved, over scripts that stand for ./ppd and the kit's command."""
import os
import shutil
import subprocess
import tempfile
import unittest

TOOLS = os.path.dirname(os.path.abspath(__file__))

# answers a line `lines N` with N lines, and all that is no command of ppd with its refusal
ANSWERS = """#!/usr/bin/env python3
import sys
words = sys.argv[1:]
if words[0] == "flow":
    print("process a ended steps 1\\nraces 0")
for line in sys.stdin:
    line = line.split()
    if line == ["quit"]:
        break
    if line == ["fails"]:
        print("recording refused replay 1 Diverged a 0", flush=True)
        sys.exit(6)
    if not line:
        continue
    known = {"lines": lambda: [f"line {n}" for n in range(int(line[1]))], "blocks": lambda: ["? process"]}
    print("".join(it + "\\n" for it in known.get(line[0], lambda: ["? command"])()), end="", flush=True)
"""

# each run writes how many there were, and stores that
COUNTS = """#!/usr/bin/env bash
count="$(($(cat "$(dirname "$0")/count" 2>/dev/null || echo 0) + 1))"
echo "$count" >"$(dirname "$0")/count"
printf 'PPDR %s' "$count" >"${!#}"
echo "process a ended steps $count"
echo "races 0"
"""


class WithProgram(unittest.TestCase):
    def setUp(self):
        self.folder = tempfile.mkdtemp()
        os.mkdir(os.path.join(self.folder, "tools"))

    def tearDown(self):
        shutil.rmtree(self.folder)

    def write(self, name, text):
        with open(os.path.join(self.folder, name), "w", encoding="utf-8") as file:
            file.write(text)

    def call(self, program, tool, *words, said=""):
        self.write("ppd", program)
        os.chmod(os.path.join(self.folder, "ppd"), 0o755)
        copy = shutil.copy(os.path.join(TOOLS, tool), os.path.join(self.folder, "tools"))
        done = subprocess.run([copy, *words], cwd=self.folder, input=said, capture_output=True, text=True, check=False)
        return done.returncode, done.stdout


class AskTest(WithProgram):
    def test_lines_stand_before_their_answers(self):
        self.write("a.rec", "PPDR")
        asked = ["lines 2", "", "what", "lines 0", "blocks nobody", "lines 1"]
        wanted = "> lines 2\nline 0\nline 1\n> \n> what\n? command\n> lines 0\n> blocks nobody\n? process\n> lines 1\nline 0\n"
        self.assertEqual(self.call(ANSWERS, "ask", "a.rec", *asked), (0, wanted))
        self.assertEqual(self.call(ANSWERS, "ask", "a.rec", said="\n".join(asked)), (0, wanted))

    def test_a_source_has_its_summary_first(self):
        self.write("a.c", "process a { }")
        self.assertEqual(
            self.call(ANSWERS, "ask", "--budget=5", "a.c", "lines 1", "quit", "lines 2"),
            (0, "process a ended steps 1\nraces 0\n> lines 1\nline 0\n> quit\n"),
        )

    def test_a_status_is_handed_on(self):
        self.write("a.rec", "PPDR")
        self.assertEqual(
            self.call(ANSWERS, "ask", "a.rec", "fails", "lines 1"), (6, "> fails\nrecording refused replay 1 Diverged a 0\n")
        )


class UntilTest(WithProgram):
    def test_the_run_that_matches_is_kept(self):
        self.assertEqual(self.call(COUNTS, "until", "steps 3$", "a.c", "a.rec"), (0, "process a ended steps 3\nraces 0\n"))
        with open(os.path.join(self.folder, "a.rec"), encoding="utf-8") as file:
            self.assertEqual(file.read(), "PPDR 3")
        self.assertEqual(sorted(os.listdir(self.folder)), ["a.rec", "count", "ppd", "tools"])

    def test_nothing_is_kept_where_none_matches(self):
        self.assertEqual(self.call(COUNTS, "until", "--times", "4", "races 1", "a.c", "a.rec"), (1, ""))
        self.assertEqual(sorted(os.listdir(self.folder)), ["count", "ppd", "tools"])

    def test_what_is_no_recording_is_not_overwritten(self):
        self.write("b.c", "process b { }")
        self.assertEqual(self.call(COUNTS, "until", "races", "a.c", "b.c"), (70, ""))
        with open(os.path.join(self.folder, "b.c"), encoding="utf-8") as file:
            self.assertEqual(file.read(), "process b { }")


class UnprovedTest(WithProgram):
    def test_files_are_handed_in(self):
        os.makedirs(os.path.join(self.folder, "crates", "ppd"))
        self.write("a.c", "process a { }")
        self.write("rt", '#!/bin/sh\nbasename "$(pwd)"; echo "$@"\n')
        os.chmod(os.path.join(self.folder, "rt"), 0o755)
        copy = shutil.copy(os.path.join(TOOLS, "unproved"), os.path.join(self.folder, "tools"))
        path = {"PATH": self.folder + ":" + os.environ["PATH"]}
        words = [copy, "flow", "--leaf", "3", "a.c"]
        done = subprocess.run(words, cwd=self.folder, env={**os.environ, **path}, capture_output=True, text=True, check=False)
        source = os.path.realpath(os.path.join(self.folder, "a.c"))
        self.assertEqual(done.stdout, f"ppd\ntry --data given0={source} -- flow --leaf 3 given0\n")
        self.assertIn("NOT PROVED", done.stderr)


if __name__ == "__main__":
    unittest.main()
