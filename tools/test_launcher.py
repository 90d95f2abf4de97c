#!/usr/bin/env python3
"""Tests of the script ./ppd, over a script that stands for the program that it built."""
import os
import pty
import shutil
import subprocess
import tempfile
import unittest

TOP = os.path.dirname(os.path.dirname(os.path.abspath(__file__)))
# what the script calls
TOOLS = ("awk", "bash", "cat", "dirname", "find", "flock", "head", "mkdir", "readlink", "sort", "tr")
# ends with the status that the file `status` has, and says its words
PROGRAM = '#!/bin/sh\necho "$@"\nexit "$(cat "$(dirname "$0")/status")"\n'


class LauncherTest(unittest.TestCase):
    def setUp(self):
        self.folder = tempfile.mkdtemp()
        shutil.copy(os.path.join(TOP, "ppd"), self.folder)
        self.write("crates.txt", "ppd:\n")
        self.write("HANDLES", "")
        self.write("crates/ppd/src/main.rt", "")
        self.write(".built/ppd", PROGRAM)
        self.write(".built/names", "ppd:\nHANDLES\ncrates/ppd/src/main.rt\n")
        self.write(".built/stamp", "")
        self.write(".built/status", "0")
        os.chmod(os.path.join(self.folder, ".built", "ppd"), 0o755)
        self.make_older("crates/ppd/src/main.rt")
        self.make_older("HANDLES")
        # a path without the kit, wherever that is
        self.path = os.path.join(self.folder, "path")
        os.mkdir(self.path)
        for tool in TOOLS:
            os.symlink(shutil.which(tool), os.path.join(self.path, tool))

    def tearDown(self):
        shutil.rmtree(self.folder)

    def write(self, name, text):
        path = os.path.join(self.folder, name)
        os.makedirs(os.path.dirname(path), exist_ok=True)
        with open(path, "w", encoding="utf-8") as file:
            file.write(text)

    def make_older(self, name):
        os.utime(os.path.join(self.folder, name), (0, 0))

    def call(self, *words, at_terminal=False):
        """Without the kit on the path: what the script says on standard output and on standard error."""
        try:
            errors, told = pty.openpty() if at_terminal else os.pipe()
        except OSError:
            self.skipTest("this machine gives no terminal")
        done = subprocess.run(
            [os.path.join(self.folder, "ppd"), *words],
            cwd=self.folder,
            env={"PATH": self.path},
            stdin=subprocess.DEVNULL,
            stdout=subprocess.PIPE,
            stderr=told,
            check=False,
        )
        os.write(told, b"\n")
        os.close(told)
        said = os.read(errors, 10_000).decode().replace("\r", "").strip()
        os.close(errors)
        return done.returncode, done.stdout.decode(), said

    def test_what_is_built_runs_without_the_kit(self):
        self.assertEqual(self.call("flow", "a.c"), (0, "flow a.c\n", ""))

    def test_what_changed_is_not_run(self):
        self.write("crates/ppd/src/other.rt", "")
        self.assertEqual(self.call("flow", "a.c"), (70, "", "ppd: not built, and the kit's command rt is not on the path"))

    def test_a_status_is_explained_at_a_terminal(self):
        self.write("a.c", "process a { }")
        self.write(".built/status", "3")
        self.assertEqual(self.call("flow", "none.c"), (3, "flow none.c\n", ""))
        self.assertEqual(self.call("flow", "none.c", at_terminal=True), (3, "flow none.c\n", "ppd: there is no file none.c"))
        said = self.call("whole", "--workers", "2", "none.rec", at_terminal=True)[2]
        self.assertEqual(said, "ppd: there is no file none.rec")
        said = self.call("flow", "--budget", "5", "a.c", at_terminal=True)[2]
        self.assertEqual(said, "ppd: a.c or the input could not be read to its end")
        self.write(".built/status", "4")
        self.assertEqual(self.call("show", "a.c", at_terminal=True)[2], "ppd: the output could not be written")
        said = self.call("run", "a.c", "a.rec", at_terminal=True)[2]
        self.assertEqual(said, "ppd: the recording could not be stored as a.rec, or the output could not be written")

    def test_a_source_is_not_overwritten(self):
        self.write("b.c", "process b { }")
        told = "ppd: b.c is there and is no recording, so no recording is stored under this name"
        for words in (["a.c", "b.c"], ["a.c", "b.c", "--budget", "5"], ["--leaf=3", "--", "a.c", "b.c"]):
            self.assertEqual(self.call("run", *words), (70, "", told))
        self.assertEqual(self.call("flow", "a.c"), (0, "flow a.c\n", ""))
        self.write("b.rec", "PPDR and more")
        self.write("empty", "")
        for name in ("b.rec", "empty", "none"):
            self.assertEqual(self.call("run", "a.c", name), (0, f"run a.c {name}\n", ""))


if __name__ == "__main__":
    unittest.main()
