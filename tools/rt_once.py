#!/usr/bin/env python3
"""Runs the kit's command rt, which takes the sum of a crate's sources once in the run. Of itself rt takes it again for
each library below a crate, some seconds for an upper one; kits before 13f for each way that leads down to it through
crates.txt, which lasts longer than the proofs. No source changes meanwhile in a copy that is built. And a library that
it builds holds the statements of its lemmas and not their proofs, as under rt ci: the crates above it read nothing
else, and are read in less time and memory. Where the kit's rt has no such words, it runs as it is.

    rt_once.py WORD ..      like rt WORD ..
"""
import functools
import importlib.machinery
import importlib.util
import os
import shutil
import sys


def loaded(command):
    """The kit's rt as a module, or None where it is none with a sum for each crate."""
    loader = importlib.machinery.SourceFileLoader("kit_rt", command)
    made = importlib.util.module_from_spec(importlib.util.spec_from_loader("kit_rt", loader))
    sys.modules["kit_rt"] = made
    try:
        loader.exec_module(made)
        taken = functools.cache(made.rtlib.Crate.stamp)
        made.rtlib.Crate.stamp = lambda crate: taken(crate)
        if "--statements" in made.rtlib.help_of("build"):
            cut_libraries(made.rtlib)
        return made if callable(made.main) else None
    except (AttributeError, ImportError, SyntaxError, UnicodeDecodeError, ValueError):
        return None


def cut_libraries(rtlib):
    """Has a library that is built hold its statements alone, which rattle does where no kept work stands beside it."""
    words_of = rtlib.Crate.words

    def words(crate, *given, **named):
        return words_of(crate, *given, **named) + ([] if crate.is_program else ["--statements"])

    rtlib.Crate.words, rtlib.libraries_keep = words, lambda: False


def main():
    command = shutil.which("rt")
    if command is None:
        sys.exit("rt_once.py: the kit's command rt is not on the path")
    sys.dont_write_bytecode = True
    made = loaded(os.path.realpath(command))
    if made is None:
        os.execv(command, ["rt", *sys.argv[1:]])
    sys.argv[0] = command
    return made.main(sys.argv[1:])


if __name__ == "__main__":
    sys.exit(main())
