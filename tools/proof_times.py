#!/usr/bin/env python3
"""What the proof of a crate costs, by its functions and lemma modules, the dearest first: processor seconds, and their
parts by the kit's modules, of which Lts is the control flow of a body, Proof and Answers what is proved of it, Tie and
Layout how its code and its values are laid out. The crates below are built first where they are not. The crate is then
checked from nothing, by one processor, and nothing of that is kept. What runs beside it makes all times longer, but not
their order.

    proof_times.py CRATE [COUNT]    COUNT: how many lines, 40 where none is given
"""
import collections
import os
import re
import subprocess
import sys

import prove

KIT = os.path.dirname(os.path.dirname(os.path.realpath(prove.shutil.which("rt") or "")))
PARTS = ("Lts", "Proof", "Answers", "Invariants", "Tie", "Layout", "Mir", "Reads", "Named")
BEGINS = re.compile(r"antt: cache: (\S+): elaborating")
ENDS = re.compile(r"antt: cache: (\S+): artifact encoded")
TICKS = os.sysconf("SC_CLK_TCK")


def named(crate):
    """What the line of the crate names: libraries of the repository and of the kit."""
    with open(os.path.join(prove.TOP, "crates.txt"), encoding="utf-8") as file:
        lines = [line.split("#")[0].partition(":") for line in file]
    return next(names.split() for head, colon, names in lines if colon and head.split()[0] == crate)


def build_below(crate):
    """Builds the libraries of the repository that the crate names where they are not built."""
    for each in named(crate):
        folder = os.path.join(prove.TOP, "crates", each)
        rt = [sys.executable, os.path.join(prove.TOP, "tools", "rt_once.py"), "lib"]
        if os.path.isdir(folder) and subprocess.run(rt, cwd=folder, stdout=sys.stderr, check=False).returncode:
            sys.exit(f"{os.path.basename(sys.argv[0])}: {each} is not built")


def command_for(crate):
    """A check of the crate over built libraries, with nothing kept."""
    rlibs, below = os.path.join(KIT, "rlibs"), [each for each in prove.crates_below(crate) if each != crate]
    at = {each: os.path.join(prove.TOP, "crates", each, "out", "rlib") for each in below}
    words = [os.path.join(KIT, "bin", "rattle"), "check", "--crate-name", crate, "src/lib.rt"]
    for each in ["std", *named(crate)]:
        words += ["--extern", f"{each}={os.path.join(at.get(each, rlibs), each)}.rlib"]
    words += [word for place in [rlibs, *at.values()] for word in ("-L", f"dependency={place}")]
    words += ["--antt-project", os.path.join(KIT, "rattle", "logic", "antt-project.json")]
    return words + ["--logic-built", os.path.join(KIT, "logic_built"), "--links", f"{crate}="]


def seconds_of(process):
    """The processor seconds of a process so far, None where it has ended."""
    words = prove.text_of(f"/proc/{process.pid}/stat").rpartition(")")[2].split()
    return (int(words[11]) + int(words[12])) / TICKS if words else None


def name_of(module):
    """The function or the file that a module of the check belongs to, and its part."""
    path = [each for each in module.partition(".")[2].split(".") if each != "Code"] or [module]
    part = path[-1].partition("-")[0]
    return (".".join(path[:-1]), part) if part in PARTS else (".".join(path), "the rest")


def times_of(process):
    """For each function or file its seconds by parts, and the lines that say something else."""
    times, others = collections.defaultdict(collections.Counter), []
    open_modules, last = [], 0.0
    for line in process.stdout:
        now = seconds_of(process) or last
        if open_modules:
            open_modules[-1][1] += now - last
        last = now
        begun, ended = BEGINS.match(line), ENDS.match(line)
        if begun:
            open_modules.append([begun[1], 0.0])
        while ended and open_modules:
            module, seconds = open_modules.pop()
            name, part = name_of(module)
            times[name][part] += seconds
            if module == ended[1]:
                break
        if not line.startswith("antt: cache:"):
            others.append(line.rstrip())
    return times, others


def checked(crate, *words):
    """Checks the crate, with these words more: the seconds by functions and parts, the other lines, and the status."""
    how = {"stdout": subprocess.PIPE, "stderr": subprocess.STDOUT, "text": True, "errors": "replace"}
    environment = {**os.environ, "ANTT_CACHE_DEBUG": "1", "MIMALLOC_PURGE_DELAY": "-1"}
    folder = os.path.join(prove.TOP, "crates", crate)
    with subprocess.Popen([*command_for(crate), *words], cwd=folder, env=environment, **how) as process:
        times, others = times_of(process)
    return times, others, process.returncode


def main():
    if len(sys.argv) not in (2, 3) or not prove.shutil.which("rt"):
        sys.exit(__doc__)
    crate, count = sys.argv[1], int(sys.argv[2]) if len(sys.argv) == 3 else 40
    build_below(crate)
    times, others, status = checked(crate)
    for name, parts in sorted(times.items(), key=lambda each: -sum(each[1].values()))[:count]:
        told = ", ".join(f"{part} {seconds:.2f}" for part, seconds in parts.most_common(4))
        print(f"{sum(parts.values()):7.2f} {name}: {told}")
    whole = sum((parts for parts in times.values()), collections.Counter())
    print(f"{sum(whole.values()):7.2f} in all: " + ", ".join(f"{part} {seconds:.1f}" for part, seconds in whole.most_common()))
    print(others[-1] if others else "nothing was told")
    return status


if __name__ == "__main__":
    sys.exit(main())
