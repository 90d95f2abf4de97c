#!/usr/bin/env python3
"""Proves the libraries that a crate stands on side by side, and the crate where it is one: each as soon as those below it
are proved, that on which the longest chain waits first. A library is proved and built by one call, so that no crate above
builds it again. One call at a time works in one copy of the repository, so each processor has a copy of its own; what is
built is linked into the others. A program is left to who runs it, whose call proves and builds it. Tells on standard
error how far it is, in crates, functions and processor minutes, which are an estimate from the lengths of sources:
at a terminal in one line that changes, else once a minute. Where a proof fails, the end of what was written goes
there, and the status is 1. Prints the folder of the crate, in the copy in which the last proof was.

    prove.py FOLDER CRATE [WORKERS]     FOLDER: for the copies; WORKERS: how many processors to use, all where none is given
    prove.py --alone FOLDER PLACE       once all is proved in PLACE, what the first form printed: the other copies go
    prove.py --keep FOLDER CRATE PLACE  once all is built there too: that copy alone stays, cut to 2 GB of built libraries,
                                        the lowest first, which a later call takes as proved
"""
import filecmp
import hashlib
import os
import re
import shutil
import subprocess
import sys
import time

TOP = os.path.dirname(os.path.dirname(os.path.abspath(__file__)))
PARTS = ("src", "specs", "proofs")
# the sources: what the repository tracks there, and nothing that an editor leaves
SOURCE = re.compile(r"[^.#].*\.(rt|antt)")
FUNCTION = re.compile(r"^[^/\n]*\bfn \w", re.MULTILINE)
PROVED = re.compile(r"^logic=proved functions=(\d+)", re.MULTILINE)
# what proofs take on one processor, about: seconds for each crate, and for each line of its code with its contracts
EACH_CRATE, EACH_LINE = 5.0, 0.127
# the bytes of built libraries that may stay
MOST_KEPT = 2_000_000_000


def crates_below(name):
    """The crate with all that it stands on in this repository, each with what it names of them."""
    listed = {}
    with open(os.path.join(TOP, "crates.txt"), encoding="utf-8") as file:
        for line in file:
            head, colon, names = line.split("#")[0].partition(":")
            if colon:
                listed[head.split()[0]] = names.split()
    below, todo = {}, [name]
    while todo:
        crate = todo.pop()
        if crate not in below:
            below[crate] = [each for each in listed[crate] if each in listed]
            todo += below[crate]
    return below


def read_ahead(below):
    """Has the system read what the kit has of all that these crates stand on: a program, which is built last, reads the
    whole of it, and the proofs before it read little of it."""
    kit = os.path.join(os.path.dirname(os.path.dirname(os.path.realpath(shutil.which("rt")))), "rlibs")
    with open(os.path.join(TOP, "crates.txt"), encoding="utf-8") as file:
        lines = [line.split("#")[0].partition(":") for line in file]
    todo = ["std"] + [name for head, _, names in lines if head.split()[:1] and head.split()[0] in below for name in names.split()]
    met, files = set(below), []
    while todo:
        name = todo.pop()
        library = os.path.join(kit, f"{name}.rlib")
        if name not in met and os.path.isdir(library):
            met.add(name)
            todo += re.findall(r"^dep (\w+)$", text_of(os.path.join(library, "format")), re.MULTILINE)
            files += [os.path.join(at, each) for at, _, names in os.walk(library) for each in names]
    subprocess.Popen(["cat", "--", *files], stdin=subprocess.DEVNULL, stdout=subprocess.DEVNULL, stderr=subprocess.DEVNULL)


def files_of(folder):
    """The sources below a folder, by their names from it."""
    return {
        os.path.relpath(os.path.join(at, name), folder)
        for part in PARTS
        for at, _, names in os.walk(os.path.join(folder, part))
        for name in names
        if SOURCE.fullmatch(name)
    }


def functions_in(crate):
    """How many functions the sources of a crate have."""
    folder = os.path.join(TOP, "crates", crate)
    return sum(len(FUNCTION.findall(text_of(os.path.join(folder, name)))) for name in files_of(folder) if name.startswith("src"))


def seconds_of(crate):
    """About how long the proofs of a crate take on one processor."""
    folder = os.path.join(TOP, "crates", crate)
    lines = sum(text_of(os.path.join(folder, name)).count("\n") for name in files_of(folder) if name.startswith("src"))
    return EACH_CRATE + EACH_LINE * lines


def weights_of(below, seconds):
    """For each crate the seconds of the longest chain that begins with it."""
    weights = {}

    def weight(crate):
        if crate not in weights:
            above = [weight(other) for other in below if crate in below[other]]
            weights[crate] = seconds[crate] + max(above, default=0)
        return weights[crate]

    for crate in below:
        weight(crate)
    return weights


def lowest_first(below):
    """The crates, each after those that it stands on."""
    found = []

    def visit(crate):
        for other in below[crate]:
            if other not in found:
                visit(other)
        if crate not in found:
            found.append(crate)

    for crate in below:
        visit(crate)
    return found


def marks_of(below):
    """For each crate a sum of all that its proof reads: the kit, its sources, and the same of those below."""
    kit = os.path.realpath(shutil.which("rt"))
    marks = {}
    for crate in lowest_first(below):
        folder = os.path.join(TOP, "crates", crate)
        told = hashlib.sha256(repr((kit, os.stat(kit).st_mtime_ns, crate, [marks[it] for it in below[crate]])).encode())
        for name in sorted(files_of(folder)):
            with open(os.path.join(folder, name), "rb") as file:
                told.update(repr((name, file.read())).encode())
        for name in ("HANDLES", "crates.txt"):
            with open(os.path.join(TOP, name), encoding="utf-8") as file:
                lines = [line for line in file if name == "HANDLES" or line.split(":")[0].split()[:1] == [crate]]
            told.update(repr(lines).encode())
        marks[crate] = told.hexdigest()
    return marks


def text_of(name):
    """The text of a file, empty where there is none."""
    try:
        with open(name, encoding="utf-8", errors="replace") as file:
            return file.read()
    except OSError:
        return ""


class Copy:
    """A copy of the sources, in which one check works at a time."""

    def __init__(self, folder, below):
        self.folder = folder
        for crate in below:
            self.take(os.path.join("crates", crate))
        # a copy is a repository of its own, whose search for a root ends here
        os.makedirs(os.path.join(folder, ".git"), exist_ok=True)
        shutil.copy2(os.path.join(TOP, "HANDLES"), folder)
        with open(os.path.join(folder, "crates.txt"), "w", encoding="utf-8") as file:
            with open(os.path.join(TOP, "crates.txt"), encoding="utf-8") as listed:
                file.writelines(line for line in listed if line.split(":")[0].split()[:1] and line.split(":")[0].split()[0] in below)

    def take(self, place):
        """Makes the sources of a crate what they are in the repository, and leaves files that did not change."""
        here, there = os.path.join(TOP, place), os.path.join(self.folder, place)
        for name in files_of(there) - files_of(here):
            os.remove(os.path.join(there, name))
        for name in files_of(here):
            one, other = os.path.join(here, name), os.path.join(there, name)
            if not (os.path.isfile(other) and filecmp.cmp(one, other, shallow=False)):
                os.makedirs(os.path.dirname(other), exist_ok=True)
                shutil.copyfile(one, other)

    def crate(self, name):
        return os.path.join(self.folder, "crates", name)

    def holds(self, name, mark):
        """Whether a library of just these sources stands here, built after its proof."""
        out = os.path.join(self.crate(name), "out")
        return text_of(os.path.join(out, "proved")) == mark and os.path.isfile(os.path.join(out, "rlib", "stamp"))

    def note(self, name, mark):
        """Keeps that the crate is proved as it stands."""
        os.makedirs(os.path.join(self.crate(name), "out"), exist_ok=True)
        with open(os.path.join(self.crate(name), "out", "proved"), "w", encoding="utf-8") as file:
            file.write(mark)

    def lend(self, name, others):
        """Links a built library into the other copies; what its proof kept beside it goes."""
        kept = os.path.join(self.crate(name), "out")
        shutil.rmtree(os.path.join(kept, "incremental"), ignore_errors=True)
        for other in others:
            there = os.path.join(other.crate(name), "out")
            shutil.rmtree(there, ignore_errors=True)
            shutil.copytree(kept, there, copy_function=os.link)


class Check:
    """A library that is being proved and built in a copy."""

    def __init__(self, crate, copy, jobs, seconds):
        self.crate, self.copy, self.jobs = crate, copy, jobs
        self.seconds, self.began = seconds, time.monotonic()
        self.log = os.path.join(copy.folder, f"{crate}.log")
        with open(self.log, "w", encoding="utf-8") as file:
            words = [sys.executable, os.path.join(TOP, "tools", "rt_once.py"), "lib", "--jobs", str(jobs)]
            # a proof ends soon, so the prover's allocator gives no memory back to the system before
            how = {"env": {"MIMALLOC_PURGE_DELAY": "-1", **os.environ}, "stdin": subprocess.DEVNULL}
            self.process = subprocess.Popen(words, cwd=copy.crate(crate), stdout=file, stderr=file, **how)

    def output(self):
        return text_of(self.log)

    def functions(self):
        """How many functions it has proved."""
        whole = PROVED.findall(self.output())
        return int(whole[-1]) if whole else 0

    def share(self):
        """How much of it is done, by the estimate."""
        return min((time.monotonic() - self.began) * self.jobs / self.seconds, 1.0)


class Teller:
    """Says how far the proofs are."""

    def __init__(self, count, seconds):
        self.count, self.seconds, self.began, self.told = count, seconds, time.monotonic(), -60.0
        self.kept, self.left = 0.0, sum(seconds.values())
        self.terminal = sys.stderr.isatty()

    def begin(self, proved, workers):
        self.kept = sum(self.seconds[crate] for crate in proved)
        self.left = sum(self.seconds.values()) - self.kept
        print(
            f"ppd: {self.count - len(proved)} of {self.count} crates are to be proved, {workers} at a time: about"
            f" {minutes(self.left)} processor minutes, by an estimate from the lengths of sources",
            file=sys.stderr,
            flush=True,
        )

    def tell(self, proved, functions, checks):
        now = time.monotonic() - self.began
        if now - self.told < (1.0 if self.terminal else 60.0):
            return
        self.told = now
        done = sum(self.seconds[crate] for crate in proved) - self.kept
        done += sum(each.share() * self.seconds[each.crate] for each in checks)
        working = ", ".join(each.crate for each in checks)
        text = (
            f"ppd: {len(proved)} of {self.count} crates proved, {functions} functions in {int(now)} s;"
            f" about {round(done / 60)} of {minutes(self.left)} processor minutes (estimated); at {working}"
        )
        if self.terminal:
            columns = os.get_terminal_size(sys.stderr.fileno()).columns
            print("\r\x1b[K" + text[: max(columns - 1, 20)], end="", file=sys.stderr, flush=True)
        else:
            print(text, file=sys.stderr, flush=True)

    def end(self):
        if self.terminal:
            print("\r\x1b[K", end="", file=sys.stderr, flush=True)


def minutes(seconds):
    return max(1, round(seconds / 60))


def prove(below, copies, whole):
    """The copy in which the last crate was proved, or None where one is not proved. What the whole stands on is read ahead
    while the last is proved."""
    seconds, marks = {crate: seconds_of(crate) for crate in below}, marks_of(below)
    weights = weights_of(below, seconds)
    # what an earlier call kept stands in the first copy
    proved = {crate for crate in below if copies[0].holds(crate, marks[crate])}
    for crate in proved:
        copies[0].lend(crate, copies[1:])
    waiting = sorted(set(below) - proved, key=lambda crate: -weights[crate])
    free, functions, checks = list(copies), 0, []
    teller, last = Teller(len(below), seconds), copies[0]
    teller.begin(proved, len(copies))
    while waiting or checks:
        ready = [crate for crate in waiting if proved.issuperset(below[crate])]
        spare = len(copies) - sum(each.jobs for each in checks)
        if ready and spare > 0:
            # where all others wait for one, it gets all that is free; a large one gets more than one, and so does one
            # whose chain is longer than its share of all that is left, since jobs cannot become more later
            waiting.remove(ready[0])
            left = sum(seconds[crate] for crate in below if crate not in proved)
            share = weights[ready[0]] * len(copies) / left
            least = max(1 + functions_in(ready[0]) // 100, 2 + int((share - 1.2) / 0.5) if share > 1.2 else 1)
            jobs = max(spare // len(ready), min(least, spare))
            checks.append(Check(ready[0], free.pop(0), jobs, seconds[ready[0]]))
            if not waiting:
                read_ahead(whole)
            continue
        time.sleep(0.05)
        for each in [each for each in checks if each.process.poll() is not None]:
            checks.remove(each)
            free.append(each.copy)
            if each.process.returncode != 0:
                teller.end()
                for other in checks:
                    other.process.terminate()
                print(*each.output().splitlines()[-20:], sep="\n", file=sys.stderr)
                print(f"ppd: {each.crate} is not proved", file=sys.stderr)
                return None
            each.copy.note(each.crate, marks[each.crate])
            each.copy.lend(each.crate, [copy for copy in copies if copy is not each.copy])
            proved.add(each.crate)
            functions += each.functions()
            last = each.copy
        teller.tell(proved, functions, checks)
    teller.end()
    return last


def size_of(folder):
    """The bytes of the files below a folder."""
    return sum(os.lstat(os.path.join(at, name)).st_size for at, _, names in os.walk(folder) for name in names)


def alone(folder, place):
    """Leaves of all copies that in which the crate was proved."""
    copy = os.path.dirname(os.path.dirname(place))
    for name in os.listdir(folder):
        if os.path.join(folder, name) != copy:
            shutil.rmtree(os.path.join(folder, name), ignore_errors=True)
    return copy


def keep(folder, crate, place):
    """Leaves of all copies that in which the crate was built, and of it the libraries of the lowest crates."""
    copy = alone(folder, place)
    below, kept, room = crates_below(crate), set(), MOST_KEPT
    for each in lowest_first(below):
        out = os.path.join(copy, "crates", each, "out")
        size = size_of(os.path.join(out, "rlib"))
        stays = each != crate and size <= room and kept.issuperset(below[each])
        for name in os.listdir(out) if os.path.isdir(out) else []:
            if not (stays and name in ("rlib", "proved")):
                one = os.path.join(out, name)
                (shutil.rmtree if os.path.isdir(one) and not os.path.islink(one) else os.remove)(one)
        if stays:
            kept.add(each)
            room -= size
    if copy != os.path.join(folder, "0"):
        os.rename(copy, os.path.join(folder, "0"))


def main():
    if sys.argv[1] == "--keep":
        keep(*sys.argv[2:5])
        return 0
    if sys.argv[1] == "--alone":
        alone(*sys.argv[2:4])
        return 0
    folder, crate = sys.argv[1:3]
    workers = int(sys.argv[3]) if len(sys.argv) > 3 else len(os.sched_getaffinity(0))
    whole = crates_below(crate)
    copies = [Copy(os.path.join(folder, str(number)), whole) for number in range(workers)]
    below = dict(whole)
    if os.path.isfile(os.path.join(TOP, "crates", crate, "src", "main.rt")):
        del below[crate]
    last = prove(below, copies, whole)
    if last is None:
        return 1
    print(last.crate(crate))
    return 0


if __name__ == "__main__":
    sys.exit(main())
