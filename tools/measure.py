#!/usr/bin/env python3
"""Times the program on large runs, each at full and at half size, and prints one table; the last lines name what took
0.1 seconds or 50 megabytes at least and grew more than half faster than the work. It stands outside the gate: what it
shows is what one machine took.

    measure.py PROGRAM [--times N] [--only WORD] [--beside | --further]

PROGRAM is the built program. Each figure is the least of N tries (default: 3). `--only` takes the rows whose name has
the word. `--beside` measures nothing of this but drill 7 beside the C program of docs/performance, alone and under the
sanitizers that are on the path. `--further` measures the commands that ask a recording once: `slice`, `whole`, `rerun`
and `clean`. It needs GNU time as /usr/bin/time.

Of `flow`: `run` is from the start until the threads of the processes have ended, told from the system's list of
threads once a millisecond; `races` is from then to the first byte of the summary: index, graph and race search. `why`
and `final` are from a line to its whole answer, `why` the first question. Of `run`: `stored` is from the end of the
threads to the end of the call. Of `debug`: `read` is from the start to the answer of a line that needs nothing. All are
in seconds. The megabytes are the peaks of the three calls and the recording's size."""
import argparse
import os
import shutil
import subprocess
import sys
import tempfile
import time

TOP = os.path.dirname(os.path.dirname(os.path.abspath(__file__)))
MOST = 500_000


# ---- sources


def pipeline(stages, turns, number=0, each=""):
    """As `drill` makes it; `each` stands in each turn of each process, with K for its number."""
    lines = ["shared int total;", f"shared int own[{stages + 1}];"] if each else ["shared int total;"]
    lines += [f"chan c{k}[4];" for k in range(stages)]
    head = f"while (i < {turns}) {{ "
    for k in range(stages + 1):
        more = each.replace("K", str(k))
        if k == 0:
            body = f"{head}send(c0, i * 3 + {number}); {more}i = i + 1; }}"
        elif k < stages:
            body = f"int v; {head}v = recv(c{k - 1}); send(c{k}, v + {k}); {more}i = i + 1; }}"
        else:
            body = f"int v; int sum = 0; {head}v = recv(c{k - 1}); sum = sum + v; {more}i = i + 1; }} "
            body += "total = sum; print(sum);"
        lines.append(f"process p{k} {{ int i = 0; {body} }}")
    return "\n".join(lines) + "\n"


def few(turns):
    """16 processes that count, and then add to one cell in their order."""
    lines = ["shared int total;", "sem s0 = 1;"] + [f"sem s{k};" for k in range(1, 17)]
    for k in range(16):
        lines.append(
            f"process p{k} {{ int i = 0; while (i < {turns}) {{ i = i + 1; }} "
            f"P(s{k}); total = total + i; V(s{k + 1}); }}"
        )
    return "\n".join(lines) + "\n"


def apart(turns):
    """4 processes whose synchronization orders none before another, and who share no cell."""
    lines = ["shared int total[4];"] + [f"sem s{k};" for k in range(4)]
    for k in range(4):
        lines.append(f"process p{k} {{ int i = 0; while (i < {turns}) {{ V(s{k}); total[{k}] = i; i = i + 1; }} }}")
    return "\n".join(lines) + "\n"


def many_cells(cells):
    """One process that writes many cells in turn, in one interval."""
    turns = 512 * cells
    body = f"int i = 0; while (i < {turns}) {{ a[i % {cells}] = i; i = i + 1; }}"
    return f"shared int a[{cells}];\nprocess p {{ {body} }}\n"


def largest(functions):
    """Functions of 16 statements that call one another in a row, 64 bytes to a statement: 256 are 4,096 statements."""
    names = [f"n{k:04}" for k in range(1024)]
    shared = "shared int " + ", ".join(names) + ";"
    lines = [shared]
    for k in range(functions):
        last = k == functions - 1
        lines.append(f"process a {{" if last else f"void f{k:03}() {{")
        for j in range(14 if k else 15):
            a, b, c = (names[(k * 7 + j * 3 + m * 131) % 1024] for m in range(3))
            lines.append(f"{a} = {b} + {c} * ({a} - {b}) + {c};")
        if k:
            lines.append(f"f{k - 1:03}();")
        lines.append("}")
    text = "\n".join(lines) + "\n"
    room = 262_144 * functions // 256 - len(text)
    return text + "/" * 2 + " " * max(room - 3, 0) + "\n"


# ---- one call


class Call:
    """A call of the program that is watched as it goes."""

    def __init__(self, words, folder, talks=False):
        self.folder = folder
        self.began = time.monotonic()
        # the peak of a process counts that of the one that started it, which GNU time keeps small
        words = ["/usr/bin/time", "-q", "-o", os.path.join(folder, "peak"), "-f", "%M %U %S", *words]
        self.process = subprocess.Popen(
            words, cwd=folder, stdin=subprocess.PIPE if talks else subprocess.DEVNULL, stdout=subprocess.PIPE
        )
        self.ran = self.pid = None

    def threads(self):
        timer = self.process.pid
        try:
            if self.pid is None:
                with open(f"/proc/{timer}/task/{timer}/children", encoding="ascii") as file:
                    self.pid = next(iter(file.read().split()), None)
            return len(os.listdir(f"/proc/{self.pid}/task")) if self.pid else 1
        except (FileNotFoundError, ProcessLookupError):
            return 0

    def wait_for_run(self):
        """Until the threads of the processes have come and gone, or the call has written or ended."""
        os.set_blocking(self.process.stdout.fileno(), False)
        seen, self.first = False, b""
        while True:
            count = self.threads()
            if seen and count <= 1:
                break
            seen = seen or count > 1
            self.first = self.process.stdout.read() or b""
            if self.first or count == 0 or self.process.poll() is not None:
                break
            time.sleep(0.001)
        os.set_blocking(self.process.stdout.fileno(), True)
        self.ran = time.monotonic() - self.began
        return self.ran

    def answer(self, line, lines):
        """The seconds from a line to the last of so many lines of answer."""
        began = time.monotonic()
        self.process.stdin.write(line.encode() + b"\n")
        self.process.stdin.flush()
        for _ in range(lines):
            self.process.stdout.readline()
        return time.monotonic() - began

    def end(self):
        """Status, seconds and peak megabytes."""
        if self.process.stdin:
            self.process.stdin.close()
        self.process.stdout.read()
        status = self.process.wait()
        seconds = time.monotonic() - self.began
        with open(os.path.join(self.folder, "peak"), encoding="ascii") as file:
            peak, user, system = file.read().split()
        self.worked = float(user) + float(system)
        return status, seconds, int(peak) / 1024


# ---- a row


def flow(program, folder, why, lines):
    call = Call([program, "flow", "--budget", str(MOST), "source.c"], folder, talks=True)
    run = call.wait_for_run()
    first = call.first or call.process.stdout.readline()
    races = time.monotonic() - call.began - run
    summary = call.first.count(b"\n") if call.first else 1
    for _ in range(lines - summary):
        call.process.stdout.readline()
    asked = call.answer(why, 1)
    final = call.answer("final", 0)
    began = time.monotonic()
    call.process.stdin.close()
    call.process.stdin = None
    call.process.stdout.read()
    final += time.monotonic() - began
    status, _, peak = call.end()
    assert status == 0 and first, (folder, status)
    return {"run": run, "races": races, "why": asked, "final": final}, {"flow": peak}


def stored(program, folder):
    call = Call([program, "run", "--budget", str(MOST), "source.c", "source.rec"], folder)
    run = call.wait_for_run()
    status, whole, peak = call.end()
    assert status == 0, (folder, status)
    size = os.path.getsize(os.path.join(folder, "source.rec")) / 1e6
    return {"stored": whole - run}, {"run": peak, "file": size}


def read(program, folder):
    call = Call([program, "debug", "source.rec"], folder, talks=True)
    seconds = call.answer("races", 1)
    status, _, peak = call.end()
    assert status == 0, (folder, status)
    return {"read": seconds}, {"debug": peak}


def whole(words, folder, wanted=0):
    call = Call(words, folder)
    status, seconds, peak = call.end()
    assert status == wanted, (words, status)
    return {"whole": seconds, "worked": call.worked}, {"flow": peak}


def least(tries):
    best, peaks = {}, {}
    for seconds, sizes in tries:
        for name, value in seconds.items():
            best[name] = min(value, best.get(name, value))
        for name, value in sizes.items():
            peaks[name] = max(value, peaks.get(name, 0.0))
    return best, peaks


def measure(program, folder, source, row, times):
    with open(os.path.join(folder, "source.c"), "w", encoding="utf-8") as file:
        file.write(source)
    tries = []
    for _ in range(times):
        if row["kind"] == "refused":
            tries.append(whole([program, "flow", "source.c"], folder, 1))
        elif row["kind"] == "show":
            tries.append(whole([program, "show", "source.c"], folder))
        else:
            tries += [flow(program, folder, row["why"], row["lines"]), stored(program, folder), read(program, folder)]
    return least(tries)


# ---- the table

COLUMNS = ["run", "races", "why", "final", "stored", "read", "whole"]
SIZES = ["flow", "run", "debug", "file"]


def asked(name, lines, why, sources):
    """A row of a source that runs: how many lines its answers have, and the question that is asked."""
    return {"name": name, "kind": "flow", "lines": lines, "why": why, "sources": sources}


def rows():
    """Each row: its name, its two sources with their work in steps and synchronizations, and how it is asked."""
    for name, number in (("drill 0", 0), ("drill 7", 7)):
        stages, turns = 2 + number % 6, 1000 * (1 + number % 20)
        sources = [(f"{2 * stages * t} syncs", t, pipeline(stages, t, number)) for t in (turns, turns // 2)]
        yield asked(name, stages + 3, f"why p{stages} 0 5", sources)
    sources = [(f"{16 * 2 * t} steps", t, few(t)) for t in (249_990, 124_995)]
    yield asked("16 processes, few", 17, "why p15 0 5", sources)
    sources = [(f"{30 * t} syncs", t, pipeline(15, t)) for t in (124_990, 62_495)]
    yield asked("16 processes, many", 18, "why p15 0 5", sources)
    sources = [(f"{6 * t} syncs", t, pipeline(3, t, 7, "own[K] = i; ")) for t in (8000, 4000)]
    yield asked("races, ordered", 6, "why p3 0 5", sources)
    sources = [(f"{4 * t} syncs", t, apart(t)) for t in (12_000, 6000)]
    yield asked("races, unordered", 5, "why p3 0 5", sources)
    sources = [(f"{3 * 512 * k} steps, {k} cells", k, many_cells(k)) for k in (256, 128)]
    yield asked("many cells in one interval", 2, "why p 0 5", sources)
    big = [(f"{16 * k} statements", k, largest(k)) for k in (256, 128)]
    bad = [(size, work, source.replace("f000();", "g000();", 1)) for size, work, source in big]
    yield {"name": "largest, refused", "kind": "refused", "sources": bad}
    yield {"name": "largest, show", "kind": "show", "sources": big}


def line(name, size, best, peaks):
    cells = [f"{best[c]:.3f}" if c in best else "" for c in COLUMNS]
    sizes = [f"{peaks[c]:.0f}" if c in peaks else "" for c in SIZES]
    return f"| {name} | {size} | " + " | ".join(cells + sizes) + " |"


def table(program, folder, times, only):
    heads = ["Row", "Size"] + [f"{c} s" for c in COLUMNS] + [f"{c} MB" for c in SIZES]
    print("| " + " | ".join(heads) + " |")
    print("|" + "---|" * (2 + len(COLUMNS) + len(SIZES)))
    grown = []
    for row in rows():
        if only and only not in row["name"]:
            continue
        found = []
        for size, work, source in row["sources"]:
            best, peaks = measure(program, folder, source, row, times)
            print(line(row["name"], size, best, peaks), flush=True)
            found.append((work, best, peaks))
        (more, large, wide), (less, small, narrow) = found
        for unit, big, little, least_big in (("s", large, small, 0.1), ("MB", wide, narrow, 50)):
            for name, value in big.items():
                if name == "worked":
                    continue
                ratio = value / max(little[name], 1e-9) / (more / less)
                if value >= least_big and ratio > 1.5:
                    times_more = f"{ratio * more / less:.1f} times"
                    grown.append(f"{row['name']}: {name} {unit} grew {times_more} where the work doubled")
    print("\n".join(["", "Grew faster than the work:"] + (grown or ["nothing"])))


# ---- what is asked of a recording once


def one_race(turns):
    """The pipeline of drill 7, in which two processes also write a cell in no order, when all else is done."""
    lines = pipeline(3, turns, 7).rstrip("\n").split("\n")
    lines[0] = "shared int total, last;"
    for k in (0, 1):
        at = next(n for n, line in enumerate(lines) if line.startswith(f"process p{k} "))
        lines[at] = lines[at].removesuffix("}") + f"last = {k}; }}"
    return "\n".join(lines) + "\n"


def once(number, turns):
    """The calls on the recording of the pipeline of a drill, each with the name of its row."""
    stages = 2 + number % 6
    # three declarations, four events a turn and the last test stand before `total = sum` and the print
    last = str(4 * turns + 5)
    yield "slice of the print", pipeline(stages, turns, number), ["slice", "source.rec", f"p{stages}", "0", last]
    for workers in ("1", "4"):
        words = ["whole", "--workers", workers, "source.rec"]
        yield f"whole, workers {workers}", pipeline(stages, turns, number), words
    yield "rerun", pipeline(stages, turns, number), ["rerun", "source.rec"]
    yield "clean of the first item", one_race(turns), ["clean", "source.rec", f"p{stages}", "0", "5"]


def further_rows():
    """Each row: its name, and its two sources with their size, their work and the words of the call."""
    for number in (7,):
        turns = 1000 * (1 + number % 20)
        for (name, source, words), (_, half, _) in zip(once(number, turns), once(number, turns // 2)):
            yield f"drill {number}, {name}", [("48000 syncs", 2, source, words), ("24000 syncs", 1, half, words)]
    for workers in ("1", "4"):
        words = ["whole", "--workers", workers, "source.rec"]
        sources = [(f"{32 * t} steps", t, few(t), words) for t in (249_990, 124_995)]
        yield f"16 processes, few, whole, workers {workers}", sources


def further(program, folder, times, only):
    print("| Row | Size | s | of all processors | MB | `run` s |\n|---|---|---|---|---|---|")
    grown = []
    for name, sources in further_rows():
        if only and only not in name:
            continue
        found = []
        for size, work, source, words in sources:
            with open(os.path.join(folder, "source.c"), "w", encoding="utf-8") as file:
                file.write(source)
            run = [program, "run", "--budget", str(MOST), "source.c", "source.rec"]
            ran, _ = least([whole(run, folder) for _ in range(times)])
            best, peaks = least([whole([program, *words], folder) for _ in range(times)])
            cells = f"{best['whole']:.3f} | {best['worked']:.2f} | {peaks['flow']:.0f} | {ran['whole']:.3f}"
            print(f"| {name} | {size} | {cells} |", flush=True)
            found.append((work, best["whole"], peaks["flow"]))
        (more, large, wide), (less, small, narrow) = found
        for unit, big, little, least_big in (("s", large, small, 0.1), ("MB", wide, narrow, 50)):
            if big >= least_big and big / little / (more / less) > 1.5:
                grown.append(f"{name}: {unit} grew {big / little:.1f} times where the work doubled")
    print("\n".join(["", "Grew faster than the work:"] + (grown or ["nothing"])))


# ---- beside the sanitizers


def beside(program, folder, times):
    source = os.path.join(TOP, "docs", "performance", "pipeline.c")
    ways = [("ppd drill 7", [program, "drill", "7"])]
    for compiler in ("gcc", "clang"):
        if shutil.which(compiler):
            for name, flags in (("alone", []), ("ThreadSanitizer", ["-fsanitize=thread"])):
                built = os.path.join(folder, f"{compiler}-{name}")
                words = [compiler, "-O1", "-g", *flags, "-pthread", source, "-o", built]
                if subprocess.run(words, check=False).returncode == 0:
                    ways.append((f"{compiler}, {name}", [built]))
    alone = os.path.join(folder, "gcc-alone")
    if shutil.which("valgrind") and os.path.isfile(alone):
        ways.append(("gcc, Helgrind", ["valgrind", "-q", "--tool=helgrind", alone]))
    print("| Program | seconds | of all processors | MB |\n|---|---|---|---|")
    found = {name: [] for name, _ in ways}
    # in turns, so that what else the machine does meets all alike
    for _ in range(times):
        for name, words in ways:
            found[name].append(whole(words, folder))
    for name, _ in ways:
        best, peaks = least(found[name])
        print(f"| {name} | {best['whole']:.3f} | {best['worked']:.2f} | {peaks['flow']:.1f} |", flush=True)


def main():
    parser = argparse.ArgumentParser(description=__doc__, formatter_class=argparse.RawDescriptionHelpFormatter)
    parser.add_argument("program", help="the built program")
    parser.add_argument("--times", type=int, default=3, help="how often each call is made (default: 3)")
    parser.add_argument("--only", default="", help="a word in the names of the rows to measure")
    parser.add_argument("--beside", action="store_true", help="drill 7 beside the C program and the sanitizers")
    parser.add_argument("--further", action="store_true", help="the commands that ask a recording once")
    given = parser.parse_args()
    program = os.path.abspath(given.program)
    with tempfile.TemporaryDirectory() as folder:
        if given.beside:
            beside(program, folder, given.times)
        elif given.further:
            further(program, folder, given.times, given.only)
        else:
            table(program, folder, given.times, given.only)
    return 0


if __name__ == "__main__":
    sys.exit(main())
