#!/usr/bin/env python3
"""Runs the program in threads over and over, and with threads that the system refuses.

- With `--cases FOLDER` (as of compare_cases.py: a folder with `source.c`, `options`, `flow` and `status` for each
  case), each case is run 20 times: it has to give the same each time, and the lines of processes and prints that
  the case says.
- Four processes of 10,000 steps add to one cell without a lock, and print what they find: how many answers come
  of ten runs is at most the count of schedules.
- A pipeline of four processes, of 24,000 to 32,000 steps each, is run with its threads and without: without, each
  thread is refused by a limit on processes, so that the caller takes all turns. Both have to give the same, and
  it tells their times.
- The race search of recordings of 1 to 16 processes, on one and on two processors: how many threads it starts, by
  strace, which has to be there for it.

Ends with status 0 where all holds, 1 where something differs, 2 where nothing could be run. It stands outside
the gate: what it shows is what happened on this machine."""
import argparse
import os
import resource
import shutil
import subprocess
import sys
import tempfile
import time

import compare_cases

NOBODY = 65534

UNGUARDED = "shared int x;\n" + "".join(
    f"process p{k} {{ int i; while (i < 2500) {{ x = x + 1; i = i + 1; }} print(x); }}\n" for k in range(4)
)

PIPELINE = """shared int total;
chan c0[4];
chan c1[4];
chan c2[4];
process p0 { int i = 0; while (i < 8000) { send(c0, i * 3 + 7); i = i + 1; } }
process p1 { int i = 0; int v; while (i < 8000) { v = recv(c0); send(c1, v + 1); i = i + 1; } }
process p2 { int i = 0; int v; while (i < 8000) { v = recv(c1); send(c2, v + 2); i = i + 1; } }
process p3 { int i = 0; int v; int sum = 0; while (i < 8000) { v = recv(c2); sum = sum + v; i = i + 1; } total = sum; print(sum); }
"""

# Processors, processes, and how many threads the race search of a recording starts: it halves the processes till each
# part is one, or there are twice as many parts as processors, and each halving starts one thread.
SPAWNS = ((1, 1, 0), (1, 2, 1), (1, 4, 1), (1, 16, 1), (2, 1, 0), (2, 2, 1), (2, 4, 3), (2, 16, 3))

# 3 * (0 + 1 + .. + 7999) + 8000 * (7 + 1 + 2) is printed
SUMMED = """process p0 ended steps 24003
process p1 ended steps 32004
process p2 ended steps 32004
process p3 ended steps 32007
print p3 96068000
"""


def arguments():
    parser = argparse.ArgumentParser(description=__doc__, formatter_class=argparse.RawDescriptionHelpFormatter)
    parser.add_argument("program", help="the built program, as crates/ppd/out/ppd")
    parser.add_argument("--cases", help="a folder of cases, each with source.c, options, flow and status")
    parser.add_argument("--times", type=int, default=20, help="how often each case is run (default: 20)")
    parser.add_argument("--seconds", type=float, default=60.0, help="the most that one run may take (default: 60)")
    return parser.parse_args()


def refuse_threads():
    """A limit that lets the system refuse each thread. It doesn't bind root, so root becomes somebody else."""
    if os.geteuid() == 0:
        os.setgroups([])
        os.setresgid(NOBODY, NOBODY, NOBODY)
        os.setresuid(NOBODY, NOBODY, NOBODY)
    resource.setrlimit(resource.RLIMIT_NPROC, (1, 1))


def threads_of(process):
    """How many threads a process has now."""
    try:
        return len(os.listdir(f"/proc/{process.pid}/task"))
    except OSError:
        return 0


def run(program, words, folder, seconds, limit=None):
    """The status, what is written, the most threads that were seen, and the seconds."""
    began = time.monotonic()
    with tempfile.TemporaryFile() as written:
        process = subprocess.Popen([program, *words], cwd=folder, stdin=subprocess.DEVNULL, stdout=written, preexec_fn=limit)
        most = 0
        while process.poll() is None:
            most = max(most, threads_of(process))
            if time.monotonic() - began > seconds:
                process.kill()
            time.sleep(0.002)
        taken = time.monotonic() - began
        written.seek(0)
        return process.returncode, written.read(), most, taken


def cases_alike(given):
    """Whether each case gives the same each time, and what it says."""
    names = [name for name in compare_cases.folders_in(given.cases) if os.path.isfile(os.path.join(given.cases, name, "flow"))]
    alike = 0
    for name in names:
        case = os.path.join(given.cases, name)
        wanted = compare_cases.wanted_of(case, "flow")
        answers = {compare_cases.answer_of(given.program, case, "flow", given.seconds) for _ in range(given.times)}
        told = [line for answer in answers for line in compare_cases.differences(wanted, answer, "summary")]
        if len(answers) == 1 and not told:
            alike += 1
        else:
            print(f"{name}: {len(answers)} answers in {given.times} runs")
            print("".join(f"    {line}\n" for line in told), end="")
    print(f"cases: {alike} of {len(names)} alike in {given.times} runs each, and as they say", flush=True)
    return len(names) > 0 and alike == len(names)


def unguarded_answers(given, folder):
    """Whether ten runs of unguarded increments end, and how many answers there are."""
    runs = [run(given.program, ["flow", "unguarded.c"], folder, given.seconds) for _ in range(10)]
    answers = {written for status, written, _, _ in runs}
    ended = all(status == 0 and written.count(b" ended steps 10005\n") == 4 for status, written, _, _ in runs)
    seconds = ", ".join(f"{taken:.1f}" for _, _, _, taken in runs)
    print(f"unguarded increments: {len(answers)} answers in ten runs, of {seconds} seconds", flush=True)
    return ended


def pipeline_alike(given, folder):
    """Whether a pipeline gives the same with its threads and with none."""
    good = True
    for title, limit in (("four threads", None), ("all threads refused", refuse_threads)):
        runs = [run(given.program, ["flow", "pipeline.c"], folder, given.seconds, limit) for _ in range(3)]
        for status, written, _, _ in runs:
            good = good and status == 0 and compare_cases.summary_part(written) == SUMMED.encode()
        most = max(most for _, _, most, _ in runs)
        good = good and most == (5 if limit is None else 1)
        seconds = ", ".join(f"{taken:.1f}" for _, _, _, taken in runs)
        print(f"pipeline, {title}: {most} threads seen with the caller's, {seconds} seconds", flush=True)
    return good


def spawns_of(program, words, folder, processors):
    """How many threads the program starts on so many processors; None where they are not there or it fails."""
    mine = sorted(os.sched_getaffinity(0))[:processors]
    counted = os.path.join(folder, "counted")
    command = ["strace", "-f", "-e", "trace=clone,clone3", "-o", counted, program, *words]
    done = subprocess.run(command, cwd=folder, stdin=subprocess.DEVNULL, stdout=subprocess.DEVNULL, check=False,
                          preexec_fn=lambda: os.sched_setaffinity(0, mine))
    if done.returncode != 0 or len(mine) < processors:
        return None
    with open(counted, encoding="utf-8") as file:
        return sum("clone(" in line or "clone3(" in line for line in file)


def spawns_alike(given, folder):
    """Whether the race search starts as many threads as its halvings."""
    if not shutil.which("strace"):
        print("race search: its threads are not counted, since strace is not there", flush=True)
        return True
    good = True
    for processors, processes, wanted in SPAWNS:
        writers = " ".join(f"process p{k} {{ x = {k}; }}" for k in range(processes))
        with open(os.path.join(folder, "writers.c"), "w", encoding="utf-8") as file:
            file.write(f"shared int x; {writers}")
        run(given.program, ["run", "writers.c", "writers.rec"], folder, given.seconds)
        found = spawns_of(given.program, ["debug", "writers.rec"], folder, processors)
        good = good and found == wanted
        print(f"race search, {processes} processes on {processors} processors: {found} threads started", flush=True)
    return good


def main():
    given = arguments()
    given.program = os.path.abspath(given.program)
    if not os.access(given.program, os.X_OK):
        print(f"there is no program {given.program}")
        return 2
    with tempfile.TemporaryDirectory(prefix="ppd-threads-") as folder:
        os.chmod(folder, 0o755)
        # where whoever has no threads may read it
        given.program = shutil.copy(given.program, os.path.join(folder, "ppd"))
        for name, source in (("unguarded.c", UNGUARDED), ("pipeline.c", PIPELINE)):
            with open(os.path.join(folder, name), "w", encoding="utf-8") as file:
                file.write(source)
        good = pipeline_alike(given, folder)
        good = unguarded_answers(given, folder) and good
        good = spawns_alike(given, folder) and good
        if given.cases:
            good = cases_alike(given) and good
    print("threads: all as it should be" if good else "threads: SOMETHING DIFFERS")
    return 0 if good else 1


if __name__ == "__main__":
    sys.exit(main())
