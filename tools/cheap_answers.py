#!/usr/bin/env python3
"""Writes answers for goals of a crate that the check answers too, but late. A goal without an answer of its own is
searched for in several ways, one after another; where a late one finds it, an answer that names a short way costs less.

Of each function whose proof costs LEAST processor seconds or more, the check is asked for the names of its goals, by
answers with names that it does not know. Each of a few short ways is tried at each goal, and those that find an answer
are written to the function's Answers.antt. They are taken back where they save less than a quarter of a second, or
where the function is not proved with them. The crates below are built first where they are not. Takes about three
times as long as the check of the crate. What is written may be taken away again: the proof then takes longer.

    cheap_answers.py CRATE [LEAST]    LEAST: 1 where none is given
"""
import os
import re
import shutil
import sys
import tempfile

import proof_times
import prove

# the ways to answer a goal, the cheapest first: as it is tried, within few steps, and as it is written
WAYS = (
    ("search rules depth 1 fits 30 parts 1 steps 400000", "search rules depth 1 fits 30"),
    ("grind (arith, common_steps) steps 250000", "grind (arith, common_steps) steps 250000"),
    ("grind (arith, elements) steps 250000", "grind (arith, elements) steps 250000"),
)
IMPORTS = {
    "Rattle.std.proofs.Common": ("rules", "arith"),
    "Rattle.std.proofs.lemmas.Grind": ("common_steps", "elements"),
}
# names near to those of most goals
NEAR = "returns returns-in returns-clause x-requires x-requires-in loop-x-preserved loop-x-init".split()
# goals that the check may ask for and that are worth an answer
WORTH = re.compile(r"(?!way_|enum_|switch_).*(returns|requires|loop)")
ASKED_OF = re.compile(r"fn \w+::(\S+): ")
ASKED = re.compile(r"help: `Goals` has no `[^`]+`; rattle asks for ([^;]*)")
REFUSED = re.compile(r"\./proofs/(.*)/Answers\.antt:\d+:\d+: error: `([^`]+)`")
# the seconds that answers must save
SAVED = 0.25


def is_generic(crate, name):
    """Whether the function, or the block of methods that has it, is generic over a type: its goals are of each type."""
    path = name.split(".")
    places = [os.path.join("src", *path[:count]) + ".rt" for count in range(1, len(path))]
    for place in [*places, os.path.join("src", "lib.rt")]:
        text = prove.text_of(os.path.join(prove.TOP, "crates", crate, place))
        for found in re.finditer(rf"^( *)(?:pub(?:\(crate\))? )?fn {path[-1]}\b(<[^(]*>)?", text, re.MULTILINE):
            block = re.findall(r"^impl(<.*?>)? ", text[: found.start()], re.MULTILINE) if found[1] else []
            if any(re.search(r"[<,] *[A-Z]", given or "") for given in (found[2], *block[-1:])):
                return True
    return False


class Function:
    """A function with its answers that stand, the goals that have none, and the ways found for these."""

    def __init__(self, crate, name):
        self.crate, self.name, self.found = crate, name, {}
        self.file = os.path.join(prove.TOP, "crates", crate, "proofs", *name.split("."), "Answers.antt")
        self.text = prove.text_of(self.file)
        self.answered = set(re.findall(r"^pub (\S+) : ", self.text, re.MULTILINE))
        self.goals, self.given = set(), "g c" if is_generic(crate, name) else "c"

    def whole(self, goal):
        """The goal of which this is one clause, or none."""
        head, clause, _ = goal.partition("-clause-")
        return head if clause and head in self.goals else None

    def ask(self, names):
        """Takes these goals, but those of which a clause is answered already."""
        parts = {each.partition("-clause-")[0] for each in self.answered if "-clause-" in each}
        self.goals |= {each for each in names if WORTH.match(each)} - self.answered - parts

    def write(self, answers):
        """Writes what stood, and these answers after it."""
        if not answers:
            self.take_back()
            return
        goals = re.search(r"^use \S+\.Goals as (\S+)$", self.text, re.MULTILINE)
        head, rest = self.parts(" ".join(answers.values()))
        if not goals:
            head += f"use Rattle.{self.crate}.proofs.{self.name}.Goals as goal\n"
        where = goals[1] if goals else "goal"
        added = [f"pub {goal} : {where}.{goal}\n{goal} {self.given} = {answer}\n" for goal, answer in sorted(answers.items())]
        os.makedirs(os.path.dirname(self.file), exist_ok=True)
        with open(self.file, "w", encoding="utf-8") as file:
            file.write("\n".join(part for part in (head, rest and rest + "\n", "\n".join(added)) if part))

    def parts(self, said):
        """The imports that stood, with those of the words that answers say, and what stood after them."""
        uses = list(re.finditer(r"^use .*\n", self.text, re.MULTILINE))
        end = uses[-1].end() if uses else 0
        head, rest = self.text[:end], self.text[end:].strip("\n")
        for module, words in reversed(IMPORTS.items()):
            line = re.search(rf"^use {re.escape(module)}\.\{{(.*)\}}\n", head, re.MULTILINE)
            names = line[1].split(", ") if line else []
            names += [word for word in words if re.search(rf"\b{word}\b", said) and word not in names]
            written = f"use {module}.{{{', '.join(names)}}}\n" if names else ""
            head = head.replace(line[0], written) if line else written + head
        return head, rest

    def take_back(self):
        """Leaves what stood."""
        self.found = {}
        if self.text:
            with open(self.file, "w", encoding="utf-8") as file:
                file.write(self.text)
        elif os.path.exists(self.file):
            os.remove(self.file)
            if not os.listdir(os.path.dirname(self.file)):
                os.removedirs(os.path.dirname(self.file))


class Checks:
    """Checks of a crate, which keep in a folder what they checked."""

    def __init__(self, crate, folder):
        self.crate, self.kept, self.first = crate, os.path.join(folder, "kept"), os.path.join(folder, "first")
        os.makedirs(self.kept)

    def run(self, *words):
        """The seconds of functions by parts, and what else the check told."""
        return proof_times.checked(self.crate, "--incremental", self.kept, *words)[:2]

    def some(self, functions):
        """A check of these functions that goes on past goals without an answer."""
        only = [word for each in functions for word in ("--only", each.name.replace(".", "::"))]
        return self.run(*only, "--allow-holes")[1]

    def remember(self):
        shutil.copytree(self.kept, self.first)

    def return_to_first(self):
        shutil.rmtree(self.kept)
        shutil.copytree(self.first, self.kept)


def answer_cost(times, name):
    """The seconds that the answers of a function take in a check, with its proof."""
    return times.get(name, {}).get("Proof", 0.0) + times.get(name, {}).get("Answers", 0.0)


def checked_cost(times, name):
    """The seconds of all that was checked of a function."""
    return sum(sum(parts.values()) for each, parts in times.items() if f"{each}.".startswith(f"{name}."))


def ask_names(checks, functions):
    """Asks the check for the names of goals: of those near to each name that it does not know."""
    near = {each: NEAR for each in functions}
    for _ in range(2):
        for each in functions:
            each.write({f"{name}-unknown": "?" for name in near[each]})
        told, at = {}, None
        for line in checks.some(functions):
            at = ASKED_OF.match(line)[1].replace("::", ".") if ASKED_OF.match(line) else at
            if ASKED.match(line):
                told.setdefault(at, set()).update(re.findall(r"`([^`]+)`", ASKED.match(line)[1]))
        for each in functions:
            each.take_back()
            each.ask(told.get(each.name, ()))
            near[each] = sorted(each.goals)


def try_ways(checks, functions):
    """Tries each way at each goal: whole ones first, then the clauses of those that have no answer."""
    for clauses in (False, True):
        for tried, written in WAYS:
            todo = {}
            for each in functions:
                wanted = [goal for goal in each.goals if clauses == bool(each.whole(goal)) and each.whole(goal) not in each.found]
                todo[each] = [goal for goal in wanted if goal not in each.found]
            active = [each for each in functions if todo[each]]
            for each in active:
                found = each.found
                each.write({goal: tried for goal in todo[each]})
                each.found = found
            told = [REFUSED.match(line) for line in checks.some(active)] if active else []
            refused = {(match[1].replace("/", "."), match[2]) for match in told if match}
            for each in active:
                each.found.update({goal: written for goal in todo[each] if (each.name, goal) not in refused})


def keep_cheaper(checks, functions, before):
    """Writes what was found, and takes back what does not prove or saves too little; the seconds saved."""
    saved = 0.0
    for each in functions:
        each.write(each.found)
    checks.return_to_first()
    times, others = checks.run()
    refused = {match[1].replace("/", ".") for match in map(REFUSED.match, others) if match}
    for each in functions:
        less = answer_cost(before, each.name) - checked_cost(times, each.name)
        if each.found and (each.name in refused or less < SAVED):
            each.take_back()
        if each.found:
            saved += less
            print(f"{less:7.2f} {each.name}: {len(each.found)} answers", flush=True)
    return saved


def main():
    if len(sys.argv) not in (2, 3) or not shutil.which("rt"):
        sys.exit(__doc__)
    crate, least = sys.argv[1], float(sys.argv[2]) if len(sys.argv) == 3 else 1.0
    proof_times.build_below(crate)
    with tempfile.TemporaryDirectory(prefix="cheap_answers.") as folder:
        checks = Checks(crate, folder)
        before, others = checks.run()
        if not others or not others[-1].startswith("logic=proved"):
            sys.exit("\n".join([*others[-10:], f"cheap_answers.py: {crate} is not proved"]))
        checks.remember()
        names = [name for name in before if "Lts" in before[name] and "+" not in name and answer_cost(before, name) >= least]
        functions = [Function(crate, name) for name in names]
        if functions:
            ask_names(checks, functions)
            try_ways(checks, functions)
        saved = keep_cheaper(checks, functions, before) if functions else 0.0
        _, others = checks.run()
    print(f"{saved:7.2f} saved of {sum(sum(parts.values()) for parts in before.values()):.0f}")
    print(others[-1] if others else "nothing was told")
    return 0 if others and others[-1].startswith("logic=proved") else 1


if __name__ == "__main__":
    sys.exit(main())
