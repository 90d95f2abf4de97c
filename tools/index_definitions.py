#!/usr/bin/env python3
"""Writes the table of docs/definitions.md anew, which says of definitions what these say of themselves: those that the
headline of README.md speaks of, in its order, each with how its own comment begins, its file and line, the call that
promises it, and whether the clauses of the top call reach it, by way of other definitions. With --check it writes
nothing, and status 1 says that the table is stale. With --files it prints each file of definitions in the specs/ of a
crate with the comment at its head and the code whose contracts cite it first. With --count it prints how many
definitions the clauses of the top call reach, in each crate and in all.
"""
import collections
import os
import re
import sys

TOP = os.path.dirname(os.path.dirname(os.path.abspath(__file__)))
DOCUMENT = os.path.join(TOP, "docs", "definitions.md")
WORDS = "## The headline, word by word\n"
NEXT = re.compile(r"^## ", re.MULTILINE)

# where the contract of the top call stands
CLAUSES = [("ppd_top.specs.Clauses", "IsOutcome"), ("ppd_top.specs.Clauses", "ReadsNothing")]

# the words of the headline, and the definitions behind them: file, name, and the call or law that promises it
HEADLINE = [
    (
        "every accepted program",
        [
            ("ppd_parse/specs/Tokens.antt", "IsTokens", "lex"),
            ("ppd_parse/specs/Language.antt", "IsProgram", "parse"),
            ("ppd_check/specs/Read.antt", "IsRead", "read_source"),
            ("ppd_check/specs/Read.antt", "IsRefused", "read_source"),
            ("ppd_blocks/specs/Blocks.antt", "plan_of", "partition"),
        ],
    ),
    (
        "every interleaving that the threads take",
        [
            ("ppd_sem/specs/Process.antt", "need_of", "look"),
            ("law_rules/specs/Needs.antt", "Needs", "needs_follow_the_rules"),
            ("ppd_sem/specs/Process.antt", "act", "feed"),
            ("ppd_model/specs/World.antt", "enabled", "World::enabled"),
            ("ppd_model/specs/World.antt", "step", "World::step"),
            ("ppd_model/specs/Schedule.antt", "run", "World::drive"),
            ("ppd_model/specs/Schedule.antt", "IsWhole", "run of ppd_top_runs"),
            ("ppd_top_commands/specs/Commands.antt", "IsWholeRun", "ppd"),
        ],
    ),
    (
        "exactly the conflicting pairs of internal edges that the recorded synchronization leaves unordered",
        [
            ("ppd_model/specs/Synchronizations.antt", "Sync", "graph"),
            ("ppd_model/specs/Synchronizations.antt", "led_to", "paired"),
            ("ppd_model/specs/Record.antt", "sync_record", "graph"),
            ("ppd_model/specs/Record.antt", "SharedAccess", "reads, writes"),
            ("ppd_model/specs/HappenedBefore.antt", "Before", "graph"),
            ("ppd_model/specs/HappenedBefore.antt", "EdgeBefore", "before"),
            ("ppd_model/specs/Races.antt", "is_race", "races"),
            ("ppd_model/specs/Races.antt", "races", "ppd, races"),
        ],
    ),
    (
        "every schedule agreeing with that synchronization",
        [
            ("ppd_model/specs/Agreement.antt", "Agree", "agreeing_schedules"),
            ("law_steps/specs/Agreeing.antt", "AgreeingSchedulesHaveOneHistory", "agreeing_schedules"),
            ("ppd_top/specs/Top.antt", "IsOfAgreeing", "ppd"),
        ],
    ),
    (
        "every value and flowback edge",
        [
            ("ppd_model/specs/FullTrace.antt", "full_trace", "full_trace"),
            ("ppd_model/specs/FullTrace.antt", "parent_at", "full_trace"),
            ("ppd_model/specs/Intervals.antt", "intervals", "index"),
            ("ppd_model/specs/Intervals.antt", "items", "emulate"),
            ("ppd_model/specs/FlowbackEdges.antt", "edges", "edges"),
            ("ppd_model/specs/FlowbackEdges.antt", "last", "last"),
            ("ppd_slice_search/specs/Reach.antt", "IsReach", "slice"),
        ],
    ),
    (
        "answered by re-executing single e-blocks",
        [
            ("ppd_model/specs/Logs.antt", "closed_logs", "World::close"),
            ("ppd_model/specs/Replay.antt", "replay", "emulate"),
            ("law_rules/specs/Replays.antt", "Turns", "replays_follow_the_rules"),
            ("law_steps/specs/Theorem/Laws.antt", "ReplaysGiveIntervals", "replays_give_intervals"),
            ("ppd_flow/specs/Runs.antt", "GivesEdges", "edges"),
            ("ppd_flow/specs/Runs.antt", "CostsEdges", "edges"),
            ("ppd_model/specs/NearIntervals.antt", "near_intervals", "edges"),
            ("law_rules/specs/Near.antt", "IsNear", "near_intervals_follow_the_rules"),
        ],
    ),
    (
        "a clause of the top call, for `flow` and, of a stored recording, for `debug`",
        [
            ("ppd_top/specs/Top.antt", "out_of", "ppd"),
            ("ppd_top/specs/Clauses.antt", "RanWhole", "ppd"),
            ("ppd_codec/specs/Recordings.antt", "IsRecordingOf", "encode, decode"),
            ("ppd_top/specs/Clauses.antt", "WasDone", "ppd"),
            ("ppd_codec_runs/specs/Recordings.antt", "IsAccepted", "recall"),
            ("ppd_top/specs/Clauses.antt", "WasAnswered", "ppd"),
            ("law_headline/specs/Headline.antt", "Headline", "calls_tell_of_runs"),
        ],
    ),
]


def lines_of(name):
    with open(os.path.join(TOP, "crates", name), encoding="utf-8") as file:
        return file.read().splitlines()


def as_cell(comment):
    said = " ".join(line.removeprefix("--").strip() for line in comment).replace("|", "\\|")
    return said[:1].upper() + said[1:].rstrip(".")


def defined(name, word):
    """The line of a definition, and its own comment."""
    lines = lines_of(name)
    declared = re.compile(rf"(?:abbrev pub|pub record|pub data) {re.escape(word)}\b")
    number = next((n for n, line in enumerate(lines) if declared.match(line)), None)
    if number is None:
        sys.exit(f"index_definitions.py: {name} has no definition {word}")
    first = number
    while first and lines[first - 1].startswith("--") and not lines[first - 1].startswith("-- ----"):
        first -= 1
    if first == number:
        sys.exit(f"index_definitions.py: {word} of {name} has no comment")
    return number + 1, as_cell(lines[first:number])


# a definition begins so, also one inside a module without a name
DECLARED = re.compile(r" *(?:(?:abbrev|unfoldable) (?:pub )?|(?:pub )?(?:record|data) (?=.*:))(\w+)")
MODULE = re.compile(r" *module _ ")
# and so in a block of definitions that name one another
MUTUAL = re.compile(r"  (?:pub )?(\w+) :")
USED = re.compile(r"^(?:pub )?use Rattle\.([\w.]+?)(?:\.\{([^}]*)\}| as (\w+))?$", re.MULTILINE)
WORD = re.compile(r"(?<![\w.])([^\W\d]\w*)(?:\.([^\W\d]\w*))?")


class Module:
    """A file of definitions: the text of each, and what its names mean: a module with the name there, or None for all."""

    def __init__(self, text):
        text = re.sub(r"--.*", "", text)
        self.texts, self.names = {}, {}
        for module, listed, alias in USED.findall(re.sub(r"\{[^}]*\}", lambda it: " ".join(it[0].split()), text)):
            for it in listed.split(",") if listed else []:
                name, _, other = it.strip().partition(" as ")
                self.names[other.strip() or name] = (module, name)
            if alias or not listed:
                self.names[alias or module.rpartition(".")[2]] = (module, None)
        word, is_mutual = None, False
        for line in text.splitlines():
            is_mutual = line.startswith("abbrev mutual") or is_mutual and not re.match(r"\w", line)
            declared = MUTUAL.match(line) if is_mutual else DECLARED.match(line)
            if declared or line.startswith(("use ", "pub use ", "pub mod ")) or MODULE.match(line):
                word = declared and declared[1]
            if word:
                self.texts[word] = self.texts.get(word, "") + line + "\n"

    def cited(self, word):
        """What a definition names: modules with their definitions."""
        for name, part in WORD.findall(self.texts[word]):
            module, named = self.names.get(name, ("", name))
            if named is None and part:
                yield module, part
            elif named is not None:
                yield module, named


def file_of(module):
    return os.path.join(TOP, "crates", module.replace(".", "/") + ".antt")


def reached():
    """The definitions that the clauses of the top call name, and all that these name."""
    modules, found, todo = {}, set(), list(CLAUSES)

    def module_at(name):
        if name not in modules:
            is_there = os.path.isfile(file_of(name))
            modules[name] = Module(open(file_of(name), encoding="utf-8").read()) if is_there else None
        return modules[name]

    def origin(name):
        """Where a module stands that a crate passes on by a line of its Lib.antt."""
        folder, _, last = name.rpartition(".")
        lib = None if os.path.isfile(file_of(name)) else module_at(f"{folder}.Lib")
        return origin(lib.names[last][0]) if lib and last in lib.names else name

    while todo:
        module, word = todo.pop()
        module = origin(module)
        texts = module_at(module)
        if (module, word) in found or texts is None:
            continue
        if word in texts.texts:
            found.add((module, word))
            todo += [(other or module, name) for other, name in texts.cited(word)]
        elif word in texts.names:
            other, name = texts.names[word]
            todo.append((other, name or word))
    return found


def counted():
    """A line for each crate with how many of its definitions the clauses of the top call reach, then all of them."""
    by_crate = collections.Counter(module.partition(".")[0] for module, _ in reached())
    return "".join(f"{crate} {count}\n" for crate, count in [*sorted(by_crate.items()), ("all", by_crate.total())])


def beginning(said):
    """A comment as far as its first colon or semicolon."""
    return re.split(r"[:;] ", said)[0]


def headline():
    found = reached()
    yield "\n| Definition | Where | Promised by | In `ppd` |\n|---|---|---|---|\n"
    for words, rows in HEADLINE:
        yield f"| *{words}* | | | |\n"
        for name, word, call in rows:
            number, said = defined(name, word)
            place = name.removesuffix(".antt")
            known = "yes" if (place.replace("/", "."), word) in found else "no"
            yield f"| `{word}`: {beginning(said)} | `{place.replace('/specs/', '/')}` {number} | `{call}` | {known} |\n"


def code():
    """Each file of code with its text."""
    found = {}
    for crate in sorted(os.listdir(os.path.join(TOP, "crates"))):
        for at, _, names in os.walk(os.path.join(TOP, "crates", crate, "src")):
            for name in sorted(names):
                if name.endswith(".rt"):
                    place = os.path.relpath(os.path.join(at, name), os.path.join(TOP, "crates"))
                    found[place] = "\n".join(lines_of(place))
    return found


def cited_by(crate, name, texts):
    """The first file of code that cites the definitions of a file: one of its own crate before others."""
    module = f"Rattle.{crate}.{os.path.splitext(name)[0].replace('/', '.')}."
    citing = [place for place, text in texts.items() if module in text]
    own = [place.removeprefix(f"{crate}/") for place in citing if place.startswith(f"{crate}/")]
    first = (sorted(own) or sorted(citing))[:1]
    return f"`{first[0]}`" if first else ""


def files():
    texts = code()
    for crate in sorted(os.listdir(os.path.join(TOP, "crates"))):
        specs = os.path.join(TOP, "crates", crate, "specs")
        found = [
            os.path.relpath(os.path.join(at, name), os.path.dirname(specs))
            for at, _, names in os.walk(specs)
            for name in names
            if name.endswith(".antt") and name != "Lib.antt"
        ]
        if not found or crate.startswith(("rows_", "test_")):
            continue
        yield f"\n### `{crate}`\n\n| File | What it defines | Cited by |\n|---|---|---|\n"
        for name in sorted(found):
            head = []
            for line in lines_of(f"{crate}/{name}"):
                if not line.startswith("--"):
                    break
                head.append(line)
            short = name.removeprefix("specs/").removesuffix(".antt")
            yield f"| `{short}` | {as_cell(head)} | {cited_by(crate, name, texts)} |\n"


def with_part(text, title, part):
    """The text with what stands under a heading, from its first table on, in place of what stood there."""
    before, found, after = text.partition(title)
    if not found:
        sys.exit(f"index_definitions.py: docs/definitions.md has no heading {title.strip()}")
    end = NEXT.search(after)
    rest = after[end.start() :] if end else ""
    kept = after[: end.start() if end else None].partition("\n<!-- made by tools/index_definitions.py -->\n")[0]
    made = "".join(part)
    return f"{before}{title}{kept}\n<!-- made by tools/index_definitions.py -->\n{made}" + (f"\n{rest}" if rest else "")


def main():
    with open(DOCUMENT, encoding="utf-8") as file:
        text = file.read()
    if "--files" in sys.argv[1:]:
        print("".join(files()).lstrip("\n"), end="")
        return 0
    if "--count" in sys.argv[1:]:
        print(counted(), end="")
        return 0
    new = with_part(text, WORDS, headline())
    if "--check" in sys.argv[1:]:
        if new != text:
            print("docs/definitions.md: a table is stale: run tools/index_definitions.py", file=sys.stderr)
            return 1
        return 0
    with open(DOCUMENT, "w", encoding="utf-8") as file:
        file.write(new)
    return 0


if __name__ == "__main__":
    sys.exit(main())
