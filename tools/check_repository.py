#!/usr/bin/env python3
"""Checks of the repository's own: HANDLES, where sources stand, their size and layout, that no text leans on
anything outside, that documents are fresh, and the tests of tools/. Prints what is wrong and ends with status 1, or says that all holds."""
import os
import re
import shutil
import subprocess
import sys
import tempfile
from concurrent.futures import ThreadPoolExecutor

TOP = os.path.dirname(os.path.dirname(os.path.abspath(__file__)))
os.chdir(TOP)
wrong = []


def files():
    listed = subprocess.run(["git", "ls-files"], capture_output=True, text=True, check=True).stdout
    return [name for name in listed.splitlines() if os.path.isfile(name)]


def text_of(name):
    with open(name, encoding="utf-8", errors="replace") as file:
        return file.read()


NAMES = files()

if text_of("HANDLES") != "Handles allowed: Threads, Wait.\n":
    wrong.append("HANDLES does not hold exactly its one line")

crates = [line.split()[0].rstrip(":") for line in text_of("crates.txt").splitlines() if line and not line.startswith("#")]
for name in NAMES:
    if name.endswith((".rt", ".antt")):
        parts = name.split("/")
        if len(parts) < 4 or parts[0] != "crates" or parts[1] not in crates or parts[2] not in ("src", "specs", "proofs"):
            wrong.append(f"{name} stands outside src/, specs/ and proofs/ of a listed crate")
        if len(text_of(name).splitlines()) > 800:
            wrong.append(f"{name} has more than 800 lines")

for crate in crates:
    roots = [f"crates/{crate}/src/{root}" for root in ("lib.rt", "main.rt")]
    root = next((name for name in roots if os.path.isfile(name)), None)
    if root is None or "#![tactic(auto)]" not in text_of(root):
        wrong.append(f"{crate} has no root file with #![tactic(auto)]")

# the merge gate refuses any other layout than that of `rt fmt`, in one line that is easily missed
def laid_out(crate):
    with tempfile.TemporaryDirectory() as folder:
        copy = os.path.join(folder, "crates", crate)
        shutil.copytree(os.path.join("crates", crate), copy, ignore=shutil.ignore_patterns("out"))
        shutil.copy("crates.txt", folder)
        done = subprocess.run(["rt", "fmt"], cwd=copy, capture_output=True, text=True, check=False)
        said = (done.stdout + done.stderr).strip().splitlines()
        if done.returncode != 0:
            return [f"{crate}: rt fmt fails: {' '.join(said[-1:])}"]
        return [f"crates/{crate}/{line.split()[-1]} is not laid out by rt fmt" for line in said if "formatted" in line]


if shutil.which("rt"):
    with ThreadPoolExecutor(os.cpu_count()) as pool:
        for found in pool.map(laid_out, crates):
            wrong += found

# words that only make sense to somebody who has papers that are not here
OUTSIDE = re.compile(r"\.\./shared|\bshared/(spec|sketch|cases)|/work/|\bissue #?\d|\b(scope|promises|roadmap)\.md\b|\bthe sketch\b")
for name in NAMES:
    if name.endswith((".rt", ".antt", ".md", ".edit", ".txt", ".sh")) or name in (".ci/run", "ppd", "HANDLES"):
        for number, line in enumerate(text_of(name).splitlines(), 1):
            if OUTSIDE.search(line):
                wrong.append(f"{name}:{number} names something outside: {line.strip()[:80]}")

# a document names files of crates that are there
NAMED = re.compile(r"`(?:crates/)?((?:ppd|law|rows|test|bench)(?:_[a-z_]+)?/(?:src|specs|proofs)/[\w+/]+\.(?:rt|antt))`")
for name in NAMES:
    if name.endswith(".md"):
        for file in sorted(set(NAMED.findall(text_of(name)))):
            if f"crates/{file}" not in NAMES:
                wrong.append(f"{name} names {file}, which is not there")

if subprocess.run([sys.executable, "tools/index_definitions.py", "--check"], check=False).returncode != 0:
    wrong.append("the index of docs/definitions.md is stale")
if subprocess.run([sys.executable, "tools/crates_table.py", "--check"], check=False).returncode != 0:
    wrong.append("what docs/architecture.md and README.md say of the crates is stale")

for name in NAMES:
    if re.fullmatch(r"tools/test_\w+\.py", name):
        done = subprocess.run([sys.executable, name], capture_output=True, text=True, check=False)
        if done.returncode != 0:
            wrong.append(f"{name} fails: {' '.join(done.stderr.strip().splitlines()[-1:])}")


# an edit that must fail: each text that it replaces stands once in the file that it names
def fault_of_edit(crate, text):
    file, old, texts, pairs = None, None, {}, 0
    for line in text.splitlines():
        if line.startswith("file: "):
            file = line[len("file: ") :].strip()
            if not re.fullmatch(r"(src|specs|proofs)/\S+", file) or f"crates/{crate}/{file}" not in NAMES:
                return f"{file} is no file of {crate}"
            texts.setdefault(file, text_of(f"crates/{crate}/{file}"))
        elif line.startswith("old: "):
            old = line[len("old: ") :]
        elif line.startswith("new:"):
            if file is None or not old:
                return "a line new: has no file: or old: before it"
            count = texts[file].count(old)
            if count != 1:
                return f"its text stands {count} times in {file}, and not once: {old.strip()[:60]}"
            texts[file] = texts[file].replace(old, line[len("new:") :].removeprefix(" "))
            old, pairs = None, pairs + 1
    if old is not None or not pairs:
        return "a line old: has no new: after it" if old is not None else "it replaces nothing"
    if all(changed == text_of(f"crates/{crate}/{file}") for file, changed in texts.items()):
        return "it changes nothing"
    return None


EDIT = re.compile(r"(?:crates/([^/]+)/must-fail|edits/([^/]+))/[A-Za-z0-9_-][A-Za-z0-9_.-]*\.edit")
for name in NAMES:
    if "/must-fail/" in name or name.startswith("edits/"):
        edit = EDIT.fullmatch(name)
        if name.endswith(".md"):
            continue
        if not edit or (edit[1] or edit[2]) not in crates:
            wrong.append(f"{name} is no edit of a crate, whose name is of letters, digits, _, - and . and ends in .edit")
            continue
        fault = fault_of_edit(edit[1] or edit[2], text_of(name))
        if fault:
            wrong.append(f"{name} cannot be applied: {fault}")

# an example is the data that a program is run on, or stands line by line in a file of cases
def as_content(source):
    *whole, rest = source.split("\n")
    return "".join(f"| {line}".rstrip() + "\n" for line in whole) + (f"> {rest}\n" if rest else "")


cases = "".join(text_of(name) for name in NAMES if name.startswith("crates/test_cases/data/"))
cases = "\n".join(line.rstrip() for line in cases.split("\n"))
for name in NAMES:
    if name.startswith(("examples/", "docs/debugging/")) and name.endswith(".c"):
        source = text_of(name)
        data = f"crates/ppd/data/{os.path.basename(name)}"
        as_data = os.path.isfile(data) and text_of(data) == source
        if not as_data and f"\n{as_content(source)}" not in cases:
            wrong.append(f"{name} is neither a program's data nor in a file of cases")

# the sessions of documents: what is typed and what is answered stand in files of cases, which are run
TYPED = re.compile(r"(why|open|blocks|deps) .*|final|races|quit")


def faults_of_session(lines):
    command, typed, answered, faults = None, [], [], []
    for line in [*lines, "$ "]:
        if not line.startswith("$ "):
            (typed if TYPED.fullmatch(line) else answered).append(line)
            continue
        # the calls of tools/recording.py are compared by its test
        if command and not command.startswith("tools/recording.py"):
            handed = re.match(r"printf '([^'>]*)' \|", command)
            typed += handed[1].split("\\n")[:-1] if handed else []
            for what, told in (("asks", typed), ("shows", answered)):
                if told and "\n" + "".join(f"| {it}\n" for it in told) not in cases:
                    faults.append(f"what `{command}` {what} stands in no case")
        command, typed, answered = line[2:], [], []
    return faults


for name in ("README.md", "docs/commands.md", "docs/debugging.md", "examples/README.md"):
    for session in re.findall(r"^```\n(\$ .*?)^```$", text_of(name), re.DOTALL | re.MULTILINE):
        wrong += [f"{name}: {fault}" for fault in faults_of_session(session.splitlines())]

for line in wrong:
    print(line)
print(f"repository checks: {'no fault' if not wrong else str(len(wrong)) + ' faults'} in {len(NAMES)} files")
sys.exit(1 if wrong else 0)
