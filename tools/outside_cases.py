#!/usr/bin/env python3
"""Writes a folder of outside cases as one file of cases, which the program of crates/test_cases runs.

    outside_cases.py FOLDER [COMMAND ..] > outside.cases

FOLDER has folders of the kinds run, refused, recordings and damaged, each with a folder a case. A source has `source.c`,
`options` (words), `flow` (what `flow` writes without input) and `status`, and perhaps `commands` (an input) with `answers`
(all that is written for it) and `show` (what `show` writes, without the budget among the options). A recording has
`recording`, `commands`, `debug` (what `debug` writes for them) and `status`, and perhaps `further`: calls on it in the form
of a case, of which those of the commands that are named are taken, or all where none is.

It stands outside the gate. docs/testing.md has the form of a case and says how the program is run."""
import os
import sys


def bytes_of(*parts):
    with open(os.path.join(*parts), "rb") as file:
        return file.read()


def has(*parts):
    return os.path.isfile(os.path.join(*parts))


def as_lines(data):
    """The lines that stand for these bytes: text where it is text, else hexadecimal digits."""
    try:
        text = data.decode()
    except UnicodeDecodeError:
        text = None
    if text is None or "\r" in text or "\0" in text:
        return "".join(f"hex {data[at:at + 40].hex()}\n" for at in range(0, len(data), 40))
    *whole, rest = text.split("\n")
    return "".join(f"| {line}\n" for line in whole) + (f"> {rest}\n" if rest else "")


def names_in(folder):
    """The cases of a kind, numbers in their names in the order of numbers."""
    return sorted(os.listdir(folder), key=lambda name: [int(part) if part.isdigit() else part for part in name.split("-")])


def call(words, status, output, given=b""):
    told = f"input\n{as_lines(given)}" if given else ""
    return f"$ ppd {' '.join(words)}\n{told}status {status}\noutput\n{as_lines(output)}"


def without_budget(options):
    if "--budget" in options:
        at = options.index("--budget")
        return options[:at] + options[at + 2:]
    return options


def of_source(here, name, _commands):
    options = bytes_of(here, "options").decode().split() if has(here, "options") else []
    status, flow = int(bytes_of(here, "status")), bytes_of(here, "flow")
    text = f"\ncase {name}\nfile x.c\n{as_lines(bytes_of(here, 'source.c'))}" + call(["flow", *options, "x.c"], status, flow)
    if has(here, "commands"):
        text += call(["flow", *options, "x.c"], status, bytes_of(here, "answers"), bytes_of(here, "commands"))
    if status or has(here, "show"):
        shown = bytes_of(here, "show") if has(here, "show") else flow
        text += call(["show", *without_budget(options), "x.c"], status, shown)
    return text


def further_of(here, commands):
    """The further calls of these commands, or all where none is named. Calls straight below each other have one answer."""
    told, waiting = "", ""
    for piece in ("\n" + bytes_of(here, "further").decode()).split("\n$ ")[1:]:
        words, newline, under = piece.partition("\n")
        if not commands or words.split()[1] in commands:
            waiting += f"$ {words}\n"
        if newline and under:
            told += waiting + (under.rstrip("\n") + "\n" if waiting else "")
            waiting = ""
    return told


def of_recording(here, name, commands):
    text = f"\ncase {name}\nfile recording\n{as_lines(bytes_of(here, 'recording'))}"
    text += call(["debug", "recording"], int(bytes_of(here, "status")), bytes_of(here, "debug"), bytes_of(here, "commands"))
    return text + (further_of(here, commands) if has(here, "further") else "")


KINDS = {"run": of_source, "refused": of_source, "recordings": of_recording, "damaged": of_recording}


def main():
    if len(sys.argv) < 2:
        print(__doc__, file=sys.stderr)
        return 2
    top, commands = sys.argv[1], sys.argv[2:]
    sys.stdout.write("# Answers of an independent implementation of the definitions.\n")
    for kind, of in KINDS.items():
        if os.path.isdir(os.path.join(top, kind)):
            for name in names_in(os.path.join(top, kind)):
                sys.stdout.write(of(os.path.join(top, kind, name), f"{kind} {name}", commands))
    return 0


if __name__ == "__main__":
    sys.exit(main())
