#!/usr/bin/env python3
"""Reads the files of test262's folder `language` and says how many of them are programs of the language.

usage: bench/test262.py FOLDER [PROGRAM]

FOLDER is a checkout of test262 (or of the part of it that another engine's sources have), PROGRAM the built source_rows, which `rt run`
in crates/source_rows makes. Each negative test that is read as a program is printed: what is left are our own choices (docs/DECISIONS.md).
It is no test of the gate.
"""
import collections
import pathlib
import re
import subprocess
import sys

TOP = pathlib.Path(__file__).resolve().parent.parent
PROGRAM = TOP / "crates/source_rows/out/source_rows"


def tests(folder):
    """Each test with its text, and whether it must be refused when it is read."""
    for path in sorted(folder.rglob("*.js")):
        if path.name.endswith("_FIXTURE.js") or path.name in ("shell.js", "browser.js"):
            continue
        text = path.read_bytes().decode(errors="replace")
        if any(mark in text for mark in "¶\r\0\ufffd"):
            continue
        about = re.search(r"/\*---(.*?)---\*/", text, re.S)
        about = about.group(1) if about else ""
        negative = re.search(r"phase: (parse|early)", about) or "error:SyntaxError" in text.split("\n", 1)[0]
        yield path, text, bool(negative)


def main():
    if len(sys.argv) not in (2, 3):
        sys.exit(__doc__)
    folder = pathlib.Path(sys.argv[1]) / "language"
    program = sys.argv[2] if len(sys.argv) == 3 else PROGRAM
    cases = list(tests(folder))
    lines = "".join("tree " + text.rstrip("\n").replace("\n", "¶") + "\n" for _, text, _ in cases)
    answers = subprocess.run([str(program)], input=lines.encode(), stdout=subprocess.PIPE, check=True).stdout.decode().split("\n")
    counts = collections.Counter()
    for (path, _, negative), answer in zip(cases, answers):
        program_of = answer == "" or answer.startswith("(")
        counts[negative, "a program" if program_of else re.sub(r" \d+:\d+$", "", answer)] += 1
        if negative and program_of:
            print("read, though it is negative:", path.relative_to(folder))
    for (negative, answer), count in sorted(counts.items(), key=lambda entry: -entry[1]):
        print(f"{count:6} {'negative' if negative else 'positive'} {answer}")


main()
