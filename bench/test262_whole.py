#!/usr/bin/env python3
"""Gives each file of test262 to `lava run` and to `lava tree`, and counts what they answer.

usage: bench/test262_whole.py FOLDER [PROGRAM] [PROCESSES] [FILE]

FOLDER is a checkout of test262 (or of the part of it that another engine's sources have); PROGRAM the built program,
crates/lava/out/lava unless given. Each file is the one module of an application, as it stands: its harness is not there, so most
end by a name that is not found. Counted are the answers (the status, and the first words of the line on the errors), those of
files that have to be refused by their front matter and were read, and those that should be read and were refused, by the reason.
FILE gets a line for each file: its answers, and what its front matter says. A crash is an answer that is none of the program's own: another status than its own, a signal, or more than a minute.
It is no test of the gate.
"""
import collections
import concurrent.futures
import os
import pathlib
import re
import subprocess
import sys
import tempfile

TOP = pathlib.Path(__file__).resolve().parent.parent
OWN = {0, 1, 3, 5, 6, 9}


def is_negative(text):
    """Whether a file must be refused when it is read, by its front matter or by the line that another engine's copy has."""
    about = re.search(r"/\*---(.*?)---\*/", text, re.S)
    negative = re.search(r"phase:\s*(parse|early)", about.group(1) if about else "")
    return bool(negative) or "error:SyntaxError" in text.split("\n", 1)[0]


def is_sloppy(text):
    """Whether a file is meant for sloppy mode alone."""
    about = re.search(r"/\*---(.*?)---\*/", text, re.S)
    return bool(re.search(r"noStrict|raw", about.group(1) if about else ""))


def answer(program, words):
    try:
        ran = subprocess.run([program, *words], capture_output=True, timeout=60)
    except subprocess.TimeoutExpired:
        return "crash: no end"
    if ran.returncode not in OWN:
        return f"crash: {ran.returncode}"
    line = (ran.stderr.decode("utf-8", "replace").strip().split("\n") or [""])[-1]
    line = re.sub(r" \S+ \S+:\d+:\d+ ", " ", line)
    if line.startswith("lava: uncaught"):
        line = "lava: uncaught"
    return f"{ran.returncode} {line}".strip()


def one(program, path):
    source = path.read_bytes()
    text = source.decode("utf-8", "replace")
    with tempfile.TemporaryDirectory(prefix="t262-") as folder:
        (pathlib.Path(folder) / "index.js").write_bytes(source)
        ran = answer(program, ["run", folder])
        tree = answer(program, ["tree", f"{folder}/index.js"])
    return path, is_negative(text), is_sloppy(text), ran, tree


def main():
    folder = pathlib.Path(sys.argv[1])
    program = os.path.abspath(sys.argv[2] if len(sys.argv) > 2 else TOP / "crates/lava/out/lava")
    many = int(sys.argv[3]) if len(sys.argv) > 3 else os.cpu_count()
    each = open(sys.argv[4], "w", encoding="utf-8") if len(sys.argv) > 4 else None
    paths = sorted(folder.rglob("*.js"))
    runs, trees, read, refused, crashes = (collections.Counter() for _ in range(5))
    with concurrent.futures.ThreadPoolExecutor(many) as pool:
        for path, negative, sloppy, ran, tree in pool.map(lambda it: one(program, it), paths):
            if each:
                said = "negative" if negative else "sloppy" if sloppy else "positive"
                each.write(f"{path.relative_to(folder)}\t{ran}\t{tree}\t{said}\n")
            runs[ran] += 1
            trees[" ".join(tree.split()[:4])] += 1
            is_refused = ran.startswith("3 lava: syntax")
            if "crash" in ran or "crash" in tree:
                print(f"{path.relative_to(folder)}: {ran}; {tree}")
                crashes["crash"] += 1
            if negative and not is_refused:
                read[ran] += 1
            if not negative and is_refused:
                refused["sloppy mode alone" if sloppy else ran] += 1
    print(f"files {len(paths)} crashes {sum(crashes.values())}")
    for name, counts in (("run", runs), ("tree", trees), ("to be refused, and read", read), ("to be read, and refused", refused)):
        print(f"== {name}")
        for what, count in counts.most_common():
            print(f"{count:7} {what}")


main()
