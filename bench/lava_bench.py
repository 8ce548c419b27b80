#!/usr/bin/env python3
"""Builds the program of bench/lava_bench, and compares what it prints for `stdin` there with `stdout`.

    bench/lava_bench.py [--proved] [OUT]

OUT is out/lava_bench unless given.

It is none of the gate's crates, and a file that ends in .rt may stand in no other folder, so its sources end in .rattle. Here they become a
crate beside copies of those that it stands on, with a crates.txt of its own. With `--proved` it is proved and built (`rt run`), which takes
what checks on this machine have kept; else bench/unproved.py builds it without a proof, in a minute or two of a processor.
"""
import os
import shutil
import subprocess
import sys
import tempfile

TOP = os.path.dirname(os.path.dirname(os.path.abspath(__file__)))
HERE = f"{TOP}/bench/lava_bench"
NAME = "lava_bench"
# What its line of crates.txt says.
USES = ["lava_base", "js_text", "js_num", "js_desc", "js_store", "js_exotic", "js_fault", "js_lexer"]


def lines_below(uses):
    """Returns the lines of the repository's crates.txt for these crates and all below them."""
    with open(f"{TOP}/crates.txt", encoding="utf-8") as it:
        parted = [line.partition("#")[0].partition(":") for line in it]
    listed = {name.strip(): rest.split() for name, colon, rest in parted if colon}
    wanted, todo = set(), [*uses]
    while todo:
        name = todo.pop()
        if name in listed and name not in wanted:
            wanted.add(name)
            todo += listed[name]
    return {name: rest for name, rest in listed.items() if name in wanted}


def make(room):
    """Makes a repository of the program and of what it stands on."""
    lines = lines_below(USES)
    for name in lines:
        shutil.copytree(f"{TOP}/crates/{name}", f"{room}/crates/{name}", ignore=shutil.ignore_patterns("out", "must-fail"))
    with open(f"{room}/crates.txt", "w", encoding="utf-8") as it:
        it.writelines(f"{name}: {' '.join(rest)}\n" for name, rest in {**lines, NAME: USES}.items())
    shutil.copyfile(f"{TOP}/HANDLES", f"{room}/HANDLES")
    shutil.copytree(HERE, f"{room}/crates/{NAME}")
    for name in os.listdir(f"{HERE}/src"):
        os.rename(f"{room}/crates/{NAME}/src/{name}", f"{room}/crates/{NAME}/src/{name.removesuffix('.rattle')}.rt")


def build(room, out, is_proved):
    """Builds the program. Returns whether it was built."""
    if not is_proved:
        return subprocess.run([f"{TOP}/bench/unproved.py", "--bare", NAME, out, room], cwd=room).returncode == 0
    done = subprocess.run(["rt", "run"], cwd=f"{room}/crates/{NAME}", stdin=subprocess.DEVNULL, stdout=subprocess.DEVNULL)
    if done.returncode == 0:
        shutil.copy2(f"{room}/crates/{NAME}/out/{NAME}", out)
    return done.returncode == 0


def main():
    flags, words = [it for it in sys.argv[1:] if it.startswith("-")], [it for it in sys.argv[1:] if not it.startswith("-")]
    if len(words) > 1 or flags not in ([], ["--proved"]):
        sys.exit(__doc__)
    out = os.path.abspath(words[0] if words else f"{TOP}/out/{NAME}")
    os.makedirs(os.path.dirname(out), exist_ok=True)
    with tempfile.TemporaryDirectory(prefix="lava-bench-") as room:
        make(room)
        if not build(room, out, bool(flags)):
            return 1
    with open(f"{HERE}/stdin", encoding="utf-8") as given, open(f"{HERE}/stdout", encoding="utf-8") as wanted:
        printed = subprocess.run([out], stdin=given, capture_output=True, text=True)
        is_well = printed.returncode == 0 and printed.stdout == wanted.read()
    print(f"{out}: it prints {'what' if is_well else 'NOT what'} {NAME}/stdout says")
    return 0 if is_well else 1


sys.exit(main())
