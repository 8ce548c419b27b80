#!/usr/bin/env python3
"""Puts real sources together, for benchmarks of `lava tree`.

    bench/corpus.py FOLDER LAVA

takes the files `.js` below a folder (npm's own, say), each as CommonJS has it, in a function `(function (exports, require, module) { .. });`, and
of these the ones that `LAVA tree` takes, and writes m025.js, m05.js, m1.js and m5.js: these one behind the other up to 2^18, 2^19, 2^20 and
5 * 2^20 bytes, from the first again where they are all there. m5.scope and m5.tree have the last as a line of source_rows.
"""
import os
import subprocess
import sys


def wrapped(path):
    with open(path, encoding="utf-8", errors="replace") as it:
        text = it.read()
    text += "" if text.endswith("\n") else "\n"
    return "(function (exports, require, module) {\n" + text + "});\n"


def taken(folder, lava):
    found = []
    for path in sorted(os.path.join(at, name) for at, _, names in os.walk(folder) for name in names if name.endswith(".js")):
        text = wrapped(path)
        with open("one.js", "w", encoding="utf-8") as out:
            out.write(text)
        if subprocess.run([lava, "tree", "one.js"], stdout=subprocess.DEVNULL, stderr=subprocess.DEVNULL, check=False).returncode == 0:
            found.append(text)
    os.remove("one.js")
    return found


def together(parts, size):
    out, left, at = [], size, 0
    while fits := [part for part in parts if len(part.encode()) <= left]:
        part = parts[at % len(parts)]
        part = part if part in fits else max(fits, key=len)
        out.append(part)
        left -= len(part.encode())
        at += 1
    return "".join(out)


def main():
    parts = taken(sys.argv[1], os.path.abspath(sys.argv[2]))
    print(len(parts), "files,", sum(len(part.encode()) for part in parts), "bytes")
    for name, size in (("m025", 1 << 18), ("m05", 1 << 19), ("m1", 1 << 20), ("m5", 5 << 20)):
        text = together(parts, size)
        with open(f"{name}.js", "w", encoding="utf-8") as out:
            out.write(text)
    for kind in ("scope", "tree"):
        with open(f"m5.{kind}", "w", encoding="utf-8") as out:
            out.write(f"{kind} " + text.replace("\r", "").replace("¶", "").replace("\n", "¶") + "\n")


main()
