#!/usr/bin/env python3
"""Puts crates that were cut for the clock back into one: moves their files, and renames the paths that lead there.

  wip/merge_crates.py [--top DIR] [TARGET ..]   these of the merges below, or all

What is left to do by hand: the page of the target, the rows of docs/ARCHITECTURE.md, the names in docs/. Then `rt fmt` in the target, and
`.ci/cited.py`.
"""
import os
import re
import shutil
import sys

# By the target, each crate that goes into it: the module of the target that its root becomes (or, where the root has only modules, their new
# names), and new names of its files in specs/ and proofs/ where the target has one of that name.
MERGES = {
    "lava_told": [
        ("lava_course", "course", {"Laws": "Course_laws"}, {"Told_laws": "May_be_told", "Line_laws": "Journal_line_laws"}),
        ("lava_run_told", "run_told", {"Laws": "Read_back"}, {"Line_laws": "Run_line_laws", "Read_laws": "Run_read_laws"}),
        ("lava_connected", "connected", {}, {}),
    ],
    "js_program_laws": [("js_lower_laws", {"laws": "lower_laws"}, {}, {"Bindings": "Lowered_bindings", "Blocks": "Lowered_blocks", "Forms": "Lowered_forms"})],
    "js_expr": [("js_cover", {"laws": "cover_laws", "refined": "refined", "targets": "targets"}, {}, {})],
    "lava_start": [("js_world_end", "world_end", {}, {})],
}


def read(path):
    if not os.path.exists(path):
        return ""
    with open(path, encoding="utf-8") as it:
        return it.read()


def write(path, text):
    os.makedirs(os.path.dirname(path), exist_ok=True)
    with open(path, "w", encoding="utf-8") as it:
        it.write(text)


def move(one, other):
    if os.path.exists(other):
        sys.exit(f"{other} is there already")
    os.makedirs(os.path.dirname(other), exist_ok=True)
    shutil.move(one, other)


def merge(top, target, source, root, specs, proofs):
    one, other = f"{top}/crates/{source}", f"{top}/crates/{target}"
    functions = {it for it in os.listdir(f"{one}/proofs") if os.path.isdir(f"{one}/proofs/{it}")} if os.path.isdir(f"{one}/proofs") else set()
    modules = root if isinstance(root, dict) else {}
    # Code.
    lib = read(f"{other}/src/lib.rt")
    if modules:
        for old, new in modules.items():
            move(f"{one}/src/{old}.rt", f"{other}/src/{new}.rt")
        added = sorted(modules.values())
    else:
        body = read(f"{one}/src/lib.rt").replace("#![tactic(auto)]\n", "", 1)
        write(f"{other}/src/{root}.rt", re.sub(r"^//!", "//", body, flags=re.M))
        added = [root]
    if re.search(r"^pub mod ", lib, re.M):
        first = re.search(r"^pub mod ", lib, re.M).start()
        lib = lib[:first] + "".join(f"pub mod {it};\n" for it in added) + lib[first:]
    else:
        lib = lib.replace("#![tactic(auto)]\n", "#![tactic(auto)]\n\n" + "".join(f"pub mod {it};\n" for it in added), 1)
    write(f"{other}/src/lib.rt", lib)
    # Definitions and proofs.
    for part, names in (("specs", specs), ("proofs", proofs)):
        if not os.path.isdir(f"{one}/{part}"):
            continue
        said = re.sub(r"^((?:pub )?mod )(\w+)$", lambda it: it[1] + names.get(it[2], it[2]), read(f"{one}/{part}/Lib.antt"), flags=re.M)
        write(f"{other}/{part}/Lib.antt", read(f"{other}/{part}/Lib.antt") + said)
        for name in sorted(os.listdir(f"{one}/{part}")):
            stem, end = os.path.splitext(name)
            if name == "Lib.antt":
                continue
            if end:
                move(f"{one}/{part}/{name}", f"{other}/{part}/{names.get(stem, stem)}{end}")
            else:
                move(f"{one}/{part}/{name}", f"{other}/{part}/{modules.get(name) or f'{root}/{name}'}")
    shutil.rmtree(one)
    # Paths.
    new_name = {"specs": specs, "proofs": proofs}

    def path(it):
        part, name = it[1], it[2]
        if part == "proofs" and name in modules:
            name = modules[name]
        elif part == "proofs" and name in functions:
            name = f"{root}.{name}"
        return f"Rattle.{target}.{part}.{new_name[part].get(name, name)}"

    def made(it):
        return f"Rattle.{target}.specs.{it[1]}.{modules.get(it[2], it[2]) if modules else f'{root}.{it[2]}'}"

    for at, folders, names in os.walk(f"{top}/crates"):
        folders[:] = sorted(it for it in folders if it not in ("out", "data"))
        within = at.startswith(f"{other}/") or at == other
        for name in names:
            if not name.endswith((".rt", ".antt")):
                continue
            text = read(f"{at}/{name}")
            new = re.sub(rf"Rattle\.{source}\.specs\.(declared|contracts)\.(\w+)", made, text)
            new = re.sub(rf"Rattle\.{source}\.(specs|proofs)\.(\w+)", path, new)
            if name.endswith(".rt"):
                head = "crate" if within else target
                if modules:
                    new = re.sub(rf"(?<![\w:.]){source}::(\w+)", lambda it: f"{head}::{modules.get(it[1], it[1])}", new)
                else:
                    new = re.sub(rf"(?<![\w:.]){source}::", f"{head}::{root}::", new)
                if within:
                    new = re.sub(rf"(?<![\w:.]){target}::", "crate::", new)
            if new != text:
                write(f"{at}/{name}", new)
    # crates.txt.
    lines = read(f"{top}/crates.txt").splitlines()
    uses = {line.partition(":")[0]: line.partition(":")[2].split() for line in lines if ":" in line.partition("#")[0]}
    out = []
    for line in lines:
        name, colon, rest = line.partition(":")
        if not colon or line.startswith("#"):
            out.append(line)
        elif name == target:
            both = [it for it in [*uses[target], *uses[source]] if it not in (source, target)]
            out.append(f"{name}: {' '.join(dict.fromkeys(both))}")
        elif name != source:
            out.append(f"{name}: {' '.join(dict.fromkeys(target if it == source else it for it in rest.split()))}".rstrip())
    write(f"{top}/crates.txt", "".join(f"{it}\n" for it in out))
    print(f"{source} is in {target}")


def main():
    words, top = sys.argv[1:], os.path.dirname(os.path.dirname(os.path.abspath(__file__)))
    if words[:1] == ["--top"]:
        top, words = os.path.abspath(words[1]), words[2:]
    for target in words or MERGES:
        for source, *rest in MERGES[target]:
            merge(top, target, source, *rest)


main()
