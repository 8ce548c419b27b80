#!/usr/bin/env python3
"""Checks a crate without proving those below it.

  .ci/skeleton.py copy FROM TO [NAME | FILE::NAME | @FILE ..]
        copies a crate with the bodies of all functions left out that may answer want of memory, but for those that are named (a whole
        file as @FILE): each answers Err(OutOfMemory), which its clauses allow where they speak of Ok alone. The front of a check is short
        then, and the copy is proved in minutes where the crate takes half an hour. (A crate whose clauses speak of refusals too, as
        js_store, is to be taken whole. A function that lets an owned value of a large enum go is dear as a copy, too.)
  .ci/skeleton.py types FROM TO
        copies a crate's types, constants and definitions alone, with no function and no proof. Built, it is a library for the definitions of
        the crates above it in some seconds; passed by --src, it needs no building. What is called there can be put back by hand, with
        Err(OutOfMemory) for a body where the clauses allow that, a law with none (by --src).
  .ci/skeleton.py check CRATE --libs FOLDER[:FOLDER..] [--src NAME=CRATE ..] [flags of `rattle check`]
        runs `rattle check` on the crate over libraries NAME.rlib in these folders, or over the sources that --src names. Work is kept
        in the crate's out/incremental. With --only PATH one function takes half a minute.
  .ci/skeleton.py build CRATE OUT.rlib --libs .. [--full] [flags]
        makes a library: of statements alone, or, --full, with the work that a check has kept

The crates' lines are those of the nearest crates.txt at or above CRATE. Nothing here is a verdict: that is `rt ci`.
"""
import os
import re
import shutil
import subprocess
import sys


def skip(text, i):
    """Passes over a comment, a string or a character at i, and returns where that ends; i where none stands there."""
    if text.startswith("//", i):
        end = text.find("\n", i)
        return len(text) if end < 0 else end
    if text.startswith("/*", i):
        end = text.find("*/", i)
        return len(text) if end < 0 else end + 2
    if text.startswith('r#"', i):
        return text.index('"#', i) + 2
    if text[i] == '"':
        end = i + 1
        while text[end] != '"':
            end += 2 if text[end] == "\\" else 1
        return end + 1
    found = re.match(r"'(\\u\{[0-9a-fA-F]+\}|\\.|[^\\'\n])'", text[i:]) if text[i] == "'" else None
    return i + found.end() if found else i


def behind(text, i, is_code=True):
    """Returns the place behind the brace that closes the one at i; a clause is no code."""
    depth = 0
    while i < len(text):
        over = skip(text, i) if is_code else i
        if over != i:
            i = over
            continue
        depth += {"{": 1, "}": -1}.get(text[i], 0)
        if text[i] == "}" and depth == 0:
            return i + 1
        i += 1
    raise ValueError("a brace is open")


def parts_of(text, at):
    """Returns where the clauses of the function whose name ends at `at` begin, and its body; no body where it has none."""
    first, i = None, at
    while i < len(text):
        over = skip(text, i) if text[i] == "/" else i
        if over != i:
            i = over
        elif text[i] == ";":
            return first, None
        elif text[i] == "{":
            clause = re.search(r"\b(requires|ensures)\*?(\s+\w+\*?)?$|\bghost\s+\w+:$", text[at:i].rstrip())
            if not clause:
                return first, i
            first = at + clause.start() if first is None else first
            i = behind(text, i, False)
        else:
            i += 1
    return first, None


def cut(text, is_kept):
    """Returns the text with the bodies left out of what may answer want of memory, and the names of these functions."""
    out, left, done, i = [], [], 0, 0
    while i < len(text):
        over = skip(text, i)
        found = re.compile(r"\bfn\s+(\w+)").match(text, i) if over == i else None
        if not found:
            i = max(over, i + 1)
            continue
        clauses, body = parts_of(text, found.end())
        if body is None:
            i = found.end()
            continue
        result = re.search(r"->\s*(.*)$", text[found.end() : clauses or body], re.S)
        i = behind(text, body)
        if result and re.match(r"Result<.*OutOfMemory>\s*(where\b.*)?$", result[1].strip(), re.S) and not is_kept(found[1]):
            out.append(text[done:body] + "{\n        Err(OutOfMemory)\n    }")
            left.append(found[1])
            done = i
    return "".join(out) + text[done:], left


def copy(frm, to, *keeps):
    """Copies a crate without the bodies of what may answer want of memory, and without the answers that were about them."""
    shutil.rmtree(to, ignore_errors=True)
    shutil.copytree(frm, to, ignore=shutil.ignore_patterns("out", "must-fail"))
    gone = set()
    for name in sorted(os.listdir(f"{to}/src")):
        stem, path = name[:-3], f"{to}/src/{name}"
        if not name.endswith(".rt"):
            continue
        with open(path, encoding="utf-8") as it:
            text = it.read()
        text, left = cut(text, lambda n: n in keeps or f"{stem}::{n}" in keeps or f"@{stem}" in keeps)
        if left:
            text = re.sub(r"[ \t]*#\[cycle\([a-z_]+\)\]\n", "", text)
        with open(path, "w", encoding="utf-8") as it:
            it.write(text)
        gone |= {(stem, n) for n in left}
    names = {n for _, n in gone}
    for at, folders, _ in os.walk(f"{to}/proofs"):
        for folder in list(folders):
            parts, n = os.path.relpath(f"{at}/{folder}", f"{to}/proofs").split("/"), folder.lstrip("+")
            is_kept = (parts[0].lstrip("+"), n) not in gone if len(parts) == 2 else any(k.split("::")[-1] == n for k in keeps)
            if n in names and not is_kept and any(f.endswith(".antt") for f in os.listdir(f"{at}/{folder}")):
                shutil.rmtree(f"{at}/{folder}")
                folders.remove(folder)
    print(f"left out {len(gone)}")


def item_end(text, i):
    """Returns the place behind the item at i: behind its `;`, or behind the brace that closes it, before which clauses may stand."""
    depth = 0
    while i < len(text):
        over = skip(text, i)
        if over != i:
            i = over
            continue
        depth += {"{": 1, "(": 1, "[": 1, "}": -1, ")": -1, "]": -1}.get(text[i], 0)
        i += 1
        if depth == 0 and text[i - 1] == ";":
            return i
        if depth == 0 and text[i - 1] == "}" and not re.match(r"\s*(;|ensures|requires|ghost\s+\w+:|\{)", text[i:]):
            return i
    return i


def named(item, body):
    """Returns a `use` item with the types that stand in a text, or nothing where none does; one that is public as it is."""
    found = re.match(r"use\s+(.*)::(?:\{(.*)\}|(\w+(?: as \w+)?));$", item, re.S)
    if not found:
        return item
    names = [n.strip() for n in (found[2] or found[3]).split(",") if n.strip()]
    names = [n for n in names if n[0].isupper() and re.search(rf"\b{n.split(' as ')[-1]}\b", body)]
    return f"use {found[1]}::{{{', '.join(names)}}};" if names else ""


def types_of(text):
    """Returns the types, constants and definitions of a text, in its order."""
    kept, attributes, i = [], "", 0
    while i < len(text):
        if text[i].isspace():
            i += 1
        elif text.startswith("//", i):
            i = skip(text, i)
        elif text[i] == "#":
            end = text.index("\n", i)
            word = text[i:end].strip()
            if word.startswith("#!"):
                kept.append(word)
            derived = [d for d in re.findall(r"\w+", word[8:]) if d in ("Clone", "Copy")] if word.startswith("#[derive") else []
            attributes += f"#[derive({', '.join(derived)})]\n" if derived else word + "\n" if word.startswith("#[cycle") else ""
            i = end
        else:
            end = item_end(text, i)
            item = text[i:end].strip()
            bare = re.sub(r"^pub(\([a-z]+\))?\s+", "", item)
            if re.match(r"(ghost use|use|mod|struct|enum|const(?!\s+fn)|static|type)\b|macro_rules!|impl(<[^>]*>)?\s+Model\b", bare):
                kept.append(attributes + item)
            attributes, i = "", end
    body = "\n".join(k for k in kept if not re.match(r"(ghost )?use\b", k))
    return "\n".join(filter(None, (named(k, body) for k in kept))) + "\n"


def types(frm, to):
    """Copies a crate's types, constants and definitions."""
    shutil.rmtree(to, ignore_errors=True)
    shutil.copytree(frm, to, ignore=shutil.ignore_patterns("out", "must-fail", "proofs", "stdin", "stdout", "data"))
    for at, _, files in os.walk(f"{to}/src"):
        for path in (f"{at}/{f}" for f in files if f.endswith(".rt")):
            with open(path, encoding="utf-8") as it:
                text = types_of(it.read())
            with open(path, "w", encoding="utf-8") as it:
                it.write(text)


def run(verb, crate, *words):
    """Runs rattle on a crate over libraries that are there."""
    crate, words = os.path.abspath(crate), list(words)
    out = words.pop(0) if verb == "build" else None
    kit = os.path.dirname(os.path.dirname(os.path.realpath(shutil.which("rt"))))
    kit = kit if os.path.isdir(f"{kit}/rlibs") else "/opt/rattle"
    name, libs, sources, flags = os.path.basename(crate), [], {}, []
    while words:
        word = words.pop(0)
        if word == "--libs":
            libs = words.pop(0).split(":")
        elif word == "--src":
            key, _, sources[key] = words.pop(0).partition("=")
        else:
            flags.append(word)
    root = crate
    while not os.path.exists(f"{root}/crates.txt"):
        root = os.path.dirname(root)
    deps = {}
    with open(f"{root}/crates.txt", encoding="utf-8") as it:
        for line in it:
            head, colon, uses = line.partition("#")[0].partition(":")
            if colon:
                deps[head.split()[0]] = uses.split()

    def below(n, seen):
        for d in deps.get(n, []):
            if d in deps and d not in seen:
                seen.add(d)
                below(d, seen)
        return seen

    def library(d):
        for folder in libs:
            for path in (f"{folder}/{d}.rlib", f"{folder}/crates/{d}/out/rlib/{d}.rlib"):
                if os.path.exists(path):
                    return path
        sys.exit(f"there is no library of {d} in {':'.join(libs)}")

    is_program = os.path.exists(f"{crate}/src/main.rt")
    line = ["--crate-name", name, "src/main.rt" if is_program else "src/lib.rt", "--extern", f"std={kit}/rlibs/std.rlib"]
    used = set(deps[name]).union(*[deps[n] for n in sources])
    line += [x for d in sorted(used) if d not in deps for x in ("--extern", f"{d}={kit}/rlibs/{d}.rlib")] + ["-L", f"dependency={kit}/rlibs"]
    line += [x for d in sorted(used) if d in deps and d not in sources for x in ("--extern", f"{d}={library(d)}")]
    line += [x for n, path in sources.items() for x in ("--lib", f"{n}:std,{','.join(deps[n])}={os.path.abspath(path)}/src/lib.rt")]
    reached = below(name, set()).union(*[below(n, set()) for n in sources])
    line += [x for d in sorted(reached) if d not in sources for x in ("-L", f"dependency={os.path.dirname(library(d))}")]
    line += ["--antt-project", f"{kit}/rattle/logic/antt-project.json", "--logic-built", f"{kit}/logic_built", "--links", f"{name}="]
    line += [x for d in sorted(reached) if is_program for x in ("--links", f"{d}=")]
    kept = ["--incremental", "out/incremental"]
    if out:
        full = "--full" in flags
        line += ["-o", os.path.abspath(out), *(kept if full else ["--statements"]), *[f for f in flags if f != "--full"]]
    else:
        line += [*flags, *kept]
    os.makedirs(f"{crate}/out/incremental", exist_ok=True)
    return subprocess.call([f"{kit}/bin/rattle", verb, *line], cwd=crate)


if len(sys.argv) < 3 or sys.argv[1] not in ("copy", "types", "check", "build"):
    sys.exit(__doc__)
sys.exit({"copy": copy, "types": types}[sys.argv[1]](*sys.argv[2:]) if sys.argv[1] in ("copy", "types") else run(*sys.argv[1:]))
