#!/usr/bin/env python3
"""Rewrites each path that reaches a crate through another one to the crate's own: `js_machine::js_run::acts` to `js_run::acts`,
`Rattle.js_machine.specs.js_run.Acts` to `Rattle.js_run.specs.Acts`, `Rattle.js_world.proofs.of_js_crossing` to `Rattle.js_crossing.proofs`.

  wip/one_name.py [--top DIR] [CRATE ..]   rewrites these crates, or all, and the lines of crates.txt; where all are rewritten, the lines
                                           `pub use` that pass a crate on go too
  wip/one_name.py --list                   prints which crate passes on which one, and how many paths go through it
  wip/one_name.py [--top DIR] --words      gives each module that is imported under several words (`as value`, `as value_kind`) the commonest one,
                                           in each file where that is free, and prints where it is not

In a file, lines `use` that have come to name one module are made one. Then `rt fmt` in each crate, and `.ci/cited.py --write`.
"""
import os
import re
import sys

PASSED_ON = re.compile(r"^pub use Rattle\.([\w.]+)(?: as (\w+))?[ \t]*\n", re.M)
PUB_USE = re.compile(r"^pub use ([^;{]+?)(?:::)?(?:\{([^}]*)\})?;[ \t]*\n", re.M)
PATH = re.compile(r"Rattle\.(\w+(?:\.\w+)+)")


def read(path):
    if not os.path.exists(path):
        return ""
    with open(path, encoding="utf-8") as it:
        return it.read()


def write(path, text):
    with open(path, "w", encoding="utf-8") as it:
        it.write(text)


class House:
    def __init__(self, top):
        self.top, self.lines = top, {}
        for line in read(f"{top}/crates.txt").splitlines():
            name, colon, rest = line.partition("#")[0].partition(":")
            if colon:
                self.lines[name.strip()] = rest.split()
        # What a crate passes on: by the crate and the part (code, specs, proofs), the path that a name stands for.
        self.passed = {}
        for crate in self.lines:
            code = {}
            for head, names in PUB_USE.findall(read(f"{top}/crates/{crate}/src/lib.rt")):
                for path in [f"{head}::{it.strip()}" for it in names.split(",") if it.strip()] if names else [head]:
                    code[path.split("::")[-1]] = path.split("::")
            self.passed[crate, "code"] = code
            for part in ("specs", "proofs"):
                said = PASSED_ON.findall(read(f"{top}/crates/{crate}/{part}/Lib.antt"))
                self.passed[crate, part] = {name or path.split(".")[-1]: path.split(".") for path, name in said}
        through = {name for (_, part), names in self.passed.items() if part == "code" for name in names if name in self.lines}
        self.in_code = re.compile(rf"(?<![\w:.])(\w+)((?:::(?:{'|'.join(sorted(through, key=len, reverse=True))})\b)+)")

    def own(self, words):
        """A path of definitions or proofs, without a crate through which it goes: its words behind `Rattle`."""
        while len(words) > 2 and words[1] in ("specs", "proofs"):
            there = self.passed.get((words[0], words[1]), {}).get(words[2])
            if there is None or len(self.own(there)) != 2:
                break
            words = there + words[3:]
        return words

    def own_code(self, words):
        """The same of a path of code."""
        while len(words) > 1 and words[0] in self.lines:
            there = self.passed[words[0], "code"].get(words[1])
            if there is None or there[-1] not in self.lines or len(self.own_code(there)) != 1:
                break
            words = there + words[2:]
        return words

    def files(self, crate):
        for at, folders, names in os.walk(f"{self.top}/crates/{crate}"):
            folders[:] = sorted(it for it in folders if it not in ("out", "must-fail", "data"))
            yield from (f"{at}/{it}" for it in sorted(names) if it.endswith((".rt", ".antt")))

    def rewritten(self, text):
        """A text with each path by its crate's own name."""
        text = PATH.sub(lambda it: "Rattle." + ".".join(self.own(it[1].split("."))), text)
        return self.in_code.sub(lambda it: "::".join(self.own_code([it[1], *it[2].split("::")[1:]])), text)

    def passes_on(self, crate, part, name):
        """Whether what a name stands for in a crate's root is a crate."""
        words = self.passed[crate, part][name]
        return len(self.own_code(words)) == 1 and self.own_code(words)[0] in self.lines if part == "code" else len(self.own(words)) == 2

    def cut(self, crate):
        """Takes out what a crate passes on."""
        path = f"{self.top}/crates/{crate}/src/lib.rt"

        def kept(found):
            head, names = found[1], found[2]
            if not names:
                name = head.split("::")[-1]
                return "" if self.passes_on(crate, "code", name) else found[0]
            left = [it.strip() for it in names.split(",") if it.strip() and not self.passes_on(crate, "code", it.strip().split("::")[-1])]
            return f"pub use {head}::{{{', '.join(left)}}};\n" if left else ""

        text = read(path)
        if text:
            write(path, PUB_USE.sub(kept, text))
        for part in ("specs", "proofs"):
            path = f"{self.top}/crates/{crate}/{part}/Lib.antt"
            text = read(path)
            if text:
                write(path, PASSED_ON.sub(lambda it: "" if self.passes_on(crate, part, it[2] or it[1].split(".")[-1]) else it[0], text))


USE = re.compile(r"^((?:ghost |pub )*use Rattle\.[\w.]+)\.\{([^{}]*)\}(;?)[ \t]*\n", re.M)


def joined(text):
    """A text in which lines `use` of one module are one, where the first stands, without a name twice."""
    names = {}
    for head, inside, end in USE.findall(text):
        names.setdefault((head, end), []).extend(it for it in (word.strip() for word in inside.split(",")) if it)
    told = set()

    def one(found):
        key = found[1], found[3]
        if key in told:
            return ""
        told.add(key)
        return f"{found[1]}.{{{', '.join(dict.fromkeys(names[key]))}}}{found[3]}\n"

    several = {key for key in names if len(re.findall(rf"^{re.escape(key[0])}\.\{{", text, re.M)) > 1}
    return USE.sub(lambda it: one(it) if (it[1], it[3]) in several else it[0], text)


AS = re.compile(r"^[ \t]*(?:ghost |pub )*use (Rattle\.[\w.]+) as (\w+)", re.M)


def one_word(house):
    files = {path: read(path) for crate in house.lines for path in house.files(crate) if not path.endswith("/Lib.antt")}
    words = {}
    for text in files.values():
        for module, word in AS.findall(text):
            if not module.endswith(".Goals"):
                words.setdefault(module, {}).setdefault(word, 0)
                words[module][word] += 1
    best = {module: max(sorted(of), key=of.get) for module, of in words.items() if len(of) > 1}
    changed = 0
    for path, text in files.items():
        new = text
        for module, word in AS.findall(text):
            to = best.get(module, word)
            if to == word:
                continue
            if re.search(rf"(?<![\w.]){to}(?!\w)", new) or len(re.findall(rf" as {word}\b", new)) != 1:
                print(f"{os.path.relpath(path, house.top)}: {module} stays {word}, and is {to} elsewhere")
                continue
            new = re.sub(rf"(use {re.escape(module)} as ){word}\b", rf"\g<1>{to}", new)
            new = re.sub(rf"(?<![\w.]){word}(?=\.\w)", to, new)
        if new != text:
            changed += 1
            write(path, new)
    print(f"{len(best)} modules had several words; {changed} files are changed")


def main():
    words = sys.argv[1:]
    top = os.path.dirname(os.path.dirname(os.path.abspath(__file__)))
    if words[:1] == ["--top"]:
        top, words = os.path.abspath(words[1]), words[2:]
    house = House(top)
    if words == ["--words"]:
        one_word(house)
        return 0
    if words == ["--list"]:
        users = {}
        for crate in house.lines:
            text = "\n".join(read(it) for it in house.files(crate))
            found = [tuple(it.split(".")[:3]) for it in PATH.findall(text)] + [(one, "code", more.split("::")[1]) for one, more in house.in_code.findall(text)]
            for key in found:
                users.setdefault(key, {}).setdefault(crate, 0)
                users[key][crate] += 1
        for (crate, part), names in house.passed.items():
            for name in names:
                if house.passes_on(crate, part, name):
                    of = {it: count for it, count in users.get((crate, part, name), {}).items() if it != crate}
                    print(f"{crate} {part} {name}: {sum(of.values())} paths in {' '.join(of) or 'none'}")
        return 0
    unknown = [it for it in words if it not in house.lines]
    if unknown:
        sys.exit(f"crates.txt has no {', '.join(unknown)}")
    count = 0
    for crate in words or house.lines:
        for path in house.files(crate):
            text = read(path)
            if path.endswith("/Lib.antt"):
                # (what is passed on is cut, and not rewritten)
                continue
            new = house.rewritten(text)
            if new != text:
                count += 1
                write(path, joined(new))
    if not words:
        for crate in house.lines:
            house.cut(crate)
    cited = re.compile(r"(?<![\w:.])(\w+)::|Rattle\.(\w+)\.")
    heads = []
    for line in read(f"{top}/crates.txt").splitlines():
        name, colon, rest = line.partition("#")[0].partition(":")
        if colon and (not words or name.strip() in words):
            begun = {it for path in house.files(name.strip()) for found in cited.findall(read(path)) for it in found}
            uses = [it for it in house.lines if it in begun and it != name.strip() and it not in rest.split()] + [it for it in rest.split() if it in begun or it not in house.lines]
            line = f"{name}: {' '.join(uses)}".rstrip()
        heads.append(line)
    write(f"{top}/crates.txt", "".join(f"{it}\n" for it in heads))
    print(f"{count} files")
    return 0


sys.exit(main())
