#!/usr/bin/env python3
"""The index of the definitions by the clause that each restates, from the citation lines in crates/*/specs/*.antt.

    .ci/definitions.py            writes docs/DEFINITIONS.md
    .ci/definitions.py --check    ends with status 1 where the file differs, and tells the first difference
    .ci/definitions.py --print    prints it

A citation is a line right above a definition's signature, of one of these forms:

    -- ECMA-262 OrdinaryGetOwnProperty
    -- ECMA-262 ValidateAndApplyPropertyDescriptor, step 5
    -- ECMA-262 "A Title, with a Comma", step 5
    -- own: why it takes the place of a clause

with Unicode, SES and LavaMoat as ECMA-262. In src/, a `///` line of a public item cites by `(ECMA-262, OrdinaryGet)`, `(ECMA-262, "A
Title")` or `(ECMA-262, OrdinaryGet, step 5)`; it stands beside the definitions of that clause.
"""
import glob
import os
import re
import sys

sys.dont_write_bytecode = True
from printed_page import serve

TOP = os.path.dirname(os.path.dirname(os.path.abspath(__file__)))
STANDARDS = ("ECMA-262", "Unicode", "SES", "LavaMoat")
NAMES = "|".join(STANDARDS)
CLAUSE = r"(?P<clause>\"[^\"]+\"|[^\s,.:;\"()](?:[^,.;\"()]|\.(?=\w))*)(?:, (?P<part>\S|\S.*[^\s.]))?"
CITED = re.compile(rf"-- (?P<standard>{NAMES}) {CLAUSE}")
OWN = re.compile(r"-- own: (?P<why>\S.*)")
# What may be meant as a citation: a standard's name with anything but the end of a genitive behind it.
MEANT = re.compile(rf"-- ((?:{NAMES})(?=[\s:,;.(]|$)|own:)")
SIGNATURE = re.compile(r"((?:abbrev|unfoldable|opaque|pub|data|record) )*(?P<name>[^\s:({]+)(?=[\s:({])[^=]*(?::|where$)")
IN_CODE = re.compile(rf"\((?P<standard>{NAMES}), ([^()]+)\)")
ITEM = re.compile(r"pub (?:fn|const fn|struct|enum|trait|type|const|static|mod) (?P<name>\w+)")
MEMBER = re.compile(r"(?:fn|const|type) (?P<name>\w+)")
VARIANT = re.compile(r"(?P<name>[A-Z]\w*)(?=\s*[,({=]|$)")
IMPL = re.compile(r"impl(?:<.*?>)? (?:.* for )?(?P<name>\w+)")
HEAD = """# The definitions, by the clause that each restates

`.ci/definitions.py` makes this page from the citation lines above the definitions, and `.ci/run` compares it: change those lines, and \
run the script. A definition stands in `crates/CRATE/specs/FILE.antt`. The last column has the public functions and types whose comment \
names the clause. What a definition says in plain words stands above it in its file, and a definition that cites nothing is a helper or \
a law, or of this repository's own subject (the run of parties, the outside).

ECMA-262 is cited by the names of its clauses; the numbers of steps fit its 15th edition (June 2024), but for those that `DECISIONS.md`, \
"The standard", names, which also says how that was looked at. Where a number is off, the clause's name and words decide."""
OWN_HEAD = "Where a definition takes the place of a standard's, and departs from it by choice."


def lines_of(path):
    with open(path, encoding="utf-8") as it:
        return it.read().split("\n")


def crates():
    """Returns the crates in the order of crates.txt."""
    heads = [line.partition("#")[0].partition(":") for line in lines_of(f"{TOP}/crates.txt")]
    return [name.split()[0] for name, colon, _ in heads if colon and name.strip()]


def files(crate, part, ending):
    return sorted(glob.glob(f"{TOP}/crates/{crate}/{part}/**/*{ending}", recursive=True))


def public_sources(crate):
    """Returns the files of the crate's public modules."""
    sources = files(crate, "src", ".rt")
    private = {name for path in sources for line in lines_of(path) for name in re.findall(r"^\s*mod (\w+);", line)}
    return [path for path in sources if os.path.basename(path).removesuffix(".rt") not in private]


def parted(words):
    """Returns the clause and the part that the words of a citation in code name."""
    found = re.fullmatch(CLAUSE, words)
    return (found["clause"].strip('"'), found["part"] or "") if found else (words, "")


def citations(path, faults):
    """Returns each citation of a file of definitions: the standard, the clause, the part and the definition's name."""
    found, lines = [], [line.strip() for line in lines_of(path)]
    for number, text in enumerate(lines):
        if not MEANT.match(text):
            continue
        at = f"{os.path.relpath(path, TOP)}:{number + 1}"
        cited, own = CITED.fullmatch(text), OWN.fullmatch(text)
        below = next((it for it in lines[number + 1 :] if not MEANT.match(it)), "")
        named = None if below.startswith(("--", "use ", "pub use ", "mod ", "pub mod ")) else SIGNATURE.match(below)
        if not (cited or own):
            faults.append(f"{at}: no citation: write `-- STANDARD CLAUSE` or `-- STANDARD CLAUSE, PART`, or `-- own: WHY`: {text}")
        elif not named:
            faults.append(f"{at}: the citation stands right above no signature, but above: {below or 'an empty line'}")
        elif cited:
            found.append((cited["standard"], cited["clause"].strip('"'), cited["part"] or "", named["name"]))
        else:
            found.append(("own", own["why"], "", named["name"]))
    return found


def followers(path):
    """Returns what public items of a source file follow: the standard, the clause, the part and the item's name."""
    found, comment, owners = [], "", []
    for line in lines_of(path):
        text, indent = line.strip(), len(line) - len(line.lstrip())
        if text.startswith("///"):
            comment += text[3:]
            continue
        if not text or text.startswith("#["):
            continue
        while owners and indent <= owners[-1][0]:
            owners.pop()
        within, owner = owners[-1][1:] if owners else ("", "")
        item = ITEM.match(text) or (MEMBER.match(text) if within == "trait" else VARIANT.match(text) if within == "enum" else None)
        of = IMPL.match(text)
        if item:
            cited = [(standard, *parted(words)) for standard, words in IN_CODE.findall(comment)]
            found += [(*it, f"{owner}::{item['name']}" if owner else item["name"]) for it in cited]
        if of:
            owners.append((indent, "impl", of["name"]))
        elif item and text.startswith(("pub enum ", "pub trait ")):
            owners.append((indent, text.split()[1], item["name"]))
        comment = ""
    return found


def natural(text):
    """The order of texts, without regard to case, where numbers in them are compared as numbers."""
    return [int(it) if it.isdigit() else it.casefold() for it in re.split(r"(\d+)", text)]


def table(out, head, rows):
    line = lambda row: "|" + "".join(f" {it} |" if it else " |" for it in row)
    out += [line(head), line(["---"] * len(head)), *(line(it.replace("|", "\\|") for it in row) for row in rows), ""]


def place(crate, path):
    file = os.path.relpath(path, f"{TOP}/crates/{crate}/specs")
    return f"[{crate} `{file.removesuffix('.antt')}`](../crates/{crate}/specs/{file})"


def page():
    """Returns the page's text, and the faults of the citations."""
    defined, coded, own, faults = {}, {}, [], []
    for crate in crates():
        for path in files(crate, "specs", ".antt"):
            for standard, clause, part, name in citations(path, faults):
                if standard == "own":
                    own.append((name, clause, place(crate, path)))
                else:
                    defined.setdefault((standard, clause, part), {}).setdefault(place(crate, path), []).append(name)
        for path in public_sources(crate):
            for standard, clause, part, name in followers(path):
                there = coded.setdefault((standard, clause, part), [])
                there += [it for it in [f"{crate} `{name}`"] if it not in there]
    out, order = [HEAD, ""], lambda it: (natural(it[1]), natural(it[2]), it)
    # What cites a part that no definition restates stands beside the first of the clause.
    for key in sorted(set(coded) - set(defined), key=order):
        first = min((it for it in defined if it[:2] == key[:2]), key=order, default=None)
        if first:
            names = [f"{it} ({key[2]})" if key[2] else it for it in coded.pop(key)]
            coded[first] = [*coded.get(first, []), *names]
    for standard in STANDARDS:
        rows = []
        for key in sorted({it for it in [*defined, *coded] if it[0] == standard}, key=order):
            clause, code = ", ".join(it for it in key[1:] if it), ", ".join(coded.get(key, []))
            for at, names in defined.get(key, {"": []}).items():
                rows.append((clause, ", ".join(f"`{it}`" for it in names), at, code))
                code = ""
        if rows:
            out += [f"## {standard}", ""]
            table(out, ("Clause", "Definition", "File", "In code"), rows)
    if own:
        out += ["## Of our own", "", OWN_HEAD, ""]
        table(out, ("Definition", "Why", "File"), [(f"`{name}`", why, at) for name, why, at in sorted(own, key=lambda it: (natural(it[0]), it))])
    return "\n".join(out), faults


serve(".ci/definitions.py", "docs/DEFINITIONS.md", page, __doc__)
