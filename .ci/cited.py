#!/usr/bin/env python3
"""Holds crates.txt to what the crates cite, and docs/ARCHITECTURE.md to crates.txt.

Each line of crates.txt is to have every crate that begins a path in its crate's code, definitions and proofs, and no other. A crate below
another one that is listed is reached through that one, `js_machine::js_run::intrinsics` and `Rattle.js_machine.specs.js_run.Heap`, where
the lines `pub use` of its src/lib.rt and specs/Lib.antt pass it on.

A comment of crates.txt is the heading of a room. Each crate stands in one, and a room stands only on those before it. docs/ARCHITECTURE.md
has the same rooms in the same order (`## 3. Tree to term`), and in the table of each room a row for each of its crates, in the same order.
The column `Stands on` has the crates that the line lists, without those that another one of them stands on.

  .ci/cited.py           says what lacks and what is too much, which edge leads to a later room, and which row is not as it should be
  .ci/cited.py --write   adds what lacks to crates.txt (what is too much is taken out by hand), and writes the column `Stands on`
"""
import os
import re
import sys

CITED = re.compile(r"(?<![\w:.])(\w+)::|Rattle\.(\w+)\.|^pub use (\w+);", re.M)
ROOM = re.compile(r"## \d+\. (.+)")
ROW = re.compile(r"\| `(\w+)` \|")
COLUMN = "Stands on"
TOP = os.path.dirname(os.path.dirname(os.path.abspath(__file__)))
LIST, PAGE = "crates.txt", "docs/ARCHITECTURE.md"


def lines_of(path):
    with open(f"{TOP}/{path}", encoding="utf-8") as it:
        return it.read().splitlines()


def write(path, lines):
    with open(f"{TOP}/{path}", "w", encoding="utf-8") as it:
        it.writelines(f"{line}\n" for line in lines)


def text_of(crate):
    found = []
    for at, folders, files in os.walk(f"{TOP}/crates/{crate}"):
        folders[:] = [it for it in folders if it not in ("out", "must-fail")]
        for name in files:
            if name.endswith((".rt", ".antt")):
                with open(f"{at}/{name}", encoding="utf-8") as it:
                    found.append(it.read())
    return "\n".join(found)


def listed_in(lines):
    """Returns the rooms in order, and by the crate what its line lists and in which room it stands."""
    rooms, listed, room_of = [], {}, {}
    for line in lines:
        said, _, comment = line.partition("#")
        name, colon, uses = said.partition(":")
        if colon:
            listed[name.strip()] = uses.split()
            room_of[name.strip()] = rooms[-1] if rooms else None
        elif comment.strip():
            rooms.append(comment.strip())
    return rooms, listed, room_of


def below(name, listed, known):
    """Returns all crates of the repository below one."""
    if name not in known:
        known[name] = set().union(*({it} | below(it, listed, known) for it in listed[name] if it in listed))
    return known[name]


def uncited(listed):
    """Says of each line what lacks and what is too much, and returns what it should list."""
    kit, wanted, is_well = {it for rest in listed.values() for it in rest} - {*listed}, {}, True
    for name in listed:
        begun = {it for found in CITED.findall(text_of(name)) for it in found}
        cited = {it for it in [*listed, *kit] if it != name and it in begun}
        # (a crate of the toolchain may be cited by way of another one)
        lacks, more = {it for it in cited if it in listed} - {*listed[name]}, {*listed[name]} - cited
        if lacks or more:
            is_well = False
            print(f"{name}: lacks {' '.join(sorted(lacks)) or 'none'}; cites no {' '.join(sorted(more)) or 'more'}")
        # (the order of a line is part of what `rt ci` keeps a proof by: what lacks goes in front, and nothing else moves)
        wanted[name] = [it for it in listed if it in lacks] + listed[name]
    return wanted, is_well


def rooms_are_well(rooms, listed, room_of):
    """Says which crate stands in no room, and which edge leads to a later room."""
    is_well = True
    for name, uses in listed.items():
        if room_of[name] is None:
            print(f"{LIST}: {name} stands in no room: a comment above its line names one")
            return False
        for it in uses:
            if it in listed and room_of[it] and rooms.index(room_of[it]) > rooms.index(room_of[name]):
                is_well = False
                print(f"{LIST}: {name} ({room_of[name]}) stands on {it}, whose room is a later one ({room_of[it]})")
    return is_well


def page_with(lines, rooms, listed, room_of):
    """Returns the lines of docs/ARCHITECTURE.md with the column of what each crate stands on, and what is wrong with its rooms and rows."""
    known, faults, out = {}, [], []
    room, found, column = None, {it: [] for it in rooms}, None
    for line in lines:
        head = ROOM.fullmatch(line)
        if line.startswith("## "):
            room = head[1] if head else None
            if head and room not in found:
                faults.append(f"the room {room} is none of {LIST}")
        if line.startswith("| Crate |"):
            cells = [it.strip() for it in line.split("|")]
            column = cells.index(COLUMN) if COLUMN in cells else None
        row = ROW.match(line)
        if row and room in found:
            name, cells = row[1], line.split("|")
            found[room].append(name)
            if name in listed and column:
                uses = [it for it in listed[name] if not any(it in below(other, listed, known) for other in listed[name] if other in listed)]
                cells[column] = f" {', '.join(uses) or 'std'} "
                line = "|".join(cells)
        out.append(line)
    heads = [it[1] for it in map(ROOM.fullmatch, lines) if it]
    if heads != rooms:
        faults.append(f"its rooms are {', '.join(heads) or 'none'}, and those of {LIST} are {', '.join(rooms)}")
    for room, names in found.items():
        wanted = [name for name in listed if room_of[name] == room]
        if names != wanted:
            faults.append(f"the rows of {room} are {' '.join(names) or 'none'}, and its crates are {' '.join(wanted)}")
    return out, faults


def main():
    lines, is_writing = lines_of(LIST), "--write" in sys.argv
    rooms, listed, room_of = listed_in(lines)
    wanted, is_well = uncited(listed)
    is_well &= rooms_are_well(rooms, listed, room_of)
    if is_writing:
        heads = [line.partition("#")[0].partition(":") for line in lines]
        write(LIST, [f"{name}: {' '.join(wanted[name.strip()])}".rstrip() if colon else line for line, (name, colon, _) in zip(lines, heads)])
    if is_well:
        stands = lines_of(PAGE)
        page, faults = page_with(stands, rooms, wanted, room_of)
        if is_writing:
            write(PAGE, page)
        else:
            faults += [f"`Stands on` of this row is not what {LIST} says (`.ci/cited.py --write`): {there}" for there, it in zip(stands, page) if there != it]
        for it in faults:
            print(f"{PAGE}: {it}")
        is_well = not faults
    return 0 if is_well else 1


sys.exit(main())
