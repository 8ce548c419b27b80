#!/usr/bin/env python3
"""Tells what a run of `rt ci` costs: processor minutes a crate, parted into proof, tests and must-fail edits.

  .ci/cost.py run [FOLDER]     runs `rt ci` as its child, watches it, and ends with its status. Its output comes as it is written,
                               and stands in FOLDER/ci.log too; the costs stand in FOLDER/costs (the folder: /tmp/rt-ci-costs)
  .ci/cost.py watch PID FILE   watches an `rt ci` that goes on, and appends to the file what each process took
  .ci/cost.py table FILE       prints a Markdown table of what stands in the file
  .ci/cost.py write FILE       writes the column `Minutes` of docs/ARCHITECTURE.md, of the proofs, and the paragraph on the whole run there
  .ci/cost.py check FILE       names the crates whose proof took over 18 seconds a hundred lines of src/ (of a hundred lines or more), or over one and
                               a half times the minutes of their row there, and ends with status 1 where there is one. Crates of under a minute
                               are passed over

The log of `rt ci` has no times, so the processes below it are looked at some times a second in /proc. A line of the file is one
process that has ended: its processor seconds, the crate, the part and the command. What a process takes after the last look at it,
and what ended before the watch began, is missing. A line `whole` is what the system counted for the run up to then: its own time and
that of all children that it has waited for. What no line tells is the rest.
"""
import os
import re
import subprocess
import sys
import threading
import time

TICKS = os.sysconf("SC_CLK_TCK")
PAUSE = 0.25
PARTS = ("proof", "tests", "edits")
TOP = os.path.dirname(os.path.dirname(os.path.abspath(__file__)))
PAGE = f"{TOP}/docs/ARCHITECTURE.md"
ROW = re.compile(r"\| `(\w+)` \|")
# What `check` lets pass: seconds of a crate, seconds a hundred lines of its code, and times its row.
LEAST, A_HUNDRED_LINES, TIMES_ROW = 60, 18, 1.5


def stat(pid):
    """Returns a process's parent, its start and its own processor seconds, and those of the children that it has waited for."""
    with open(f"/proc/{pid}/stat", encoding="utf-8", errors="replace") as it:
        words = it.read().rpartition(")")[2].split()
    own, waited = (int(words[11]) + int(words[12])) / TICKS, (int(words[13]) + int(words[14])) / TICKS
    return int(words[1]), int(words[19]), own, waited


def kind_of(pid):
    """Returns the crate and the part that a process works for, and its command, as far as its words and its folder tell."""
    with open(f"/proc/{pid}/cmdline", "rb") as it:
        words = [word.decode("utf-8", "replace") for word in it.read().split(b"\0")[:-1]]
    folder = os.readlink(f"/proc/{pid}/cwd")
    crate = next((b for a, b in zip(words, words[1:]) if a == "--crate-name"), None)
    if crate:
        part = "edits" if "/rt-edit-" in folder else "tests" if "--test" in words else "proof"
    elif "/rt-run-" in folder:
        # A crate's tests or its program, as they run.
        made = next((word for word in words if re.search(r"/rt-run-[^/]*/bin/", word)), "")
        crate, part = re.sub(r"_tests$", "", os.path.basename(made)) or None, "tests"
    else:
        at = re.search(r"/crates/(\w+)(/|$)", folder)
        crate, part = at and at[1], "proof"
    return crate, part, " ".join(os.path.basename(word) for word in words[:2])


class Watch:
    """What is known of the processes below one."""

    def __init__(self, root, file):
        self.root, self.file, self.known = root, file, {}
        self.start, self.whole = stat(root)[1], 0

    def look(self):
        """Looks at each process once, and writes down those that have ended. Returns whether the root still runs."""
        found, below = {}, {}
        for pid in filter(str.isdigit, os.listdir("/proc")):
            try:
                found[int(pid)] = stat(pid)
                below.setdefault(found[int(pid)][0], []).append(int(pid))
            except (OSError, ValueError, IndexError):
                # It has ended meanwhile.
                pass
        goes_on = self.root in found and found[self.root][1] == self.start
        now, todo = set(), [(pid, None) for pid in below.get(self.root, [])] if goes_on else []
        while todo:
            pid, above = todo.pop()
            key = (pid, found[pid][1])
            it = self.known.setdefault(key, {"crate": None, "part": "proof", "command": "", "seconds": 0})
            try:
                crate, part, command = kind_of(pid)
                if crate or (above and above["crate"]):
                    of = (crate, part) if crate else (above["crate"], above["part"])
                    it.update(crate=of[0], part=of[1], command=command)
                elif not it["crate"]:
                    it.update(command=command)
            except OSError:
                pass
            it["seconds"] = max(it["seconds"], found[pid][2])
            now.add(key)
            todo += [(child, it) for child in below.get(pid, [])]
        for key in self.known.keys() - now:
            self.write(self.known.pop(key))
        if goes_on:
            whole = found[self.root][2] + found[self.root][3]
            if whole > self.whole:
                self.whole = whole
                self.line(whole, "-", "whole", "")
        return goes_on

    def line(self, *words):
        self.file.write("{:.2f}\t{}\t{}\t{}\n".format(*words))
        self.file.flush()

    def write(self, it):
        if it["seconds"] > 0:
            self.line(it["seconds"], it["crate"] or "-", it["part"], it["command"])

    def close(self):
        for it in self.known.values():
            self.write(it)
        self.known.clear()


def watch(pid, path):
    with open(path, "a", encoding="utf-8") as file:
        it = Watch(pid, file)
        try:
            while it.look():
                time.sleep(PAUSE)
        finally:
            it.close()


def run(folder):
    os.makedirs(folder, exist_ok=True)
    costs = f"{folder}/costs"
    open(costs, "w", encoding="utf-8").close()
    with open(f"{folder}/ci.log", "wb") as log:
        # (as many proofs at a time as .ci/run has)
        jobs = {"RT_JOBS": str(len(os.sched_getaffinity(0))), **os.environ}
        rt = subprocess.Popen(["rt", "ci"], cwd=TOP, stdout=subprocess.PIPE, stderr=subprocess.STDOUT, env=jobs)
        watcher = threading.Thread(target=watch, args=(rt.pid, costs), daemon=True)
        watcher.start()
        while part := rt.stdout.read1(1 << 16):
            log.write(part)
            log.flush()
            sys.stdout.buffer.write(part)
            sys.stdout.flush()
        _, status, used = os.wait4(rt.pid, 0)
    watcher.join()
    with open(costs, "a", encoding="utf-8") as it:
        it.write(f"{used.ru_utime + used.ru_stime:.2f}\t-\twhole\t\n")
    status = os.waitstatus_to_exitcode(status)
    return status if status >= 0 else 128 - status


def order():
    """Returns the crates as crates.txt has them."""
    with open(f"{TOP}/crates.txt", encoding="utf-8") as it:
        heads = [line.partition("#")[0].partition(":") for line in it]
    return [name.split()[0] for name, colon, _ in heads if colon]


def costs_in(path):
    """Returns the seconds of each part by the crate, and those of the whole run."""
    costs, whole = {}, 0
    with open(path, encoding="utf-8") as it:
        for line in it:
            seconds, crate, part = line.rstrip("\n").split("\t")[:3]
            if part == "whole":
                whole = max(whole, float(seconds))
            elif crate != "-":
                costs.setdefault(crate, dict.fromkeys(PARTS, 0))[part] += float(seconds)
    return costs, whole


def minutes(seconds):
    return f"{seconds / 60:.1f}"


def table(path):
    costs, whole = costs_in(path)
    first = {crate: at for at, crate in enumerate(order())}
    row = lambda *cells: print("| " + " | ".join(cells) + " |")
    row("Crate", "Proof", "Tests", "Edits", "Sum")
    row("---", "--:", "--:", "--:", "--:")
    for crate in sorted(costs, key=lambda it: (first.get(it, len(first)), it)):
        of = costs[crate]
        row(f"`{crate}`", *(minutes(of[part]) for part in PARTS), minutes(sum(of.values())))
    sums = [sum(of[part] for of in costs.values()) for part in PARTS]
    rest = whole - sum(sums)
    if rest > 30:
        row("not told by the watch", "", "", "", minutes(rest))
    row("all", *(minutes(it) for it in sums), minutes(max(whole, sum(sums))))


def write(path):
    costs, whole = costs_in(path)
    sums = {part: sum(of[part] for of in costs.values()) for part in PARTS}
    known, whole = sum(sums.values()), max(whole, sum(sums.values()))
    lacking = [it for it in order() if it not in costs]
    # (`./lava prove` reads the last cell of a crate's row, so it has the proof alone)
    more = {part: [f"{it} {minutes(costs[it][part])}" for it in order() if it in costs and costs[it][part] >= 30] for part in PARTS[1:]}
    day = time.strftime("%d %B %Y", time.localtime(os.path.getmtime(path))).lstrip("0")
    said = (
        f"The figures are of a run that was watched on {day}, on four processors with much other work: {minutes(whole)} minutes of processor time as far as it was watched, {minutes(sums['proof'])} of them for proofs, "
        f"{minutes(sums['tests'])} for tests and programs, {minutes(sums['edits'])} for edits and {minutes(whole - known)} that the watch did not see."
    )
    for part, told in more.items():
        said += f" {part.capitalize()} took half a minute or more of: {', '.join(told)}." if told else ""
    if lacking:
        said += f" Of what the watch saw nothing the figure is that of an earlier run: {', '.join(lacking)}."
    out, is_within = [], False
    with open(PAGE, encoding="utf-8") as it:
        lines = it.read().splitlines()
    for line in lines:
        row = ROW.match(line)
        if line.startswith("<!-- costs:"):
            out += [line, said]
            is_within = True
        elif line.startswith("<!-- costs end"):
            is_within = False
        if row and row[1] in costs:
            line = "|".join([*line.split("|")[:-2], f" {minutes(costs[row[1]]['proof'])} ", ""])
        if not is_within:
            out.append(line)
    with open(PAGE, "w", encoding="utf-8") as it:
        it.writelines(f"{line}\n" for line in out)


def rows():
    """Returns the minutes that docs/ARCHITECTURE.md has for each crate's proof; `<1` counts as 1."""
    with open(PAGE, encoding="utf-8") as it:
        cells = [(ROW.match(line)[1], line.split("|")[-2].strip(" <\n")) for line in it if ROW.match(line)]
    return {crate: float(told) for crate, told in cells if re.fullmatch(r"[\d.]+", told)}


def lines_of(crate):
    """Returns how many lines of code a crate has."""
    found = 0
    for at, _, names in os.walk(f"{TOP}/crates/{crate}/src"):
        for name in names:
            with open(f"{at}/{name}", encoding="utf-8") as it:
                found += sum(1 for _ in it)
    return found


def check(path):
    costs, told, is_well = costs_in(path)[0], rows(), True
    for crate in order():
        seconds, lines = costs[crate]["proof"] if crate in costs else 0, lines_of(crate)
        if seconds < LEAST:
            continue
        faults = []
        if lines >= 100 and 100 * seconds > A_HUNDRED_LINES * lines:
            faults.append(f"{100 * seconds / lines:.0f} seconds a hundred lines")
        if crate in told and seconds > TIMES_ROW * 60 * told[crate]:
            faults.append(f"its row has {told[crate]:g} minutes")
        if faults:
            is_well = False
            print(f"{crate}: {minutes(seconds)} minutes, {lines} lines: {'; '.join(faults)}")
    return 0 if is_well else 1


def main(words):
    if words[:1] == ["run"] and len(words) <= 2:
        return run(words[1] if words[1:] else "/tmp/rt-ci-costs")
    if words[:1] == ["watch"] and len(words) == 3 and words[1].isdigit():
        return watch(int(words[1]), words[2])
    if words[:1] == ["table"] and len(words) == 2:
        return table(words[1])
    if words[:1] == ["write"] and len(words) == 2:
        return write(words[1])
    if words[:1] == ["check"] and len(words) == 2:
        return check(words[1])
    print(__doc__, end="", file=sys.stderr)
    return 2


if __name__ == "__main__":
    sys.exit(main(sys.argv[1:]))
