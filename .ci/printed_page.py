"""What the scripts share that print a page of docs/ from the sources: `SCRIPT` writes it, `--check` compares it, `--print` prints it."""
import os
import sys

TOP = os.path.dirname(os.path.dirname(os.path.abspath(__file__)))


def serve(script, name, make, usage):
    """Does what the words of a script ask for. `make` gives the text of the page `name`, and what is wrong with its sources."""
    words, path = sys.argv[1:], f"{TOP}/{name}"
    if words not in ([], ["--check"], ["--print"]):
        sys.exit(usage)
    text, faults = make()
    if faults:
        sys.exit("\n".join(faults))
    if words == ["--print"]:
        print(text, end="")
    elif not words:
        with open(path, "w", encoding="utf-8") as it:
            it.write(text)
    else:
        with open(path, encoding="utf-8") as it:
            stands, wanted = it.read().split("\n"), text.split("\n")
        for number in range(max(len(stands), len(wanted))):
            here, there = (it[number] if number < len(it) else "(no line)" for it in (stands, wanted))
            if here != there:
                sys.exit(f"{name}:{number + 1} is\n  {here}\nand {script} makes\n  {there}")
