#!/usr/bin/env python3
"""How many instructions a turn of six programs takes on `lava run`, and on mujs where it is installed, by valgrind's callgrind.

    bench/instructions.py [PROGRAM]

PROGRAM is the built program, crates/lava/out/lava unless given (one of `bench/unproved.py --bare` will do). Each program runs twice, with fewer and with
more turns, and the difference is divided by theirs, so that the start is out. The figures depend on nothing else that runs. It is no test.
"""
import os
import re
import shutil
import subprocess
import sys
import tempfile

sys.path.insert(0, os.path.dirname(os.path.abspath(__file__)))
import programs  # noqa: E402

# The count that stands in each program of programs.py, what stands in its place, and how many turns (elements, calls) that makes.
TURNS = {
    'loop': ('1000000;', ('2000;', '4000;'), (2000, 4000)),
    'props': ('500000;', ('1000;', '2000;'), (1000, 2000)),
    'arrays': ('200000;', ('1000;', '2000;'), (1000, 2000)),
    'closures': ('200000;', ('1000;', '2000;'), (1000, 2000)),
    'throws': ('50000;', ('500;', '1000;'), (500, 1000)),
    'calls': ('f(24)', ('f(10)', 'f(14)'), (177, 1219)),
}


def instructions(words, cwd):
    out = os.path.join(cwd, 'callgrind.out')
    ran = subprocess.run(['valgrind', '--tool=callgrind', '--callgrind-out-file=' + out, *words], cwd=cwd, capture_output=True, text=True)
    found = re.search(r'Collected : (\d+)', ran.stderr)
    return int(found[1]) if ran.returncode == 0 and found else sys.exit(ran.stderr[-2000:])


def main():
    program = os.path.abspath(sys.argv[1] if len(sys.argv) > 1 else os.path.join(programs.TOP, 'crates/lava/out/lava'))
    engines = [name for name in ('mujs',) if shutil.which(name)]
    print(' '.join('%10s' % name for name in ['program', 'lava', *engines]))
    for name, (count, counts, turns) in TURNS.items():
        row = []
        for engine in ['lava', *engines]:
            took = []
            for k in range(2):
                with tempfile.TemporaryDirectory() as folder:
                    text = programs.PROGRAMS[name]
                    old = programs.older(name, text)
                    with open(os.path.join(folder, 'index.js'), 'w', encoding='utf-8') as it:
                        it.write(text.replace(count, counts[k]))
                    with open(os.path.join(folder, 'older.js'), 'w', encoding='utf-8') as it:
                        it.write(old.replace(count, counts[k]))
                    words = [program, 'run', '.', '--budget', '1000000000'] if engine == 'lava' else [engine, 'older.js']
                    took.append(instructions(words, folder))
            row.append('%10d' % ((took[1] - took[0]) / (turns[1] - turns[0])))
        print('%10s' % name, *row)


main()
