#!/usr/bin/env python3
"""How many bytes a scope, an object and a statement of a program take on `lava run`.

    bench/memory.py [PROGRAM]

PROGRAM is the built program, crates/lava/out/lava unless given. Each program is run for N and for 2 N things, and what its peak memory is larger by is divided
by N: what a list has in reserve is in that.
"""
import os
import subprocess
import sys
import tempfile

TOP = os.path.dirname(os.path.dirname(os.path.abspath(__file__)))
OBJECT = 'let o; let i = 0; while (i < %d) o = { a: i = i + 1%s };'
PROGRAMS = (
    ('a scope of one name', 1 << 19, lambda n: 'let i = 0; while (i < %d) { let x = i; i = x + 1; }' % n),
    ('an object of one property', 1 << 17, lambda n: OBJECT % (n, '')),
    ('an object of four properties', 1 << 17, lambda n: OBJECT % (n, ', b: 2, c: 3, d: 4')),
    ('an array of one element', 1 << 17, lambda n: 'let o; let i = 0; while (i < %d) o = [i = i + 1];' % n),
    ('a function object, with a scope', 1 << 17, lambda n: 'let f; for (let i = 0; i < %d; i++) f = () => i;' % n),
    ('a statement `a = 1;`, read and run', 1 << 16, lambda n: 'let a;' + 'a = 1;\n' * n),
)


def peak(program, text):
    """Returns the peak memory of a run in bytes."""
    with tempfile.TemporaryDirectory() as folder:
        with open(os.path.join(folder, 'index.js'), 'w', encoding='utf-8') as it:
            it.write(text)
        child = subprocess.Popen([program, 'run', folder, '--budget', '1000000000'], stdout=subprocess.DEVNULL)
        _, status, used = os.wait4(child.pid, 0)
        if status:
            raise SystemExit('status %d: %s' % (os.waitstatus_to_exitcode(status), text[:60]))
        return used.ru_maxrss * 1024


def main():
    program = os.path.abspath(sys.argv[1] if len(sys.argv) > 1 else os.path.join(TOP, 'crates/lava/out/lava'))
    for name, count, text in PROGRAMS:
        print('%-36s %7.1f bytes' % (name, (peak(program, text(2 * count)) - peak(program, text(count))) / count))


if __name__ == '__main__':
    main()
