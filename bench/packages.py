#!/usr/bin/env python3
"""How long it takes to read the packages of folders in memory: a chain, a star, and all depending on all.

    bench/packages.py [PROGRAM]

PROGRAM is the built program, crates/package_rows/out/package_rows unless given; `rt run` in crates/package_rows builds it. Each figure is the least processor time of five runs, the making of the folder included, less the least of an empty line.
"""
import os
import resource
import subprocess
import sys

TOP = os.path.dirname(os.path.dirname(os.path.abspath(__file__)))

# How many links the folder of each kind has.
LINKS = {
    'chain': lambda count: count,
    'star': lambda count: count,
    'all': lambda count: count + count * (count - 1),
}


def seconds(program, line, answer):
    """The least processor time of five runs on a line. Ends the script where the answer begins otherwise."""
    best = None
    for _ in range(5):
        before = resource.getrusage(resource.RUSAGE_CHILDREN)
        done = subprocess.run([program], input=line + '\n', capture_output=True, text=True)
        after = resource.getrusage(resource.RUSAGE_CHILDREN)
        if done.returncode != 0 or not done.stdout.startswith(answer):
            sys.exit('status %d: %s' % (done.returncode, done.stdout[:80]))
        took = after.ru_utime - before.ru_utime + after.ru_stime - before.ru_stime
        best = took if best is None else min(best, took)
    return best


def main():
    program = sys.argv[1] if len(sys.argv) > 1 else os.path.join(TOP, 'crates/package_rows/out/package_rows')
    idle = seconds(program, '', 'no such line')
    print('kind   packages    links       ms  us a link')
    for kind, links in LINKS.items():
        for count in (124, 249, 499, 999):
            took = seconds(program, 'package %s %d' % (kind, count), '%d p' % (count + 1)) - idle
            print('%-6s %8d %8d %8.1f %10.2f' % (kind, count + 1, links(count), took * 1e3, took * 1e6 / links(count)))


if __name__ == '__main__':
    main()
