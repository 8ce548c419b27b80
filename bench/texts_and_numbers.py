#!/usr/bin/env python3
"""How many operations a second texts, numbers and the lexer do, each kind at counts that grow by 4, until a run takes half a second.

    bench/texts_and_numbers.py [PROGRAM]

PROGRAM is what bench/lava_bench.py has built, out/lava_bench unless given. Each figure is the best of five runs, less the best of a run of no rounds.
"""
import os
import sys

from rounds import seconds

TOP = os.path.dirname(os.path.dirname(os.path.abspath(__file__)))

KINDS = ('concat', 'slice', 'find', 'compare', 'utf8', 'add', 'mul', 'pow', 'number', 'to_text', 'tokens')

# A round of `tokens` is three lines of one source, of so many bytes.
LINES = 211


def main():
    program = os.path.abspath(sys.argv[1]) if len(sys.argv) > 1 else os.path.join(TOP, 'out/lava_bench')
    print('%-10s %12s %10s %14s %14s' % ('kind', 'count', 'ms', 'ns a round', 'rounds a second'))
    for kind in KINDS:
        start = seconds(program, kind, 0)
        count = 1024
        while True:
            took = max(seconds(program, kind, count) - start, 1e-9)
            rate = '%.1f MB a second' % (LINES * count / took / 1e6) if kind == 'tokens' else ''
            print('%-10s %12d %10.1f %14.1f %14.0f %s' % (kind, count, took * 1e3, took * 1e9 / count, count / took, rate))
            if took > 0.5:
                break
            count *= 4


main()
