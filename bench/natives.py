#!/usr/bin/env python3
"""How long natives take on `lava run`, and on node where it is installed: collections of few and of many entries, texts, proxies.

    bench/natives.py [PROGRAM]

PROGRAM is the built program, crates/lava/out/lava unless given. For each native a program does so many rounds of a loop; the figure is
the nanoseconds of processor time a round, the best of three runs, from which those of the same loop without the native are taken.
"""
import os
import shutil
import sys
import tempfile

from programs import best_of_three

TOP = os.path.dirname(os.path.dirname(os.path.abspath(__file__)))
LOOP = 'for (let i = 0; i < N; i++) { %s }'
# name, rounds, what stands before the loop, what a round does without the native, and with it
CASES = [
    ('mapSet, 100 entries', 200000, 'const m = new Map(); let k = 0;', 'k = i % 100;', 'k = i % 100; m.set(k, i);'),
    ('mapSet, 300,000 entries', 300000, 'const m = new Map(); let k = 0;', 'k = i % 300000;', 'k = i % 300000; m.set(k, i);'),
    ('mapGet, 100 entries', 200000, 'const m = new Map(); for (let i = 0; i < 100; i++) { m.set(i, i); } let k = 0;', 'k = i % 100;', 'k = i % 100; m.get(k);'),
    ('mapGet, 100,000 entries', 200000, 'const m = new Map(); for (let i = 0; i < 100000; i++) { m.set(i, i); } let k = 0;', 'k = i % 100000;', 'k = i % 100000; m.get(k);'),
    ('mapHas, texts as keys', 200000, 'const m = new Map(); const t = []; for (let i = 0; i < 1000; i++) { t[i] = "key" + i; m.set(t[i], i); } let k;', 'k = t[i % 1000];', 'k = t[i % 1000]; m.has(k);'),
    ('concat', 100000, 'let s = ""; let k = 0;', 'k = i;', 'k = i; s += "ab";'),
    ('slice', 100000, 'const s = "0123456789".repeat(1000); let k = 0;', 'k = i % 9000;', 'k = i % 9000; s.slice(k, k + 100);'),
    ('indexIn, 10,000 units', 200, 'const s = "ab".repeat(5000) + "c"; let k = 0;', 'k = i;', 'k = i; s.indexOf("bc");'),
    ('sort of 20,000 texts', 1, 'const a = []; let n = 1; for (let i = 0; i < 20000; i++) { n = (n * 48271) % 2147483647; a[i] = "t" + n; } let k = 0;', 'k = i;', 'k = i; a.sort();'),
    ('Get of an object', 200000, 'const o = { a: 1 }; let k = 0;', 'k = i;', 'k = i; o.a;'),
    ('Get through a proxy without traps', 200000, 'const o = new Proxy({ a: 1 }, {}); let k = 0;', 'k = i;', 'k = i; o.a;'),
    ('Get through a proxy with a trap', 100000, 'const o = new Proxy({ a: 1 }, { get() { return 1; } }); let k = 0;', 'k = i;', 'k = i; o.a;'),
]


def main():
    program = os.path.abspath(sys.argv[1] if len(sys.argv) > 1 else os.path.join(TOP, 'crates/lava/out/lava'))
    engines = [('lava', lambda name: [program, 'run', name, '--budget', '1000000000'])]
    if shutil.which('node'):
        engines.append(('node', lambda name: ['node', os.path.join(name, 'index.js')]))
    print('%-36s %9s' % ('ns a round', 'rounds') + ''.join('%10s' % name for name, _ in engines))
    with tempfile.TemporaryDirectory() as folder:
        for name, rounds, before, without, with_it in CASES:
            for part, body in (('without', without), ('with', with_it)):
                os.makedirs(os.path.join(folder, part), exist_ok=True)
                with open(os.path.join(folder, part, 'index.js'), 'w', encoding='utf-8') as it:
                    it.write('"use strict"; const N = %d; %s %s' % (rounds, before, LOOP % body))
            row = []
            for _, words in engines:
                low, high = best_of_three(words('without'), folder)[1], best_of_three(words('with'), folder)[1]
                row.append('refused' if low is None or high is None else '%.0f' % max((high - low) * 1e9 / rounds, 0))
            print('%-36s %9d' % (name, rounds) + ''.join('%10s' % it for it in row), flush=True)


main()
