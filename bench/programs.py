#!/usr/bin/env python3
"""How long eight programs take on `lava run`, and on the engines that are installed beside it (node, mujs, duk).

    bench/programs.py [PROGRAM]

PROGRAM is the built program, crates/lava/out/lava unless given. Each figure is the best of three runs in seconds of processor time, start-up included;
the first line is an empty module, which is the start-up alone. mujs and duktape, which know neither `let` nor arrow functions, get each program in the words of
ECMAScript 5, with the same work (a closure's variable is made by a call, since `var` makes none a turn), and `console`.
"""
import os
import resource
import shutil
import subprocess
import sys
import tempfile

TOP = os.path.dirname(os.path.dirname(os.path.abspath(__file__)))
PROGRAMS = {
    'empty': '',
    'loop': 'let s = 0; for (let i = 0; i < 1000000; i++) { s = (s + i) % 1000003; } console.log(s);',
    'calls': 'function f(n) { return n < 2 ? n : f(n - 1) + f(n - 2); } console.log(f(24));',
    'closures': 'let s = 0; for (let i = 0; i < 200000; i++) { const g = x => x + i; s = g(s) % 1000003; } console.log(s);',
    'props': 'const o = { a: 1, b: 2 }; for (let i = 0; i < 500000; i++) { o.a = (o.a + o.b) % 1000003; } console.log(o.a);',
    'manyprops': 'const o = {}; for (let i = 0; i < 50000; i++) { o["k" + i] = i; } let s = 0; for (let i = 0; i < 50000; i++) { s += o["k" + i]; } console.log(s);',
    'arrays': 'const a = []; for (let i = 0; i < 200000; i++) { a[i] = i; } let s = 0; for (let i = 0; i < a.length; i++) { s = (s + a[i]) % 1000003; } console.log(s);',
    'strings': 'let s = ""; for (let i = 0; i < 100000; i++) { s += "ab"; } console.log(s.length);',
    'throws': 'let n = 0; for (let i = 0; i < 50000; i++) { try { throw i; } catch (e) { n += e % 2; } } console.log(n);',
}
OLDER = {
    'closures': 'var s = 0; function made(i) { return function (x) { return x + i; }; } for (var i = 0; i < 200000; i++) { var g = made(i); s = g(s) % 1000003; } console.log(s);',
}
CONSOLE = 'var console = { log: function (x) { print(x); } };\n'


def older(name, text):
    """A program in the words of ECMAScript 5, in a function of its own, so that its variables are no globals."""
    words = OLDER.get(name, text.replace('let ', 'var ').replace('const ', 'var '))
    return CONSOLE + '(function () { ' + words + ' })();'


def best_of_three(words, cwd):
    """Returns the processor time of the best of three runs, in seconds; or a status other than 0, and no time."""
    best = None
    for _ in range(3):
        before = resource.getrusage(resource.RUSAGE_CHILDREN)
        ran = subprocess.run(words, cwd=cwd, capture_output=True)
        after = resource.getrusage(resource.RUSAGE_CHILDREN)
        spent = after.ru_utime + after.ru_stime - before.ru_utime - before.ru_stime
        if ran.returncode != 0:
            return ran.returncode, None
        best = spent if best is None else min(best, spent)
    return 0, best


def seconds(words, cwd):
    status, best = best_of_three(words, cwd)
    return '%.3f' % best if status == 0 else 'status %d' % status


def main():
    program = os.path.abspath(sys.argv[1] if len(sys.argv) > 1 else os.path.join(TOP, 'crates/lava/out/lava'))
    engines = [name for name in ('node', 'mujs', 'duk') if shutil.which(name)]
    print(' '.join('%10s' % name for name in ['program', 'lava', *engines]))
    with tempfile.TemporaryDirectory() as folder:
        for name, text in PROGRAMS.items():
            os.makedirs(os.path.join(folder, name))
            with open(os.path.join(folder, name, 'index.js'), 'w', encoding='utf-8') as it:
                it.write(text)
            with open(os.path.join(folder, name, 'older.js'), 'w', encoding='utf-8') as it:
                it.write(older(name, text))
            row = [seconds([program, 'run', name, '--budget', '1000000000'], folder)]
            row += [seconds([engine, os.path.join(name, 'index.js' if engine == 'node' else 'older.js')], folder) for engine in engines]
            print(' '.join('%10s' % it for it in [name, *row]))


if __name__ == '__main__':
    main()
