#!/usr/bin/env python3
"""How long `policy` and `check` take beside the loading of the same application by `run`, and how long `big 200` takes.

    bench/reports.py [PROGRAM]

PROGRAM is the built program, crates/lava/out/lava unless given. The applications have up to 1,000 packages and 4,096 modules, the most that one may
have: each package but its own has four modules, asks for `fs`, for up to three other packages, and for some ten free paths; its own requires all
others. They are loaded by `run` with a budget of one step, which locks the common part and makes the parties, too. Each figure is the least
processor time of five runs, with the least time from start to end beside it.
"""
import os
import resource
import subprocess
import sys
import tempfile
import time

TOP = os.path.dirname(os.path.dirname(os.path.abspath(__file__)))
SIZES = ((250, 1024), (500, 2048), (1000, 4096))


def write(root, path, text):
    path = os.path.join(root, path)
    os.makedirs(os.path.dirname(path), exist_ok=True)
    with open(path, 'w', encoding='utf-8') as it:
        it.write(text)


def manifest(names):
    return '{"dependencies":{%s}}' % ','.join('"%s":"1"' % n for n in names)


def application(root, packages, modules):
    names = ['package-%d' % k for k in range(packages - 1)]
    own = modules - 4 * len(names) - 1
    write(root, 'package.json', manifest(names))
    index = ["require('%s');" % n for n in names] + ["require('./lib/m%d');" % k for k in range(own)]
    write(root, 'index.js', '\n'.join(index))
    for k in range(own):
        write(root, 'lib/m%d.js' % k, 'exports.x = %d;' % k)
    for k, name in enumerate(names):
        below = [names[j] for j in (k - 1, k // 2, k // 3) if 0 <= j < k]
        here = 'node_modules/' + name
        write(root, here + '/package.json', manifest(sorted(set(below))))
        uses = '\n'.join('exports.f%d = x => other%d.member%d + console.error;' % (j, j, k) for j in range(3))
        asks = '\n'.join("const r%d = require('%s');" % (j, n) for j, n in enumerate(below))
        write(root, here + '/index.js', asks + "\nconst fs = require('fs');\nrequire('./a'); require('./b'); require('./c');\n" + uses)
        for module in 'abc':
            write(root, here + '/%s.js' % module, 'exports.%s = () => { process.env.%s = first.second; return console.log; };' % (module, module))


def measured(program, words, folder, status):
    """The least processor time of five runs, and the least time from start to end. Ends the script at another status."""
    best = wall = None
    for _ in range(5):
        before, began = resource.getrusage(resource.RUSAGE_CHILDREN), time.time()
        done = subprocess.run([program, *words], cwd=folder, capture_output=True)
        ended, after = time.time(), resource.getrusage(resource.RUSAGE_CHILDREN)
        if done.returncode != status:
            sys.exit('%s: status %d: %s' % (' '.join(words), done.returncode, done.stderr[:80]))
        took = after.ru_utime - before.ru_utime + after.ru_stime - before.ru_stime
        best, wall = min(best or took, took), min(wall or ended - began, ended - began)
    return best, wall


def main():
    program = os.path.abspath(sys.argv[1] if len(sys.argv) > 1 else os.path.join(TOP, 'crates/lava/out/lava'))
    print('packages modules command                        s  from start to end')
    for packages, modules in SIZES:
        with tempfile.TemporaryDirectory(prefix='reports-') as folder:
            application(os.path.join(folder, 'app'), packages, modules)
            for words, status in ((['run', 'app', '--budget', '1'], 6), (['policy', 'app'], 0), (['check', 'app'], 8)):
                took = measured(program, words, folder, status)
                print('%8d %7d %-24s %7.3f %7.3f' % (packages, modules, ' '.join(words), *took), flush=True)
    print('%8d %7d %-24s %7.3f %7.3f' % (201, 201, 'big 200', *measured(program, ['big', '200'], TOP, 0)))


if __name__ == '__main__':
    main()
