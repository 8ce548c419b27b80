#!/usr/bin/env python3
"""How many lookups, inserts, listed keys and removals a second an object store does, and how many gets, sets, definitions and pushes objects decide, each kind at counts that grow by 4, until a run takes half a second.

    bench/objects.py [PROGRAM]                  prints the table
    bench/objects.py --instructions [PROGRAM]   prints how many instructions a round has, by valgrind's callgrind
    bench/objects.py --check                    ends with status 1 where a line of bench/lava_bench/stdout is not that of the model below

PROGRAM is what bench/lava_bench.py has built, out/lava_bench unless given. Each time is the best of five runs, less the best of a run of no rounds.
"""
import os
import sys

from rounds import instructions, seconds

TOP = os.path.dirname(os.path.dirname(os.path.abspath(__file__)))

BENCH = os.path.join(TOP, 'bench/lava_bench')

# Each kind, and what is counted.
KINDS = {
    'own_names_4': 'lookups',
    'own_names_64': 'lookups',
    'own_names_4096': 'lookups',
    'own_indices_4': 'lookups',
    'own_indices_64': 'lookups',
    'own_indices_4096': 'lookups',
    'own_far_4096': 'lookups',
    'insert_names_4': 'inserts',
    'insert_names_64': 'inserts',
    'insert_names_4096': 'inserts',
    'insert_indices_4': 'inserts',
    'insert_indices_64': 'inserts',
    'insert_indices_4096': 'inserts',
    'insert_far_4096': 'inserts',
    'keys_64': 'keys',
    'remove_64': 'removals',
    'remove_4096': 'removals',
    'get_0': 'gets',
    'get_4': 'gets',
    'set_4': 'sets',
    'define_4': 'definitions',
    'push_1': 'pushes',
}


def size_of(kind):
    """How many properties the object has."""
    return int(kind.split('_')[-1])


def each(kind):
    """How much of what is counted is in a round."""
    return size_of(kind) if kind.startswith(('insert_', 'keys_')) else 1


def keys_of(kind):
    """The object's keys, in the order in which they are written."""
    size = size_of(kind)
    if '_indices_' in kind:
        return list(range(size))
    if '_far_' in kind:
        return [1000003 * (place + 1) for place in range(size)]
    return ['name%d' % place for place in range(size)]


def in_order(thing):
    """The keys of an object: indices ascending, then the others in order of creation."""
    return sorted(key for key in thing if isinstance(key, int)) + [key for key in thing if isinstance(key, str)]


def number_of(key):
    """An index is its own number; a name's is that of its last character, and its length."""
    return key if isinstance(key, int) else ord(key[-1]) + len(key)


def decided_parts(kind, count):
    """The same of what objects decide: each Get gives 7, all else is done, and an array has as many elements as were pushed."""
    for _ in range(count):
        yield 7 if kind.startswith('get_') else 1
    if kind.startswith('push_'):
        yield count


def parts(kind, count):
    """What goes into the checksum, part by part."""
    if kind.startswith(('get_', 'set_', 'define_', 'push_')):
        yield from decided_parts(kind, count)
        return
    keys = keys_of(kind)
    thing = {key: place for place, key in enumerate(keys)}
    for turn in range(count):
        key = keys[turn % len(keys)]
        if kind.startswith('keys_'):
            yield number_of(in_order(thing)[-1])
        elif kind.startswith('remove_'):
            del thing[key]
            thing[key] = turn
        else:
            yield thing[key]
    if kind.startswith('remove_'):
        for key in in_order(thing):
            yield number_of(key)
            yield thing[key]


def checksum(kind, count):
    total = 0
    for part in parts(kind, count):
        total = (31 * total + part) % 2**32
    return total


def check():
    """Compares what the program is to print with the model."""
    with open(os.path.join(BENCH, 'stdin')) as asked, open(os.path.join(BENCH, 'stdout')) as wanted:
        for line, answer in zip(asked, wanted):
            kind, count = line.split()
            if kind in KINDS and answer != '%s %s %d\n' % (kind, count, checksum(kind, int(count))):
                sys.exit('%s%s %s %d' % (answer, kind, count, checksum(kind, int(count))))


def measure(program):
    print('%-20s %10s %10s %12s %10s %12s' % ('kind', 'rounds', 'ms', 'ns a round', 'ns each', 'a second'))
    for kind in KINDS:
        start = seconds(program, kind, 0)
        count = 256
        while True:
            took = max(seconds(program, kind, count) - start, 1e-9)
            if took > 0.5:
                break
            count *= 4
        items = count * each(kind)
        print('%-20s %10d %10.1f %12.1f %10.1f %12.0f %s' % (kind, count, took * 1e3, took * 1e9 / count, took * 1e9 / items, items / took, KINDS[kind]))


def count_instructions(program):
    print('%-20s %20s' % ('kind', 'instructions a round'))
    for kind in KINDS:
        more, fewer = instructions(program, kind, 3000), instructions(program, kind, 1000)
        print('%-20s %20.1f' % (kind, (more - fewer) / 2000))


def main():
    words = sys.argv[1:]
    if words == ['--check']:
        return check()
    show = count_instructions if words[:1] == ['--instructions'] else measure
    names = [word for word in words if not word.startswith('--')]
    show(os.path.abspath(names[0]) if names else os.path.join(TOP, 'out/lava_bench'))


main()
