#!/usr/bin/env python3
"""Prints a trace that no run made, for trying pages of long ones: made_trace.py CROSSINGS [PACKAGES] [VERSION].

It keeps the rules of docs/TRACE.md: the application imports its packages, each imports the next one, and then it calls them; they read of what
they are given, call one another some levels deep, print, and now and then throw."""
import sys


def made(crossings, packages=12, version=1):
    names = [f'pack{k:03}' for k in range(packages)]
    lines, steps, left, opened = [], [0] * (packages + 2), {0: 12, 1: 1}, []
    seed = 7

    def draw(n):
        nonlocal seed
        seed = (seed * 6364136223846793005 + 1442695040888963407) % (1 << 64)
        return (seed >> 33) % n

    def put(sender, receiver, body):
        steps[sender] += 0 if sender == 0 else 1 + draw(40)
        lines.append(f'{len(lines) + 1} {sender}>{receiver} ' + (f'{steps[sender]} ' if version == 2 else '') + body)

    def ask(sender, receiver, body):
        put(sender, receiver, 'ask ' + body)
        opened.append((sender, receiver))

    def answer(item, word='answer'):
        sender, receiver = opened.pop()
        put(receiver, sender, f'{word} {item}')

    def new(party, marks):
        count = left.get(party, 0)
        left[party] = count + 1
        return f'#{party}.{count}', f'#{party}.{count}/{marks}'

    ask(0, 1, 'Import "$root$" ""')
    for party in range(2, packages + 2):
        ask(1, party, f'Import "{names[party - 2]}" ""')
        if party > 2:
            ask(party, party - 1, f'Import "{names[party - 3]}" ""')
            answer(f'#{party - 1}.0')
        answer(new(party, 'Function+call')[1])
    count = 0
    while len(lines) + 24 < crossings:
        party = 2 + draw(packages)
        count += 1
        fresh, marked = new(1, 'Array')
        ask(1, party, f'Call #{party}.0 undefined {marked} "order {count}"')
        for key in ('length', '0', '1')[:1 + draw(3)]:
            ask(party, 1, f'Get {fresh} "{key}" {fresh}')
            answer(str(draw(1000)) if key == 'length' else f'"item {draw(100000)}"')
        depth = 0
        while party > 2 and depth < 4 and draw(3) == 0:
            ask(party, party - 1, f'Call #{party - 1}.0 undefined {fresh} "part {count}.{depth}"')
            party -= 1
            depth += 1
        ask(party, 0, f'Call #0.1 #0.0 "pack{party - 2:03} did {count}"')
        answer('undefined')
        fault = draw(500) == 0
        for level in range(depth + 1):
            answer(new(party, 'Error')[1], 'throw') if fault and level == 0 else answer(f'"done {count}"')
    while len(lines) + 1 < crossings:
        ask(1, 2, 'Get #2.0 "length" #2.0')
        answer('1')
    answer(new(1, 'Object')[1])
    parties = ['$host$', '$root$', *names]
    return '\n'.join([f'lava-trace {version}', *(f'party {k} "{name}"' for k, name in enumerate(parties)), *lines,
                      *(f'steps {k} {steps[k]}' for k in range(packages + 2)), 'end Done', ''])


if __name__ == '__main__':
    sys.stdout.write(made(*map(int, sys.argv[1:])))
