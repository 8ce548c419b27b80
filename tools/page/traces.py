"""Reads the text of a trace (docs/TRACE.md), of version 1 or 2, and says what a page shows of it.

Each line is looked at by itself: whether it has its form, its number, two parties, and an answer of the kind that its ask wants. Which names
are new and which marks stand behind them is not looked at (`lava` does: docs/TRACE.md, "What a text must be to be read").
"""
import re
from array import array

METHODS = ['GetPrototypeOf', 'SetPrototypeOf', 'IsExtensible', 'PreventExtensions', 'GetOwnProperty', 'DefineOwnProperty', 'HasProperty',
           'Get', 'Set', 'Delete', 'OwnPropertyKeys', 'Call', 'Construct', 'Import', 'Slot', 'Make', 'Queue', 'Turn']
CODES = {name: code for code, name in enumerate(METHODS)}
ANSWER, THROW = len(METHODS), len(METHODS) + 1
# The kinds that the picture parts asks into, and the methods of each.
KINDS = {
    'import': ['Import'],
    'call': ['Call', 'Construct'],
    'look': ['GetPrototypeOf', 'IsExtensible', 'GetOwnProperty', 'HasProperty', 'Get', 'OwnPropertyKeys'],
    'change': ['SetPrototypeOf', 'PreventExtensions', 'DefineOwnProperty', 'Set', 'Delete'],
    'other': ['Slot', 'Make', 'Queue', 'Turn'],
}
HOST = ['console', 'console.log', 'console.info', 'console.warn', 'console.error', 'input', 'input.line', 'clock', 'clock.now', 'fs',
        'fs.readFileSync', 'fs.existsSync']
BUILTINS = ['fs']
MOST_PARTIES = 4096
# (more than these are counted and not listed: a package may make as many texts as it likes)
MOST_DENIALS = 2000

NUMBER = r'(?:0|[1-9][0-9]{0,19})'
TEXT = r'"[ !#-\[\]-~]*(?:\\(?:["\\]|u[0-9a-f]{4})[ !#-\[\]-~]*)*"'
MARKS = r'(?:/[A-Z][A-Za-z]*(?:\+call)?(?:\+new)?)?'
REF = rf'(?:%[A-Za-z0-9_$.\[\] ]+%|#{NUMBER}\.{NUMBER}){MARKS}'
SYMBOL = rf'@(?:iterator|for{TEXT}|{NUMBER}\.{NUMBER})'
KEY = rf'(?:{TEXT}|{SYMBOL})'
VALUE = rf'(?:undefined|null|true|false|-?{NUMBER}|{TEXT}|{SYMBOL}|{REF})'
TRUTH = r'(?:true|false)'
FIELDS = [rf'value={VALUE}', rf'get=(?:undefined|{REF})', rf'set=(?:undefined|{REF})', rf'writable={TRUTH}', rf'enumerable={TRUTH}',
          rf'configurable={TRUTH}']
# The fields that there are, in this order, parted by one space.
DESCRIPTOR = r'\{(?! )' + ''.join(rf'(?:(?:(?<=\{{)| ){field})?' for field in FIELDS) + r'\}'

ITEMS = {
    'GetPrototypeOf': f' {REF}', 'SetPrototypeOf': f' {REF} (?:null|{REF})', 'IsExtensible': f' {REF}', 'PreventExtensions': f' {REF}',
    'GetOwnProperty': f' {REF} {KEY}', 'DefineOwnProperty': f' {REF} {KEY} {DESCRIPTOR}', 'HasProperty': f' {REF} {KEY}',
    'Get': f' {REF} {KEY} {VALUE}', 'Set': f' {REF} {KEY} {VALUE} {VALUE}', 'Delete': f' {REF} {KEY}', 'OwnPropertyKeys': f' {REF}',
    'Call': f' {REF} {VALUE}(?: {VALUE})*', 'Construct': f' {REF} {REF}(?: {VALUE})*', 'Import': f' {TEXT} {TEXT}',
    'Slot': f' [a-zA-Z]+ {REF}(?: {VALUE})*', 'Make': f' {NUMBER}(?: {KEY} {VALUE})* {NUMBER}(?: {TEXT} {VALUE})*', 'Queue': '', 'Turn': '',
}
ANSWERS = {'GetPrototypeOf': f'(?:null|{REF})', 'GetOwnProperty': f'(?:none|{DESCRIPTOR})', 'OwnPropertyKeys': rf'\[(?:{KEY}(?: {KEY})*)?\]',
           'Construct': REF, 'Make': REF, 'Queue': 'undefined', 'Turn': 'undefined'}
ANSWERS.update({name: TRUTH for name in ('SetPrototypeOf', 'IsExtensible', 'PreventExtensions', 'DefineOwnProperty', 'HasProperty', 'Set',
                                         'Delete')})
ITEMS_AT = {name: re.compile(items + r'\Z').match for name, items in ITEMS.items()}
ANSWER_AT = {name: re.compile(f' {ANSWERS.get(name, VALUE)}' + r'\Z').match for name in METHODS}
VALUE_AT = re.compile(f' {VALUE}' + r'\Z').match
HEAD = {
    1: re.compile(rf'({NUMBER}) ({NUMBER})>({NUMBER}) (?:ask ([A-Za-z]+)|(answer|throw))').match,
    2: re.compile(rf'({NUMBER}) ({NUMBER})>({NUMBER}) ({NUMBER}) (?:ask ([A-Za-z]+)|(answer|throw))').match,
}
PARTY = re.compile(rf'party ({NUMBER}) ({TEXT})\Z').match
STEPS = re.compile(rf'steps ({NUMBER}) ({NUMBER})\Z').match
END = re.compile(rf'end (?:(Done|Uncaught|Outside)|(Number|Text|Depth|Parties|Budget|Meter) ({NUMBER}) ({NUMBER}))\Z').match
TEXTS = re.compile(TEXT)
ESCAPES = re.compile(r'\\(?:u([0-9a-f]{4})|(.))')
# Texts in which a denial is told.
NOT_ALLOWED = re.compile(r'LavaMoat - not allowed: package "((?:[^"\\]|\\.)*?)" requests "((?:[^"\\]|\\.)*?)"')
NOT_DEFINED = re.compile(r'(?<![\w$])([A-Za-z_$][\w$]*) is not defined')
# What stands in a crossing, and its names of objects and made symbols, outside of texts.
NAMES = re.compile(rf'({TEXT})|([#@])({NUMBER})\.({NUMBER})({MARKS})')


class NoTrace(Exception):
    """The first line that has not its form, from 1."""

    def __init__(self, line, why):
        super().__init__(f'line {line} is none of a trace: {why}')
        self.line = line


def unquoted(text):
    """What a quoted text says. (Units are put together where they make a character; one that has no partner stays by itself.)"""
    units = ESCAPES.sub(lambda found: chr(int(found[1], 16)) if found[1] else found[2], text[1:-1])
    return units.encode('utf-16-le', 'surrogatepass').decode('utf-16-le', 'surrogatepass') if '\\ud' in text else units


class Trace:
    """A trace: columns of crossings, and what was counted of them."""

    def __init__(self):
        self.version = 1
        self.names = []  # of each party, quoted as in the trace
        self.made_at = {}  # party: the crossing that made it
        self.from_, self.to, self.depth = array('H'), array('H'), array('H')
        self.code, self.partner = array('B'), array('i')  # partner: the ask's answer, the answer's ask, or -1
        self.steps = array('I')  # of version 2: the sender's steps at each crossing
        self.lines, self.starts = [], array('B')  # of crossings, as they stand in the text; and where in each its numbers have ended
        self.totals = []
        self.ending = None  # (word, party or None, steps or None)
        self.asks = {}  # (from, to, code): how many
        self.denials, self.more_denials = [], 0

    @property
    def parties(self):
        return len(self.names)

    def body(self, number):
        """Of a crossing what stands behind its numbers: `ask ..`, `answer ..`, `throw ..`."""
        return self.lines[number][self.starts[number]:]

    def bodies(self):
        return [line[start:] for line, start in zip(self.lines, self.starts)]

    def throws(self):
        """How often each party threw at another one."""
        counts = [0] * self.parties
        for sender, code in zip(self.from_, self.code):
            if code == THROW:
                counts[sender] += 1
        return counts

    def order(self):
        """Parties as lanes: by their first crossing, those without one behind them by their number, and the host last."""
        seen, order = {0}, []
        for sender, receiver in zip(self.from_, self.to):
            for party in (sender, receiver):
                if party not in seen:
                    seen.add(party)
                    order.append(party)
            if len(seen) == self.parties:
                break
        return order + [party for party in range(self.parties) if party not in seen] + [0]


def read_trace(data):
    """The trace that a text is (bytes), or NoTrace."""
    trace = Trace()
    if not data.endswith(b'\n'):
        raise NoTrace(data.count(b'\n') + 1, 'it does not end with a line feed')
    try:
        lines = data.decode('ascii').split('\n')
    except UnicodeDecodeError as error:
        raise NoTrace(data.count(b'\n', 0, error.start) + 1, 'it has a byte that is not ASCII') from None
    lines.pop()
    at = read_start(trace, lines)
    at = read_crossings(trace, lines, at)
    read_end(trace, lines, at)
    return trace


def read_start(trace, lines):
    version = re.fullmatch(r'lava-trace ([12])', lines[0])
    if not version:
        raise NoTrace(1, 'it begins with "lava-trace 1" or "lava-trace 2"')
    trace.version = int(version[1])
    at = 1
    while at < len(lines) and lines[at].startswith('party '):
        party = PARTY(lines[at])
        if not party or int(party[1]) != trace.parties:
            raise NoTrace(at + 1, 'the next party, by its number and name')
        trace.names.append(party[2])
        at += 1
    if trace.names[:2] != ['"$host$"', '"$root$"']:
        raise NoTrace(min(at, 3) + 1 if at < 3 else 2, 'the first parties are "$host$" and "$root$"')
    return at


def read_crossings(trace, lines, at):
    head, opened, denials = HEAD[trace.version], [], Denials(trace)
    is_second, number = trace.version == 2, 0
    from_, to, code, partner, depth = trace.from_, trace.to, trace.code, trace.partner, trace.depth
    while at < len(lines) and lines[at][:1].isdigit():
        line = lines[at]
        found = head(line)
        if not found:
            raise NoTrace(at + 1, 'a crossing begins with its number, its parties and what it is')
        if is_second:
            count, sender, receiver, steps, method, word = found.groups()
        else:
            count, sender, receiver, method, word = found.groups()
        sender, receiver = int(sender), int(receiver)
        if int(count) != number + 1:
            raise NoTrace(at + 1, f'the next crossing has the number {number + 1}')
        if method == 'Make' and receiver == trace.parties < MOST_PARTIES:
            if sender >= receiver:
                raise NoTrace(at + 1, 'it goes from one party to another')
            trace.made_at[receiver] = number
            trace.names.append(f'{trace.names[sender][:-1]}/{receiver}"')
        if sender >= trace.parties or receiver >= trace.parties or sender == receiver:
            raise NoTrace(at + 1, 'it goes from one party to another')
        depth.append(min(len(opened) - (method is None and bool(opened)), 65535))
        if method is not None:
            items = ITEMS_AT.get(method)
            if not items or not items(line, found.end()):
                raise NoTrace(at + 1, 'an ask has a method and its items')
            here = CODES[method]
            code.append(here)
            partner.append(-1)
            opened.append(number)
            pair = (sender, receiver, here)
            trace.asks[pair] = trace.asks.get(pair, 0) + 1
        else:
            ask = opened.pop() if opened else -1
            value = VALUE_AT if word == 'throw' or ask < 0 else ANSWER_AT[METHODS[code[ask]]]
            if not value(line, found.end()):
                raise NoTrace(at + 1, 'an answer is of the kind that the latest open ask wants')
            code.append(THROW if word == 'throw' else ANSWER)
            partner.append(ask)
            if ask >= 0:
                partner[ask] = number
        trace.starts.append(found.start(is_second + 4) - 4 if word is None else found.start(is_second + 5))
        if is_second:
            trace.steps.append(min(int(steps), 4294967295))
        from_.append(sender)
        to.append(receiver)
        if ' not allowed: ' in line or ' is not defined' in line:
            denials.look(number, sender, receiver, line)
        number += 1
        at += 1
    trace.lines = lines[at - number:at]
    return at


def read_end(trace, lines, at):
    for party in range(trace.parties):
        steps = STEPS(lines[at]) if at < len(lines) else None
        if not steps or int(steps[1]) != party:
            raise NoTrace(at + 1, f'the steps of party {party}')
        trace.totals.append(int(steps[2]))
        at += 1
    end = END(lines[at]) if at < len(lines) else None
    if not end:
        raise NoTrace(at + 1, 'how the run ended')
    trace.ending = (end[1], None, None) if end[1] else (end[2], int(end[3]), int(end[4]))
    if end[2]:
        wanted = sum(trace.totals) if end[2] == 'Budget' else trace.totals[trace.ending[1]] if trace.ending[1] < trace.parties else None
        if trace.ending[2] != wanted or (end[2] == 'Meter' and trace.version == 1):
            raise NoTrace(at + 1, 'the party that met the end, and its steps')
    if at + 1 != len(lines):
        raise NoTrace(at + 2, 'nothing stands behind the end')


class Denials:
    """The denials that are told in the texts of a trace: who said each first, without having been told it."""

    def __init__(self, trace):
        self.trace, self.found, self.knows = trace, {}, {}

    def look(self, number, sender, receiver, line):
        for quoted in TEXTS.findall(line):
            text = unquoted(quoted)
            # (a text that quotes a text has its quotes behind backslashes)
            for package, request in NOT_ALLOWED.findall(text) or NOT_ALLOWED.findall(text.replace('\\"', '"')):
                self.add(number, sender, receiver, 'import', package, request)
            for name in NOT_DEFINED.findall(text):
                self.add(number, sender, receiver, 'name', None, name)

    def add(self, number, sender, receiver, kind, package, request):
        told = (kind, package, request)
        knows = self.knows.setdefault(told, set()) if told in self.knows or len(self.knows) < MOST_DENIALS else None
        if knows is None:
            self.trace.more_denials += 1
            return
        if sender not in knows:
            knows.add(sender)
            denial = {'kind': kind, 'package': package, 'request': request, 'by': sender, 'at': number, 'count': 0}
            self.found[told, sender] = denial
            self.trace.denials.append(denial)
        if (told, sender) in self.found:
            self.found[told, sender]['count'] += 1
        knows.add(receiver)


def name_of(trace, party):
    return unquoted(trace.names[party])


def row_that_allows(denial, trace, links=None):
    """The row of a policy that would allow what was denied, as (package, kind, key, note), or (None, None, None, why there is none).

    `links` has the canonical names that the requests of the packages lead to, by package and name, where the folder was read."""
    if denial['kind'] == 'import':
        package, request = denial['package'], denial['request']
        if package == '$root$':
            return None, None, None, 'everything is granted to $root$ already: this text is none of lava\'s'
        dependency = '/'.join(request.split('/')[:2 if request.startswith('@') else 1])
        if dependency in BUILTINS and not (links or {}).get(package, {}).get(dependency):
            return package, 'builtin', dependency, f'or a member alone: {dependency}.readFileSync, {dependency}.existsSync'
        if links is not None:
            found = links.get(package, {}).get(dependency)
            return (package, 'packages', found, '') if found else (None, None, None, 'the folder has no package of that name for it')
        names = sorted({name_of(trace, party) for party in range(2, trace.parties)})
        fitting = [name for name in names if name == dependency or name.endswith('>' + dependency)]
        if len(fitting) == 1:
            return package, 'packages', fitting[0], 'by the names of this trace\'s parties'
        return (package, 'packages', dependency,
                'the canonical name may be longer (a>b): the trace alone does not tell which package the request leads to')
    if denial['by'] == 0:
        return None, None, None, 'said by the host alone'
    package = name_of(trace, denial['by'])
    if package == '$root$':
        return None, None, None, 'everything is granted to $root$ already: it is defined nowhere'
    members = [name for name in HOST if name.startswith(denial['request'] + '.')]
    return package, 'globals', denial['request'], 'or a member alone: ' + ', '.join(members) if members else ''


def view_lines(trace):
    """What each party sees: (crossing, party, line), a line for the sender and one for the receiver. Own objects are `mine.K` by their
    leaving, others `their.K` by their coming, the host's twelve by their names, since a trace does not tell a party's start."""
    comings = [{} for _ in range(trace.parties)]
    marks, told = {}, [set() for _ in range(trace.parties)]
    for number, body in enumerate(trace.bodies()):
        for names in NAMES.finditer(body):
            if names[5]:
                marks[names[2], names[3], names[4]] = names[5]
        for party, way in ((trace.from_[number], 'sends'), (trace.to[number], 'gets')):
            coming, seen = comings[party], told[party]

            def renamed(name):
                if name[1]:
                    return name[1]
                sign, owner, count = name[2], int(name[3]), int(name[4])
                if owner == 0 and sign == '#' and count < len(HOST):
                    return '#host.' + HOST[count]
                if owner == party:
                    shown = f'{sign}mine.{count}'
                else:
                    shown = f'{sign}their.{coming.setdefault((owner, count), len(coming))}'
                if shown in seen:
                    return shown
                seen.add(shown)
                return shown + marks.get((sign, name[3], name[4]), '')

            yield number, party, f'{way} {NAMES.sub(renamed, body)}'


def compare(one, two, around=4):
    """For each name that a party of either trace has: the first line of its view that differs, with some lines above it."""
    def sums(trace):
        views = {}
        for number, party, line in view_lines(trace):
            numbers, lines = views.setdefault(party, (array('I'), array('q')))
            numbers.append(number)
            lines.append(hash(line))
        return views

    def parties(trace):
        return {trace.names[party]: party for party in reversed(range(trace.parties))}

    traces = (one, two)
    views = [sums(trace) for trace in traces]
    numbers = [parties(trace) for trace in traces]
    found, wanted = [], ({}, {})
    for name in list(dict.fromkeys([*reversed(numbers[0]), *reversed(numbers[1])])):
        pair = [numbers[side].get(name) for side in (0, 1)]
        lines = [views[side].get(pair[side], (array('I'), array('q')))[1] for side in (0, 1)]
        at = next((i for i, (a, b) in enumerate(zip(*lines)) if a != b), min(map(len, lines)))
        same = len(lines[0]) == len(lines[1]) == at and None not in pair
        found.append({'name': name, 'parties': pair, 'lines': [len(side) for side in lines], 'at': None if same else at,
                      'first': [[], []], 'steps': [None if pair[side] is None else traces[side].totals[pair[side]] for side in (0, 1)]})
        if not same:
            for side in (0, 1):
                if pair[side] is not None:
                    wanted[side][pair[side]] = found[-1]
    for side, trace in enumerate(traces):
        counts = {}
        for number, party, line in view_lines(trace):
            if party in wanted[side]:
                count = counts[party] = counts.get(party, -1) + 1
                entry = wanted[side][party]
                if entry['at'] - around <= count <= entry['at'] + 1:
                    entry['first'][side].append([count, number, line])
    return found
