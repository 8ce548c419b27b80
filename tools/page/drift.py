"""What the sources of an application want that its policy does not grant, and what the policy grants that no source uses."""
import json
import os
import re

from page import folders
from page.walk import NoProgram, Refused, Walk

GRADES = [False, True, 'write']
POLICY, OVERRIDE = (os.path.join('lavamoat', 'node', name) for name in folders.FILES)
TOKEN = re.compile(r'"((?:[^"\\]|\\.)*)"|[{}\[\]:,]')


def ask(lava, command, app):
    status, output, said = folders.ask_lava(lava, command, app)
    if status is None:
        raise NoProgram(said)
    if status not in (0, 8):
        raise Refused(status, said)
    return output


def by_two_names(entries):
    """Keys cut to two names, each with the greatest grade of those that come to it."""
    cut = {}
    for key, grade in entries.items():
        name = folders.two_names(key)
        cut[name] = max(cut.get(name, False), grade, key=GRADES.index)
    return cut


def is_wanted(kind, key, grade, granted, decided):
    """Whether what a source wants is neither granted nor denied on purpose."""
    if kind == 'packages':
        return key not in granted
    if kind == 'builtin':
        return not any(name.split('.')[0] == key for name in granted)
    granted, decided = by_two_names(granted), by_two_names(decided)
    nearest = next((name for name in (key, key.split('.')[0]) if name in granted), None)
    if nearest is None:
        return True
    return grade == 'write' and granted[nearest] is True and nearest not in decided


def is_unused(kind, key, asked):
    if kind == 'packages':
        return key not in asked
    if kind == 'builtin':
        return key.split('.')[0] not in asked
    return not folders.covers(asked, key)


def places_in(path):
    """Where each entry of a policy file stands: by package, kind and key the line and the unit of the key."""
    try:
        with open(path, encoding='utf-8') as file:
            text = file.read()
    except (OSError, ValueError):
        return {}
    places, keys, last, line, start = {}, [], None, 1, 0
    for found in TOKEN.finditer(text):
        line += text.count('\n', start, found.start())
        start = found.start()
        mark = found[0]
        if mark in '{[':
            keys.append(None)
        elif mark in '}]':
            keys = keys[:-1]
        elif mark == ':' and last is not None and keys:
            keys[-1] = json.loads(last[0])
            if len(keys) == 4 and keys[0] == 'resources':
                places[tuple(keys[1:])] = (last[1], 1 + len(text[text.rfind('\n', 0, last[2]) + 1:last[2]].encode('utf-16-le')) // 2)
        last = (mark, line, start) if mark.startswith('"') else None
    return places


class Drift:
    def __init__(self, app, lava):
        self.app, self.lava = app, lava
        ask(lava, 'check', app)
        rows = json.loads(ask(lava, 'policy', app))['resources']
        self.generated = {package: {kind: row.get(kind, {}) for kind in folders.KINDS} for package, row in rows.items()}
        self.folder = folders.Folder(app)
        self.entries = []
        none = {kind: {} for kind in folders.KINDS}
        override = self.folder.policies[1]
        for package, row in self.generated.items():
            for kind in folders.KINDS:
                merged, decided = (rows.get(package, none)[kind] for rows in (self.folder.merged, override))
                for key, grade in row[kind].items():
                    if is_wanted(kind, key, grade, merged, decided):
                        self.entries.append(['wants', package, kind, key, grade])
        for package, row in self.folder.merged.items():
            for kind in folders.KINDS:
                asked = self.generated.get(package, none)[kind]
                for key, grade in row[kind].items():
                    # (the application's own package needs no row)
                    if grade and package != folders.ROOT and is_unused(kind, key, asked):
                        self.entries.append(['unused', package, kind, key, grade])
                    elif grade == 'write' and 'write' not in [asked[name] for name in asked if folders.covers([name], key)]:
                        self.entries.append(['unused', package, kind, key, grade])
        self.entries.sort(key=lambda entry: [str(part).encode('utf-8', 'surrogatepass') for part in entry])
        self.find_places()

    def find_places(self):
        """Puts behind each entry for what it is: the first place in the sources, or the place in the policy files."""
        walk = Walk(self.app, self.lava) if any(entry[0] == 'wants' for entry in self.entries) else None
        placed = [places_in(os.path.join(self.app, path)) for path in (POLICY, OVERRIDE)]
        for entry in self.entries:
            what, package, kind, key, grade = entry
            if what == 'unused':
                at = 1 if key in self.folder.policies[1].get(package, {}).get(kind, {}) else 0
                entry += [(POLICY, OVERRIDE)[at], *placed[at].get((package, kind, key), (None, None))]
            else:
                module, line, unit = walk.first_use(package, kind, key, grade)
                entry += [os.path.join(self.folder.packages[package], module) if module else None, line, unit]

    def lines(self):
        for what, package, kind, key, grade, file, line, unit in self.entries:
            shown = f'{key}="write"' if grade == 'write' else key
            yield f'{what} {package} {kind} {shown} {file or "-"}{f":{line}:{unit}" if line else ""}'

    def data(self):
        fields = ('drift', 'package', 'kind', 'key', 'grade', 'file', 'line', 'unit')
        return {'wants': self.count('wants'), 'unused': self.count('unused'), 'entries': [dict(zip(fields, entry)) for entry in self.entries]}

    def has_found(self):
        return self.count('wants') > 0

    def count(self, what):
        return sum(entry[0] == what for entry in self.entries)
