"""Reads the folder of an application as a page shows it: its packages by their canonical names, their links, and both policy files.

`lava` is the one that judges a folder (docs/PACKAGES.md, docs/POLICIES.md); what it would refuse is passed over here, and told as a note.
"""
import json
import os
import subprocess

from page.traces import BUILTINS, HOST

KINDS = ['builtin', 'globals', 'packages']
MOST_PACKAGES, MOST_BYTES = 1000, 1048576
FILES = ['policy.json', 'policy-override.json']
# The globals that reach the outside, by what they do there.
HOST_GLOBALS = sorted({name.split('.')[0] for name in HOST} - set(BUILTINS))
# What a grant allows, by rank.
RANKS = [False, True, 'write']
ROOT = '$root$'
TOO_LONG = 'has more than 1,048,576 bytes'
# The fields of a manifest that name packages, in the order in which they are judged.
DEPENDENCIES = ('dependencies', 'optionalDependencies', 'peerDependencies')


def read_json(path):
    """The JSON of a file, or None, and why there is none."""
    try:
        with open(path, 'rb') as file:
            content = file.read(MOST_BYTES + 1)
        if len(content) > MOST_BYTES:
            return None, TOO_LONG
        return json.loads(content.decode('utf-8'), parse_constant=no_number, parse_float=finite), None
    except (FileNotFoundError, NotADirectoryError):
        return None, None
    except (OSError, ValueError, RecursionError):
        return None, 'could not be read as JSON'


def no_number(text):
    raise ValueError(text)


def finite(text):
    if float(text) in (float('inf'), float('-inf')):
        raise ValueError(text)
    return float(text)


class Folder:
    def __init__(self, top):
        self.top, self.notes = top, []
        self.packages, self.links = {}, {}  # canonical name: directory, below the top; canonical name: {dependency: canonical name}
        # By directory: the manifest, and the field of it that `lava` refuses, or that it is too long.
        self.manifests, self.refused, self.has_more = {}, {}, False
        self.policies = [self.read_policy(name) for name in FILES]
        self.merged = self.merge()
        self.find_packages()

    def note(self, text):
        self.notes.append(text)

    def manifest(self, directory):
        value, why = read_json(os.path.join(self.top, directory, 'package.json'))
        if why:
            self.note(f'{os.path.join(directory, "package.json")} {why}')
        fault = why if why == TOO_LONG else refused_field(value)
        if fault is not None:
            self.refused[directory] = fault
        return value if isinstance(value, dict) else None

    def dependencies(self, manifest):
        fields = [manifest.get(field) for field in DEPENDENCIES]
        return sorted({name for field in fields if isinstance(field, dict) for name in field if good_name(name)})

    def find_packages(self):
        """Breadth first, the names of each in byte order: so the first path that leads to a package has the fewest names, and among
        those the least text is taken."""
        level, names, manifests, edges = [''], {'': ROOT}, self.manifests, {}

        def manifest_of(directory):
            if directory not in manifests:
                there = os.path.isfile(os.path.join(self.top, directory, 'package.json'))
                manifests[directory] = self.manifest(directory) if there else None
                if there and manifests[directory] is None:
                    manifests[directory] = {}
            return manifests[directory]

        while level:
            found = {}
            for directory in level:
                for name in self.dependencies(manifest_of(directory) or {}):
                    target = self.look_up(directory, name, manifest_of)
                    if target is None or target == directory:
                        continue
                    edges.setdefault(directory, {})[name] = target
                    path = name if directory == '' else f'{names[directory]}>{name}'
                    if target not in names and (target not in found or path.encode() < found[target].encode()):
                        found[target] = path
            if len(names) + len(found) > MOST_PACKAGES:
                self.has_more = True
                self.note('there are more than 1,000 packages: the page has the first of them')
                found = dict(list(found.items())[:MOST_PACKAGES - len(names)])
            names.update(found)
            level = sorted(found, key=lambda directory: found[directory].encode())
        self.packages = {name: directory for directory, name in names.items()}
        self.links = {names[directory]: {name: names[target] for name, target in targets.items() if target in names}
                      for directory, targets in edges.items()}

    def look_up(self, directory, name, manifest_of):
        """A name is looked for in `node_modules` of the package's directory, then of each one that it stands in."""
        while True:
            target = os.path.join(directory, 'node_modules', name)
            if manifest_of(target) is not None:
                return target
            if directory == '':
                return None
            directory = os.path.dirname(directory)

    def read_policy(self, name):
        value, why = read_json(os.path.join(self.top, 'lavamoat', 'node', name))
        if why:
            self.note(f'{name} {why}')
        rows = value.get('resources') if isinstance(value, dict) else None
        policy = {}
        for package, row in (rows.items() if isinstance(rows, dict) else ()):
            kept = policy[package] = {kind: {} for kind in KINDS}
            for kind in KINDS:
                entries = row.get(kind) if isinstance(row, dict) else None
                for key, grant in (entries.items() if isinstance(entries, dict) else ()):
                    if grant is True or grant is False or (grant == 'write' and kind == 'globals'):
                        kept[kind][key] = grant
                    else:
                        self.note(f'{name}: a value of {package} {kind}.{key} is none of a policy')
            if isinstance(row, dict) and type(row.get('meter')) is int:
                kept['meter'] = row['meter']
        return policy

    def merge(self):
        policy, override = self.policies
        merged = {}
        for package in sorted({*policy, *override}):
            rows = [side.get(package, {}) for side in (policy, override)]
            merged[package] = {kind: {**rows[0].get(kind, {}), **rows[1].get(kind, {})} for kind in KINDS}
        return merged


def refused_field(manifest):
    """The first field of a manifest that has not its form, '' for the manifest itself, or None."""
    if not isinstance(manifest, dict):
        return ''
    if not isinstance(manifest.get('main', ''), str):
        return 'main'
    for field in DEPENDENCIES:
        if field in manifest and not (isinstance(manifest[field], dict) and all(map(good_name, manifest[field]))):
            return field
    return None


def good_name(name):
    parts = name[1:].split('/') if name.startswith('@') else [name]
    return len(parts) == 1 + name.startswith('@') and all(
        part and part[0] != '.' and all(unit.isascii() and (unit.isalnum() or unit in '-_.~') for unit in part) for part in parts)


def two_names(key):
    """A key of `globals` or `builtin` counts as its first two names."""
    return '.'.join(key.split('.')[:2])


def granted(entries, key):
    """What a row grants of a global: by the key of its two names and that of the first one, or of a part of it."""
    key, found = two_names(key), {}
    for other, grant in entries.items():
        found[two_names(other)] = max(found.get(two_names(other), False), grant, key=RANKS.index)
    first = key.split('.')[0]
    if first in HOST_GLOBALS and key in found:
        return found[key]
    parts = [found[other] for other in found if other == key or other == first or other.startswith(key + '.')]
    return max(parts, default=False, key=RANKS.index)


def covers(keys, key):
    """Whether a key of the generated policy asks for what a key grants, a part of it, or more."""
    key = two_names(key)
    return any(key == other or key.startswith(other + '.') or other.startswith(key + '.') for other in map(two_names, keys))


def dependency_of(request):
    """The name of the package that a request leads to."""
    return '/'.join(request.split('/')[:2 if request.startswith('@') else 1])


def ask_lava(lava, *words):
    """What the program answers: (status, output, last line of the errors)."""
    try:
        done = subprocess.run([lava, *words], stdin=subprocess.DEVNULL, stdout=subprocess.PIPE, stderr=subprocess.PIPE, check=False)
    except OSError as error:
        return None, b'', f'{lava} could not be started: {error.strerror}'
    said = done.stderr.decode('utf-8', 'replace').strip().split('\n')
    return done.returncode, done.stdout, said[-1]


def answers_of(lava, top):
    """The policy that the sources ask for, and what the policy denies of their requests, or None, and why there is none."""
    answers = {'generated': None, 'denied': None, 'why': {}}
    status, output, said = ask_lava(lava, 'policy', top)
    if status == 0:
        try:
            answers['generated'] = {package: {kind: row.get(kind, {}) for kind in KINDS}
                                    for package, row in json.loads(output)['resources'].items()}
        except (ValueError, KeyError, AttributeError):
            answers['why']['generated'] = 'what `lava policy` printed is no policy'
    else:
        answers['why']['generated'] = why_not('policy', status, said)
    status, output, said = ask_lava(lava, 'check', top)
    if status in (0, 8):
        lines = [line.split(' ', 2) for line in output.decode('utf-8', 'replace').split('\n') if line]
        answers['denied'] = [line[1:] for line in lines if len(line) == 3 and line[0] == 'denied']
    else:
        answers['why']['denied'] = why_not('check', status, said)
    return answers


def why_not(command, status, said):
    if status == 2:
        return f'this program has no command `{command}`'
    return f'`lava {command}` ended with {"no status" if status is None else f"status {status}"}: {said}'


def rows_of(folder, answers):
    """A row of the page for each package: what it holds and imports, what the override took away, what no source asks for, and what is
    asked and denied."""
    policy, override = folder.policies
    generated, denied = answers.get('generated'), answers.get('denied')
    names = {*folder.packages, *folder.merged, *(generated or {}), *(package for package, _ in denied or [])}
    rows = []
    for package in sorted(names, key=lambda name: name.encode('utf-8', 'surrogatepass')):
        merged = folder.merged.get(package, {kind: {} for kind in KINDS})
        holds = {kind: {key: grant for key, grant in merged[kind].items() if grant} for kind in KINDS}
        fs = [key for key in holds['builtin'] if key.split('.')[0] == 'fs']
        writes = [key for key, grant in holds['globals'].items() if grant == 'write']
        host = [key for key, grant in holds['globals'].items() if grant is True and key.split('.')[0] in HOST_GLOBALS]
        others = [key for key, grant in holds['globals'].items() if grant is True and key.split('.')[0] not in HOST_GLOBALS]
        builtins = [key for key in holds['builtin'] if key not in fs]
        taken = [[kind, key] for kind in KINDS for key, grant in override.get(package, {}).get(kind, {}).items()
                 if policy.get(package, {}).get(kind, {}).get(key) and (not grant or (
                     grant is True and policy[package][kind][key] == 'write'))]
        added = [[kind, key] for kind in KINDS for key, grant in override.get(package, {}).get(kind, {}).items()
                 if grant and policy.get(package, {}).get(kind, {}).get(key) != grant
                 and not (grant is True and policy.get(package, {}).get(kind, {}).get(key) == 'write')]
        asked = (generated or {}).get(package, {kind: {} for kind in KINDS})
        links = folder.links.get(package, {})
        refused = None if denied is None else [['request', request, links.get(dependency_of(request))] for name, request in denied if name == package]
        if refused is not None and package != ROOT:
            # (`lava check` has requests alone)
            for key, grant in asked['globals'].items():
                has = granted(merged['globals'], key)
                if RANKS.index(has) < RANKS.index(grant):
                    refused.append(['write' if has else 'name', key, None])
        unused = None if generated is None else [
            [kind, key] for kind in KINDS for key in holds[kind]
            if not (key in asked[kind] if kind == 'packages' else covers(asked[kind], key))]
        rows.append({
            'name': package, 'directory': folder.packages.get(package), 'fs': fs, 'writes': writes, 'host': host, 'globals': others,
            'builtins': builtins, 'imports': sorted(holds['packages']), 'taken': taken, 'added': added, 'unused': unused, 'denied': refused,
            'merged': merged, 'everything': package == ROOT})
    return sorted(rows, key=weight)


def weight(row):
    """Packages with most in their hands first: `fs` and globals that they may write, then other objects of the host, then the rest."""
    return (row['everything'], -len(row['fs']) - len(row['writes']), -len(row['builtins']), -len(row['host']), -len(row['globals']),
            -len(row['imports']), row['name'])
