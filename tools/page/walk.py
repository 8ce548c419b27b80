"""The modules of an application that `lava` would load (docs/PACKAGES.md), through those that it refuses, too, and what is in the way there.

Whether a module is a program of the language, `lava tree` says, and what it requests and which free names it has is read off the term that
this prints. Of a module that is refused the requests are found by a scan of its tokens, and no names.
"""
import os
import re
import subprocess

from page.folders import DEPENDENCIES, MOST_BYTES, ROOT, TOO_LONG, Folder, good_name
from page.tokens import REGEXP, Source, paired
from page.traces import HOST

MOST_MODULES, MOST_MODULE_BYTES = 4096, 16777216
# (policy_globals has them: crates/policy_globals/src/intrinsic.rt)
INTRINSICS = {'Array', 'Boolean', 'Compartment', 'Error', 'Function', 'JSON', 'Map', 'Math', 'Number', 'Object', 'Proxy', 'RangeError',
              'ReferenceError', 'Reflect', 'Set', 'String', 'Symbol', 'SyntaxError', 'TypeError', 'WeakMap', 'globalThis', 'harden', 'parseInt'}
GIVEN = INTRINSICS | {name.split('.')[0] for name in HOST} - {'fs'}
BUILTINS = ('fs', 'node:fs')
NODE = {'assert', 'async_hooks', 'buffer', 'child_process', 'cluster', 'console', 'constants', 'crypto', 'dgram', 'diagnostics_channel', 'dns',
        'domain', 'events', 'fs', 'http', 'http2', 'https', 'inspector', 'module', 'net', 'os', 'path', 'perf_hooks', 'process', 'punycode',
        'querystring', 'readline', 'repl', 'stream', 'string_decoder', 'sys', 'timers', 'tls', 'trace_events', 'tty', 'url', 'util', 'v8', 'vm',
        'wasi', 'worker_threads', 'zlib'}
REFUSAL = re.compile(r':([0-9]+):([0-9]+) (not utf-8|bad token|unexpected|too deep|(?:unsupported|early) \S+)\n?\Z')
FREE = re.compile(r'^ *(Set)?Global (\S+?)( soft)?$', re.MULTILINE)
QUOTED = re.compile(r'\\(?:u([0-9a-f]{4})|(.))')
ENDS = {'mjs': 'a file that ends so counts as absent', 'node': 'a file of machine code counts as absent'}
# How many characters of a token are told.
MOST_SHOWN = 40


class NoProgram(Exception):
    """The program that reads modules could not be started, or ended as it never should."""


class Refused(Exception):
    """The program refuses the application: its status and its line."""


class Module:
    def __init__(self, package, path, by_scan, content):
        self.package, self.path, self.by_scan, self.content = package, path, by_scan, content
        self.refused = None  # what, line, unit
        self.requests = []  # each a text, line and unit
        self.names = {}  # each free name, and whether nothing but `typeof` asks for it
        self.read = None

    @property
    def source(self):
        """Its tokens, which are read where they are asked for."""
        if self.read is None:
            self.read = Source(self.content)
        return self.read


def unquoted(text):
    return paired(QUOTED.sub(lambda it: chr(int(it[1], 16)) if it[1] else it[2], text))


def called(term):
    """The texts with which the lines of a term call the module's own `require`: its slot, in the scope of the module. A scope is opened by
    `Scope`, by `Template`, and by what a `try` does with what it caught, the second of three operands."""
    scopes, tries, texts, lines = [], [], set(), term.split('\n')
    for at, line in enumerate(lines):
        word = line.lstrip()
        depth = len(line) - len(word)
        while scopes and scopes[-1][0] >= depth:
            scopes.pop()
        while tries and tries[-1][0] >= depth:
            tries.pop()
        if tries and depth == tries[-1][0] + 2:
            tries[-1][1] += 1
            if tries[-1][1] == 2:
                scopes.append([depth, False])
        if word.startswith(('Scope ', 'Template ')):
            scopes.append([depth, False])
        elif word == 'Try':
            tries.append([depth, 0])
        elif word == 'Init 0 0' and scopes and lines[at + 1].lstrip() == f'Local {len(scopes)} 1':
            # (`require?.('x')` keeps the function in a scope of its own)
            scopes[-1][1] = True
        elif word == 'Call':
            callee, first = lines[at + 1].lstrip(), lines[at + 2].lstrip() if at + 2 < len(lines) else ''
            is_own = callee == f'Local {len(scopes)} 1' or callee == 'Local 0 0' and scopes and scopes[-1][1]
            if is_own and first.startswith('Lit "') and len(lines[at + 2]) - len(first) == depth + 2:
                texts.add(unquoted(first[5:-1]))
    return texts


class Walk:
    """`modules` are those that are reached, in the order in which `lava` loads them, `findings` what is in the way, and `requested` the
    packages that a request leads to."""

    def __init__(self, top, lava):
        self.top, self.lava, self.folder = top, lava, Folder(top)
        self.modules, self.findings, self.bytes, self.requested = {}, [], 0, {ROOT}
        self.package_at = {directory: package for package, directory in self.folder.packages.items()}
        self.uses = {}
        self.judge_manifests()
        pending = [(ROOT, None, self.main_of(ROOT), None, False)]
        while pending:
            new = self.settle(*pending.pop())
            if new:
                pending += [(new.package, new.path, text, (line, unit), new.refused is not None)
                            for text, line, unit in reversed(new.requests)]
        self.look_at_names()

    # What is found. Of each finding `line` is what `lava` says, where it says something.

    def find(self, kind, package, **told):
        self.findings.append({'kind': kind, 'package': package, **told})

    def judge_manifests(self):
        for directory, field in self.folder.refused.items():
            package, shown = self.package_at.get(directory, ROOT), directory or '.'
            line = 'lava: too many file 1048577' if field == TOO_LONG else f'lava: manifest {shown} {field}'
            self.find('manifest', package, file=os.path.join(directory, 'package.json'), field=field, line=line)
        if self.folder.has_more:
            self.find('too many', ROOT, what='packages', line='lava: too many packages 1001')

    def main_of(self, package):
        manifest = self.folder.manifests.get(self.folder.packages[package]) or {}
        main = manifest.get('main', 'index.js')
        return main if isinstance(main, str) else 'index.js'

    def kind_of(self, package):
        manifest = self.folder.manifests.get(self.folder.packages.get(package)) or {}
        return ', of ES modules ("type": "module")' if manifest.get('type') == 'module' else ''

    # Where a request leads.

    def settle(self, package, asker, request, place, by_scan):
        """Follows the request of a module, or the entry (no asker); gives the module that is new."""
        owner, path, subpath = package, request, None
        if asker is not None:
            if request in BUILTINS:
                self.use(package, 'builtin', 'fs', asker, place)
                return None
            first, _, rest = request.partition('/')
            if first in ('.', '..'):
                path = f'{asker}/../{request}'
            else:
                if request.startswith('@'):
                    scoped, _, rest = rest.partition('/')
                    first = f'{first}/{scoped}'
                owner = self.folder.links.get(package, {}).get(first)
                if owner is None:
                    self.find('nowhere', package, module=asker, place=place, request=request, by_scan=by_scan,
                              why=self.why_no_package(package, first, request))
                    return None
                self.requested.add(owner)
                self.use(package, 'packages', owner, asker, place)
                subpath, path = rest, rest or self.main_of(owner)
        parts = resolved(path)
        tried = candidates(parts) if parts is not None else []
        for candidate in tried:
            if (owner, candidate) in self.modules:
                return None
            if not candidate.endswith(('.mjs', '.node')):
                content = self.read(owner, candidate)
                if content is not None:
                    return self.take_in(owner, candidate, content, by_scan)
        told = {'request': request, 'by_scan': by_scan, 'why': self.why_no_file(owner, tried, subpath)}
        if asker is None:
            self.find('missing', owner, **told, line=f'lava: missing {ROOT} {request}')
        elif subpath is None:
            self.find('missing', package, module=asker, place=place, **told, line=f'lava: missing {package} {request}')
        else:
            self.find('no file', owner, asker=package, module=asker, place=place, **told)
        return None

    def use(self, package, kind, key, module, place):
        self.uses.setdefault((package, kind, key), (module, *place))

    def read(self, owner, path):
        """The bytes of a file, at most one more than a module may have, or None."""
        full = os.path.join(self.top, self.folder.packages[owner], path)
        try:
            if not os.path.isfile(full):
                return None
            with open(full, 'rb') as file:
                return file.read(MOST_BYTES + 1)
        except (FileNotFoundError, NotADirectoryError, ValueError):
            return None
        except OSError as error:
            self.find('unread', owner, file=os.path.join(self.folder.packages[owner], path), why=error.strerror, line='lava: outside folder')
            return b''

    def take_in(self, owner, path, content, by_scan):
        module = self.modules[owner, path] = Module(owner, path, by_scan, content)
        if len(self.modules) == MOST_MODULES + 1:
            self.find('too many', ROOT, what='modules', line='lava: too many modules 4097')
        if len(content) > MOST_BYTES:
            self.find('too many', owner, module=path, what='file', line='lava: too many file 1048577')
            return module
        if self.bytes <= MOST_MODULE_BYTES < self.bytes + len(content):
            self.find('too many', ROOT, what='bytes', line=f'lava: too many bytes {self.bytes + len(content)}')
        self.bytes += len(content)
        if path.endswith('.json'):
            self.read_json(module)
        else:
            self.read_source(module)
        if module.refused:
            what, line, unit = module.refused
            told = self.about(module, what, line, unit)
            forms = {} if path.endswith('.json') else module.source.forms()
            self.find('refused', owner, module=path, place=(line, unit), what=what, **told, forms=forms, by_scan=by_scan,
                      line=f'lava: syntax {owner} {path}:{line}:{unit} {what}')
        return module

    def read_json(self, module):
        try:
            module.content.decode('utf-8')
        except UnicodeDecodeError as error:
            read = Source(module.content[:error.start])
            module.refused = ('not utf-8', *read.place(len(read.text)))

    def read_source(self, module):
        status, term, said = self.tree(os.path.join(self.top, self.folder.packages[module.package], module.path))
        found = REFUSAL.search(said)
        if status == 0:
            for write, name, soft in FREE.findall(term):
                module.names[name] = module.names.get(name, True) and bool(soft) and not write
            own = called(term) if b'require' in module.content else set()
            if own:
                read = module.source
                module.requests = [(text, *read.place(read.starts[at])) for text, at, _ in read.calls() if text in own]
        elif found:
            module.refused = (found[3], int(found[1]), int(found[2]))
            module.requests = [(text, *module.source.place(start)) for text, start in module.source.scanned()]
        else:
            raise NoProgram(f'`lava tree {module.path}` ended with status {status}: {said.strip()}')

    def tree(self, path):
        try:
            done = subprocess.run([self.lava, 'tree', path], stdin=subprocess.DEVNULL, stdout=subprocess.PIPE, stderr=subprocess.PIPE, check=False)
        except OSError as error:
            raise NoProgram(f'{self.lava} could not be started: {error.strerror}') from None
        return done.returncode, done.stdout.decode('utf-8', 'surrogateescape'), done.stderr.decode('utf-8', 'surrogateescape')

    def about(self, module, what, line, unit):
        """What stands at the place of a refusal: its token and the one before, and by which form it is refused. (A bad token is mostly what
        comes of a quote in a regular expression before it.)"""
        form = what.split(' ')[-1] if what.startswith(('unsupported', 'early')) else what
        source = module.source if what != 'not utf-8' else None
        at = source.token_at(line, unit) if source else None
        if at is None:
            return {'form': form, 'at': None, 'behind': None}
        if source.kinds[at] == REGEXP:
            form = 'regexp'
        elif what == 'bad token':
            first = at
            while first > 0 and source.kinds[first] != REGEXP and source.starts[first - 1] >= source.ends[line - 1]:
                first -= 1
            form = 'regexp' if source.kinds[first] == REGEXP else form
        return {'form': form, 'at': source.texts[at][:MOST_SHOWN], 'behind': source.texts[at - 1][-MOST_SHOWN:] if at else None}

    # Free names.

    def look_at_names(self):
        made = {}
        for module in self.modules.values():
            if b'globalThis' in module.content and not module.path.endswith('.json'):
                made.setdefault(module.package, set()).update(module.source.globals_made())
        wanted = {}
        for module in self.modules.values():
            given = GIVEN | made.get(ROOT, set()) | made.get(module.package, set())
            for name, is_soft in module.names.items():
                if not is_soft and name not in given:
                    wanted.setdefault((module.package, name), []).append(module)
        for (package, name), modules in wanted.items():
            start = modules[0].source.use(name)
            self.find('not given', package, name=name, module=modules[0].path, modules=len(modules),
                      place=None if start is None else modules[0].source.place(start))

    def first_use(self, package, kind, key, grade):
        """Where the modules of a package want an entry of a policy first: module, line and unit."""
        if kind != 'globals':
            return self.uses.get((package, kind, key), (None, None, None))
        name, *members = key.split('.')
        for exact, writes in ((members, True), (members, False), ([], False))[grade != 'write':]:
            for module in self.modules.values():
                if module.package == package and name in module.names:
                    start = module.source.use(name, exact, writes)
                    if start is not None:
                        return (module.path, *module.source.place(start))
        return None, None, None

    # Why something is not found.

    def path_of(self, *parts):
        return os.path.join(self.top, *parts)

    def why_no_package(self, package, name, request):
        directory = self.folder.packages[package]
        manifest = self.folder.manifests.get(directory) or {}
        fields = [manifest.get(field) for field in DEPENDENCIES]
        is_node, own = name in NODE, os.path.join(directory, 'package.json')
        if request.startswith('node:'):
            return 'a module of Node.js'
        if request.startswith('#'):
            return 'a name of `imports` in package.json, which is passed over'
        if not good_name(name):
            return 'no name of a package'
        there = self.nearest(directory, name)
        if not any(isinstance(field, dict) and name in field for field in fields):
            if there is not None:
                where = 'devDependencies' if name in (manifest.get('devDependencies') or ()) else 'no dependencies'
                return f'{"a module of Node.js; " if is_node else ""}{there} is there, and {own} names it in {where}'
            return 'a module of Node.js' if is_node else f'{own} names no such dependency, and there is no such folder'
        if there is not None:
            if there == directory:
                return 'it leads to the package itself'
            full = self.path_of(there)
            if os.path.islink(full) and not os.path.exists(full):
                return f'{there} is a symbolic link that leads to nothing here: {os.readlink(full)}'
            is_there = os.path.isfile(os.path.join(full, 'package.json'))
            return f'{there} is past the limit of packages' if is_there else f'{there} has no package.json'
        real = os.path.realpath(self.path_of(directory))
        if real != os.path.join(os.path.realpath(self.top), directory).rstrip('/'):
            beside = nearest_above(real, name)
            if beside:
                return f'{directory} is a symbolic link, and only beside the link itself is it looked for: it is in {beside}'
        above = nearest_above(os.path.dirname(os.path.realpath(self.top)), name)
        if above:
            return f'it stands above the folder of the application: {above}'
        return 'a module of Node.js' if is_node else 'there is no such folder in node_modules'

    def nearest(self, directory, name):
        """The first folder or link of a name in the places where a dependency is looked for, whether or not it has a manifest."""
        while True:
            target = os.path.join(directory, 'node_modules', name)
            if os.path.lexists(self.path_of(target)):
                return target
            if directory == '':
                return None
            directory = os.path.dirname(directory)

    def why_no_file(self, owner, tried, subpath):
        """Why no path that was tried has a file. The subpath of a request is empty for the main module, and None for a request by a path."""
        directory = self.folder.packages[owner]
        manifest = self.folder.manifests.get(directory) or {}
        if not tried:
            return 'the path leaves the package'
        for candidate in tried:
            full = self.path_of(directory, candidate)
            if os.path.islink(full) and not os.path.exists(full):
                return f'{os.path.join(directory, candidate)} is a symbolic link that leads to nothing here: {os.readlink(full)}'
        base = tried[0].removesuffix('.js')
        for candidate in (base, *(base + end for end in ('.mjs', '.node', '.cjs', '/index.mjs', '/index.cjs'))):
            if candidate not in tried or candidate.endswith(('.mjs', '.node')):
                if os.path.isfile(self.path_of(directory, candidate)):
                    return f'{os.path.join(directory, candidate)} is there: {ENDS.get(candidate.rsplit(".", 1)[-1], "no path is tried with that end")}'
        if subpath is not None:
            named = exported(manifest, subpath)
            if named:
                end = ', which counts as absent' if named.endswith('.mjs') else ''
                return f'its `exports` names {named}{end}; `exports` is passed over, and `main` counts'
            if 'exports' in manifest:
                return 'its `exports` is passed over, and there is no such file'
        return 'there is no such file'


def resolved(path):
    """The parts of a path in a package, or None where it leaves the package."""
    parts = []
    for part in path.split('/'):
        if part == '..':
            if not parts:
                return None
            parts.pop()
        elif part not in ('', '.'):
            parts.append(part)
    return parts


def candidates(parts):
    path = '/'.join(parts)
    return [path + end for end in ('', '.js', '.json', '/index.js')] if parts else ['index.js']


def nearest_above(directory, name):
    while True:
        target = os.path.join(directory, 'node_modules', name)
        if os.path.isdir(target):
            return target
        # (beside a package that stands in a node_modules of its own)
        if directory == os.path.dirname(directory):
            return None
        directory = os.path.dirname(directory)


def exported(manifest, subpath):
    """A file that the `exports` of a manifest names for a subpath, which is empty for the package itself."""
    exports = manifest.get('exports')
    if isinstance(exports, dict) and any(name.startswith('.') for name in exports):
        exports = exports.get(f'./{subpath}' if subpath else '.')
    elif subpath:
        return None
    for _ in range(8):
        if isinstance(exports, dict):
            exports = next((exports[name] for name in ('require', 'node', 'default', *exports) if name in exports), None)
        elif isinstance(exports, list):
            exports = exports[0] if exports else None
    return exports if isinstance(exports, str) else None
