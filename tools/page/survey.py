"""What a survey says of an application, as lines and as JSON."""
import collections

from page.folders import DEPENDENCIES
from page.language import Language
from page.walk import Walk

# What a package may have in its way, in the order in which it is told.
KINDS = ['manifest', 'too many', 'unread', 'refused', 'missing', 'no file', 'nowhere', 'not given']
# What keeps a package from being loaded as it is. The others throw in the run, where nobody catches them.
LOADING = {'refused', 'missing', 'no file', 'manifest', 'unread', 'too many'}


def counted(number, one):
    return f'{number:,} {one}{"" if number == 1 else "s"}'


def at(finding):
    line, unit = finding['place'] or (0, 0)
    return f'{finding["module"]}:{line}:{unit}' if line else finding['module']


def told(finding):
    """A finding as a line, below its package."""
    kind, scan = finding['kind'], ' (by scan)' if finding.get('by_scan') else ''
    if kind == 'refused':
        what = finding['what'].removeprefix('unsupported ')
        if finding['form'] == 'regexp' and what != 'regexp':
            what += ', by a regular expression (regexp)'
        elif finding['form'] == finding['what'] and finding['at'] is not None:
            what += f': {finding["behind"] or ""} >>{finding["at"]}<<'
        return f'refused    {at(finding)} {what}{scan}'
    if kind == 'missing':
        where = f'{at(finding)} ' if 'module' in finding else ''
        return f'missing    {where}requests {finding["request"]}: {finding["why"]}{scan}'
    if kind == 'no file':
        return f'no file    {finding["asker"]} {at(finding)} requests {finding["request"]}: {finding["why"]}{scan}'
    if kind == 'nowhere':
        return f'nowhere    {at(finding)} requests {finding["request"]}: {finding["why"]}{scan}'
    if kind == 'not given':
        more = f', and {counted(finding["modules"] - 1, "module")} more' if finding['modules'] > 1 else ''
        return f'not given  {at(finding)} {finding["name"]}{more}'
    if kind == 'manifest':
        is_field = finding['field'] in ('main', *DEPENDENCIES)
        return f'manifest   {finding["file"]} ' + (f'{finding["field"]} has not its form' if is_field else finding['field'] or 'is no object of JSON')
    if kind == 'too many':
        where = f'{finding["module"]} ' if 'module' in finding else ''
        return f'too many   {where}{finding["line"].removeprefix("lava: too many ")}'
    return f'unread     {finding["file"]}: {finding["why"]}'


def ranked(counts):
    return sorted(counts.items(), key=lambda item: (-item[1], item[0]))


def some_of(names):
    """As many names as a line has room for."""
    text = ''
    for at, name in enumerate(names):
        if at and len(text) + len(name) > 140:
            return f'{text} and {len(names) - at} more'
        text += f'{", " if at else ""}{name}'
    return text


class Survey:
    def __init__(self, app, lava):
        walk = self.walk = Walk(app, lava)
        self.language = Language()
        self.of = sorted(walk.requested, key=lambda name: name.encode('utf-8', 'surrogatepass'))
        self.packages = {name: [] for name in self.of}
        for finding in walk.findings:
            self.packages.setdefault(finding['package'], []).append(finding)
        self.modules = collections.Counter(module.package for module in walk.modules.values())
        self.loads = [name for name in self.of if not any(finding['kind'] in LOADING for finding in self.packages[name])]
        self.worst = sorted((name for name in self.packages if self.packages[name]),
                            key=lambda name: (-len(self.packages[name]), name.encode('utf-8', 'surrogatepass')))

        self.lacks = {}
        for module in walk.modules.values():
            if not module.path.endswith('.json'):
                for name in self.language.lacks(module.content):
                    self.lacks.setdefault(name, set()).add(module.package)

    def has_found(self):
        return bool(self.worst)

    def of_kind(self, kind):
        return [finding for finding in self.walk.findings if finding['kind'] == kind]

    def lines(self):
        for name in self.worst:
            found = self.packages[name]
            yield f'{name}: {len(found)} in the way, {counted(self.modules[name], "module")}{self.walk.kind_of(name)}'
            order = sorted(found, key=lambda finding: KINDS.index(finding['kind']))
            yield from (f'  {told(finding)}' for finding in order)
            yield ''
        yield from self.forms()
        yield from self.by_name('nowhere', 'request', 'Requests that lead nowhere, and who makes them:')
        yield from self.by_name('not given', 'name', 'Names that nobody gives, and who uses them:')
        yield from self.users(self.lacks, 'Members that the library has not (docs/LIBRARY.md), by their names alone, and who may use them:')
        if 'too many' in {finding['kind'] for finding in self.walk.findings}:
            yield 'The application is too large: docs/PACKAGES.md has the limits.'
        idle = len(self.walk.folder.packages) - len(self.walk.requested)
        if idle:
            yield f'No request leads to {counted(idle, "package")} more that the manifests name.'
        yield f'{len(self.loads)} of {len(self.of)} packages load as they are'

    def forms(self):
        refused = self.of_kind('refused')
        first = collections.Counter(finding['form'] for finding in refused)
        places = collections.Counter()
        for finding in refused:
            places.update(finding['forms'])
        if not refused:
            return
        yield 'What is refused, in so many modules first, and in so many places by a scan of these:'
        for form, modules in sorted({**dict.fromkeys(places, 0), **first}.items(), key=lambda item: (-item[1], -places[item[0]], item[0])):
            instead, means = self.language.instead(form), self.language.means(form)
            about = f'{instead[0]}. In its place: {instead[1]}' if instead else means or 'left out, without a name of its own (docs/LANGUAGE.md)'
            yield f'  {form:11} {modules:5} {places[form] or "-":>7}  {about}'
        yield ''

    def by_name(self, kind, field, head):
        who = {}
        for finding in self.of_kind(kind):
            who.setdefault(finding[field], set()).add(finding['package'])
        yield from self.users(who, head)

    def users(self, who, head):
        if not who:
            return
        yield head
        for name, count in ranked({name: len(packages) for name, packages in who.items()}):
            yield f'  {name:18} {counted(count, "package")}: {some_of(sorted(who[name]))}'
        yield ''

    def data(self):
        def plain(finding):
            found = {key: value for key, value in finding.items() if key not in ('package', 'place', 'forms', 'by_scan')}
            if finding.get('place'):
                found['at'], found['token'] = list(finding['place']), finding.get('at')
            if finding.get('forms'):
                found['forms'] = finding['forms']
            if 'by_scan' in finding:
                found['by'] = 'scan' if finding['by_scan'] else 'term'
            instead = self.language.instead(finding['form']) if 'form' in finding else None
            if instead:
                found['instead'] = instead[1]
            return found
        return {
            'load': len(self.loads), 'of': len(self.of), 'modules': len(self.walk.modules),
            'lacks': {name: sorted(packages) for name, packages in sorted(self.lacks.items())},
            'packages': [{'name': name, 'directory': self.walk.folder.packages.get(name), 'modules': self.modules[name],
                          'loads': name in self.loads, 'found': [plain(finding) for finding in self.packages[name]]}
                         for name in [*self.worst, *(name for name in self.of if not self.packages[name])]],
        }
