"""What each page has: the data of a trace and of a policy, put into one file."""
import os
import sys
from array import array

from page import folders, html, traces

HERE = os.path.dirname(os.path.abspath(__file__))
SCRIPT = os.path.join(HERE, '..', '..', 'lava')


def policy_of(top, lava=None):
    """The policy of a folder as the pages have it, and the links of its packages."""
    folder = folders.Folder(top)
    if not lava and b'is built without a proof' in folders.ask_lava(SCRIPT, 'status')[1]:
        print('./lava has no program of these sources yet, and builds one first: some minutes', file=sys.stderr)
    answers = folders.answers_of(lava or SCRIPT, top)
    rows = folders.rows_of(folder, answers)
    policy = {
        'rows': rows, 'folder': True, 'why': answers['why'], 'notes': folder.notes,
        # (what the application itself may import is no row of a policy)
        'links': {folders.ROOT: sorted(folder.links.get(folders.ROOT, {}).values())},
    }
    return {'page': policy, 'folder': folder}


def policy_page(title, app):
    return html.make_page(title, ['common.js', 'policy.js', 'start.js'], {'kind': 'policy', 'title': html.shown(title), 'policy': app['page']})


def quoted_name(quoted):
    """A party's name as it stands in the trace, without its quotes."""
    return quoted[1:-1].replace('\\"', '"').replace('\\\\', '\\')


def column(name, values):
    """A column of numbers, of one, two or four bytes each, as its greatest one wants."""
    most = max(values, default=0)
    kind, code = ('u8', 'B') if most < 1 << 8 else ('u16', 'H') if most < 1 << 16 else ('u32', 'I')
    values = array(code, values)
    if sys.byteorder == 'big':
        values.byteswap()
    return name, kind, values.tobytes()


def trace_data(title, trace, app=None, other=None):
    """The data of a trace's page: an object, and its columns."""
    bodies = trace.bodies()
    denials = []
    for denial in trace.denials:
        package, kind, key, note = traces.row_that_allows(denial, trace, app and app['folder'].links)
        told = {**denial, 'row': {'package': package, 'kind': kind, 'key': key, 'note': note}}
        if app and package:
            told['policy'] = what_policy_says(app['folder'], package, kind, key)
        denials.append(told)
    data = {
        'kind': 'trace', 'title': html.shown(title), 'version': trace.version, 'methods': traces.METHODS, 'host': traces.HOST,
        'parties': [{'name': quoted_name(name), 'steps': trace.totals[party], 'madeAt': trace.made_at.get(party)}
                    for party, name in enumerate(trace.names)],
        'order': trace.order(), 'ending': list(trace.ending), 'asks': [[*pair, count] for pair, count in trace.asks.items()],
        'denials': denials, 'moreDenials': trace.more_denials, 'crossings': len(bodies), 'throws': trace.throws(),
    }
    if app:
        data['policy'] = app['page']
    if other:
        name, another = other
        views = traces.compare(trace, another)
        data['compared'] = {'with': html.shown(name), 'views': [{**view, 'name': quoted_name(view['name'])} for view in views]}
    # (an ask's answer and its depth follow from the codes)
    columns = [column('len', array('I', map(len, bodies))), column('from', trace.from_), column('to', trace.to), column('code', trace.code),
               ('text', 'u8', ''.join(body + '\n' for body in bodies).encode('ascii'))]
    if trace.version == 2:
        columns.append(column('steps', trace.steps))
    return data, columns


def what_policy_says(folder, package, kind, key):
    """What the policy says now of a key, or of the longest one that it begins with."""
    row = folder.merged.get(package)
    if row is None:
        return f'no row of {html.shown(package)}'
    keys = [other for other in row[kind] if other == key or (kind != 'packages' and (key.startswith(other + '.') or other.startswith(key + '.')))]
    if not keys:
        return 'its row does not name it: denied'
    shown = ', '.join(f'{html.shown(other)}: {"write" if row[kind][other] == "write" else str(row[kind][other]).lower()}' for other in sorted(keys))
    return f'{kind} {shown}'


def trace_page(title, trace, app=None, other=None):
    data, columns = trace_data(title, trace, app, other)
    return html.make_page(title, ['common.js', 'policy.js', 'trace.js', 'start.js'], data, columns)
