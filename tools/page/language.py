"""What docs/LANGUAGE.md says of the forms that the language leaves out and of the other refusals of a source, and which members of ECMA-262's
objects are not here, by docs/LIBRARY.md."""
import os
import re

DOCS = os.path.join(os.path.dirname(os.path.abspath(__file__)), '..', '..', 'docs')


def lacking():
    """A pattern that finds members of ECMA-262's objects that are not here: `Math.x` by the object, and methods by a name that no object here has."""
    paths, methods, here, heading = [], set(), set(), ''
    with open(os.path.join(DOCS, 'LIBRARY.md'), encoding='utf-8') as file:
        for line in file:
            if line.startswith('### '):
                heading = line[4:].strip()
            elif line.startswith('| `'):
                here.add(line[3:line.index('`', 3)])
            elif line.startswith('Not here: '):
                names = re.findall(r'`(\w+)`', line)
                if heading.endswith('.prototype'):
                    methods.update(names)
                elif names:
                    paths.append(rf'{heading}\s*\.\s*(?:{"|".join(names)})')
    methods = '|'.join(sorted(methods - here))
    return re.compile(rf'(?<![\w$.])(?:{"|".join(paths)})\b|\.\s*(?:{methods})(?=\s*(?:\(|\.\s*(?:call|apply|bind)\b))'.encode())


def rows():
    """By each name of its tables: the head of the third column, and the cells behind the name, without their marks of code."""
    found, head = {}, None
    with open(os.path.join(DOCS, 'LANGUAGE.md'), encoding='utf-8') as file:
        for line in file:
            if not line.startswith('| ') or not line.rstrip().endswith(' |'):
                continue
            cells = [cell.strip() for cell in line.strip()[1:-1].replace('\\|', ' or ').split(' | ')]
            if not cells[0].startswith('`'):
                head = cells[-1]
                continue
            for name in cells[0].split(', '):
                found[head, name.strip('`')] = [cell.replace('`', '') for cell in cells[1:]]
    return found


class Language:
    def __init__(self):
        self.rows, self.lacking = rows(), lacking()

    def lacks(self, content):
        """The members that a source names and that are not here, as `Math.round` or `.replace`. An object of its own may have such a method."""
        return {re.sub(r'\s', '', name.decode()) for name in set(self.lacking.findall(content))}

    def instead(self, form):
        """What a form is that is left out, and what to write in its place, or None."""
        return self.rows.get(('Instead', form))

    def means(self, what):
        """What a refusal means that is none of a form that is left out."""
        row = self.rows.get(('Its place', what.removeprefix('early ')))
        return row[0] if row else None
