"""The tokens of a JavaScript source, as far as what it requests and names can be read off them. It takes all sources, those that `lava`
refuses too, and judges none: where a `/` begins a regular expression is guessed by the token before it.
"""
import re
from bisect import bisect_right

NAME, NUMBER, TEXT, TEMPLATE, REGEXP, MARK = 'name', 'number', 'text', 'template', 'regexp', 'mark'
BLANK = re.compile(r'(?:[\s\ufeff]|//[^\n\r\u2028\u2029]*|/\*.*?(?:\*/|\Z))+', re.DOTALL)
TOKEN = re.compile(
    r'(?P<name>#?(?:[^\W\d]|\$|\\u)(?:\w|\$|[\u200c\u200d]|\\u(?:\{[0-9a-fA-F]*\})?)*)'
    r'|(?P<number>\.?[0-9](?:[\w.]|(?<=[eE])[+-])*)'
    r'|(?P<text>"(?:[^"\\\n\r]|\\(?:\r\n|.))*"?|\'(?:[^\'\\\n\r]|\\(?:\r\n|.))*\'?)'
    r'|(?P<mark>\?\.(?![0-9])|=>|\.\.\.|[=!]==?|(?:\*\*|<<|>>>?)=?|&&=?|\|\|=?|\?\?=?|\+\+|--|[-+*%&|^/<>]=|.)', re.DOTALL)
# (what stands in brackets ends at no slash)
EXPRESSION = re.compile(r'/(?:[^/\\\[\n\r\u2028\u2029]|\\[^\n\r\u2028\u2029]|\[(?:[^\]\\\n\r\u2028\u2029]|\\[^\n\r\u2028\u2029])*\])+/\w*')
PIECE = re.compile(r'(?:[^`\\$]|\\.|\$(?!\{))*', re.DOTALL)
ENDS = re.compile('\r\n|[\n\r\u2028\u2029]')
# Names behind which an operand comes, and not an operator.
BEFORE_OPERAND = {'await', 'case', 'delete', 'do', 'else', 'extends', 'in', 'instanceof', 'new', 'of', 'return', 'throw', 'typeof', 'void', 'yield'}
ASSIGNS = re.compile(r'(?:[-+*%&|^/]|\*\*|<<|>>>?|&&|\|\||\?\?)?=|\+\+|--')
CONDITIONS = {'if', 'while', 'for', 'with'}
ESCAPE = re.compile(r'\\(?:u\{([0-9a-fA-F]{1,6})\}|u([0-9a-fA-F]{4})|x([0-9a-fA-F]{2})|(\r\n|.))', re.DOTALL)
ESCAPES = {'b': '\b', 'f': '\f', 'n': '\n', 'r': '\r', 't': '\t', 'v': '\v', '0': '\0', '\n': '', '\r': '', '\r\n': '', '\u2028': '', '\u2029': ''}


def unescaped(match):
    digits = match[1] or match[2] or match[3]
    if digits:
        return chr(int(digits, 16)) if int(digits, 16) < 0x110000 else ''
    return ESCAPES.get(match[4], match[4])


def paired(text):
    """A text whose halves of pairs are put together; one that is alone is none of UTF-8."""
    return text.encode('utf-16-le', 'surrogatepass').decode('utf-16-le', 'replace')


def value_of(text):
    """What a text in quotes is."""
    body = text[1:-1] if len(text) > 1 and text[-1] == text[0] else text[1:]
    return paired(ESCAPE.sub(unescaped, body)) if '\\' in body else body


class Source:
    """The tokens of the bytes of a source: `kinds`, `texts` and `starts`."""

    def __init__(self, content):
        text = content.decode('utf-8', 'replace')
        self.text = text[1:] if text.startswith('\ufeff') else text
        self.ends = self.pairs = None
        self.kinds, self.texts, self.starts, self.stops = [], [], [], []
        self.read()

    def place(self, start):
        """Line and unit of a place, from 1; a unit is one of 16 bits."""
        if self.ends is None:
            self.ends = [0, *(match.end() for match in ENDS.finditer(self.text))]
        line = bisect_right(self.ends, start)
        before = self.text[self.ends[line - 1]:start]
        return line, 1 + len(before) + sum(unit > '\uffff' for unit in before)

    def token_at(self, line, unit):
        """The number of the token that stands at a place, or None."""
        self.place(0)
        if line > len(self.ends):
            return None
        start, left = self.ends[line - 1], unit - 1
        while left > 0 and start < len(self.text):
            left -= 1 + (self.text[start] > '\uffff')
            start += 1
        at = bisect_right(self.starts, start) - 1
        return at if at >= 0 and start < self.stops[at] else None

    def read(self):
        text, size, texts, kinds = self.text, len(self.text), self.texts, self.kinds
        add_start, add_stop, add_kind, add_text = self.starts.append, self.stops.append, kinds.append, texts.append

        def add(kind, start, stop):
            add_kind(kind)
            add_text(text[start:stop])
            add_start(start)
            add_stop(stop)

        at = ENDS.search(text + '\n').start() if text.startswith('#!') else 0
        # What is open: of a parenthesis whether a condition stands in it, of a brace whether it is one of a template, an object or a block.
        parens, braces = [], []
        # (looked for in vain a regular expression costs the rest of its line, and a source may be one line)
        operand, patience = True, 20 * size + 1000000
        while True:
            blank = BLANK.match(text, at)
            if blank:
                at = blank.end()
            if at >= size:
                return
            mark = text[at]
            if mark == '`' or mark == '}' and braces and braces[-1] == TEMPLATE:
                if mark == '}':
                    braces.pop()
                stop = PIECE.match(text, at + 1).end()
                if text.startswith('${', stop):
                    braces.append(TEMPLATE)
                    stop, operand = stop + 2, True
                else:
                    stop, operand = min(stop + 1, size), False
                add(TEMPLATE, at, stop)
                at = stop
                continue
            if mark == '/' and operand and patience > 0:
                found = EXPRESSION.match(text, at)
                if found:
                    add(REGEXP, at, found.end())
                    at, operand = found.end(), False
                    continue
                end = ENDS.search(text, at)
                patience -= (end.start() if end else size) - at
            found = TOKEN.match(text, at)
            kind, word = found.lastgroup, found[0]
            if kind == 'mark':
                if word == '(':
                    parens.append(bool(texts) and kinds[-1] == NAME and texts[-1] in CONDITIONS)
                elif word == '{':
                    braces.append(self.is_object())
                if word == ')':
                    operand = not parens or parens.pop()
                elif word == '}':
                    operand = not (braces and braces.pop())
                else:
                    operand = word not in (']', '++', '--')
            else:
                operand = kind == NAME and word in BEFORE_OPERAND and (not texts or texts[-1] not in ('.', '?.'))
            add_kind(kind)
            add_text(word)
            add_start(at)
            at = found.end()
            add_stop(at)

    def is_object(self):
        """Whether a brace that comes next is that of an object, and not of a block or a body."""
        if not self.texts:
            return False
        if self.kinds[-1] == NAME:
            return self.texts[-1] in BEFORE_OPERAND and self.texts[-1] not in ('else', 'do')
        return self.texts[-1] not in (';', '{', '}', ')', '=>')

    def is_member(self, at):
        return at > 0 and self.texts[at - 1] in ('.', '?.')

    def read_pairs(self):
        """For each token that opens brackets the one that closes them, or the end."""
        if self.pairs is None:
            self.pairs, opened = {}, []
            for at, word in enumerate(self.texts):
                is_template = self.kinds[at] == TEMPLATE
                if opened and (word in (')', ']', '}') and self.kinds[at] == MARK or is_template and word.startswith('}')):
                    self.pairs[opened.pop()] = at
                if word in ('(', '[', '{') and self.kinds[at] == MARK or is_template and word.endswith('${'):
                    opened.append(at)
            self.pairs.update((at, len(self.texts)) for at in opened)
        return self.pairs

    def own_ranges(self):
        """The ranges of tokens in which `require` is a parameter, and so no request."""
        pairs, words, kinds, ranges = self.read_pairs(), self.texts, self.kinds, []
        for first, last in pairs.items():
            if words[first] != '(' or 'require' not in words[first + 1:min(last, first + 12)]:
                continue
            body = last + 1 + (words[last + 1:last + 2] == ['=>'])
            is_function = body == last + 2 or 'function' in words[max(first - 3, 0):first]
            if is_function and words[body:body + 1] == ['{'] and all(kinds[at] == NAME or words[at] == ',' for at in range(first + 1, last)):
                ranges.append((body, pairs[body]))
        return ranges

    def calls(self):
        """What may be calls of `require` with a text first: that text, the token of the call, and whether nothing stands between the two but
        a parenthesis."""
        words, kinds = self.texts, self.kinds
        for at in range(2, len(words)):
            if kinds[at] == TEXT and words[at - 1] == '(' and kinds[at - 1] == MARK:
                before = plain = at - 3 if words[at - 2] == '?.' else at - 2
                while before > 0 and words[before] == ')' and kinds[before] == MARK:
                    before -= 1
                if before >= 0 and words[before] == 'require' and not self.is_member(before):
                    yield value_of(words[at]), before, before == plain

    def scanned(self):
        """What a source requests that is no program of the language, each with its place: by `require` where that is no parameter, by `from` and
        by `import`."""
        ranges, words, kinds = self.own_ranges(), self.texts, self.kinds
        found = [(before, text) for text, before, is_plain in self.calls()
                 if is_plain and words[before - 1:before] != ['new'] and not any(first < before < last for first, last in ranges)]
        for at in range(1, len(words)):
            if kinds[at] == TEXT:
                before = at - 2 if words[at - 1] == '(' else at - 1
                if before >= 0 and kinds[before] == NAME and not self.is_member(before):
                    if words[before] == 'import' or words[before] == 'from' and before == at - 1:
                        found.append((before, value_of(words[at])))
        return [(text, self.starts[before]) for before, text in sorted(found)]

    def forms(self):
        """How often forms of ECMA-262 that the language leaves out stand in it, by the names that docs/LANGUAGE.md has for them, and by its word
        one that has none as `async`. Fields of classes, and what a form is by its place alone, are not among them."""
        count, words, kinds = {}, self.texts, self.kinds
        for at, word in enumerate(words):
            kind, form = kinds[at], None
            before, behind = words[at - 1] if at else '', words[at + 1] if at + 1 < len(words) else ''
            if kind == REGEXP:
                form = 'regexp'
            elif kind == NUMBER:
                form = 'bigint' if word.endswith('n') else 'separator' if '_' in word else None
            elif kind == TEMPLATE:
                is_tagged = at and (kinds[at - 1] == NAME and before not in BEFORE_OPERAND or before in (')', ']') and kinds[at - 1] == MARK)
                form = 'tag' if word.startswith('`') and is_tagged else None
            elif word == '@':
                form = 'decorator'
            elif kind == NAME and not self.is_member(at):
                if word.startswith('#'):
                    form = 'private' if before not in ('.', '?.') else None
                elif '\\u' in word:
                    form = 'escape'
                elif word == 'function' and behind == '*':
                    form = 'generator'
                elif word in ('import', 'export', 'yield') and behind not in (':', '=', ')', ','):
                    # (of a generator that is a method nothing else is seen)
                    form = 'generator' if word == 'yield' else word
                elif word == 'async' and (behind in ('function', '(') or behind and kinds[at + 1] == NAME):
                    form = word
                elif (word, behind) in (('static', '{'), ('with', '('), ('__proto__', ':')):
                    form = word.strip('_')
            if form:
                count[form] = count.get(form, 0) + 1
        return count

    def use(self, name, members=(), writes=False):
        """Where a name stands that is no member, with these members behind it, and assigned where that is asked for, or None."""
        words = self.texts
        for at, word in enumerate(words):
            if word == name and self.kinds[at] == NAME and not self.is_member(at) and words[at + 1:at + 2] != [':']:
                last = at + 1 + 2 * len(members)
                is_path = words[at + 2:last:2] == list(members) and all(mark in ('.', '?.') for mark in words[at + 1:last:2])
                if is_path and (not writes or words[last:last + 1] and ASSIGNS.fullmatch(words[last]) or words[at - 1:at] in (['++'], ['--'])):
                    return self.starts[at]
        return None

    def globals_made(self):
        """The names that a source gives its global object: by `globalThis.x =`, `globalThis['x'] =` or `Object.defineProperty(globalThis, 'x', ..)`."""
        made, words = set(), self.texts
        for at, word in enumerate(words):
            if word == 'globalThis' and self.kinds[at] == NAME and not self.is_member(at):
                if words[at + 1:at + 2] == ['.'] and words[at + 3:at + 4] == ['=']:
                    made.add(words[at + 2])
                elif words[at + 1:at + 2] == ['['] and words[at + 3:at + 5] == [']', '='] and self.kinds[at + 2] == TEXT:
                    made.add(value_of(words[at + 2]))
                elif words[at - 2:at] == ['defineProperty', '('] and words[at + 1:at + 2] == [','] and self.kinds[at + 2:at + 3] == [TEXT]:
                    made.add(value_of(words[at + 2]))
        return made
