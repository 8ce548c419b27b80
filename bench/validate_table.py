#!/usr/bin/env python3
"""The cases of texts, properties and objects, and what has to come of them, line by line: what a program can show stands in examples/objects, in
its files input.txt and expected.txt, and what none can, as a call of the store by itself, in crates/js_object_rows, in stdin and stdout.

    bench/validate_table.py            writes the four files
    bench/validate_table.py --check    ends with status 1 where one of them differs

What definitions make of properties is worked out from the steps of ECMA-262's ValidateAndApplyPropertyDescriptor, which stand below one by one
and under its numbers; the bytes and units of texts by Python's own codecs. The other answers are worked rows, read off the standard and the
tables of natives and paths. Nothing is taken from the program's own code.

A property, or what becomes of it, is a cell of two signs:

  --        the definition is refused
  ==        it is accepted, and the property stays as it is
  V0 to V7  a data property with the value V; so X with the value X, U with undefined
  a0 to i3  an accessor property, with the functions

                        set undefined  G   H
         get undefined        a        b   c
             F                d        e   f
             H                g        h   i

The digit is the sum of 4 for writable, 2 for enumerable and 1 for configurable. A word has nine cells: enumerable absent, true, false, and
under each configurable absent, true, false. A line `data PROPERTY open VALUE` has a word for each writable (absent, true, false), and a line
`accessor PROPERTY open GET SETS` one for each set; - is a field that is absent, u undefined. An object that is not extensible is `closed`.
"""
import os
import sys

TOP = os.path.dirname(os.path.dirname(os.path.abspath(__file__)))
CRATE = os.path.join(TOP, 'crates/js_object_rows')
EXAMPLE = os.path.join(TOP, 'examples/objects')

# A value of the language is its type with what tells it from others of that type.
UNDEFINED = ('undefined',)
NULL = ('null',)
V, X = ('number', 1), ('number', 2)
F, G, H = ('object', 'F'), ('object', 'G'), ('object', 'H')

# Default attribute values.
DEFAULTS = {'value': UNDEFINED, 'writable': False, 'get': UNDEFINED, 'set': UNDEFINED, 'enumerable': False, 'configurable': False}


def same_value(x, y):
    """SameValue, at values and at attributes. No number here is NaN or a zero with a sign."""
    return type(x) is type(y) and x == y


def is_accessor(fields):
    """IsAccessorDescriptor."""
    return 'get' in fields or 'set' in fields


def is_data(fields):
    """IsDataDescriptor."""
    return 'value' in fields or 'writable' in fields


def is_generic(fields):
    """IsGenericDescriptor."""
    return not is_accessor(fields) and not is_data(fields)


def attributes(fields, names):
    """Each attribute is the field of that name, or has its default value."""
    return {name: fields[name] if name in fields else DEFAULTS[name] for name in names}


def validate_and_apply(o, extensible, desc, current):
    """ValidateAndApplyPropertyDescriptor (O, P, extensible, Desc, current). The object `o` has its property P under the key 'P'."""
    # 1. Assert: IsPropertyKey(P) is true.
    # 2. If current is undefined, then
    if current is None:
        # a. If extensible is false, return false.
        if not extensible:
            return False
        # b. If O is undefined, return true. (It is an object here.)
        # c. If IsAccessorDescriptor(Desc) is true, then create an own accessor property, with default values for the fields that Desc lacks.
        if is_accessor(desc):
            o['P'] = attributes(desc, ('get', 'set', 'enumerable', 'configurable'))
        # d. Else, create an own data property, with default values for the fields that Desc lacks.
        else:
            o['P'] = attributes(desc, ('value', 'writable', 'enumerable', 'configurable'))
        # e. Return true.
        return True
    # 3. Assert: current is a fully populated Property Descriptor.
    # 4. If Desc does not have any fields, return true.
    if not desc:
        return True
    # 5. If current.[[Configurable]] is false, then
    if current['configurable'] is False:
        # a. If Desc has a [[Configurable]] field and Desc.[[Configurable]] is true, return false.
        if 'configurable' in desc and desc['configurable'] is True:
            return False
        # b. If Desc has an [[Enumerable]] field and SameValue(Desc.[[Enumerable]], current.[[Enumerable]]) is false, return false.
        if 'enumerable' in desc and not same_value(desc['enumerable'], current['enumerable']):
            return False
        # c. If IsGenericDescriptor(Desc) is false and SameValue(IsAccessorDescriptor(Desc), IsAccessorDescriptor(current)) is false, return false.
        if not is_generic(desc) and not same_value(is_accessor(desc), is_accessor(current)):
            return False
        # d. If IsAccessorDescriptor(current) is true, then
        if is_accessor(current):
            # i. If Desc has a [[Get]] field and SameValue(Desc.[[Get]], current.[[Get]]) is false, return false.
            if 'get' in desc and not same_value(desc['get'], current['get']):
                return False
            # ii. If Desc has a [[Set]] field and SameValue(Desc.[[Set]], current.[[Set]]) is false, return false.
            if 'set' in desc and not same_value(desc['set'], current['set']):
                return False
        # e. Else if current.[[Writable]] is false, then
        elif current['writable'] is False:
            # i. If Desc has a [[Writable]] field and Desc.[[Writable]] is true, return false.
            if 'writable' in desc and desc['writable'] is True:
                return False
            # ii. If Desc has a [[Value]] field and SameValue(Desc.[[Value]], current.[[Value]]) is false, return false.
            if 'value' in desc and not same_value(desc['value'], current['value']):
                return False
    # 6. If O is not undefined, then (it is an object here)
    # a. If IsDataDescriptor(current) is true and IsAccessorDescriptor(Desc) is true, then
    if is_data(current) and is_accessor(desc):
        # i. and ii. Configurable and enumerable are the fields of Desc, or else those of current.
        configurable = desc['configurable'] if 'configurable' in desc else current['configurable']
        enumerable = desc['enumerable'] if 'enumerable' in desc else current['enumerable']
        # iii. Replace the property with an accessor property with these two, and with default values for the other fields that Desc lacks.
        o['P'] = dict(attributes(desc, ('get', 'set')), configurable=configurable, enumerable=enumerable)
    # b. Else if IsAccessorDescriptor(current) is true and IsDataDescriptor(Desc) is true, then
    elif is_accessor(current) and is_data(desc):
        # i. and ii. Configurable and enumerable are the fields of Desc, or else those of current.
        configurable = desc['configurable'] if 'configurable' in desc else current['configurable']
        enumerable = desc['enumerable'] if 'enumerable' in desc else current['enumerable']
        # iii. Replace the property with a data property with these two, and with default values for the other fields that Desc lacks.
        o['P'] = dict(attributes(desc, ('value', 'writable')), configurable=configurable, enumerable=enumerable)
    # c. Else, for each field of Desc, set the corresponding attribute of the property to the value of the field.
    else:
        for name in desc:
            o['P'][name] = desc[name]
    # 7. Return true.
    return True


# The letters of accessors, by get and set.
ACCESSORS = {
    'a': (UNDEFINED, UNDEFINED), 'b': (UNDEFINED, G), 'c': (UNDEFINED, H),
    'd': (F, UNDEFINED), 'e': (F, G), 'f': (F, H),
    'g': (H, UNDEFINED), 'h': (H, G), 'i': (H, H),
}
DATA = {'V': V, 'X': X, 'U': UNDEFINED}


def property_of(cell):
    """The property that a cell writes, or None."""
    if cell == 'absent':
        return None
    letter, digit = cell[0], int(cell[1])
    fields = {'enumerable': digit & 2 != 0, 'configurable': digit & 1 != 0}
    if letter in DATA:
        return dict(fields, value=DATA[letter], writable=digit & 4 != 0)
    get, set_ = ACCESSORS[letter]
    return dict(fields, get=get, set=set_)


CELLS = {}
for letter in sorted(DATA):
    for digit in range(8):
        CELLS['%s%d' % (letter, digit)] = property_of('%s%d' % (letter, digit))
for letter in sorted(ACCESSORS):
    for digit in range(4):
        CELLS['%s%d' % (letter, digit)] = property_of('%s%d' % (letter, digit))


def cell_of(there):
    """The cell that writes a property."""
    return next(cell for cell in CELLS if CELLS[cell] == there)


def outcome(old, extensible, desc):
    """The cell of what a definition makes of an object with this property, or without it."""
    o = {} if old is None else {'P': dict(old)}
    if not validate_and_apply(o, extensible, desc, old):
        # The rule refuses, and has changed nothing.
        assert o == ({} if old is None else {'P': old})
        return '--'
    return '==' if o['P'] == old else cell_of(o['P'])


ABSENT = None
VALUES = (ABSENT, V, X)
TRUTHS = (ABSENT, True, False)
GETS = (ABSENT, UNDEFINED, F, H)
SETS = (ABSENT, UNDEFINED, G, H)


def definition(**fields):
    """A definition, without the fields that are absent."""
    return {name: fields[name] for name in fields if fields[name] is not ABSENT}


def word(old, extensible, **fields):
    """Nine cells: enumerable absent, true, false, and under each configurable absent, true, false."""
    return ''.join(outcome(old, extensible, definition(enumerable=e, configurable=c, **fields)) for e in TRUTHS for c in TRUTHS)


LETTER = {ABSENT: '-', UNDEFINED: 'u', V: 'V', X: 'X', F: 'F', G: 'G', H: 'H'}


def definition_lines(cell, extensible):
    """Seven lines: one a value, with a word for each writable, and then one a get, with a word for each set."""
    old, there = property_of(cell), '%s %s' % (cell, 'open' if extensible else 'closed')
    for value in VALUES:
        yield 'data %s %s' % (there, LETTER[value]), ' '.join(word(old, extensible, value=value, writable=writable) for writable in TRUTHS)
    for get in GETS:
        # Neither get nor set is the first word of all.
        sets = SETS if get is not ABSENT else SETS[1:]
        case = 'accessor %s %s %s' % (there, LETTER[get], ''.join(LETTER[set_] for set_ in sets))
        yield case, ' '.join(word(old, extensible, get=get, set=set_) for set_ in sets)


# The rows: each property that is there, and a few on an object that is not extensible.
PRESENT = ['V%d' % digit for digit in range(8)] + ['%s%d' % (letter, digit) for letter in 'abde' for digit in range(4)]
ROWS = [('absent', True), ('absent', False)] + [(old, True) for old in PRESENT] + [(old, False) for old in ('V0', 'V7', 'e0', 'e3')]

# Values of every kind, as a line writes each; the two names of one text are made in different ways.
KINDS = [
    ('undefined', UNDEFINED), ('null', NULL),
    ('true', ('boolean', True)), ('false', ('boolean', False)),
    ('0', ('number', 0)), ('1', ('number', 1)), ('-1', ('number', -1)),
    ("'", ('string', '')), ("'ab", ('string', 'ab')), ("'a|'b", ('string', 'ab')), ("'ba", ('string', 'ba')), ("'1", ('string', '1')),
    ('@iterator', ('symbol', 'iterator')), ("@for'ab", ('symbol', 'for ab')), ("@for'ba", ('symbol', 'for ba')),
    ('@1:0', ('symbol', 1, 0)), ('@1:1', ('symbol', 1, 1)), ('@2:0', ('symbol', 2, 0)),
    ('#1:0', ('object', 1, 0)), ('#1:1', ('object', 1, 1)), ('#2:0', ('object', 2, 0)), ('#c0', ('object', 'common', 0)), ('#c1', ('object', 'common', 1)),
]


def is_kept(there, value):
    """Whether a definition with a value alone is accepted by a property with another that is neither writable nor configurable."""
    fixed = {'value': there, 'writable': False, 'enumerable': False, 'configurable': False}
    o = {'P': dict(fixed)}
    accepted = validate_and_apply(o, True, {'value': value}, fixed)
    assert o == {'P': fixed}
    return accepted


# Keys, each with what it is the same as; a text of one piece and one of many, long and short.
NAMES = [
    ("'7", 7), ("'8", 8), ("'ab", 'ab'), ("'a|'b", 'ab'), ("'a*2000", 'a' * 2000), ("'a*1000|'a*1000", 'a' * 2000), ("'a*1999+'b", 'a' * 1999 + 'b'),
    ('@iterator', ('iterator',)), ("@for'ab", ('for', 'ab')), ("@for'a|'b", ('for', 'ab')), ('@1:2', (1, 2)), ('@2:2', (2, 2)), ('@1:3', (1, 3)),
]


def rows_of(kind, names, is_same):
    """A line a name, with a sign for each: = where it is the same, and else -."""
    words = ' '.join(name for name, _ in names)
    for name, there in names:
        yield '%s %s %s' % (kind, name, words), ''.join('=' if is_same(there, given) else '-' for _, given in names)


def runs(numbers):
    """Numbers in hexadecimal; those that are equal and stand beside one another as one with a count."""
    shown = []
    for number in numbers:
        if shown and shown[-1][0] == number:
            shown[-1][1] += 1
        else:
            shown.append([number, 1])
    return ' '.join('%X' % number if count == 1 else '%X*%d' % (number, count) for number, count in shown)


def units_in(text):
    """The UTF-16 of a text, as numbers."""
    coded = text.encode('utf-16-be', 'surrogatepass')
    return [coded[at] * 256 + coded[at + 1] for at in range(0, len(coded), 2)]


def utf8_in(text):
    """The UTF-8 of a text, with U+FFFD for each surrogate without its partner."""
    return text.encode('utf-16-be', 'surrogatepass').decode('utf-16-be', 'replace').encode()


def fault_place(bytes_):
    """The first byte with which no UTF-8 text goes on: that which can't begin a character, or that behind what could."""
    try:
        bytes_.decode()
    except UnicodeDecodeError as fault:
        return fault.start if fault.reason == 'invalid start byte' else fault.end
    return None


# The smile and what stands at both sides of a seam between its halves.
SMILE = '\U0001F600'
SEAM = "'a*300+D83D|DE00+'b*300"
LIMIT = 1048576
TEXTS = ['', 'LAVA', '\u00e9', '\u20ac', '\uffff', SMILE + '!', '\ud83d!', '\ude00\ud83d', 'A\ud83d']


def text_cases():
    """Cases of texts that a program shows: what is written of them, and ECMA-262's operations on Strings."""
    for text in TEXTS:
        yield "write %s" % ('+'.join('%X' % unit for unit in units_in(text)) or "'"), utf8_in(text).decode()
    yield 'write ' + SEAM, 'a' * 300 + SMILE + 'b' * 300
    # Array indices are the integers up to 2 ** 32 - 2.
    for text in ('4294967294', '4294967295', '01', '', '0', '1e3'):
        index = str(int(text)) if text.isdigit() and text == str(int(text)) and int(text) <= 2 ** 32 - 2 else None
        yield "index '" + text, '%s index' % index if index else 'none text'
    for first, second in (('a', 'b'), ('a', 'B'), ('a', 'ab'), ('ab', 'ab')):
        yield "compare '%s '%s" % (first, second), 'less' if first < second else 'greater' if first > second else 'equal'
    yield "compare %s 'a*300+D83D+DE00+'b*300" % SEAM, 'equal'
    yield "compare %s 'a*300+D83D+DE00+'b*301" % SEAM, 'less'
    yield "slice 'banana 0 2", runs(units_in('ba'))
    yield "slice 'bana|'na 3 6", runs(units_in('ana'))
    yield 'slice %s 299 303' % SEAM, runs(units_in('a' + SMILE + 'b'))
    for end in ('end', 'front'):
        yield 'grow ' + end, '3000 0 1499 2999 true true'


def text_calls():
    """Calls of texts that no program makes by themselves: bytes that become one, or none, the limit, and a look for a part from a place past the end."""
    yield 'units ' + SEAM, '602 ' + runs(units_in('a' * 300 + SMILE + 'b' * 300))
    for text in ('', 'LAVA', '\u00e9\u20ac', SMILE, '\uffff'):
        yield "utf8 %s" % ('+'.join('%X' % byte for byte in text.encode()) or "'"), runs(units_in(text))
    for bytes_ in (b'a\xff', b'\xed\xa0\x80', b'\xc3', b'ab\xc0\x80'):
        yield 'utf8 ' + '+'.join('%X' % byte for byte in bytes_), 'not UTF-8 at %d' % fault_place(bytes_)
    # A text has at most 1,048,576 units.
    yield "units 'a*%d" % (LIMIT + 1), 'too long'
    yield "units 'a*%d" % LIMIT, '%d 61*%d' % (LIMIT, LIMIT)
    yield "units 'a*%d|'a" % LIMIT, 'too long'
    yield "utf8 'a*%d" % LIMIT, '61*%d' % LIMIT
    yield "utf8 'a*%d" % (LIMIT + 1), 'too long'
    for part, start in (('ana', 0), ('ana', 2), ('ana', 4), ('', 6), ('', 7), ('bananas', 0)):
        place = 'banana'.find(part, start)
        yield "find 'banana '%s %d" % (part, start), 'none' if place < 0 else str(place)
    yield "find %s 'a+D83D+DE00+'b 0" % SEAM, '299'
    yield "find %s 'a+D83D+DE00+'b 300" % SEAM, 'none'


def name_cases():
    """Natives with their numbers and operands and whether they cross, common objects by the order of their paths, errors and their texts."""
    for name, number, operands, crosses in (('getProto', 1, '1', 'false'), ('concat', 26, 'none', 'false'), ('mapSet', 37, '4', 'true'), ('isModule', 52, '1', 'false')):
        yield 'native ' + name, '%s %d %s %s' % (name, number, operands, crosses)
    yield 'native getproto', 'none'
    for path, place in (('Array', 0), ('Array.prototype', 4), ('Array.prototype.push', 18), ('get Map.prototype.size', 183), ('set TypeError.prototype.name', 221)):
        yield 'common ' + path, str(place)
        yield 'path %d' % place, path
    yield 'common Map.prototype.size', 'none'
    yield 'path 222', 'none'
    for name, error, text in (
        ('NotAFunction', 'TypeError', 'not a function'), ('BadJson', 'SyntaxError', 'bad JSON'),
        ('NotDefined', 'ReferenceError', 'x is not defined'), ('InvalidCount', 'RangeError', 'invalid count'),
    ):
        yield 'fault ' + name, '%s %s' % (error, runs(units_in(text)))


# The thirteen internal methods of ECMA-262, and what parties ask of each other.
ASKS = [
    'GetPrototypeOf', 'SetPrototypeOf', 'IsExtensible', 'PreventExtensions', 'GetOwnProperty', 'DefineOwnProperty', 'HasProperty', 'Get', 'Set', 'Delete',
    'OwnPropertyKeys', 'Call', 'Construct', 'Import', 'Slot', 'Make', 'Queue', 'Turn',
]
REPLIES = ['value', 'prototype', 'truth', 'property', 'absent', 'keys', 'throw']


def copy_cases():
    """Copies are of the kind of what was copied."""
    for kind, names in (('ask', ASKS), ('reply', REPLIES), ('cross', ['object', 'party', 'answer'])):
        for name in names:
            yield '%s %s' % (kind, name), name


# Keys that are written in turn, or taken out where a `-` stands before them, and the own keys after that, as OrdinaryOwnPropertyKeys lists them.
ORDERS = [
    ('b 2 a 1 @iterator', '1 2 b a @iterator'),
    ('@iterator b 0', '0 b @iterator'),
    ('b a -b b', 'a b'),
    ('a b a', 'a b'),
    ('a -b -0 -@iterator', 'a'),
    ('a -a', ''),
    ('0 1 2 -1 3', '0 2 3'),
    ('0 1 2 -1 -2 5 1', '0 1 5'),
    ('1 0 2 1', '0 1 2'),
    ('4294967294 4294967295 10 9 01', '9 10 4294967294 4294967295 01'),
    ('7 3 5 -5 x 4 -7', '3 4 x'),
    ('@iterator -@iterator y @iterator', 'y @iterator'),
]


def key_word(name):
    """How a line writes a key."""
    return name if name.startswith('@') else "'" + name


def key_shown(name):
    """How an answer writes it: an array index as its number."""
    return name if name.isdigit() and name == str(int(name)) and int(name) <= 2 ** 32 - 2 else key_word(name)


def store_cases():
    """What is done to stores, and what they answer."""
    for words, names in ORDERS:
        steps = ['0 remove ' + key_word(it[1:]) if it.startswith('-') else '0 write %s 1' % key_word(it) for it in words.split()]
        yield 'store make; %s; 0 keys' % '; '.join(steps), ' '.join(['0'] + [key_shown(it) for it in names.split()])
    yield 'store party; count', '7 0'
    yield 'store make; make function; count; 0 marks; 1 marks; 0 proto; 1 proto; 1 extensible', '0 1 2 Object false false Function true true null c3 true'
    yield (
        'store make; make; 1 set_proto c0; 1 prevent; 1 swap c1; 1 slot; 0 slot; 1 proto; 0 proto; 1 extensible; 0 extensible',
        '0 1 plain chamber plain c0 null false true',
    )
    yield "store make; make; 0 write '5 1; 0 write '5 2; 0 keep '5; 0 own '5; 0 own '4; 1 own '5; 0 remove '5; 0 own '5", '0 1 2 none none none'
    yield "store make; 0 write @1:0 1; 0 write @2:0 2; 0 own @1:0; 0 own @2:0; 0 own @1:1", '0 1 2 none'
    # A bare common part has 222 empty frozen objects without a prototype.
    for place in (0, 221):
        yield 'bare %d' % place, '222 Object false false null false plain none'
    yield 'freeze', '0'
    yield 'foreign 2:0 function; 2:0 plain; 2:0 marks; 3:0 marks', 'Function true true Object false false'


# What objects answer, step by step of ECMA-262's algorithms. The objects that a line makes are 7:0, 7:1 and so on; a made object answers nothing. 1:0, 1:1, 9:0 and 9:4 are of another party: an ask that goes there is
# shown with its receiver, or with `this` and the arguments, and a body that runs is shown so too. `new` is an object that no line has made.
# Cells write properties: V is the value 1, an accessor has F (1:0) and G (1:1) or neither (a), the setter alone (b), the getter alone (d); then 4 for writable, 2 for enumerable, 1 for configurable.
CHAIN = 'make plain; make plain; make plain; 7:1 SetPrototypeOf 7:0; 7:2 SetPrototypeOf 7:1'
DECISIONS = [
    # OrdinaryGet and OrdinaryHasProperty go up; a getter gets the receiver.
    (CHAIN + "; 7:0 DefineOwnProperty 'x V0; 7:2 Get 'x #7:2; 7:2 HasProperty 'x; 7:2 Get 'y #7:2; 7:2 HasProperty 'y", 'true true true 1 true undefined false'),
    (CHAIN + "; 7:0 DefineOwnProperty 'x e3; 7:2 Get 'x #7:2", 'true true true 1:0 Call 7:2'),
    (CHAIN + "; 7:0 DefineOwnProperty 'x e3; 7:2 Get 'x 5", 'true true true 1:0 Call 5'),
    (CHAIN + "; 7:0 DefineOwnProperty 'x b3; 7:2 Get 'x #7:2", 'true true true undefined'),
    # OrdinarySet: a writable property above is set on the receiver with all attributes true, one that is not writable stops it.
    (CHAIN + "; 7:0 DefineOwnProperty 'x V4; 7:2 Set 'x 2 #7:2; 7:2 GetOwnProperty 'x; 7:0 GetOwnProperty 'x; 7:2 Delete 'x", 'true true true true 2 1 true'),
    (CHAIN + "; 7:0 DefineOwnProperty 'x V0; 7:2 Set 'x 2 #7:2; 7:2 GetOwnProperty 'x", 'true true true false none'),
    (CHAIN + "; 7:0 DefineOwnProperty 'x e3; 7:2 Set 'x 2 #7:2", 'true true true 1:1 Call 7:2 2'),
    (CHAIN + "; 7:0 DefineOwnProperty 'x d3; 7:2 Set 'x 2 #7:2; 7:2 GetOwnProperty 'x", 'true true true false none'),
    ("make plain; 7:0 DefineOwnProperty 'x V4; 7:0 Set 'x 2 #7:0; 7:0 Get 'x 5; 7:0 Delete 'x; 7:0 Set 'x 3 5", 'true true 2 false false'),
    # The receiver is another object: its own property decides.
    ("make plain; make plain; 7:1 DefineOwnProperty 'x V3; 7:0 Set 'x 2 #7:1; 7:0 Set 'y 2 #7:1; 7:1 OwnPropertyKeys; 7:0 OwnPropertyKeys", "true false true 'x 'y"),
    ("make plain; make plain; 7:1 DefineOwnProperty 'x e3; 7:0 Set 'x 2 #7:1; 7:1 PreventExtensions; 7:0 Set 'y 2 #7:1", 'true false true false'),
    # OrdinaryDelete and OrdinaryPreventExtensions.
    ("make plain; 7:0 Delete 'x; 7:0 DefineOwnProperty 'x V0; 7:0 Delete 'x; 7:0 DefineOwnProperty 'y V1; 7:0 PreventExtensions; 7:0 Delete 'y; 7:0 DefineOwnProperty 'y V1; 7:0 IsExtensible; 7:0 OwnPropertyKeys", "true true false true true true false false 'x"),
    ("make plain; 7:0 DefineOwnProperty 'b V7; 7:0 DefineOwnProperty '1 V7; 7:0 DefineOwnProperty @iterator V7; 7:0 DefineOwnProperty 'a V7; 7:0 OwnPropertyKeys", "true true true true 1 'b 'a @iterator"),
    # OrdinarySetPrototypeOf: no cycle, which a proxy, a common and a foreign object end the look for.
    (CHAIN + '; 7:0 SetPrototypeOf 7:2; 7:0 SetPrototypeOf 7:0; 7:0 SetPrototypeOf 9:0; 7:0 SetPrototypeOf c0; 7:0 GetPrototypeOf', 'true true false false true true c0'),
    ('make plain; make proxy; 7:0 SetPrototypeOf 7:1; 7:0 PreventExtensions; 7:0 SetPrototypeOf 7:1; 7:0 SetPrototypeOf null', 'true true true false'),
    # A global has an immutable prototype, which is Object.prototype.
    ("make global; make plain; 7:0 SetPrototypeOf 7:1; 7:0 SetPrototypeOf Object.prototype; 7:0 Set 'x 2 #7:0; 7:0 Get 'x #7:0", 'false true true 2'),
    # Functions: a body runs with `this` and the arguments; a bound function has its own `this` and its own arguments first, and its target is its own new target.
    ('make closure; make plain; 7:0 Call #7:1 8; 7:0 Construct 7:0 8; 7:1 Call 5 8; 7:1 Construct 7:1 8', 'run 7:1 8 run new 8 not a function not a constructor'),
    ('make closure; make bound; 7:1 Call #7:1 8; 7:1 Construct 7:1 8', 'run 5 6 8 run new 6 8'),
    # The setter that stands over a locked prototype: never on it or on a primitive; a property is set where the receiver has it, and else made.
    ("make home; make repair; make plain; 7:1 Call #7:0 4; 7:1 Call 5 4; 7:1 Call #7:2 4; 7:2 GetOwnProperty 'name; 7:1 Call #7:2 8; 7:2 GetOwnProperty 'name", 'cannot set cannot set undefined 4 undefined 8'),
    ("make home; make repair; make plain; make plain; 7:2 PreventExtensions; 7:1 Call #7:2 4; 7:3 DefineOwnProperty 'name V0; 7:1 Call #7:3 4", 'true cannot define true cannot set'),
    # An object of another party is asked where it is a prototype.
    ("make plain; 7:0 SetPrototypeOf 9:4; 7:0 Get 'x 5; 7:0 Set 'x 2 #7:0; 7:0 HasProperty 'x", 'true 9:4 Get 5 9:4 Set 7:0 9:4 HasProperty'),
    # Arrays, ArraySetLength and [[DefineOwnProperty]]: elements go from the highest down, until one stays; an element at or past the length raises it.
    ("make array; 7:0 DefineOwnProperty '0 V7; 7:0 DefineOwnProperty '1 V7; 7:0 DefineOwnProperty '2 V6; 7:0 DefineOwnProperty '3 V7; 7:0 DefineOwnProperty '4 V7; 7:0 Set 'length 1 #7:0; 7:0 Get 'length 5; 7:0 OwnPropertyKeys", "true true true true true false 3 0 1 2 'length"),
    ("make array; 7:0 DefineOwnProperty '4294967294 V7; 7:0 Get 'length 5; 7:0 DefineOwnProperty '7 V7; 7:0 DefineOwnProperty '3000000000 V7; 7:0 Set 'length 0 #7:0; 7:0 OwnPropertyKeys; 7:0 Get 'length 5", "true 4294967295 true true true 'length 0"),
    # A length that is not writable stays, and no element comes at or past it.
    ("make array; 7:0 DefineOwnProperty 'length V0; 7:0 DefineOwnProperty '0 V7; 7:0 DefineOwnProperty '1 V7; 7:0 Set 'length 1 #7:0; 7:0 DefineOwnProperty 'length V0; 7:0 DefineOwnProperty 'length V4; 7:0 OwnPropertyKeys", "true true false false true false 0 'length"),
    # A number that is no length; another value is made a number, a text of digits to theirs and null to 0.
    ("make array; 7:0 Set 'length -1 #7:0; 7:0 Set 'length 4294967296 #7:0; 7:0 Set 'length 4294967295 #7:0; 7:0 Get 'length 5; 7:0 Set 'length '7 #7:0; 7:0 Get 'length 5; 7:0 Set 'length null #7:0; 7:0 Get 'length 5", 'invalid length invalid length true 4294967295 true 7 true 0'),
    # Elements go before the length stops being writable.
    ("make array; 7:0 DefineOwnProperty '0 V6; 7:0 DefineOwnProperty '1 V7; 7:0 DefineOwnProperty '2 V7; 7:0 DefineOwnProperty 'length V0; 7:0 GetOwnProperty '1; 7:0 DefineOwnProperty '1 V7; 7:0 Get 'length 5", 'true true true true none false 1'),
    # An array that is not extensible, and what may not become of its length.
    ("make array; 7:0 PreventExtensions; 7:0 DefineOwnProperty '0 V7; 7:0 Get 'length 5; 7:0 Set 'length 4 #7:0; 7:0 Delete 'length; 7:0 DefineOwnProperty 'length e3; 7:0 Set 'x 1 #7:0", 'true false 0 true false false false'),
    # What stands where elements stay, once the length stops being writable; a definition that is refused takes none out.
    ("make array; 7:0 DefineOwnProperty '0 V7; 7:0 DefineOwnProperty '1 V7; 7:0 DefineOwnProperty '2 V6; 7:0 DefineOwnProperty '3 V7; 7:0 DefineOwnProperty 'length V0; 7:0 Get 'length 5; 7:0 OwnPropertyKeys; 7:0 DefineOwnProperty '3 V7; 7:0 Set 'length 4 #7:0", "true true true true false 3 0 1 2 'length false false"),
    ("make array; 7:0 DefineOwnProperty '0 V7; 7:0 DefineOwnProperty '1 V7; 7:0 DefineOwnProperty 'length V6; 7:0 Get 'length 5; 7:0 OwnPropertyKeys", "true true false 2 0 1 'length"),
    # Set makes elements, and sets the length of a receiver; 4294967295 is no array index.
    ("make array; 7:0 Set '0 4 #7:0; 7:0 Set '2 4 #7:0; 7:0 Get 'length 5; 7:0 Set '4294967295 4 #7:0; 7:0 Get 'length 5; 7:0 OwnPropertyKeys", "true true 3 true 3 0 2 'length '4294967295"),
    ("make plain; make array; 7:0 Set 'length 3 #7:1; 7:1 Get 'length 5; 7:0 OwnPropertyKeys", 'true 3'),
    # The length of an array that is a prototype.
    ("make array; make plain; 7:1 SetPrototypeOf 7:0; 7:1 Set 'length 4 #7:1; 7:0 Get 'length 5; 7:1 Get 'length 5; 7:0 DefineOwnProperty 'x V7; 7:0 DefineOwnProperty '0 e3; 7:0 Get 'length 5", 'true true 0 4 true true 1'),
]

# What only the crate shows: objects of the bare common part don't change, what is no object is refused, and so is what no object is asked.
DECISION_CALLS = [
    ("c0 Get 'x 5; c0 Set 'x 2 #c0; c0 DefineOwnProperty 'x V0; c0 Delete 'x; c0 PreventExtensions; c0 IsExtensible; c0 SetPrototypeOf null; c0 SetPrototypeOf c1; c0 OwnPropertyKeys", 'undefined false false true true false true false'),
    ("c0 GetPrototypeOf; c0 GetOwnProperty 'x; c0 HasProperty 'x; c0 Call 4 8; c0 Construct c0 8", 'null none false not a function not a constructor'),
    ("make plain; 7:1 IsExtensible; 9:4 IsExtensible; c222 IsExtensible; 7:0 Turn", 'not an object not an object not an object wrong kind'),
]

# Every method at every kind of object: of each kind its prototype before and what comes of setting that, its first key, and what comes of Call and Construct. The object is 7:2; 7:0 is a closure with the property `g`, and the target, global or prototype of the kinds that have one.
METHODS = "make closure; 7:0 DefineOwnProperty 'g V7; make plain; make %s; 7:2 GetPrototypeOf; 7:2 SetPrototypeOf 7:1; 7:2 GetPrototypeOf; 7:2 DefineOwnProperty 'x V7; 7:2 GetOwnProperty 'x; 7:2 HasProperty 'x; 7:2 Set 'x 2 #7:2; 7:2 Get 'x 5; 7:2 OwnPropertyKeys; 7:2 Delete 'x; 7:2 GetOwnProperty 'x; 7:2 IsExtensible; 7:2 PreventExtensions; 7:2 IsExtensible; 7:2 DefineOwnProperty 'x V7; 7:2 Call 4 8; 7:2 Construct 7:2 8"
IS_SET, IS_FIXED = 'null true 7:1', 'Object.prototype false Object.prototype'
NO_FUNCTION, NO_CONSTRUCTOR = 'not a function', 'not a constructor'
METHODS_AT = [
    ('plain', IS_SET, '', NO_FUNCTION, NO_CONSTRUCTOR),
    ('array', IS_SET, " 'length", NO_FUNCTION, NO_CONSTRUCTOR),
    # Of the global the names are left out that it begins with.
    ('global', IS_FIXED, '', NO_FUNCTION, NO_CONSTRUCTOR),
    # A constructor keeps its property `prototype`.
    ('closure', IS_SET, " 'prototype", 'run 4 8', 'run new 8'),
    ('method', IS_SET, '', 'run 4 8', NO_CONSTRUCTOR),
    ('bound', IS_SET, '', 'run 5 6 8', 'run new 6 8'),
]
# Functions of the machine that no program can change.
METHODS_AT_HELD = [
    # The machine itself runs a `require`.
    ('require', IS_SET, '', NO_FUNCTION, NO_CONSTRUCTOR),
    # A live accessor gets or sets the property `g` of 7:0, which is 1, or the member `m` of that: a number has no such property, and none can be set on it.
    ('getter', IS_SET, '', '1', NO_CONSTRUCTOR),
    ('setter', IS_SET, '', 'undefined', NO_CONSTRUCTOR),
    ('member_getter', IS_SET, '', 'undefined', NO_CONSTRUCTOR),
    ('member_setter', IS_SET, '', 'cannot set', NO_CONSTRUCTOR),
    # A repair getter gives its value, 9; a repair setter sets nothing on a primitive.
    ('repair_getter', IS_SET, '', '9', NO_CONSTRUCTOR),
    ('repair', IS_SET, '', 'cannot set', NO_CONSTRUCTOR),
]


def decisions_of(steps_of, kinds):
    """What objects decide, and then every method at each of these kinds."""
    for steps, answers in steps_of:
        yield 'decide ' + steps, answers
    for kind, protos, key, called, constructed in kinds:
        yield 'decide ' + METHODS % kind, "true %s true 1 true true 2%s 'x true none true true false false %s %s" % (protos, key, called, constructed)


def cases_of_crate():
    """Each line that only the crate shows, with what has to come of it."""
    yield from text_calls()
    yield from name_cases()
    yield from rows_of('values', KINDS, is_kept)
    yield from rows_of('keys', NAMES, lambda there, given: there == given)
    yield from copy_cases()
    yield from store_cases()
    yield from decisions_of(DECISION_CALLS, METHODS_AT_HELD)


def cases_of_example():
    """Each line that a program shows, with what has to come of it."""
    yield from text_cases()
    # All fields of a property make it.
    for cell in PRESENT:
        yield 'fields ' + cell, cell + ' true'
    yield from decisions_of(DECISIONS, METHODS_AT)
    for cell, extensible in ROWS:
        yield from definition_lines(cell, extensible)


def files():
    """The path and the text of each file."""
    for cases, given, printed in (cases_of_crate(), f'{CRATE}/stdin', f'{CRATE}/stdout'), (cases_of_example(), f'{EXAMPLE}/input.txt', f'{EXAMPLE}/expected.txt'):
        lines = list(cases)
        yield given, ''.join(case + '\n' for case, _ in lines)
        yield printed, ''.join('%s =%s\n' % (case, ' ' + answer if answer else '') for case, answer in lines)


def main():
    if sys.argv[1:] not in ([], ['--check']):
        sys.exit(__doc__)
    for path, text in files():
        if not sys.argv[1:]:
            with open(path, 'w', encoding='utf-8') as file:
                file.write(text)
        else:
            with open(path, encoding='utf-8') as file:
                if file.read() != text:
                    sys.exit('%s differs' % path)


main()
