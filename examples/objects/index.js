// For each line `KIND WORDS` of the input: the line once more, with ` = ` and what comes of it.
// bench/validate_table.py makes the lines, and says what has to come of each.
'use strict';

// What other functions and objects tell while they are asked. It stands in the place of the answer.
let told = [];
const foreign = require('party')((...words) => { told.push(words); });
const [F, G, H] = [foreign['1:0'], foreign['1:1'], foreign['1:2']];
// The objects that a line has made: 7:0, 7:1 and so on.
let own = [];

// Words of lines.

const hexadecimal = run => Number('0x' + run);
const unitsOf = run => {
  if (run[0] !== "'") return [hexadecimal(run)];
  const units = [];
  for (let at = 1; at < run.length; at++) units[at - 1] = run.charCodeAt(at);
  return units;
};
const pieceOf = word => {
  const units = [];
  for (const counted of word.split('+')) {
    const [run, count = '1'] = counted.split('*');
    const once = unitsOf(run), end = units.length + once.length * Number(count);
    for (let at = 0; units.length < end; at++) units[units.length] = once[at % once.length];
  }
  return String.fromCharCode(...units);
};
const textOf = word => word.split('|').map(pieceOf).reduce((front, back) => front + back);
const keyOf = word => word === '@iterator' ? Symbol.iterator : textOf(word);
const objectOf = word => word === 'null' ? null : word === 'c0' ? Array : word === 'Object.prototype' ? Object.prototype : word.startsWith('7:') ? own[Number(word.slice(2))] : foreign[word];
const valueOf = word => {
  if (word === 'undefined') return undefined;
  if (word === 'null') return null;
  if (word[0] === "'") return textOf(word);
  return word[0] === '#' ? objectOf(word.slice(1)) : Number(word);
};

// Words of answers.

// An array index as it is; another text is none.
const indexOf = text => {
  const list = [];
  list[text] = 0;
  return list.length > 0 ? list.length - 1 : undefined;
};
const keyShown = key => typeof key === 'symbol' ? '@iterator' : indexOf(key) === undefined ? "'" + key : key;
const nameOf = object => {
  if (object === null) return 'null';
  if (object === Array) return 'c0';
  if (object === Object.prototype) return 'Object.prototype';
  const at = own.indexOf(object);
  return at < 0 ? 'new' : '7:' + at;
};
const shown = value => typeof value === 'function' || typeof value === 'object' ? nameOf(value) : '' + value;
const digits = '0123456789ABCDEF';
const hexadecimals = number => (number > 15 ? hexadecimals((number - number % 16) / 16) : '') + digits[number % 16];
// Units in hexadecimal; those that are equal and stand beside one another as one with a count.
const runsOf = text => {
  const runs = [];
  for (let at = 0, count; at < text.length; at += count) {
    for (count = 1; at + count < text.length && text[at + count] === text[at]; count++) ;
    runs.push(hexadecimals(text.charCodeAt(at)) + (count > 1 ? '*' + count : ''));
  }
  return runs.join(' ');
};

// Cells, as bench/validate_table.py has them: a letter for the value or the two functions, and a digit for the attributes.

const VALUES = { V: 1, X: 2, U: undefined }, GETS = [undefined, F, H], SETS = [undefined, G, H], ACCESSORS = 'abcdefghi';
const properties = new Map();
for (let digit = 0; digit < 8; digit++) {
  const enumerable = (digit & 2) > 0, configurable = (digit & 1) > 0;
  for (const letter of Object.keys(VALUES)) properties.set(letter + digit, { value: VALUES[letter], writable: digit > 3, enumerable, configurable });
  for (let at = 0; at < 9 && digit < 4; at++) properties.set(ACCESSORS[at] + digit, { get: GETS[(at - at % 3) / 3], set: SETS[at % 3], enumerable, configurable });
}
const letterOf = value => value === 1 ? 'V' : value === 2 ? 'X' : value === undefined ? 'U' : '?';
const placeIn = (functions, it) => it === undefined ? 0 : it === functions[1] ? 1 : it === functions[2] ? 2 : 9;
const cellOf = property => {
  const letter = 'value' in property ? letterOf(property.value) : ACCESSORS[3 * placeIn(GETS, property.get) + placeIn(SETS, property.set)];
  return letter + ((property.writable ? 4 : 0) + (property.enumerable ? 2 : 0) + (property.configurable ? 1 : 0));
};
const objectWith = cell => {
  const object = Object.create(null);
  if (cell !== 'absent') Reflect.defineProperty(object, 'P', properties.get(cell));
  return object;
};
const cellAt = object => {
  const property = Object.getOwnPropertyDescriptor(object, 'P');
  return property === undefined ? 'absent' : cellOf(property);
};
// What a definition makes of an object with this property, or without one.
const made = (cell, extensible, definition) => {
  const object = objectWith(cell);
  if (extensible === 'closed') Object.preventExtensions(object);
  const accepted = Reflect.defineProperty(object, 'P', definition), after = cellAt(object);
  if (accepted) return after === cell ? '==' : after;
  return after === cell ? '--' : 'refused ' + after;
};
const FIELDS = { ...VALUES, u: undefined, t: true, f: false, F, G, H };
const put = (definition, name, letter) => {
  if (letter === '-') delete definition[name];
  else definition[name] = FIELDS[letter];
};
const TRUTHS = ['-', 't', 'f'];
// Nine cells: enumerable absent, true, false, and under each configurable absent, true, false.
const nine = (cell, extensible, definition) => {
  let word = '';
  for (let enumerable = 0; enumerable < 3; enumerable++) {
    put(definition, 'enumerable', TRUTHS[enumerable]);
    for (let configurable = 0; configurable < 3; configurable++) {
      put(definition, 'configurable', TRUTHS[configurable]);
      word += made(cell, extensible, definition);
    }
  }
  return word;
};

// Objects that are asked.

// A function without a prototype, and without the properties that may be taken out.
const bare = object => {
  for (const key of Reflect.ownKeys(object)) Reflect.deleteProperty(object, key);
  return Object.setPrototypeOf(object, null);
};
const repaired = Object.getOwnPropertyDescriptor(TypeError.prototype, 'name');
const makers = {
  plain: () => Object.create(null),
  array: () => bare([]),
  global: () => globalThis,
  proxy: () => { const { proxy, revoke } = Proxy.revocable({}, {}); revoke(); return proxy; },
  closure: () => bare(function (...given) { told.push(['run', this, ...given]); }),
  method: () => bare({ method(...given) { told.push(['run', this, ...given]); } }.method),
  bound: () => bare(Function.prototype.bind.call(own[0], 5, 6)),
  // A locked prototype, and the setter that stands over its property `name`.
  home: () => TypeError.prototype,
  repair: () => repaired.set,
};
// (the global has the names that it begins with)
const begun = new Set(Reflect.ownKeys(globalThis));
const keysShown = object => Reflect.ownKeys(object).filter(key => object !== globalThis || !begun.has(key)).map(keyShown).join(' ');
const valueShown = property => property === undefined ? 'none' : 'value' in property ? shown(property.value) : 'other';
// Whether a call is done: false where it throws an error of this text.
const done = (message, call) => {
  try {
    call();
    return true;
  } catch (error) {
    if (error.message !== message) throw error;
    return false;
  }
};
const methods = {
  GetPrototypeOf: object => nameOf(Object.getPrototypeOf(object)),
  SetPrototypeOf: (object, proto) => done('cannot set', () => Object.setPrototypeOf(object, objectOf(proto))),
  IsExtensible: object => Object.isExtensible(object),
  PreventExtensions: object => done('cannot define', () => Object.preventExtensions(object)),
  GetOwnProperty: (object, key) => valueShown(Object.getOwnPropertyDescriptor(object, keyOf(key))),
  DefineOwnProperty: (object, key, cell) => Reflect.defineProperty(object, keyOf(key), properties.get(cell)),
  HasProperty: (object, key) => Reflect.has(object, keyOf(key)),
  Get: (object, key, receiver) => shown(Reflect.get(object, keyOf(key), valueOf(receiver))),
  Set: (object, key, value, receiver) => Reflect.set(object, keyOf(key), valueOf(value), valueOf(receiver)),
  Delete: (object, key) => Reflect.deleteProperty(object, keyOf(key)),
  OwnPropertyKeys: keysShown,
  Call: (object, receiver, given) => shown(Reflect.apply(object, valueOf(receiver), [valueOf(given)])),
  Construct: (object, target, given) => shown(Reflect.construct(object, [valueOf(given)], objectOf(target))),
};
const stepped = step => {
  const [target, method, ...words] = step.split(' ');
  if (target === 'make') {
    own.push(makers[method]());
    return '';
  }
  told = [];
  let answer;
  try {
    answer = methods[method](objectOf(target), ...words);
  } catch (error) {
    answer = error.message;
  }
  return told.length > 0 ? told.map(words => words.map(shown).join(' ')).join(' ') : answer;
};

const kinds = {
  data: (cell, extensible, value) => TRUTHS.map(writable => {
    const definition = {};
    put(definition, 'value', value);
    put(definition, 'writable', writable);
    return nine(cell, extensible, definition);
  }).join(' '),
  accessor: (cell, extensible, get, sets) => sets.split('').map(set => {
    const definition = {};
    put(definition, 'get', get);
    put(definition, 'set', set);
    return nine(cell, extensible, definition);
  }).join(' '),
  fields: cell => {
    const object = objectWith(cell), again = Object.create(null);
    const accepted = Reflect.defineProperty(again, 'P', Object.getOwnPropertyDescriptor(object, 'P'));
    return cellAt(again) + ' ' + accepted;
  },
  write: word => textOf(word),
  index: word => {
    const index = indexOf(textOf(word));
    return index === undefined ? 'none text' : index + ' index';
  },
  compare: (first, second) => {
    const [front, back] = [textOf(first), textOf(second)];
    return front < back ? 'less' : front > back ? 'greater' : front === back ? 'equal' : 'none of these';
  },
  slice: (word, from, to) => runsOf(textOf(word).slice(Number(from), Number(to))),
  grow: end => {
    let text = '';
    const units = [];
    for (let unit = 0; unit < 3000; unit++) {
      text = end === 'front' ? String.fromCharCode(2999 - unit) + text : text + String.fromCharCode(unit);
      units[unit] = unit;
    }
    const whole = String.fromCharCode(...units);
    return [text.length, ...[0, 1499, 2999].map(at => text.charCodeAt(at)), whole === text, new Map([[whole, true]]).has(text)].join(' ');
  },
  decide: (...words) => {
    own = [];
    return words.join(' ').split('; ').map(stepped).filter(answer => answer !== '').join(' ');
  },
};

for (let line = input.line(); line !== null; line = input.line()) {
  const [kind, ...words] = line.split(' ');
  const answer = kinds[kind](...words);
  console.log(line + (answer === '' ? ' =' : ' = ' + answer));
}
