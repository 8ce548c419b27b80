// What operators give: each row is an expression and what ECMA-262 says it is worth, or the name of the error that it throws.
const it = Symbol.iterator;
const o = {};
const p = {};
const f = () => 0;
const a = [0];
a[7] = 1;
// Objects that become primitive values (ECMA-262, ToPrimitive).
const five = { valueOf: () => 5 };
const w = { valueOf: () => 'w' };
const seven = { toString: () => '7' };
const letter = { valueOf: () => 'a' };
const one = { valueOf: () => '1' };

const rows = [
  [() => 1 + 2, '3'],
  [() => 'a' + -1, 'a-1'],
  [() => 1 + '2', '12'],
  [() => null + 1, '1'],
  [() => true + true, '2'],
  [() => '' + null, 'null'],
  [() => undefined + 'x', 'undefinedx'],
  [() => '5' - ' 2 ', '3'],
  [() => '0x10' * true, '16'],
  [() => 6 / -3, '-2'],
  [() => -7 % 3, '-1'],
  [() => 2 ** 10, '1024'],
  [() => (-1) ** -3, '-1'],
  [() => 1 << 31, '-2147483648'],
  [() => -5 >> 1, '-3'],
  [() => -1 >>> 0, '4294967295'],
  [() => 6 & 3, '2'],
  [() => 6 ^ 3, '5'],
  [() => null | '4', '4'],
  [() => '10' < '9', 'true'],
  [() => '10' < 9, 'false'],
  [() => 2 <= 2, 'true'],
  [() => 3 > null, 'true'],
  [() => 1 >= 2, 'false'],
  [() => null == undefined, 'true'],
  [() => null == 0, 'false'],
  [() => '1' == true, 'true'],
  [() => it != it, 'false'],
  [() => o == o, 'true'],
  [() => o == null, 'false'],
  [() => 1 === '1', 'false'],
  [() => o !== p, 'true'],
  [() => typeof null, 'object'],
  [() => typeof o, 'object'],
  [() => typeof f, 'function'],
  [() => - '5', '-5'],
  [() => ~5, '-6'],
  [() => !'', 'true'],
  [() => void 0, 'undefined'],
  [() => 7 in a, 'true'],
  [() => 6 in a, 'false'],
  [() => it + 'x', 'TypeError'],
  [() => 'a' in 1, 'TypeError'],
  [() => 1 instanceof 1, 'TypeError'],
  [() => 1 instanceof o, 'TypeError'],
  [() => five + 1, '6'],
  [() => undefined + w, 'undefinedw'],
  [() => 1 - five, '-4'],
  [() => 1 != five, 'true'],
  [() => 5 == five, 'true'],
  [() => seven in a, 'true'],
  [() => 1 + letter, '1a'],
  [() => letter + 1, 'a1'],
  [() => 1 == one, 'true'],
];

let good = 0;
for (const [give, expected] of rows) {
  let got;
  try {
    got = '' + give();
  } catch (error) {
    got = error.name;
  }
  if (got === expected) {
    good += 1;
  } else {
    console.log(got, 'and not', expected);
  }
}
console.log(good, 'of', rows.length);
