// A package that turns bad tries to change what all packages share. Each attempt throws a TypeError, and what it aimed at works as before.
const attempts = [
  ['patch Array.prototype.push', () => { Array.prototype.push = () => 'stolen'; }],
  ['add to Object.prototype', () => { Object.prototype.leak = 1; }],
  ['define a getter on Object.prototype', () => { Object.defineProperty(Object.prototype, 'spy', { get: () => 1 }); }],
  ['delete JSON.parse', () => { delete JSON.parse; }],
  ['replace Object.keys', () => { Object.keys = () => []; }],
  ['change what arrays inherit', () => { Object.setPrototypeOf(Array.prototype, null); }],
  ['make a function of a text', () => { Function('return 1'); }],
  ['reach Function through a function', () => { (() => 1).constructor('return 1'); }],
];

for (const [what, attempt] of attempts) {
  try {
    attempt();
    console.log(what + ': it worked');
  } catch (error) {
    console.log(what + ': ' + error.name + ', ' + error.message);
  }
}

const list = [1];
list.push(2);
console.log(list.join(), JSON.parse('[3]')[0], Object.keys({ a: 1 }).join(), 'leak' in {});

// An object of one's own may still have a property that a frozen prototype has too.
const own = {};
own.toString = () => 'my own';
console.log('' + own);
