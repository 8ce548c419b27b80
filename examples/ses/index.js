'use strict';
// What the names of SES give here, one line each (docs/SES.md).
const keeper = require('keeper');

function line(what, f) {
  try {
    const value = f();
    console.log(`${what}: ${typeof value === 'object' || typeof value === 'function' ? value === null ? 'null' : typeof value : `${value}`}`);
  } catch (e) { console.log(`${what}: ${e.name}, ${e.message}`); }
}

const names = ['lockdown', 'repairIntrinsics', 'hardenIntrinsics', 'assert', 'HandledPromise', 'Promise', 'eval', 'Date', 'RegExp', 'AggregateError', 'Uint8Array', 'WeakRef', 'queueMicrotask', 'setTimeout', 'structuredClone', 'process'];
line('names that are not there', () => names.filter(name => !(name in globalThis)).join(' '));
line('typeof lockdown', () => typeof lockdown);
line('lockdown()', () => lockdown());

line('harden gives what it was given', () => { const it = {}; return harden(it) === it && harden(7) === 7; });
line('harden freezes prototypes, functions and getters', () => {
  class Door { get width() { return 1; } }
  harden(new Door());
  return Object.isFrozen(Door.prototype) && Object.isFrozen(Door) && Object.isFrozen(Object.getOwnPropertyDescriptor(Door.prototype, 'width').get);
});
line('harden runs getters', () => { let runs = 0; harden({ get it() { runs++; return 1; } }); return runs; });
line('what a hardened Map holds', () => { const it = harden(new Map()); it.set(1, 2); return it.get(1); });
line('harden of a proxy that refuses', () => harden(new Proxy({}, { preventExtensions: () => false })));
line('harden of another package\'s object', () => { harden(keeper.box); return Object.isFrozen(keeper.box) && Object.isFrozen(keeper.box.list); });
line('and its own package', () => keeper.put(1));
line('harden.isFake', () => harden.isFake);

line('typeof Compartment', () => typeof Compartment);
line('new Compartment()', () => new Compartment());
line('Compartment()', () => Compartment());
line('what its prototype has', () => Object.getOwnPropertyNames(Compartment.prototype).join(' '));

line('what an error has', () => Reflect.ownKeys(new Error('it')).join(' '));
line('stack', () => new Error('it').stack);
line('cause', () => new Error('it', { cause: 1 }).cause);
line('Error.captureStackTrace', () => Error.captureStackTrace);
line('Error.stackTraceLimit', () => Error.stackTraceLimit);
line('an error of another package', () => { try { keeper.fail(); } catch (e) { return `${e instanceof RangeError} ${e}`; } return ''; });
line('name and message of one', () => { const it = new Error('a'); it.name = 'Mine'; it.message = 'b'; return `${it}`; });

line('Function()', () => Function('return 1'));
line('the constructor of a function', () => (() => 1).constructor('return 1'));
line('the text of a function', () => `${() => 1}`);
line('Math.random', () => Math.random);
line('localeCompare', () => 'a'.localeCompare);
line('description of a symbol', () => Symbol('it').description);
line('Symbol.for', () => Symbol.for('it') === Symbol.for('it'));
line('__proto__', () => '__proto__' in {});

line('Array of another package', () => keeper.Array === Array);
line('globalThis of another package', () => keeper.globalThis === globalThis);
line('a global may be changed', () => { globalThis.Math = 1; return `${typeof Math} here, ${typeof keeper.globalThis.Math} there`; });
line('a name that was not declared', () => { undeclared = 1; });
line('Array.prototype.push = f', () => { Array.prototype.push = () => 1; });
line('a toString of one\'s own', () => { const it = {}; it.toString = () => 'own'; return `${it}`; });
line('a push of one\'s own', () => { const it = []; it.push = () => 'own'; return it.push(); });
line('the same, defined', () => { const it = []; Object.defineProperty(it, 'push', { value: () => 'own' }); return it.push(); });
line('over a hardened prototype', () => { const it = Object.create(harden({ f: () => 1 })); it.f = () => 2; return it.f(); });
line('the same, in a class', () => { class A { f() { return 1; } } harden(A); class B extends A { f() { return 2; } } return new B().f(); });

line('what console has', () => Object.keys(console).join(' '));
console.log(new Error('hidden'), {}, [1], () => 1, Symbol.iterator);
