'use strict';
// Packages that ask for Node's modules, and find packages of node_modules; and Node's global names, which this application gives to whom the policy lets.
require('./cases');
console.log('');

const timers = require('timers').make();
// What stands at this global is read anew each time a package uses the name. All of them have the same objects, so these are hardened.
Object.assign(globalThis, timers.names, {
  Buffer: require('buffer').Buffer,
  process: harden({ cwd: () => '/srv/shop', env: { LANG: 'en' }, argv: ['lava', 'builtins'], platform: 'lava', nextTick: timers.names.setImmediate }),
});

const { Jobs } = require('jobs'), { label } = require('label'), links = require('links'), nosy = require('nosy');
console.log(links.page('list', { kind: 'apples & pears', page: 2 }));
console.log(label('apples'));
try { label(7); } catch (e) { console.log(`${e.name}: ${e.message}`); }
console.log(links.file('orders.json'));

const jobs = new Jobs();
jobs.on('done', text => console.log(text));
jobs.add('second', 20).add('first', 10);
for (const line of nosy.tries()) console.log(line);
timers.run();
console.log(links.file('orders.json'));
globalThis.process = harden({ cwd: () => '/srv/other', env: {} });
console.log(links.file('orders.json'));
