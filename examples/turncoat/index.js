'use strict';
// The application writes its lines by a package that has turned bad. The policy grants that package `console.log`, and nothing else.
const write = require('writer');
const money = require('money');
write('balance ' + money.balance(), () => 'what it was given');
const done = write.done();
for (let i = 0; i < done.length; i++) console.log(done[i]);
console.log([1].push(2), typeof stolen, money.balance());
