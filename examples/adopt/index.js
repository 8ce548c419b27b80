'use strict';
// The orders of a shop as a table. `table` is a formatter that asks for more than a formatter should: it looks for a file.
globalThis.config = { verbose: true };
const log = require('log');
const money = require('money');
const { read } = require('store');
const { table } = require('table');
const { total } = require('tally');

const orders = read('orders.json');
const price = order => order.count * order.cents;
log.note(`${orders.length} orders`);
const rows = orders.map(order => [order.item, `${order.count}`, money.text(price(order))]);
rows.push(['total', '', money.text(total(orders, price))]);
console.log(table(rows));
