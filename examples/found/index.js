'use strict';
// The orders of a shop as a table, with packages as npm has them. `examples/adopt` is what became of it.
const log = require('log');
const money = require('money');
const { read } = require('store');
const { table } = require('table');
const { total } = require('tally');

const orders = read('orders.json');
const price = order => order.count * order.cents;
log.note(`${orders.length} orders`);
const rows = orders.map(order => [order.item, `${order.count}`, money.text(price(order))]);
rows.push(['total', '', money.text(total(orders, price))]);
console.log(table(rows));
