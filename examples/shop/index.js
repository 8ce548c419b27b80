'use strict';
// A shop of five packages. Each runs in a compartment of its own: `cart` may use `sum`, `fmt` may use `pad` and write to the errors, and nothing else is granted.
const { total } = require('cart');
const fmt = require('fmt');
console.log(fmt.line('total', total([{ n: 2, price: 150 }, { n: 1, price: 99 }])));
