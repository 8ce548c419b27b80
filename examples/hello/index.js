let greeting = "hello";
function second(first, other) { return other; }
console.log(greeting, second(1, "from lava"), 9007199254740991);
console.log();
