// A calculator: it reads lines from the input, and prints what each comes to.
const digits = '0123456789';

class Reader {
  constructor(text) {
    this.text = text;
    this.at = 0;
  }
  peek() {
    while (this.text[this.at] === ' ') this.at++;
    return this.text[this.at];
  }
  take() {
    const unit = this.peek();
    this.at++;
    return unit;
  }
}

function number(reader) {
  let value = 0;
  if (!digits.includes(reader.peek() ?? '?')) throw new SyntaxError('a number is missing');
  while (digits.includes(reader.text[reader.at] ?? '?')) value = value * 10 + digits.indexOf(reader.text[reader.at++]);
  return value;
}

function factor(reader) {
  if (reader.peek() === '-') {
    reader.take();
    return -factor(reader);
  }
  if (reader.peek() !== '(') return number(reader);
  reader.take();
  const value = sum(reader);
  if (reader.take() !== ')') throw new SyntaxError('a parenthesis is open');
  return value;
}

// Operators of one level, from left to right.
function level(operators, below) {
  return reader => {
    let value = below(reader);
    while (operators[reader.peek() ?? ''] !== undefined) value = operators[reader.take()](value, below(reader));
    return value;
  };
}

const product = level({ '*': (a, b) => a * b, '%': (a, b) => a % b }, factor);
const sum = level({ '+': (a, b) => a + b, '-': (a, b) => a - b }, product);

for (let line = input.line(); line !== null; line = input.line()) {
  try {
    const reader = new Reader(line);
    const value = sum(reader);
    if (reader.peek() !== undefined) throw new SyntaxError('nothing may follow');
    console.log(line, '=', value);
  } catch (error) {
    console.error(line, ':', error.message);
  }
}
