// A todo store: it reads commands from the input, one a line, and prints what becomes of each.
class Failure extends Error { }
class NotFound extends Failure { }

class Task {
  constructor(id, title, tags) {
    this.id = id;
    this.title = title;
    this.tags = new Set(tags);
    this.isDone = false;
  }
  get mark() {
    return this.isDone ? 'x' : ' ';
  }
  toString() {
    return `[${this.mark}] ${this.id} ${this.title}` + [...this.tags].map(tag => ' #' + tag).join('');
  }
}

// A task that is listed first.
class Urgent extends Task { }

class Store {
  constructor() {
    this.tasks = new Map();
    this.next = 1;
  }
  add(Kind, words) {
    const title = words.filter(word => word[0] !== '#').join(' ');
    if (title === '') throw new Failure('a task has no title');
    const task = new Kind(this.next++, title, words.filter(word => word[0] === '#').map(word => word.slice(1)));
    this.tasks.set(task.id, task);
    return task;
  }
  find(id) {
    const task = this.tasks.get(id);
    if (task === undefined) throw new NotFound('no task ' + id);
    return task;
  }
  // The urgent ones first, then the others, each in the order in which they came.
  [Symbol.iterator]() {
    const urgent = [], other = [];
    for (const task of this.tasks.values()) (task instanceof Urgent ? urgent : other).push(task);
    return [...urgent, ...other][Symbol.iterator]();
  }
  tags() {
    const counts = new Map();
    for (const { tags } of this) for (const tag of tags) counts.set(tag, (counts.get(tag) ?? 0) + 1);
    return [...counts.keys()].sort().map(tag => tag + ' ' + counts.get(tag));
  }
}

const store = new Store();
const commands = {
  add: words => store.add(Task, words),
  urgent: words => store.add(Urgent, words),
  done: ([id]) => {
    const task = store.find(Number(id));
    task.isDone = true;
    return task;
  },
  drop: ([id]) => {
    const task = store.find(Number(id));
    store.tasks.delete(task.id);
    return 'dropped ' + task.title;
  },
  list: () => [...store].join('\n'),
  tags: () => store.tags().join(', '),
  save: () => JSON.stringify([...store].map(({ id, title, tags, isDone }) => ({ id, title, tags: [...tags], isDone }))),
};

for (let line = input.line(); line !== null; line = input.line()) {
  const [name, ...words] = line.split(' ').filter(word => word !== '');
  try {
    if (!Object.hasOwn(commands, name)) throw new Failure('no command ' + name);
    console.log('' + commands[name](words));
  } catch (error) {
    if (!(error instanceof Failure)) throw error;
    console.log((error instanceof NotFound ? 'not found: ' : 'refused: ') + error.message);
  }
}
