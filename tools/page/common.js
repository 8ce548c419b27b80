'use strict';
// What both pages share. All that a trace or a folder says goes into text nodes and attributes alone, never into markup.

const SVG = 'http://www.w3.org/2000/svg';
const ATTRIBUTES = new Set(['class', 'role', 'id', 'type', 'title', 'tabindex', 'for', 'value', 'placeholder', 'min', 'max', 'colspan', 'scope',
  'x', 'y', 'x1', 'x2', 'y1', 'y2', 'cx', 'cy', 'r', 'd', 'width', 'height', 'viewBox', 'points', 'text-anchor', 'transform', 'rx',
  'stroke-width', 'hidden', 'disabled', 'checked', 'spellcheck', 'lang', 'dir']);

function fill(node, attributes, kids) {
  for (const [name, value] of Object.entries(attributes ?? {})) {
    if (name.startsWith('on')) node.addEventListener(name.slice(2), value);
    else if (value === undefined || value === false) continue;
    else if (ATTRIBUTES.has(name) || name.startsWith('aria-') || name.startsWith('data-')) node.setAttribute(name, value === true ? '' : value);
    else throw new Error('no attribute of these pages: ' + name);
  }
  for (const kid of kids.flat(Infinity)) if (kid !== null && kid !== undefined) node.append(kid);
  return node;
}
const el = (name, attributes, ...kids) => fill(document.createElement(name), attributes, kids);
const svg = (name, attributes, ...kids) => fill(document.createElementNS(SVG, name), attributes, kids);
const counted = (format => n => format.format(n))(new Intl.NumberFormat('en-US'));
const many = (n, one, more) => `${counted(n)} ${n === 1 ? one : more ?? one + 's'}`;
const cut = (text, most) => text.length > most ? text.slice(0, most) + '..' : text;

// What an element of the page has packed, as bytes.
async function unpacked(id) {
  const node = document.getElementById(id), packed = node.textContent;
  node.remove();
  let bytes;
  if (Uint8Array.fromBase64) bytes = Uint8Array.fromBase64(packed);
  else {
    const letters = atob(packed);
    bytes = new Uint8Array(letters.length);
    for (let i = 0; i < letters.length; i++) bytes[i] = letters.charCodeAt(i);
  }
  return new Response(new Blob([bytes]).stream().pipeThrough(new DecompressionStream('deflate'))).arrayBuffer();
}

// The data of the page: an object.
const unpackData = async () => JSON.parse(new TextDecoder().decode(await unpacked('data')));

// Its columns of numbers, which stand behind the script.
async function unpackColumns(places) {
  if (document.readyState === 'loading') await new Promise(done => { document.addEventListener('DOMContentLoaded', done); });
  const whole = await unpacked('columns'), kinds = { u8: Uint8Array, u16: Uint16Array, u32: Uint32Array }, columns = {};
  for (const [name, [kind, from, size]] of Object.entries(places)) columns[name] = new kinds[kind](whole, from, size / kinds[kind].BYTES_PER_ELEMENT);
  return columns;
}

// Finds bytes in a column of them: gives a function that says where they first stand between two places, or -1. Most of a text is leapt over
// (Horspool's way). The bytes of `wanted` are small letters, and with `any` a capital letter counts as its small one.
function finder(text, wanted, any) {
  const last = wanted.length - 1, end = wanted.charCodeAt(last), leap = new Uint32Array(256).fill(wanted.length), small = new Uint8Array(256);
  for (let unit = 0; unit < 256; unit++) small[unit] = any && unit >= 65 && unit <= 90 ? unit + 32 : unit;
  for (let k = 0; k < last; k++) for (let unit = 0; unit < 256; unit++) if (small[unit] === wanted.charCodeAt(k)) leap[unit] = last - k;
  const before = Uint8Array.from(wanted, letter => letter.charCodeAt(0));
  return (from, to) => {
    for (let at = from + last; at < to; at += leap[text[at]]) {
      if (small[text[at]] !== end) continue;
      let k = last - 1;
      while (k >= 0 && small[text[at - last + k]] === before[k]) k--;
      if (k < 0) return at - last;
    }
    return -1;
  };
}

// A text as it is shown: printable ASCII as it is, all else escaped, as a trace has it. So nothing turns the direction of a line or looks like
// another name.
function escaped(text) {
  let out = '';
  for (let i = 0; i < text.length; i++) {
    const unit = text.charCodeAt(i);
    out += unit >= 0x20 && unit <= 0x7e ? text[i] : '\\u' + unit.toString(16).padStart(4, '0');
  }
  return out;
}

// The same with letters, figures and signs of all scripts that run from left to right, for reading.
const LETTERS = /^[\p{L}\p{M}\p{N}\p{P}\p{S} ]$/u;
const FROM_THE_RIGHT = /[\u0590-\u08ff\ufb1d-\ufdff\ufe70-\ufeff]|[\u{10800}-\u{10fff}]|[\u{1e800}-\u{1efff}]/u;
function lettered(text) {
  let out = '';
  for (const letter of text) out += LETTERS.test(letter) && !FROM_THE_RIGHT.test(letter) ? letter : letter === '\n' ? '\n' : escaped(letter);
  return out;
}

// THE PAGE: its tabs, its keys, and what stands at the side

class Page {
  constructor(title, ended) {
    this.tabs = [];
    this.isRead = true; // whether all tabs can be made, or those alone that are made at once
    this.bar = el('div', { class: 'tabs', role: 'tablist', 'aria-label': 'Views' });
    this.body = el('div', { class: 'body' });
    this.aside = el('aside', { 'aria-label': 'Details', hidden: true, 'aria-live': 'polite' });
    this.keys = [];
    this.header = el('header', null,
      el('div', { class: 'top' }, el('h1', null, title), el('span', { class: 'ended' }, ended),
        el('span', { class: 'push' }),
        el('button', { title: 'light or dark (d)', onclick: () => this.turn() }, 'Light / dark'),
        el('button', { title: 'keys (?)', onclick: () => this.help() }, 'Keys')),
      this.bar);
    document.getElementById('page').replaceChildren(this.header, this.body);
    this.body.append(this.aside);
    document.addEventListener('keydown', event => this.key(event));
    this.on('?', 'these keys', () => this.help());
    this.on('d', 'light or dark', () => this.turn());
    this.on('Escape', 'close what stands at the side', () => this.close());
  }

  tab(name, label, count, make, { alarm, atOnce } = {}) {
    const panel = el('section', { class: 'panel', role: 'tabpanel', id: 'panel-' + name, 'aria-label': label, hidden: true });
    const number = this.tabs.length + 1;
    const button = el('button', { role: 'tab', id: 'tab-' + name, 'aria-selected': 'false', 'aria-controls': 'panel-' + name, tabindex: '-1',
      title: `${label} (${number})`, onclick: () => this.show(name) }, label,
      count === undefined ? null : el('span', { class: alarm ? 'count alarm' : 'count' }, counted(count)));
    button.addEventListener('keydown', event => {
      const step = { ArrowRight: 1, ArrowLeft: -1 }[event.key];
      if (!step) return;
      const next = this.tabs[(number - 1 + step + this.tabs.length) % this.tabs.length];
      this.show(next.name);
      next.button.focus();
      event.preventDefault();
      event.stopPropagation();
    });
    this.tabs.push({ name, panel, button, make, atOnce, made: false });
    this.bar.append(button);
    this.body.insertBefore(panel, this.aside);
    this.on(String(number), label, () => this.show(name));
  }

  show(name) {
    for (const tab of this.tabs) {
      const here = tab.name === name;
      tab.button.setAttribute('aria-selected', String(here));
      tab.button.setAttribute('tabindex', here ? '0' : '-1');
      tab.panel.hidden = !here;
      if (!here) continue;
      const isNew = this.now !== name;
      this.now = name;
      if (tab.made) { if (isNew) tab.shown?.(); continue; }
      tab.made = this.isRead || Boolean(tab.atOnce);
      tab.panel.replaceChildren(...tab.made ? [] : [el('p', { class: 'wait' }, 'Reading ..')]);
      if (tab.made) { tab.shown = tab.make(tab.panel); tab.shown?.(); }
    }
    if (location.hash !== '#' + name) history.replaceState(null, '', '#' + name);
  }

  side(...kids) {
    this.aside.replaceChildren();
    fill(this.aside, null, [el('button', { class: 'off', onclick: () => this.close() }, 'Close'), kids]);
    this.aside.hidden = false;
    this.aside.scrollTop = 0;
    this.onside?.();
  }

  close() {
    if (this.aside.hidden) return;
    this.aside.hidden = true;
    this.aside.replaceChildren();
    this.onside?.();
    this.onback?.();
  }

  on(key, what, act) { this.keys.push({ key, what, act }); }

  key(event) {
    if (event.ctrlKey || event.metaKey || event.altKey) return;
    const field = event.target.closest?.('input, select, textarea');
    if (field && event.key !== 'Escape') return;
    if (field) { field.blur(); this.onback?.(); return; }
    if (document.querySelector('dialog[open]')) return;
    const found = this.keys.find(one => one.key === event.key);
    if (!found) return;
    found.act();
    event.preventDefault();
  }

  help() {
    const close = () => dialog.remove();
    const dialog = el('dialog', { 'aria-label': 'Keys', onclose: close },
      el('h2', null, 'Keys'),
      el('dl', null, this.keys.map(({ key, what }) => [el('dt', null, el('kbd', null, key)), el('dd', null, what)]),
        (this.more ?? []).map(([key, what]) => [el('dt', null, el('kbd', null, key)), el('dd', null, what)])),
      el('button', { onclick: () => dialog.close() }, 'Close'));
    document.body.append(dialog);
    dialog.showModal();
  }

  turn() {
    const dark = document.documentElement.dataset.theme ?? (matchMedia('(prefers-color-scheme: dark)').matches ? 'dark' : 'light');
    document.documentElement.dataset.theme = dark === 'dark' ? 'light' : 'dark';
  }
}

// A LIST OF ANY LENGTH: of its rows only those are made that are seen

class Rows {
  constructor({ label, height, row, choose, key, before, drawn }) {
    this.height = height;
    this.before = before;
    this.row = row;
    this.choose = choose;
    this.key = key;
    this.drawn = drawn;
    this.count = 0;
    this.first = 0; // the row at the top, with what of it is out of sight
    this.chosen = -1;
    this.most = 8e6; // browsers have a greatest height
    this.id = 'r' + Rows.made++;
    this.room = el('div', { role: 'presentation' });
    this.rows = el('div', { class: 'rows', role: 'presentation' });
    this.box = el('div', { class: 'list', role: 'listbox', 'aria-label': label, tabindex: '0' }, this.room, this.rows);
    this.box.addEventListener('scroll', () => this.scrolled());
    this.box.addEventListener('wheel', event => this.wheeled(event), { passive: false });
    this.box.addEventListener('keydown', event => this.pressed(event));
    this.box.addEventListener('click', event => {
      const row = event.target.closest('.row');
      if (row && !event.target.closest('button, [data-ref]')) this.take(Number(row.dataset.at));
    });
    // (its size and where it was scrolled to are kept, since to ask for them lays the page out)
    this.tall = this.wide = this.top = 0;
    new ResizeObserver(() => { this.measure(); this.draw(); }).observe(this.box);
    addEventListener('beforeprint', () => this.draw(1000));
    addEventListener('afterprint', () => this.draw());
  }

  measure() {
    this.tall = this.box.clientHeight;
    this.wide = this.box.clientWidth;
  }

  get seen() {
    if (!this.tall) this.measure();
    return this.tall / this.height;
  }

  get last() { return Math.max(0, this.count - this.seen); }
  get scaled() { return this.count * this.height > this.most; }
  get reach() { return Math.max(1, Math.min(this.count * this.height, this.most) - this.tall); }

  set(count, keep) {
    this.count = count;
    this.room.style.height = Math.min(count * this.height, this.most) + 'px';
    if (!keep) { this.chosen = -1; this.first = 0; }
    this.go(this.first);
  }

  // More rows have come behind those that there were.
  grow(count) {
    const isFull = this.first + this.seen < this.count;
    this.count = count;
    this.room.style.height = Math.min(count * this.height, this.most) + 'px';
    if (!isFull || this.first > 0) this.go(this.first);
  }

  go(first) {
    this.first = Math.max(0, Math.min(first, this.last));
    const top = this.last === 0 ? 0 : this.first / this.last * this.reach;
    if (top !== this.top) {
      this.box.scrollTop = top;
      this.top = this.box.scrollTop;
    }
    this.draw();
  }

  scrolled() {
    if (Math.abs(this.box.scrollTop - this.top) < 1) return;
    this.top = this.box.scrollTop;
    this.first = Math.min(this.last, this.top / this.reach * this.last);
    this.draw();
  }

  wheeled(event) {
    if (!this.scaled || event.ctrlKey) return;
    this.go(this.first + event.deltaY * (event.deltaMode === 1 ? 1 : 1 / this.height));
    event.preventDefault();
  }

  draw(most) {
    const from = Math.floor(this.first), to = Math.min(this.count, most ? from + most : Math.ceil(this.first + this.seen) + 1);
    const rows = [];
    this.before?.(from, to);
    for (let i = from; i < to; i++) {
      const row = this.row(i);
      row.classList.add('row');
      row.id = `${this.id}-${i}`;
      row.dataset.at = i;
      row.setAttribute('role', 'option');
      row.setAttribute('aria-posinset', i + 1);
      row.setAttribute('aria-setsize', this.count);
      row.setAttribute('aria-selected', String(i === this.chosen));
      if (i === this.chosen) row.classList.add('chosen');
      row.style.height = this.height + 'px';
      row.style.top = (i - from) * this.height + 'px';
      rows.push(row);
    }
    this.rows.replaceChildren(...rows);
    const more = this.drawn?.(from, to);
    if (more) this.rows.append(more);
    this.rows.style.transform = `translateY(${Math.round(this.top - (this.first - from) * this.height)}px)`;
    this.rows.style.height = most ? (to - from) * this.height + 'px' : '0';
    if (this.chosen >= from && this.chosen < to) this.box.setAttribute('aria-activedescendant', `${this.id}-${this.chosen}`);
    else this.box.removeAttribute('aria-activedescendant');
  }

  take(i, quiet) {
    if (this.count === 0) return;
    this.chosen = Math.max(0, Math.min(i, this.count - 1));
    if (this.chosen < this.first) this.go(this.chosen);
    else if (this.chosen + 1 > this.first + this.seen) this.go(this.chosen + 1 - this.seen);
    else this.draw();
    if (!quiet) this.choose?.(this.chosen);
  }

  reveal(i) {
    this.chosen = i;
    this.go(i - this.seen / 3);
    this.choose?.(i);
  }

  pressed(event) {
    if (event.ctrlKey || event.metaKey || event.altKey || event.target !== this.box) return;
    const page = Math.max(1, Math.floor(this.seen) - 1);
    const step = { ArrowDown: 1, ArrowUp: -1, j: 1, k: -1, PageDown: page, PageUp: -page, Home: -Infinity, End: Infinity }[event.key];
    if (step !== undefined) this.take(this.chosen < 0 && Math.abs(step) === 1 ? Math.ceil(this.first) : this.chosen + step);
    else if (!this.key?.(event.key, this.chosen)) return;
    event.preventDefault();
    event.stopPropagation();
  }
}
Rows.made = 0;

// TABLES that are sorted by a column. A column: { name, number, value(row), cell(row) }

function table({ caption, columns, rows, chosen, most = 500, mark }) {
  let by = null, down = true, all = rows.length <= most;
  const head = el('tr'), body = el('tbody');
  const node = el('table', null, el('caption', null, caption), el('thead', null, head), body);
  const foot = el('p', { class: 'soft' });
  const draw = () => {
    let sorted = rows;
    if (by) {
      sorted = [...rows].sort((a, b) => {
        const x = by.value(a), y = by.value(b);
        return (x < y ? -1 : x > y ? 1 : 0) * (down ? -1 : 1);
      });
    }
    head.replaceChildren(...columns.map(column => el('th', { scope: 'col', class: column.number && 'number' },
      column.value ? el('button', { 'aria-sort': by === column ? (down ? 'descending' : 'ascending') : undefined, onclick: () => {
        down = by === column ? !down : Boolean(column.number);
        by = column;
        draw();
      } }, column.name) : column.name)));
    body.replaceChildren(...(all ? sorted : sorted.slice(0, most)).map(row => el('tr', { class: (chosen?.(row) && 'chosen') || mark?.(row) },
      columns.map(column => el('td', { class: column.number ? 'number' : column.class }, column.cell ? column.cell(row) : column.number
        ? counted(column.value(row)) : String(column.value(row)))))));
    foot.replaceChildren(...all ? [] : [`The first ${counted(most)} of ${counted(rows.length)}. `,
      el('button', { onclick: () => { all = true; draw(); } }, 'Show all')]);
  };
  draw();
  const whole = el('div', null, node, foot);
  whole.draw = given => { if (given) { rows = given; all = rows.length <= most; } draw(); };
  return whole;
}

// THE PICTURE OF PARTIES: columns by how far they are from $root$, the host apart

const KIND_NAMES = { import: 'import', call: 'call', look: 'read', change: 'change', other: 'other ask', denied: 'denied import' };

function layered(nodes, edges) {
  const next = new Map(), column = new Map();
  for (const edge of edges) (next.get(edge.from) ?? next.set(edge.from, []).get(edge.from)).push(edge.to);
  const starts = nodes.filter(node => node.group === 'root').map(node => node.id);
  let level = starts;
  for (const id of level) column.set(id, 0);
  for (let depth = 1; level.length; depth++) {
    const found = [];
    for (const id of level) {
      for (const to of next.get(id) ?? []) if (!column.has(to) && nodes.some(node => node.id === to && node.group !== 'host')) { column.set(to, depth); found.push(to); }
    }
    level = found;
  }
  const rest = nodes.filter(node => node.group !== 'host' && !column.has(node.id));
  const last = Math.max(0, ...column.values()) + (column.size ? 1 : 0);
  for (const node of rest) column.set(node.id, last);
  const columns = [];
  for (const node of nodes) if (column.has(node.id)) (columns[column.get(node.id)] ??= []).push(node.id);
  const host = nodes.filter(node => node.group === 'host').map(node => node.id);
  return { columns: columns.filter(Boolean), host };
}

function graph({ nodes, edges, choose, chosen, kinds, label }) {
  const wide = 148, high = 36, across = 232, down = 56, most = 12;
  const { columns, host } = layered(nodes, edges);
  const at = new Map();
  // Long columns are broken; each is put in the order of where its arrows come from.
  let column = 0;
  const places = [];
  const near = id => {
    const from = edges.filter(edge => edge.to === id && at.has(edge.from)).map(edge => at.get(edge.from).row);
    return from.length ? from.reduce((a, b) => a + b) / from.length : Infinity;
  };
  for (const ids of columns) {
    const sorted = ids.map((id, i) => ({ id, i, near: near(id) })).sort((a, b) => a.near - b.near || a.i - b.i).map(one => one.id);
    for (let i = 0; i < sorted.length; i += most) {
      const part = sorted.slice(i, i + most);
      part.forEach((id, row) => at.set(id, { column, row }));
      places.push(part.length);
      column++;
    }
  }
  const wall = column;
  host.forEach((id, row) => at.set(id, { column, row, host: true }));
  const rows = Math.max(1, ...places);
  // (at the right there is room for arrows within the last column)
  const width = (column + (host.length ? 1 : 0)) * across - (across - wide) + 80, height = rows * down + 46;
  const where = id => {
    const { column: c, row, host: apart } = at.get(id);
    const count = apart ? 1 : places[c];
    return { x: 20 + c * across, y: 26 + (rows - count) * down / 2 + row * down };
  };
  const picture = svg('svg', { width, height, viewBox: `0 0 ${width} ${height}`, role: 'group', 'aria-label': label });
  // (a wide picture is made smaller, up to where it can be read)
  picture.style.width = '100%';
  picture.style.height = 'auto';
  picture.style.maxWidth = width + 'px';
  picture.style.minWidth = Math.round(width * 0.72) + 'px';
  if (host.length && wall) {
    const x = 20 + wall * across - (across - wide) / 2;
    picture.append(svg('line', { class: 'wall', x1: x, x2: x, y1: 8, y2: height - 8 }));
  }
  const drawn = [];
  const lines = svg('g', { 'aria-hidden': 'true' });
  for (const edge of edges) {
    if (!at.has(edge.from) || !at.has(edge.to)) continue;
    const a = where(edge.from), b = where(edge.to);
    const shown = Object.keys(KIND_NAMES).filter(kind => edge.kinds[kind] && kinds.has(kind));
    shown.forEach((kind, i) => {
      const shift = (i - (shown.length - 1) / 2) * 7;
      let x1 = a.x + wide, x2 = b.x, path;
      const y1 = a.y + high / 2 + shift + 4, y2 = b.y + high / 2 + shift - 3;
      if (b.x > a.x) {
        const bend = Math.max(40, (x2 - x1) / 2);
        path = `M${x1},${y1} C${x1 + bend},${y1} ${x2 - bend},${y2} ${x2 - 6},${y2}`;
      } else if (b.x < a.x) {
        x1 = a.x;
        x2 = b.x + wide;
        const bend = Math.max(40, (x1 - x2) / 2);
        path = `M${x1},${y1} C${x1 - bend},${y1 + 14} ${x2 + bend},${y2 + 20} ${x2 + 6},${y2 + 12}`;
      } else {
        x1 = a.x + wide;
        x2 = b.x + wide;
        path = `M${x1},${y1} C${x1 + 46},${y1} ${x2 + 46},${y2} ${x2 + 6},${y2}`;
      }
      const right = b.x > a.x;
      const tip = right ? x2 : x2, tipY = b.x < a.x ? y2 + 12 : y2, side = right ? -7 : 7;
      const part = svg('g', { class: 'k-' + kind },
        svg('path', { class: 'edge', d: path, 'stroke-width': (1 + Math.log10(edge.kinds[kind]) * 1.1).toFixed(2) },
          svg('title', null, `${edge.name}: ${many(edge.kinds[kind], KIND_NAMES[kind])}`)),
        svg('path', { class: 'edge-head', d: `M${tip},${tipY} l${side},-4 l0,8 z` }));
      drawn.push({ node: part, edge });
      lines.append(part);
    });
    if (edge.total > 1) {
      const x = b.x > a.x ? a.x + wide + 8 : b.x < a.x ? a.x - 8 : a.x + wide + 38;
      const text = svg('text', { class: 'dim', x, y: b.x === a.x ? (a.y + b.y + high) / 2 + (a.y < b.y ? -7 : 7) : a.y + high / 2 + (b.x > a.x ? -6 - shown.length * 3 : 30),
        'text-anchor': b.x > a.x ? 'start' : b.x < a.x ? 'end' : 'start' }, counted(edge.total));
      // (only where few arrows leave: else numbers lie upon one another, and the table has them)
      if (edges.filter(other => other.from === edge.from && at.has(other.to) && Math.sign(where(other.to).x - a.x) === Math.sign(b.x - a.x)).length === 1) {
        drawn.push({ node: text, edge });
        lines.append(text);
      }
    }
  }
  picture.append(lines);
  const boxes = [];
  for (const node of nodes) {
    if (!at.has(node.id)) continue;
    const { x, y } = where(node.id);
    const box = svg('g', { class: `node ${node.group ?? ''} ${node.alarm ? 'alarm' : ''} ${node.denied ? 'asks' : ''}`, tabindex: '0', role: 'button', 'aria-label': `${node.label}, ${node.sub}`,
      transform: `translate(${x},${y})`, onclick: () => choose(node.id), onkeydown: event => {
        if (event.key !== 'Enter' && event.key !== ' ') return;
        choose(node.id);
        event.preventDefault();
        event.stopPropagation();
      } },
    svg('title', null, `${node.label}\n${node.sub}`),
    svg('rect', { width: wide, height: high, rx: 5 }),
    svg('text', { x: 9, y: 15 }, node.label.length > 20 ? '..' + node.label.slice(-18) : node.label),
    svg('text', { class: 'dim', x: 9, y: 29 }, cut(node.sub, 21)));
    boxes.push({ node: box, id: node.id });
    picture.append(box);
  }
  picture.mark = id => {
    const neighbours = new Set([id]);
    for (const edge of edges) {
      if (edge.from === id) neighbours.add(edge.to);
      if (edge.to === id) neighbours.add(edge.from);
    }
    for (const { node, edge } of drawn) node.classList.toggle('faded', id !== null && edge.from !== id && edge.to !== id);
    for (const box of boxes) {
      box.node.classList.toggle('faded', id !== null && !neighbours.has(box.id));
      box.node.classList.toggle('chosen', box.id === id);
    }
  };
  picture.mark(chosen ?? null);
  return picture;
}

const legend = (kinds, change, names) => el('div', { class: 'legend' }, Object.keys(names).map(kind => el('label', { class: 'k-' + kind },
  change ? el('input', { type: 'checkbox', checked: kinds.has(kind), onchange: event => {
    if (event.target.checked) kinds.add(kind); else kinds.delete(kind);
    change();
  } }) : null, el('span', { class: 'swatch' }), names[kind])));
