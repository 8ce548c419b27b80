// The page of a trace.

const KIND_OF = {};
for (const [kind, methods] of Object.entries({
  import: ['Import'], call: ['Call', 'Construct'],
  look: ['GetPrototypeOf', 'IsExtensible', 'GetOwnProperty', 'HasProperty', 'Get', 'OwnPropertyKeys'],
  change: ['SetPrototypeOf', 'PreventExtensions', 'DefineOwnProperty', 'Set', 'Delete'], other: ['Slot', 'Make', 'Queue', 'Turn'],
})) for (const method of methods) KIND_OF[method] = kind;
const KIND_WORDS = { import: 'imports', call: 'calls', look: 'reads', change: 'changes of properties', other: 'slots, made parties, turns' };
const TOKENS = /"(?:[^"\\]|\\.)*"|[#@]\d+\.\d+|%[^%"]+%|\/[A-Z][A-Za-z]*(?:\+call)?(?:\+new)?|[^"#@%/]+|./g;
const ENDINGS = {
  Done: 'to its end', Uncaught: 'an error that nothing caught', Outside: 'a call of the outside failed',
  Number: 'a number that is no safe integer', Text: 'a text past its limit', Depth: 'too many open calls', Parties: 'too many parties',
  Budget: 'the budget was used up', Meter: 'the meter was used up',
};

const MOST_LANES = 28;

class TracePage {
  constructor(data) {
    this.data = data;
    this.n = data.crossings;
    this.answer = data.methods.length;
    this.throw_ = this.answer + 1;
    this.parties = data.parties;
    this.kinds = new Set(Object.keys(KIND_WORDS));
    this.denied = new Map(data.denials.map(denial => [denial.at, denial]));
    this.thrown = data.throws;
    // Between two parties, how many asks of each kind.
    const edges = new Map(), call = data.methods.indexOf('Call');
    this.hostCalls = 0;
    for (const [from, to, code, count] of data.asks) {
      const key = from * 4096 + to, edge = edges.get(key) ?? { from, to, kinds: {}, methods: {}, total: 0, name: `${this.name(from)} to ${this.name(to)}` };
      const method = data.methods[code], kind = KIND_OF[method];
      edge.kinds[kind] = (edge.kinds[kind] ?? 0) + count;
      edge.methods[method] = count;
      edge.total += count;
      edges.set(key, edge);
      if (to === 0 && code === call) this.hostCalls += count;
    }
    this.edges = [...edges.values()];
    const sums = this.parties.map(() => ({ asked: 0, was: 0 }));
    for (const edge of this.edges) { sums[edge.from].asked += edge.total; sums[edge.to].was += edge.total; }
    this.sums = sums;
    this.chosenParty = null;
  }

  // Takes the columns of the crossings, and reckons from them where each line begins, each ask's answer and each answer's ask, the ask that
  // each lies in (or -1), and how deep.
  take(columns) {
    Object.assign(this, columns);
    const { n, code, len, answer, from, to } = this, call = this.data.methods.indexOf('Call');
    const offset = this.offset = new Uint32Array(n + 1), partner = this.partner = new Int32Array(n).fill(-1), depth = this.depth = new Uint16Array(n);
    const open = [], outer = this.outer = new Int32Array(n), crossed = this.crossed = new Uint8Array(this.parties.length);
    this.throws = [];
    this.hostAsks = [];
    this.deepest = 0;
    for (let i = 0; i < n; i++) {
      offset[i + 1] = offset[i] + len[i] + 1;
      crossed[from[i]] = crossed[to[i]] = 1;
      if (code[i] < answer) {
        if (open.length > this.deepest) this.deepest = open.length;
        depth[i] = Math.min(open.length, 65535);
        outer[i] = open.length ? open[open.length - 1] : -1;
        open.push(i);
        if (code[i] === call && to[i] === 0) this.hostAsks.push(i);
        continue;
      }
      if (open.length) {
        partner[i] = open.pop();
        partner[partner[i]] = i;
      }
      depth[i] = Math.min(open.length, 65535);
      outer[i] = open.length ? open[open.length - 1] : -1;
      if (code[i] === this.throw_) this.throws.push(i);
    }
    this.folded = new Set();
    this.shownDepth = Infinity;
    this.decoder = new TextDecoder();
  }

  name(party) { return party === null || party === undefined ? '' : this.parties[party].name; }
  // Of a crossing what stands behind its numbers: `ask ..`, `answer ..`, `throw ..`.
  body(i) { return this.decoder.decode(this.text.subarray(this.offset[i], this.offset[i + 1] - 1)); }
  isAsk(i) { return this.code[i] < this.answer; }
  method(i) { return this.data.methods[this.code[i]]; }
  kind(i) { return this.isAsk(i) ? KIND_OF[this.method(i)] : this.code[i] === this.throw_ ? 'throw' : 'answer'; }

  start() {
    const { data } = this;
    const [word, party] = data.ending;
    const ended = `${many(this.n, 'crossing')} between ${many(this.parties.length, 'party', 'parties')}; ended: ${word}` +
      (party === null ? '' : ` in ${this.name(party)}`) + `, ${ENDINGS[word]}`;
    this.page = new Page(data.title, ended);
    this.page.isRead = false;
    this.page.tab('parties', 'Parties', this.parties.length, panel => this.makeParties(panel), { atOnce: true });
    this.page.tab('crossings', 'Crossings', this.n, panel => this.makeCrossings(panel));
    this.page.tab('denials', 'Denials', data.denials.length + data.moreDenials, panel => this.makeDenials(panel), { alarm: data.denials.length > 0 });
    this.page.tab('host', 'Host', this.hostCalls, panel => this.makeHost(panel));
    const throws = this.thrown.reduce((sum, count) => sum + count, 0);
    this.page.tab('throws', 'Throws', throws, panel => this.makeThrows(panel), { alarm: throws > 0 });
    this.page.tab('steps', 'Steps', undefined, panel => this.makeSteps(panel));
    if (data.compared) this.page.tab('compared', 'Compared', data.compared.views.filter(view => view.at !== null).length, panel => this.makeCompared(panel), { alarm: true });
    if (data.policy) this.page.tab('policy', 'Policy', undefined, panel => policyPanels(this.page, panel, data.policy), { atOnce: true });
    this.page.on('/', 'search the crossings', () => { this.page.show('crossings'); this.field?.focus(); this.field?.select(); });
    this.page.onside = () => this.list?.draw();
    this.page.onback = () => { if (this.page.now === 'crossings') this.list?.box.focus(); };
    document.addEventListener('click', event => { const node = event.target.closest('[data-ref]'); if (node) this.life(node.dataset.ref); });
    this.page.more = [['arrows, j k', 'up and down in a list; Page Up, Page Down, Home, End'], ['Enter', 'show the chosen crossing at the side'],
      ['right, left', 'unfold and fold an ask'], ['o', 'of what was found: show it in its place'], ['n, p', 'next and previous denial or throw'],
      ['Tab', 'to parties of the picture, and to names at the side, whose life Enter shows']];
    const [tab, at] = location.hash.slice(1).split('/');
    this.page.show(this.page.tabs.some(one => one.name === tab) ? tab : 'parties');
    this.read = unpackColumns(data.columns).then(columns => {
      this.take(columns);
      this.page.isRead = true;
      this.page.show(this.page.now);
    });
    if (tab === 'crossings' && /^[1-9]\d{0,9}$/.test(at) && Number(at) <= this.n) this.goTo(Number(at) - 1);
  }

  // NAMES, TEXTS AND LINES

  // (In a list it is no button, and what holds it takes the click: a button costs ten times as much to lay out.)
  ref(name, reach) {
    const [, sign, owner, count] = /^([#@])(\d+)\.(\d+)$/.exec(name);
    const isHost = sign === '#' && owner === '0' && Number(count) < this.data.host.length;
    return el(reach ? 'button' : 'span', { class: 'ref', 'data-ref': name, title: isHost ? `${name}: the host's ${this.data.host[count]}` : name === '#1.0' ? '#1.0: the global object of $root$; its life' : `${name}: of ${this.name(Number(owner)) || '?'}; its life` },
    isHost ? this.data.host[count] : name);
  }

  // A piece of a line as nodes. (The names in it come by Tab where `reach` is said.)
  pieces(text, most, reach, find) {
    const nodes = [];
    let shown = 0;
    const plain = (part, cls) => {
      if (!cls && !find) return part;
      const node = el('span', { class: cls });
      if (find && part.toLowerCase().includes(find)) {
        let at = 0;
        const low = part.toLowerCase();
        for (let next; (next = low.indexOf(find, at)) >= 0; at = next + find.length) node.append(part.slice(at, next), el('mark', null, part.slice(next, next + find.length)));
        node.append(part.slice(at));
      } else node.append(part);
      return node;
    };
    for (const { 0: token, index: at } of text.slice(0, most * 2).matchAll(TOKENS)) {
      if (shown > most) { nodes.push('..'); break; }
      shown += token.length;
      if (/^[#@]\d/.test(token)) {
        nodes.push(this.ref(token, reach));
      } else if (token === '"') {
        // a text that goes on past what is shown: nothing in it is a name
        nodes.push(plain(cut(text.slice(at), most), 'text'));
        break;
      } else if (token[0] === '"') nodes.push(plain(cut(token, most), 'text'));
      else if (token[0] === '%') nodes.push(plain(token, 'common'));
      else if (token[0] === '/') nodes.push(plain(token, 'marks'));
      else nodes.push(plain(token));
    }
    if (text.length > most * 2) nodes.push('..');
    return nodes;
  }

  // What a crossing is: an ask by its method and items, an answer by its item.
  told(i, most, reach, find) {
    const body = this.body(i);
    if (this.isAsk(i)) {
      const method = this.method(i);
      return [el('span', { class: 'method k-' + KIND_OF[method] }, method), ...this.pieces(body.slice(4 + method.length), most, reach, find)];
    }
    const isThrow = this.code[i] === this.throw_;
    return [el('span', { class: isThrow ? 'throw' : 'arrowto' }, isThrow ? 'throw' : 'answer'), ...this.pieces(body.slice(isThrow ? 5 : 6), most, reach, find)];
  }

  answered(i, most, reach, find) {
    const answer = this.partner[i];
    if (answer < 0) return [el('span', { class: 'arrowto' }, '  (not answered)')];
    const isThrow = this.code[answer] === this.throw_;
    return [el('span', { class: isThrow ? 'throw' : 'arrowto' }, isThrow ? '  \u2192 throw' : '  \u2192'), ...this.pieces(this.body(answer).slice(isThrow ? 5 : 6), most, reach, find)];
  }

  pair(i) { return `${this.name(this.from[i])} \u2192 ${this.name(this.to[i])}`; }
  link(i) { return el('button', { class: 'link number', onclick: () => { this.goTo(i); } }, String(i + 1)); }
  partyLink(party) { return el('button', { class: 'link', onclick: () => this.takeParty(party) }, this.name(party)); }

  async goTo(i) {
    this.page.show('crossings');
    await this.read;
    this.clearSearch();
    // (an answer stands with its ask where nothing lies between them)
    let row = this.rowOf(i);
    if (row < 0) {
      this.folded.clear();
      this.shownDepth = Infinity;
      this.depthField.value = '';
      this.fold();
      row = this.rowOf(i);
    }
    this.list.reveal(row);
    this.list.box.focus();
  }

  rowOf(i) {
    let low = 0, high = this.rowCount;
    while (low < high) {
      const middle = (low + high) >> 1;
      if (this.rowsAt[middle] < i) low = middle + 1; else high = middle;
    }
    if (low < this.rowCount && this.rowsAt[low] === i) return low;
    if (!this.isAsk(i) && this.partner[i] >= 0 && low > 0 && this.rowsAt[low - 1] === this.partner[i]) return low - 1;
    return -1;
  }

  // PARTIES

  makeParties(panel) {
    const [word, party, steps] = this.data.ending;
    const tile = (number, what, act, alarm) => el('button', { class: 'tile' + (alarm ? ' alarm' : ''), onclick: act }, el('b', null, counted(number)), el('span', null, what));
    const asks = this.edges.reduce((sum, edge) => sum + edge.total, 0), throws = this.thrown.reduce((sum, count) => sum + count, 0);
    panel.append(el('div', { class: 'tiles' },
      tile(asks, 'asks', () => this.page.show('crossings')),
      tile(this.data.denials.length + this.data.moreDenials, 'denials told', () => this.page.show('denials'), this.data.denials.length > 0),
      tile(throws, 'throws', () => this.page.show('throws'), throws > 0),
      tile(this.hostCalls, 'calls of the host', () => this.page.show('host')),
      tile(this.parties.reduce((sum, one) => sum + one.steps, 0), 'steps', () => this.page.show('steps'))));
    if (word !== 'Done') {
      panel.append(el('p', { class: 'bad' }, `The run ended with ${word}` + (party === null ? '' : ` in ${this.name(party)} after ${many(steps, 'step')}`) + `: ${ENDINGS[word]}.`,
        this.n ? [' The last crossing is ', this.link(this.n - 1), '.'] : null));
    }
    this.graphBox = el('div');
    this.pairBox = el('div');
    this.graphNote = el('p', { class: 'soft' });
    this.partyTable = table({
      caption: 'Parties. A choice of one marks it in the picture, and shows its asks.',
      rows: this.data.order.map(id => ({ id, ...this.parties[id], ...this.sums[id] })),
      chosen: row => row.id === this.chosenParty,
      columns: [
        { name: 'no.', number: true, value: row => row.id },
        { name: 'party', value: row => row.name, cell: row => this.partyLink(row.id), class: 'names' },
        { name: 'steps', number: true, value: row => row.steps },
        { name: 'asks', number: true, value: row => row.asked },
        { name: 'was asked', number: true, value: row => row.was },
        { name: 'throws', number: true, value: row => this.thrown[row.id] },
        { name: 'denials', number: true, value: row => this.data.denials.filter(denial => denial.by === row.id).length },
      ],
    });
    panel.append(legend(this.kinds, () => this.drawGraph(), KIND_WORDS), this.graphNote,
      el('div', { class: 'split' }, el('div', { class: 'picture' }, this.graphBox), el('div', { class: 'beside' }, this.partyTable, el('h2', null, 'Who asks whom'), this.pairBox)));
    this.drawGraph();
  }

  // The parties that the picture has: all of a small run, else those that cross most, and what is chosen with its neighbours.
  drawGraph() {
    const most = 48;
    let shown = this.data.order;
    if (shown.length > most) {
      const weight = id => this.sums[id].asked + this.sums[id].was;
      const wanted = new Set([0, 1]);
      if (this.chosenParty !== null) {
        wanted.add(this.chosenParty);
        for (const edge of [...this.edges].sort((a, b) => b.total - a.total)) {
          if (wanted.size < most && (edge.from === this.chosenParty || edge.to === this.chosenParty)) { wanted.add(edge.from); wanted.add(edge.to); }
        }
      } else for (const id of [...shown].sort((a, b) => weight(b) - weight(a))) if (wanted.size < most) wanted.add(id);
      this.graphNote.textContent = `The picture has ${many(wanted.size, 'party', 'parties')} of ${counted(shown.length)}: ` +
        (this.chosenParty === null ? 'those with most asks.' : 'what is chosen, and whom it deals with most.') + ' The tables have all.';
      shown = shown.filter(id => wanted.has(id));
    }
    const denied = new Set(this.data.denials.map(denial => denial.by));
    this.picture = graph({
      nodes: shown.map(id => ({ id, label: this.name(id), sub: id === 0 ? 'the host' : many(this.parties[id].steps, 'step'), alarm: denied.has(id) && id > 1,
        group: id === 0 ? 'host' : id === 1 ? 'root' : '' })),
      edges: this.edges, kinds: this.kinds, chosen: this.chosenParty, choose: id => this.takeParty(id),
      label: 'Parties, and an arrow for the asks of each kind from one to another. The tables beside it say the same.',
    });
    this.graphBox.replaceChildren(this.picture);
    const rows = this.edges.filter(edge => this.chosenParty === null || edge.from === this.chosenParty || edge.to === this.chosenParty)
      .sort((a, b) => b.total - a.total);
    this.pairBox.replaceChildren(table({
      caption: this.chosenParty === null ? 'All pairs, by how many asks went.' : `Those of ${this.name(this.chosenParty)}.`, rows, most: 100,
      columns: [
        { name: 'from', value: row => this.name(row.from), cell: row => this.partyLink(row.from), class: 'names' },
        { name: 'to', value: row => this.name(row.to), cell: row => this.partyLink(row.to), class: 'names' },
        { name: 'asks', number: true, value: row => row.total, cell: row => el('button', { class: 'link', title: 'show them', onclick: () => this.search({ from: row.from, to: row.to }) }, counted(row.total)) },
        { name: 'by method', cell: row => el('span', { class: 'keys' }, Object.entries(row.methods).sort((a, b) => b[1] - a[1]).map(([method, count]) => el('span', null, `${method} ${counted(count)}`))) },
      ],
    }));
  }

  takeParty(id) {
    if (this.page.now !== 'parties') this.page.show('parties');
    this.chosenParty = this.chosenParty === id ? null : id;
    this.drawGraph();
    this.partyTable.draw();
    if (this.chosenParty === null) { this.page.close(); return; }
    const party = this.parties[id], denials = this.data.denials.filter(denial => denial.by === id);
    this.page.side(el('h2', null, el('code', null, party.name)),
      el('dl', null,
        el('dt', null, 'number'), el('dd', null, String(id)),
        el('dt', null, 'steps'), el('dd', null, counted(party.steps)),
        el('dt', null, 'asks'), el('dd', null, counted(this.sums[id].asked)),
        el('dt', null, 'was asked'), el('dd', null, counted(this.sums[id].was)),
        party.madeAt === null ? [] : [el('dt', null, 'made at'), el('dd', null, this.link(party.madeAt))]),
      el('p', null, el('button', { onclick: () => this.search({ party: id }) }, 'Show its crossings')),
      denials.length ? [el('h2', null, 'Denials that it told'), denials.map(denial => this.denialNode(denial))] : []);
    if (this.picture) this.picture.querySelector('.node.chosen')?.focus({ preventScroll: true });
  }

  // CROSSINGS

  makeCrossings(panel) {
    panel.classList.add('full');
    const options = all => [el('option', { value: '' }, all), ...this.data.order.map(id => el('option', { value: String(id) }, cut(this.name(id), 40)))];
    const change = () => this.runSearch();
    this.field = el('input', { type: 'search', placeholder: 'package, #1.0, method or text  ( / )', 'aria-label': 'Search the crossings', spellcheck: 'false', oninput: change, onkeydown: event => {
      if (event.key !== 'Enter' && event.key !== 'ArrowDown') return;
      this.list.box.focus();
      this.list.take(0);
      event.preventDefault();
    } });
    this.fromField = el('select', { 'aria-label': 'From', onchange: change }, options('from any'));
    this.toField = el('select', { 'aria-label': 'To', onchange: change }, options('to any'));
    this.methodField = el('select', { 'aria-label': 'Method', onchange: change }, el('option', { value: '' }, 'any method'),
      [...new Set(this.data.asks.map(ask => ask[2]))].sort((a, b) => a - b).map(code => el('option', { value: String(code) }, this.data.methods[code])),
      el('option', { value: String(this.throw_) }, 'throw'));
    this.depthField = el('input', { type: 'number', min: '0', max: String(this.deepest), placeholder: 'all', 'aria-label': 'Fold what lies deeper than', onchange: () => {
      this.shownDepth = this.depthField.value === '' ? Infinity : Number(this.depthField.value);
      this.folded.clear();
      this.clearSearch(true);
    } });
    this.foundBox = el('span', { class: 'found', role: 'status' });
    const tools = el('div', { class: 'tools' }, this.field, this.fromField, this.toField, this.methodField,
      el('button', { onclick: () => { this.clearSearch(); } }, 'All'),
      el('label', { class: 'soft' }, 'fold below depth ', this.depthField), this.foundBox);
    this.laneHead = el('div', { class: 'lanes', 'aria-hidden': 'true' });
    this.rowsAt = new Int32Array(this.n);
    this.list = new Rows({
      label: 'Crossings', height: 23, row: at => this.crossingRow(at), before: (from, to) => this.placeLanes(from, to), drawn: (from, to) => this.drawLanes(from, to),
      choose: at => this.showCrossing(this.rowsAt[at]),
      key: (key, at) => this.crossingKey(key, at),
    });
    panel.append(tools, this.laneHead, this.list.box);
    this.party = null;
    this.fold();
    return () => { this.list.draw(); if (document.activeElement !== this.field) this.list.box.focus({ preventScroll: true }); };
  }

  crossingKey(key, at) {
    const i = at < 0 ? -1 : this.rowsAt[at];
    if (key === 'Enter' && i >= 0) { this.showCrossing(i); this.page.aside.querySelector('.ref')?.focus(); } else if (key === 'o' && i >= 0) this.goTo(i);
    else if (key === 'ArrowLeft' && i >= 0 && !this.found) {
      // fold it, or the ask that it lies in
      let ask = this.isAsk(i) ? i : this.partner[i];
      if (ask < 0 || this.isFolded(ask) || this.partner[ask] === ask + 1) ask = this.outer[i];
      if (ask >= 0) { this.toggle(ask, true); this.list.take(this.rowOf(ask)); }
    } else if (key === 'ArrowRight' && i >= 0 && !this.found) { if (this.isFolded(i)) this.toggle(i, false); } else if (key === 'n' || key === 'p') {
      const marks = [...this.denied.keys(), ...this.throws].sort((a, b) => a - b);
      // (an answer may stand in the row of its ask)
      const next = key === 'n' ? marks.find(one => one > (i >= 0 && this.partner[i] === i + 1 ? i + 1 : i)) : marks.reverse().find(one => one < (i < 0 ? Infinity : i));
      if (next !== undefined) this.goTo(next);
    } else return false;
    return true;
  }

  isFolded(i) {
    if (!this.isAsk(i) || this.partner[i] === i + 1) return false;
    return this.folded.has(i) !== (this.depth[i] >= this.shownDepth);
  }

  toggle(i, fold) {
    if (this.partner[i] === i + 1 || this.isFolded(i) === fold) return;
    if (this.folded.has(i)) this.folded.delete(i); else this.folded.add(i);
    this.fold(true);
  }

  // The rows of the list: each ask, with its answer where nothing lies between them or it is folded, and the other answers.
  fold(keep) {
    this.found = this.hunt = null;
    const chosen = keep && this.list.chosen >= 0 ? this.rowsAt[this.list.chosen] : -1, rows = this.rowsAt, plain = this.folded.size === 0 && this.shownDepth === Infinity;
    let count = 0;
    for (let i = 0; i < this.n; i++) {
      rows[count++] = i;
      if (this.code[i] >= this.answer) continue;
      if (this.partner[i] === i + 1) i++;
      else if (!plain && this.isFolded(i)) i = this.partner[i] < 0 ? this.n : this.partner[i];
    }
    this.rowCount = count;
    this.lanes = this.data.order.filter(id => this.crossed[id]);
    this.list.set(count, keep);
    this.list.chosen = -1;
    if (chosen >= 0 && this.rowOf(chosen) >= 0) this.list.take(this.rowOf(chosen), true);
    this.foundBox.textContent = plain ? '' : `${many(count, 'row')} of ${many(this.n, 'crossing')}`;
  }

  clearSearch(keep) {
    this.field.value = this.fromField.value = this.toField.value = this.methodField.value = '';
    this.party = null;
    this.fold(keep);
  }

  async search({ text = '', from = '', to = '', method = '', party = null }) {
    this.page.show('crossings');
    await this.read;
    this.field.value = text;
    this.fromField.value = String(from);
    this.toField.value = String(to);
    this.methodField.value = String(method);
    this.party = party;
    this.list.box.focus();
    await this.runSearch();
  }

  // A name, a method, a name of a reference or a text: what stands in a line, or the name of its sender or receiver. An answer is found with
  // its ask. The first ones are shown at once, and the others are looked for while they are; of a term that grows only those that it had found.
  async runSearch() {
    const typed = this.field.value.trim().toLowerCase(), [from, to, method] = [this.fromField, this.toField, this.methodField].map(field => field.value);
    if (typed === '' && from === '' && to === '' && method === '' && this.party === null) { this.fold(); return; }
    const last = this.hunt, filters = [from, to, method, this.party].join(), rows = this.rowsAt;
    const hunt = this.hunt = { typed, filters, from: from === '' ? -1 : Number(from), to: to === '' ? -1 : Number(to), code: method === '' ? -1 : Number(method),
      party: this.party ?? -1, count: 0, read: 0, end: 0, next: 0, seen: new Uint8Array(this.parties.length) };
    // The host's objects are shown by their names, and have numbers in a trace.
    const hosts = this.data.host.map(name => typed !== '' && name.toLowerCase().includes(typed));
    // As it is written in a trace, or within its quotes. (`#1.1` is not found in `#1.10`, so what that had found is too little for this.)
    hunt.isName = /^[#@%].*\d$/.test(typed);
    const isEnd = hunt.isName ? at => !this.isFigure(at) : () => true;
    const isHost = at => {
      let number = 0;
      for (; this.isFigure(at); at++) number = number * 10 + this.text[at] - 48;
      return hosts[number];
    };
    hunt.finders = typed === '' ? null : [...new Set([typed, escaped(typed.replace(/["\\]/g, '\\$&')), escaped(typed)])].filter(one => /^[ -~]+$/.test(one))
      .map(one => ({ find: finder(this.text, one, true), size: one.length, is: isEnd })).concat(hosts.includes(true) ? { find: finder(this.text, '#0.', false), size: 3, is: isHost } : []);
    hunt.parties = this.parties.map(party => typed !== '' && party.name.toLowerCase().includes(typed));
    if (last?.filters === filters && typed.includes(last.typed) && !last.isName) {
      rows.copyWithin(last.count, last.read, last.end);
      hunt.end = last.count + last.end - last.read;
      hunt.next = last.next;
    }
    this.found = typed;
    for (let isFirst = true, done = false; !done; isFirst = false) {
      done = this.look(hunt, isFirst ? 100 : Infinity);
      this.rowCount = hunt.count;
      const lanes = this.lanes.length;
      this.lanes = this.data.order.filter(id => hunt.seen[id]);
      if (isFirst) this.list.set(hunt.count);
      else {
        this.list.grow(hunt.count);
        if (done && this.lanes.length !== lanes && this.lanes.length <= MOST_LANES) this.list.draw();
      }
      this.foundBox.textContent = `${many(hunt.count, 'ask')} found` + (done ? '' : ' so far') + (this.party === null ? '' : ` of ${this.name(this.party)}`);
      if (!done) await new Promise(later => { setTimeout(later); });
      if (this.hunt !== hunt) return;
    }
  }

  // Goes on with a search by a part (a number of lines and no time: on a loaded machine a time is over at once), or until enough was found. The
  // rows that it found stand at the start of the list's; behind them those of an earlier search that are still to be looked at. Says whether it
  // has come to the end.
  look(hunt, enough) {
    const { n, code, partner, answer, from, to, rowsAt: rows } = this;
    for (let left = 1 << 17; left > 0 && hunt.count < enough; left--) {
      let i;
      if (hunt.read < hunt.end) i = rows[hunt.read++];
      else if (hunt.next < n) i = hunt.next++;
      else return true;
      if ((code[i] >= answer && partner[i] >= 0) || !this.fits(hunt, i)) continue;
      rows[hunt.count++] = i;
      hunt.seen[from[i]] = hunt.seen[to[i]] = 1;
    }
    return false;
  }

  fits({ from, to, code, party, parties, finders }, i) {
    const sender = this.from[i], receiver = this.to[i], reply = this.code[i] < this.answer ? this.partner[i] : -1;
    if ((from >= 0 && sender !== from) || (to >= 0 && receiver !== to) || (party >= 0 && sender !== party && receiver !== party)) return false;
    if (code >= 0 && this.code[i] !== code && !(reply >= 0 && this.code[reply] === code)) return false;
    if (!finders || parties[sender] || parties[receiver]) return true;
    const { offset } = this;
    if (reply === i + 1) return this.stands(finders, offset[i], offset[i + 2]);
    return this.stands(finders, offset[i], offset[i + 1]) || (reply >= 0 && this.stands(finders, offset[reply], offset[reply + 1]));
  }

  stands(finders, from, to) {
    for (let k = 0; k < finders.length; k++) {
      const { find, size, is } = finders[k];
      for (let at = from; (at = find(at, to)) >= 0; at++) if (is(at + size)) return true;
    }
    return false;
  }

  isFigure(at) { return this.text[at] >= 48 && this.text[at] <= 57; }

  isJoined(i) { return this.isAsk(i) && (this.found !== null || this.partner[i] === i + 1 || this.isFolded(i)); }

  crossingRow(at) {
    const i = this.rowsAt[at], isAsk = this.isAsk(i), joined = this.isJoined(i), foldable = isAsk && this.partner[i] !== i + 1 && this.found === null;
    const find = this.found || undefined;
    const hidden = joined ? (this.partner[i] < 0 ? this.n - i - 1 : this.partner[i] - i - 1) : 0;
    const answer = joined && this.partner[i] >= 0 ? this.partner[i] : i;
    const row = el('div', { class: this.denied.has(i) || this.denied.has(answer) ? 'denied' : undefined, 'aria-label': `${i + 1}, ${this.pair(i)}, ${cut(this.body(i), 200)}` +
        (joined && this.partner[i] >= 0 ? ', ' + cut(this.body(this.partner[i]), 200) : '') + (hidden ? `, ${hidden} folded` : '') },
    el('span', { class: 'n' }, String(i + 1)), el('span', { class: 'room' }), el('span', { class: 'pair', title: this.pair(i) }, this.pair(i)),
    this.indent(i),
    foldable ? el('button', { class: 'fold', tabindex: '-1', 'aria-label': 'fold or unfold', onclick: () => this.toggle(i, !this.isFolded(i)) }, this.isFolded(i) ? '\u25b8' : '\u25be')
      : el('span', { class: 'fold' }),
    el('span', { class: 'what' }, this.told(i, 300, false, find), joined ? this.answered(i, 300, false, find) : null,
      hidden ? el('span', { class: 'hidden' }, `${counted(hidden)} between`) : null));
    row.children[1].style.width = this.laneWidth + 'px';
    row.addEventListener('dblclick', () => { if (this.found !== null) this.goTo(i); else if (foldable) this.toggle(i, !this.isFolded(i)); });
    return row;
  }

  indent(i) {
    const node = el('span');
    node.style.width = this.found !== null ? '0' : Math.min(this.depth[i], 16) * 14 + 'px';
    return node;
  }

  // The lanes that are drawn: of all parties that were found where they are few, else of those in sight.
  placeLanes(from, to) {
    let { lanes } = this;
    if (lanes.length > MOST_LANES) {
      const seen = new Set();
      for (let k = from; k < to; k++) { seen.add(this.from[this.rowsAt[k]]); seen.add(this.to[this.rowsAt[k]]); }
      lanes = lanes.filter(id => seen.has(id));
    }
    // (about a third of the list's width)
    const room = Math.max(120, Math.min(420, this.list.wide * 0.34)), apart = Math.max(13, Math.min(84, (room - 30) / Math.max(1, lanes.length - 1)));
    this.laneWidth = Math.round(Math.max(0, lanes.length - 1) * apart + 44);
    this.lanePlaces = new Map(lanes.map((id, k) => [id, 22 + k * apart]));
  }

  drawLanes(from, to) {
    const high = this.list.height, place = this.lanePlaces, lanes = [...place.keys()], width = this.laneWidth;
    const height = (to - from) * high;
    const picture = svg('svg', { class: 'lanes-picture', width, height, 'aria-hidden': 'true' });
    // (of each kind one path has all that looks alike)
    const paths = new Map();
    const put = (cls, kind, d) => { const key = `${cls} k-${kind}`; paths.set(key, (paths.get(key) ?? '') + d); };
    const arrow = (cls, kind, y, a, b) => {
      const right = b > a, tip = b - (right ? 2 : -2);
      put(cls, kind, `M${a},${y}H${tip - (right ? 4 : -4)}`);
      put('head', kind, `M${tip},${y}l${right ? -6 : 6},-3.5v7z`);
    };
    const span = (lane, y1, y2, kind) => { if (lane !== undefined && y2 > y1) put('span', kind, `M${lane - 2},${y1}h4v${y2 - y1}h-4z`); };
    for (const id of lanes) put('lane', id === 0 ? 'host' : 'own', `M${place.get(id)},0V${height}`);
    for (let k = from; k < to; k++) {
      const i = this.rowsAt[k], a = place.get(this.from[i]), b = place.get(this.to[i]), y = (k - from) * high + high / 2;
      if (this.isAsk(i)) {
        const joined = this.isJoined(i);
        arrow('arrow', this.kind(i), joined ? y - 3 : y, a, b);
        if (joined && this.partner[i] >= 0) arrow('back', this.kind(this.partner[i]), y + 5, b, a);
        else if (!joined) span(b, y, y + high / 2, this.kind(i));
      } else arrow('back', this.kind(i), y, a, b);
    }
    this.openSpans(from, to, place, span);
    for (const [cls, d] of paths) picture.append(svg('path', { class: cls, d }));
    picture.style.position = 'absolute';
    picture.style.left = (this.list.numberWidth ??= this.list.rows.querySelector('.n')?.offsetWidth) + 'px';
    picture.style.pointerEvents = 'none';
    this.drawLaneNames(lanes, place, width);
    return picture;
  }

  // Where an ask is open over several rows, its lane is thick.
  openSpans(from, to, place, draw) {
    if (this.found !== null || to <= from) return;
    const high = this.list.height, open = [];
    // (those that were opened above what is seen)
    for (let ask = this.outer[this.rowsAt[from]]; ask >= 0; ask = this.outer[ask]) open.unshift([ask, 0]);
    for (let k = from; k < to; k++) {
      const i = this.rowsAt[k], y = (k - from) * high + high / 2;
      if (this.isAsk(i)) { if (!this.isJoined(i)) open.push([i, y]); } else {
        const at = open.findIndex(([ask]) => ask === this.partner[i]);
        if (at >= 0) { const [[ask, y1]] = open.splice(at, 1); draw(place.get(this.to[ask]), y1, y, KIND_OF[this.method(ask)]); }
      }
    }
    for (const [ask, y1] of open) draw(place.get(this.to[ask]), y1, (to - from) * high, KIND_OF[this.method(ask)]);
  }

  drawLaneNames(lanes, place, width) {
    const key = lanes.join() + width;
    if (this.laneKey === key) return;
    this.laneKey = key;
    const slant = lanes.length > 1 && (width - 44) / (lanes.length - 1) < 80;
    const names = lanes.map(id => this.name(id)), longest = Math.min(20, Math.max(...names.map(name => name.length), 1));
    const height = slant ? Math.round(longest * 5.4 + 14) : 24, left = this.list.numberWidth ?? 73;
    const picture = svg('svg', { width: left + width + (slant ? 130 : 60), height });
    lanes.forEach((id, k) => {
      const x = left + place.get(id), short = names[k].length > 20 ? '..' + names[k].slice(-18) : names[k];
      picture.append(svg('text', slant ? { class: 'dim', transform: `translate(${x - 2},${height - 4}) rotate(-45)` } : { class: 'dim', x, y: 16, 'text-anchor': 'middle' }, short, svg('title', null, names[k])));
    });
    this.laneHead.replaceChildren(picture);
  }

  // THE SIDE

  showCrossing(i) {
    const ask = this.isAsk(i) ? i : this.partner[i], answer = ask >= 0 ? this.partner[ask] : i;
    const one = (k, title) => [el('h2', null, title, ' ', this.link(k)), el('p', { class: 'soft' }, this.partyLink(this.from[k]), ' to ', this.partyLink(this.to[k]),
      this.steps ? ` after ${many(this.steps[k], 'step')} of ${this.name(this.from[k])}` : ''),
    el('pre', null, this.told(k, 20000, true)), this.textsOf(k)];
    const denials = [ask, answer].filter(k => k >= 0 && this.denied.has(k)).map(k => this.denialNode(this.denied.get(k)));
    this.page.side(...denials, ask >= 0 ? one(ask, 'Ask') : [], answer >= 0 ? one(answer, this.code[answer] === this.throw_ ? 'Throw' : 'Answer') : [el('p', { class: 'soft' }, 'It was not answered.')],
      el('p', { class: 'soft' }, 'Depth ', String(this.depth[i]), '. A name (#1.0) shows its life: who made it, who was given it, who asked it.'));
    history.replaceState(null, '', `#crossings/${i + 1}`);
  }

  // The texts of a line, as letters, where that is another thing than how they stand there.
  textsOf(k) {
    const found = [...this.body(k).slice(0, 40000).matchAll(/"(?:[^"\\]|\\.)*"/g)].map(([text]) => text).filter(text => text.includes('\\')).slice(0, 20);
    if (!found.length) return [];
    return [el('p', { class: 'soft' }, 'Read as letters:'), found.map(text => el('pre', null, lettered(JSON.parse(text))))];
  }

  // Who made a reference, who was given it, who asked it, in order.
  life(name) {
    const uses = [], isAt = [], { text, offset } = this, find = finder(text, name, false);
    let asked = 0, given = 0, marks = null;
    for (let at = 0, i = 0; (at = find(at, text.length)) >= 0;) {
      while (offset[i + 1] <= at) i++;
      let quotes = 0;
      for (let k = offset[i]; k < at; k++) { if (text[k] === 92) k++; else if (text[k] === 34) quotes ^= 1; }
      if (this.isFigure(at + name.length) || quotes) { at++; continue; }
      // the target of an ask is its first item
      const line = this.body(i), before = line.slice(0, at - offset[i]);
      const isTarget = this.isAsk(i) && /^ask [A-Za-z]+ (?:[a-z][A-Za-z]* )?$/.test(before);
      if (!uses.length) marks = /^\/[A-Z][A-Za-z]*(?:\+call)?(?:\+new)?/.exec(line.slice(at - offset[i] + name.length))?.[0];
      uses.push(i);
      isAt.push(isTarget ? 1 : 0);
      if (isTarget) asked++; else given++;
      at = offset[i + 1];
      i++;
    }
    const [, sign, owner, count] = /^([#@])(\d+)\.(\d+)$/.exec(name);
    const isHost = sign === '#' && owner === '0' && Number(count) < this.data.host.length;
    const holders = new Map();
    uses.forEach((i, k) => { if (!isAt[k]) { const to = this.to[i]; if (!holders.has(to) && String(to) !== owner) holders.set(to, i); } });
    const list = new Rows({
      label: `Life of ${name}`, height: 23, row: k => {
        const i = uses[k];
        return el('div', { 'aria-label': `${i + 1}, ${isAt[k] ? 'asked by' : 'given by'} ${this.pair(i)}` },
          el('span', { class: 'n' }, String(i + 1)),
          el('span', { class: 'what', title: cut(this.body(i), 600) }, isAt[k]
            ? [el('span', { class: 'method k-' + this.kind(i) }, this.method(i)), ` by ${this.name(this.from[i])}`, ...this.pieces(this.body(i).slice(4 + this.method(i).length + 1 + name.length), 120)]
            : [el('span', { class: 'soft' }, 'given '), `${this.pair(i)} `, ...this.pieces(this.body(i), 120)]));
      },
      choose: () => {}, key: (key, k) => { if (key !== 'Enter' || k < 0) return false; this.goTo(uses[k]); return true; },
    });
    list.box.addEventListener('click', () => { if (list.chosen >= 0) this.goTo(uses[list.chosen]); });
    this.page.side(el('h2', null, 'Life of ', el('code', null, name), isHost ? `, the host's ${this.data.host[count]}` : name === '#1.0' ? ', the global object of $root$' : ''),
      el('dl', null,
        el('dt', null, 'made by'), el('dd', null, this.parties[owner] ? this.partyLink(Number(owner)) : '?'),
        marks ? [el('dt', null, 'is'), el('dd', null, el('code', null, marks))] : [],
        uses.length ? [el('dt', null, isHost || name === '#1.0' ? 'first seen' : 'left'), el('dd', null, this.link(uses[0]), ` ${this.pair(uses[0])}`)] : [],
        el('dt', null, 'was given'), el('dd', null, holders.size ? [...holders].map(([party, i], k) => [k ? ', ' : '', this.partyLink(party), ' at ', this.link(i)]) : 'to nobody in a crossing'),
        el('dt', null, 'asked'), el('dd', null, many(asked, 'time')),
        el('dt', null, 'passed on'), el('dd', null, many(given, 'time'))),
      list.box);
    list.set(uses.length);
    this.lived = uses.length;
  }

  // DENIALS, THE HOST, THROWS

  denialNode(denial) {
    const { row } = denial, what = denial.kind === 'import' ? ['requests ', el('code', null, escaped(denial.request))] : ['reads the name ', el('code', null, escaped(denial.request)), ', which is not defined for it'];
    const subject = denial.kind === 'import' ? escaped(denial.package) : this.name(denial.by);
    const other = denial.kind === 'import' && subject !== this.name(denial.by);
    return el('div', { class: 'denial' },
      el('p', null, el('code', null, subject), ' ', what, '. ', el('span', { class: 'soft' }, 'First told by ', this.partyLink(denial.by), ' at ', this.link(denial.at),
        denial.count > 1 ? `, ${many(denial.count, 'time')} in all` : '', '.')),
      other ? el('p', { class: 'bad' }, `Told by ${this.name(denial.by)} of another package: what a package says is no proof.`) : null,
      row.package ? [el('p', { class: 'soft' }, 'This line of ', el('code', null, 'policy-override.json'), ' would allow it:'),
        el('pre', null, `"${escaped(row.package)}": { "${row.kind}": { "${escaped(row.key)}": true } }`), row.note ? el('p', { class: 'soft' }, escaped(row.note) + '.') : null]
        : el('p', { class: 'soft' }, 'No line of a policy allows it: ', escaped(row.note), '.'),
      denial.policy ? el('p', { class: 'soft' }, denial.policy) : null);
  }

  makeDenials(panel) {
    const { denials, moreDenials } = this.data;
    panel.append(el('h2', null, 'Denials that the trace tells'),
      el('p', { class: 'soft' }, 'A denial happens within a package, which may catch it, and then the trace has no sign of it. It has one where a text that tells it crosses: ' +
        '"LavaMoat - not allowed", or a name that is not defined. Such a text is the word of the package that sent it: `lava check` has what the sources ask for and the policy denies.'));
    if (!denials.length) { panel.append(el('p', null, 'No text of this trace tells one.')); return; }
    if (moreDenials) panel.append(el('p', null, `${counted(moreDenials)} more were told than stand here.`));
    panel.append(table({
      caption: 'Each by who said it first, without having been told it.', rows: denials, most: 200,
      columns: [
        { name: 'crossing', number: true, value: row => row.at, cell: row => this.link(row.at) },
        { name: 'told by', value: row => this.name(row.by), cell: row => [this.partyLink(row.by), row.kind === 'import' && escaped(row.package) !== this.name(row.by)
          ? el('span', { class: 'bad' }, ' of another: ', escaped(row.package)) : null], class: 'names' },
        { name: 'denied', value: row => row.request, cell: row => [row.kind === 'import' ? 'request ' : 'name ', el('code', { class: 'bad' }, escaped(row.request))] },
        { name: 'times', number: true, value: row => row.count },
        { name: 'what would allow it', cell: row => row.row.package
          ? [el('code', null, `"${escaped(row.row.package)}": { "${row.row.kind}": { "${escaped(row.row.key)}": true } }`), row.row.note ? el('div', { class: 'soft' }, escaped(row.row.note)) : null]
          : el('span', { class: 'soft' }, escaped(row.row.note)) },
        ...this.data.policy ? [{ name: 'the policy now', cell: row => el('span', { class: 'soft' }, row.policy ?? '') }] : [],
        { name: 'text', cell: row => el('div', { class: 'code' }, this.pieces(this.body(row.at), 160)) },
      ],
    }));
  }

  makeHost(panel) {
    panel.classList.add('full');
    const counts = new Map();
    const named = i => {
      const found = /^ask Call #0\.(\d+)(?: |$)/.exec(this.body(i).slice(0, 40));
      return found && Number(found[1]) < this.data.host.length ? this.data.host[found[1]] : 'another function';
    };
    for (const i of this.hostAsks) { const key = `${this.from[i]} ${named(i)}`; counts.set(key, (counts.get(key) ?? 0) + 1); }
    const rows = [...counts].map(([key, count]) => { const at = key.indexOf(' '); return { party: Number(key.slice(0, at)), what: key.slice(at + 1), count }; });
    const list = new Rows({
      label: 'Calls of the host', height: 23, row: k => {
        const i = this.hostAsks[k];
        return el('div', { 'aria-label': `${i + 1}, ${this.name(this.from[i])}, ${cut(this.body(i), 200)}` }, el('span', { class: 'n' }, String(i + 1)), el('span', { class: 'pair' }, this.name(this.from[i])),
          el('span', { class: 'what' }, this.pieces(this.body(i).slice(9), 300), this.answered(i, 200)));
      },
      choose: k => this.showCrossing(this.hostAsks[k]), key: (key, k) => { if (key !== 'o' && key !== 'Enter') return false; this.goTo(this.hostAsks[k]); return true; },
    });
    const head = el('div', { class: 'tools' }, el('div', null, table({
      caption: 'What came of the host: each call of one of its functions. Below they stand in order, each with its answer.', rows, most: 8,
      columns: [
        { name: 'party', value: row => this.name(row.party), cell: row => this.partyLink(row.party), class: 'names' },
        { name: 'function', value: row => row.what, class: 'names' },
        { name: 'calls', number: true, value: row => row.count },
      ],
    })));
    panel.append(head, list.box);
    list.set(this.hostAsks.length);
    return () => list.draw();
  }

  makeThrows(panel) {
    const [word, party, steps] = this.data.ending;
    panel.append(el('h2', null, 'How the run ended'), el('p', null, `${word}` + (party === null ? '' : ` in ${this.name(party)}, ${many(steps, 'step')}`) + `: ${ENDINGS[word]}.`,
      this.n ? [' The last crossing is ', this.link(this.n - 1), '.'] : null), el('h2', null, 'Throws'));
    if (!this.throws.length) { panel.append(el('p', { class: 'soft' }, 'Nothing was thrown from one party to another.')); return; }
    panel.append(table({
      caption: 'What a party threw at another one. Of an error object the trace has the class alone, unless somebody read its message.', rows: this.throws, most: 300,
      columns: [
        { name: 'crossing', number: true, value: i => i, cell: i => this.link(i) },
        { name: 'thrown by', value: i => this.name(this.from[i]), cell: i => this.partyLink(this.from[i]), class: 'names' },
        { name: 'to', value: i => this.name(this.to[i]), cell: i => this.partyLink(this.to[i]), class: 'names' },
        { name: 'what', cell: i => el('span', { class: 'code' }, this.pieces(this.body(i).slice(6), 300, true)) },
        // (what it had been told last is often why)
        { name: 'just before', cell: i => { const ask = this.partner[i - 1]; return i === 0 ? '' : el('span', { class: 'code' }, this.link(i - 1), ' ', this.isAsk(i - 1) || ask < 0 ? this.told(i - 1, 160, true) : [this.told(ask, 160, true), this.answered(ask, 160, true)]); } },
        { name: 'answers the ask', cell: i => this.partner[i] < 0 ? '' : el('span', { class: 'code' }, this.link(this.partner[i]), ' ', this.told(this.partner[i], 160, true)) },
      ],
    }));
  }

  // STEPS

  makeSteps(panel) {
    const total = Math.max(1, this.parties.reduce((sum, one) => sum + one.steps, 0)), most = Math.max(1, ...this.parties.map(one => one.steps));
    const rows = this.parties.map((party, id) => ({ id, ...party })).sort((a, b) => b.steps - a.steps || a.id - b.id);
    const bar = steps => { const node = el('span', { class: 'bar', 'aria-hidden': 'true' }); node.style.width = Math.round(steps / most * 160) + 'px'; return node; };
    const columns = [
      { name: 'party', value: row => row.name, cell: row => this.partyLink(row.id), class: 'names' },
      { name: 'steps', number: true, value: row => row.steps },
      { name: 'of all', cell: row => [bar(row.steps), ` ${(row.steps / total * 100).toFixed(1)}%`] },
    ];
    if (!this.steps) {
      panel.append(el('h2', null, 'Steps'), el('p', { class: 'soft' }, 'A trace of version 1 has the sum of each party alone. One of version 2 has them at each crossing.'),
        table({ caption: 'The steps of each party.', rows, columns }));
      return;
    }
    // Of each party, what it took between its crossings, by where in the trace.
    const parts = 120, size = Math.max(1, Math.ceil(this.n / parts)), latest = new Float64Array(this.parties.length), leap = this.parties.map(() => ({ steps: 0, at: null }));
    const sums = this.parties.map(() => new Float64Array(parts));
    for (let i = 0; i < this.n; i++) {
      const id = this.from[i], took = this.steps[i] - latest[id];
      latest[id] = this.steps[i];
      sums[id][Math.floor(i / size)] += took;
      if (took > leap[id].steps) leap[id] = { steps: took, at: i };
    }
    this.parties.forEach((party, id) => {
      const took = party.steps - latest[id];
      sums[id][Math.min(parts - 1, Math.floor(Math.max(0, this.n - 1) / size))] += took;
      if (took > leap[id].steps) leap[id] = { steps: took, at: this.n - 1 };
    });
    const used = Math.ceil(this.n / size), wide = Math.max(4, Math.floor(620 / Math.max(1, used))), shown = rows.filter(row => row.steps > 0).slice(0, 40), high = 40;
    const picture = svg('svg', { width: 190 + used * wide + 10, height: shown.length * high + 26, role: 'img', 'aria-label': 'Steps of each party over the crossings; the table beside it has the sums' });
    const top = Math.max(1, ...shown.map(row => Math.max(...sums[row.id])));
    shown.forEach((row, k) => {
      const y = k * high + high;
      picture.append(svg('text', { x: 178, y: y - 6, 'text-anchor': 'end' }, row.name.length > 24 ? '..' + row.name.slice(-22) : row.name), svg('line', { class: 'lane', x1: 186, x2: 190 + used * wide, y1: y, y2: y }));
      for (let part = 0; part < used; part++) {
        const steps = sums[row.id][part];
        if (steps <= 0) continue;
        const tall = Math.max(1.5, steps / top * (high - 8));
        const node = svg('rect', { class: 'steps', x: 190 + part * wide, y: y - tall, width: Math.max(1, wide - 1), height: tall, onclick: () => this.goTo(Math.min(this.n - 1, part * size)) },
          svg('title', null, `${row.name}: ${many(steps, 'step')} in crossings ${counted(part * size + 1)} to ${counted(Math.min(this.n, (part + 1) * size))}`));
        picture.append(node);
      }
    });
    picture.append(svg('text', { class: 'dim', x: 190, y: shown.length * high + 18 }, `crossing 1 to ${counted(this.n)}, ${many(size, 'crossing')} a bar; the highest is ${many(top, 'step')}`));
    columns.push({ name: 'most at once', number: true, value: row => leap[row.id].steps, cell: row => leap[row.id].at === null ? '0' : [counted(leap[row.id].steps), ' before ', this.link(leap[row.id].at)] });
    panel.append(el('h2', null, 'Steps between crossings'), el('div', { class: 'split' }, el('div', { class: 'picture' }, picture),
      el('div', { class: 'beside' }, table({ caption: `The steps of each party${rows.length > shown.length ? '; the picture has those with most' : ''}.`, rows, columns }))));
  }

  // TWO TRACES

  makeCompared(panel) {
    const { compared, title } = this.data;
    const differing = compared.views.filter(view => view.at !== null), box = el('div');
    const draw = view => {
      const side = k => {
        const lines = view.first[k];
        return el('div', null, el('p', { class: 'soft' }, `${k ? compared.with : title}: ` + (view.parties[k] === null ? 'has no such party' : `party ${view.parties[k]}, ${many(view.lines[k], 'line')}, ${many(view.steps[k], 'step')}`)),
          el('pre', null, lines.map(([count, crossing, line]) => el('span', { class: count >= view.at ? 'other' : '' }, `${String(count + 1).padStart(6)}  ${cut(line, 2000)}   (crossing ${crossing + 1})\n`)),
            view.parties[k] !== null && view.lines[k] <= view.at ? el('span', { class: 'other' }, '        no line more\n') : null));
      };
      box.replaceChildren(el('h2', null, view.at === null ? ['The views of ', el('code', null, view.name), ' are the same'] : ['The views of ', el('code', null, view.name), ` differ first at line ${view.at + 1}`]),
        el('div', { class: 'differ' }, side(0), side(1)));
    };
    panel.append(el('h2', null, 'The view of each party, in both traces'),
      el('p', { class: 'soft' }, `This trace (${title}) and ${compared.with}. A view is what a party sees: its own crossings in order, own things named by their leaving (mine.0), others by their coming (their.0), ` +
        'the host\'s objects by their names.'),
      el('p', null, differing.length ? `${differing.length} of ${many(compared.views.length, 'view')} differ.` : 'All views are the same.'),
      table({
        caption: 'Parties by their names.', rows: [...differing, ...compared.views.filter(view => view.at === null)],
        columns: [
          { name: 'party', value: view => view.name, cell: view => el('button', { class: 'link', onclick: () => draw(view) }, view.name), class: 'names' },
          { name: 'lines here', number: true, value: view => view.lines[0] }, { name: 'lines there', number: true, value: view => view.lines[1] },
          { name: 'first difference', value: view => view.at === null ? Infinity : view.at, cell: view => view.at === null ? el('span', { class: 'soft' }, 'none') : el('button', { class: 'link bad', onclick: () => draw(view) }, `line ${view.at + 1}`) },
          { name: 'at crossing here', cell: view => { const found = view.first[0].find(([count]) => count === view.at); return found ? this.link(found[1]) : ''; } },
          { name: 'steps', cell: view => view.steps[0] === view.steps[1] ? counted(view.steps[0]) : `${view.steps.map(steps => steps === null ? 'none' : counted(steps)).join(' and ')}` },
        ],
      }), box);
    if (differing.length) draw(differing[0]);
  }
}
