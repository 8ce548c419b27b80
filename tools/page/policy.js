// The page of a policy, and the same as a part of a trace's page.

const ARROWS = { import: 'may import', denied: 'asks to import, and is denied' };

function keysOf(keys, cls) { return el('span', { class: 'keys' }, keys.map(key => el('span', { class: cls }, escaped(Array.isArray(key) ? key.join(' ') : key)))); }
// What is denied: the text of a request as it is, a name with what was to be done with it.
const deniedKeys = row => keysOf(row.denied.map(([what, text]) => `${what} ${text}`), 'strong');

// Fills a panel with the picture and the table of a policy.
function policyPanels(page, panel, policy) {
  const { rows } = policy, byName = new Map(rows.map(row => [row.name, row]));
  let chosen = null, filter = '', only = '';
  const importers = new Map(rows.map(row => [row.name, []]));
  for (const row of rows) for (const name of row.imports) importers.get(name)?.push(row.name);
  const everything = rows.find(row => row.everything);
  if (everything) for (const name of policy.links[everything.name] ?? []) importers.get(name)?.unshift(everything.name);
  const kinds = new Set(Object.keys(ARROWS));
  const groups = {
    fs: ['hold fs', row => row.fs.length], writes: ['may write globals', row => row.writes.length], host: ['hold other host objects', row => row.host.length || row.builtins.length],
    taken: ['lost by the override', row => row.taken.length], unused: ['hold what no source asks for', row => row.unused?.length], denied: ['ask and are denied', row => row.denied?.length],
    none: ['hold and import nothing', row => !row.everything && !row.fs.length && !row.writes.length && !row.host.length && !row.builtins.length && !row.globals.length && !row.imports.length],
  };
  const alarms = { fs: true, writes: true, unused: false, denied: true };
  const shown = () => rows.filter(row => (!only || groups[only][1](row)) && (filter === '' || JSON.stringify([row.name, row.fs, row.writes, row.host, row.globals, row.builtins, row.imports, row.taken, row.denied]).toLowerCase().includes(filter)));
  const why = name => policy.why[name] ? `not known: ${policy.why[name]}` : null;
  const tiles = el('div', { class: 'tiles' });
  const drawTiles = () => tiles.replaceChildren(...Object.entries(groups).map(([key, [label, has]]) => {
    const missing = why({ unused: 'generated', denied: 'denied' }[key]);
    const count = rows.filter(row => has(row)).length;
    return el('button', { class: 'tile' + (alarms[key] && count ? ' alarm' : ''), 'aria-pressed': String(only === key), title: missing ?? undefined, disabled: Boolean(missing), onclick: () => { only = only === key ? '' : key; draw(); } },
      el('b', null, missing ? '?' : counted(count)), el('span', null, label));
  }));
  const link = name => byName.has(name) ? el('button', { class: 'link', onclick: () => take(name) }, escaped(name)) : escaped(name);
  const links = names => names.flatMap((name, k) => [k ? ', ' : '', link(name)]);
  const held = row => row.everything ? el('span', { class: 'soft' }, 'everything: it is the application itself')
    : [keysOf(row.fs.map(key => key), 'strong'), keysOf(row.writes.map(key => `write ${key}`), 'strong'), keysOf(row.builtins), keysOf(row.host), keysOf(row.globals)];
  const columns = [
    { name: 'package', value: row => row.name, cell: row => [el('button', { class: 'link', onclick: () => take(row.name) }, escaped(row.name)),
      policy.folder && row.directory === null ? el('div', { class: 'soft' }, 'no such package in the folder') : null], class: 'names' },
    { name: 'holds', cell: held },
    { name: 'may import', number: false, value: row => row.imports.length, cell: row => row.everything ? el('span', { class: 'soft' }, 'all') : el('span', { class: 'names' }, links(row.imports)) },
    { name: 'is imported by', value: row => importers.get(row.name).length, cell: row => el('span', { class: 'names' }, links(importers.get(row.name))) },
    { name: 'override took away', value: row => row.taken.length, cell: row => keysOf(row.taken, 'gone') },
    ...policy.why.generated ? [] : [{ name: 'no source asks for', value: row => row.unused.length, cell: row => keysOf(row.unused) }],
    ...policy.why.denied ? [] : [{ name: 'asked and denied', value: row => row.denied.length, cell: deniedKeys }],
  ];
  const list = table({ caption: 'Packages, those that hold most first: fs and globals that they may write, other objects of the host, then the rest.', rows: shown(), columns, chosen: row => row.name === chosen, most: 600 });
  const box = el('div'), note = el('p', { class: 'soft' }), status = el('span', { class: 'found', role: 'status' });
  const field = el('input', { type: 'search', placeholder: 'package or key', 'aria-label': 'Filter packages', spellcheck: 'false', oninput: () => { filter = field.value.trim().toLowerCase(); draw(); } });
  page.on('f', 'filter the packages of the policy', () => { field.focus(); field.select(); });

  // The whole graph where it is small, else what is chosen with its neighbours, or the packages that hold most.
  function drawGraph() {
    const edges = [];
    for (const row of rows) {
      const names = row.everything ? policy.links[row.name] ?? [] : row.imports;
      for (const name of names) if (byName.has(name)) edges.push({ from: row.name, to: name, kinds: { import: 1 }, total: 1, name: `${escaped(row.name)} to ${escaped(name)}` });
      for (const name of new Set((row.denied ?? []).map(([, , to]) => to))) if (byName.has(name)) edges.push({ from: row.name, to: name, kinds: { denied: 1 }, total: 1, name: `${escaped(row.name)} to ${escaped(name)}` });
    }
    let wanted = shown();
    if (wanted.length < rows.length && everything) wanted = [...new Set([everything, ...wanted])];
    const most = 48;
    note.textContent = '';
    if (wanted.length > most || chosen !== null) {
      if (chosen !== null && rows.length > most) {
        const near = new Set([chosen, ...(byName.get(chosen).everything ? policy.links[chosen] ?? [] : byName.get(chosen).imports), ...importers.get(chosen)]);
        wanted = rows.filter(row => near.has(row.name) || row.everything);
      }
      if (wanted.length > most) wanted = [...new Set([...everything ? [everything] : [], ...wanted])].slice(0, most);
    }
    if (wanted.length < rows.length) note.textContent = `The picture has ${counted(wanted.length)} of ${many(rows.length, 'package')}; the table has all.`;
    const names = new Set(wanted.map(row => row.name));
    const picture = graph({
      nodes: wanted.map(row => ({ id: row.name, label: escaped(row.name), group: row.everything ? 'root' : '', alarm: row.fs.length + row.writes.length > 0 && !row.everything, denied: row.denied?.length,
        sub: row.everything ? 'everything' : [[...row.fs, ...row.writes.map(key => 'write ' + key), ...row.builtins, ...row.host, ...row.globals].map(escaped).join(' '),
          row.denied?.length && `${counted(row.denied.length)} denied`].filter(Boolean).join(', ') || 'holds nothing' })),
      edges: edges.filter(edge => names.has(edge.from) && names.has(edge.to)), kinds, chosen, choose: take, label: 'Packages, and an arrow from each to those that it may import. Those with fs or with globals that they may write have a red border. The table says the same.',
    });
    box.replaceChildren(rows.some(row => row.denied?.some(([, , to]) => to)) ? legend(kinds, null, ARROWS) : '', picture);
  }

  function draw() {
    drawTiles();
    drawGraph();
    list.draw(shown());
    status.textContent = only || filter ? `${counted(shown().length)} of ${many(rows.length, 'package')}` : many(rows.length, 'package');
  }

  function take(name) {
    chosen = chosen === name ? null : name;
    draw();
    if (chosen === null) { page.close(); return; }
    const row = byName.get(name), part = (title, content) => content.length ? [el('h2', null, title), content] : [];
    page.side(el('h2', null, el('code', null, escaped(name))),
      el('dl', null, el('dt', null, 'folder'), el('dd', null, row.directory === null || row.directory === undefined ? 'none' : escaped(row.directory || '.')),
        el('dt', null, 'may import'), el('dd', null, row.everything ? 'all' : row.imports.length ? links(row.imports) : 'nothing'),
        el('dt', null, 'is imported by'), el('dd', null, importers.get(name).length ? links(importers.get(name)) : 'nobody')),
      part('The override took away', row.taken.map(([kind, key]) => el('p', null, keysOf([`${kind} ${key}`], 'gone')))),
      part('The override added', row.added.map(([kind, key]) => el('p', null, keysOf([`${kind} ${key}`])))),
      row.unused ? part('No source asks for', row.unused.map(([kind, key]) => el('p', null, keysOf([`${kind} ${key}`])))) : [],
      row.denied?.length ? part('Asked and denied', [deniedKeys(row)]) : [],
      el('h2', null, 'Its row, merged'),
      el('pre', null, row.everything ? '(none: everything is granted)' : JSON.stringify(row.merged, null, 2).replace(/[^\n\x20-\x7e]/g, escaped)));
  }

  panel.append(tiles,
    ...[why('generated') && `What no source asks for is ${why('generated')}.`, why('denied') && `What is asked and denied is ${why('denied')}.`, ...policy.notes]
      .filter(Boolean).map(text => el('p', { class: 'soft' }, escaped(text))),
    el('div', { class: 'tools' }, field, el('button', { onclick: () => { filter = ''; field.value = ''; only = ''; if (chosen) take(chosen); draw(); } }, 'All'), status),
    note, el('div', { class: 'picture' }, box), el('h2', null, 'Packages'), list);
  drawTiles();
  drawGraph();
  status.textContent = many(rows.length, 'package');
}

class PolicyPage {
  constructor(data) { this.data = data; }

  start() {
    const { title, policy } = this.data, page = new Page(title, many(policy.rows.length, 'package'));
    page.tab('policy', 'Policy', policy.rows.length, panel => policyPanels(page, panel, policy));
    page.show('policy');
  }
}
