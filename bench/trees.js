// What acorn reads, printed as source_rows prints trees: `node bench/trees.js < LINES` prints a line for each line, in which `¶` stands for a
// line terminator; source_rows takes the same lines with `tree ` before each. Two programs that agree on every line read the same trees. `-`
// stands for what acorn refuses.
'use strict';
const acorn = require(process.env.ACORN || '/usr/share/nodejs/acorn/dist/acorn.js');
let out;
const sp = () => { if (out.length && !out.endsWith('(')) out += ' '; };
const w = s => { if (s !== ')') sp(); out += s; };
const at = n => { out += '@' + n.loc.start.line + ':' + (n.loc.start.column + 1); };
const form = (name, n) => { w('('); w(name); at(n); };
const end = () => w(')');
const units = s => { for (let i = 0; i < s.length; i++) { const u = s.charCodeAt(i); out += u > 32 && u < 127 && u !== 34 && u !== 92 ? s[i] : '\\u' + u.toString(16).padStart(4, '0'); } };
const quoted = s => { sp(); out += '"'; units(s); out += '"'; };
const plain = s => { sp(); units(s); };
const number = v => { sp(); out += Number.isSafeInteger(v) ? '#' + v : '#none'; };
const opt = (x, f) => { if (x) f(x); else w('-'); };
const plainName = x => plain(x.name);
function block(name, l) { w('('); w(name); l.forEach(stmt); end(); }
function spread(e) { w('(spread'); expr(e); end(); }
const arg = a => a.type === 'SpreadElement' ? spread(a.argument) : expr(a);
function key(k, computed) {
  if (computed) { w('(computed'); expr(k); end(); }
  else if (k.type === 'Identifier') quoted(k.name);
  else if (typeof k.value === 'string') quoted(k.value);
  else number(k.value);
}
function fn(f, kind, place) {
  form(kind, place);
  opt(f.id, plainName);
  w('(parameters');
  f.params.forEach(p => { if (p.type === 'RestElement') { w('(rest'); pattern(p.argument); end(); } else element(p); });
  end();
  if (f.body.type === 'BlockStatement') block('body', f.body.body); else expr(f.body);
  end();
}
function cls(c) {
  form('class', c);
  opt(c.id, plainName); opt(c.superClass, expr);
  for (const m of c.body.body) {
    form(m.static ? 'static' : 'member', m);
    key(m.key, m.computed);
    fn(m.value, m.kind === 'get' ? 'getter' : m.kind === 'set' ? 'setter' : 'method', m);
    end();
  }
  end();
}
const element = p => { if (p.type === 'AssignmentPattern') { w('(default'); pattern(p.left); expr(p.right); end(); } else pattern(p); };
function pattern(p) {
  if (p.type === 'Identifier') plain(p.name);
  else if (p.type === 'ObjectPattern') {
    form('objectpattern', p);
    for (const x of p.properties) {
      if (x.type === 'RestElement') { w('(rest'); pattern(x.argument); end(); }
      else { w('(:'); key(x.key, x.computed); element(x.value); end(); }
    }
    end();
  } else if (p.type === 'ArrayPattern') {
    form('arraypattern', p);
    for (const x of p.elements) {
      if (x === null) w('hole');
      else if (x.type === 'RestElement') { w('(rest'); pattern(x.argument); end(); }
      else element(x);
    }
    end();
  } else { w('(target'); expr(p); end(); }
}
function links(e, all) { // the links of a chain, and its base
  if (e.type === 'MemberExpression' && e.object.type !== 'Super') { const b = links(e.object, all); all.push(e); return b; }
  if (e.type === 'CallExpression' && e.callee.type !== 'Super') { const b = links(e.callee, all); all.push(e); return b; }
  return e;
}
const unary = { '+': 'unary+', '-': 'unary-' };
function expr(e) {
  switch (e.type) {
    case 'Identifier': return plain(e.name);
    case 'ThisExpression': return w('this');
    case 'Literal':
      if (e.value === null && e.raw === 'null') return w('null');
      if (typeof e.value === 'boolean') return w(String(e.value));
      if (typeof e.value === 'number') return number(e.value);
      return quoted(e.value);
    case 'TemplateLiteral': form('template', e); e.quasis.forEach(q => quoted(q.value.cooked)); e.expressions.forEach(expr); return end();
    case 'ArrayExpression': form('array', e); e.elements.forEach(x => x === null ? w('hole') : arg(x)); return end();
    case 'ObjectExpression':
      form('object', e);
      for (const p of e.properties) {
        if (p.type === 'SpreadElement') { spread(p.argument); continue; }
        if (p.method || p.kind !== 'init') { w('(define'); key(p.key, p.computed); fn(p.value, p.kind === 'get' ? 'getter' : p.kind === 'set' ? 'setter' : 'method', p); end(); continue; }
        w('(:'); key(p.key, p.computed); expr(p.value); end();
      }
      return end();
    case 'FunctionExpression': return fn(e, 'function', e);
    case 'ArrowFunctionExpression': return fn(e, 'arrow', e);
    case 'ClassExpression': return cls(e);
    case 'ParenthesizedExpression': form('paren', e); expr(e.expression); return end();
    case 'MetaProperty': form('newtarget', e); return end();
    case 'ChainExpression': {
      const all = []; let base = links(e.expression, all);
      const first = all.findIndex(x => x.optional);
      if (first > 0) base = all[first - 1];
      form('chain', e); expr(base);
      for (const x of all.slice(first)) {
        w(x.optional ? '(?.' : '(.');
        if (x.type === 'CallExpression') { w('call'); x.arguments.forEach(arg); }
        else if (x.computed) { w('['); expr(x.property); }
        else plain(x.property.name);
        end();
      }
      return end();
    }
    case 'MemberExpression':
      if (e.object.type === 'Super') { form(e.computed ? 'superindex' : 'supermember', e); }
      else { form(e.computed ? 'index' : 'member', e); expr(e.object); }
      if (e.computed) expr(e.property); else plain(e.property.name);
      return end();
    case 'CallExpression':
      if (e.callee.type === 'Super') form('supercall', e); else { form('call', e); expr(e.callee); }
      e.arguments.forEach(arg); return end();
    case 'NewExpression': form('new', e); expr(e.callee); e.arguments.forEach(arg); return end();
    case 'UnaryExpression': form(unary[e.operator] || e.operator, e); expr(e.argument); return end();
    case 'UpdateExpression': form(e.prefix ? e.operator + '_' : '_' + e.operator, e); expr(e.argument); return end();
    case 'BinaryExpression': case 'LogicalExpression': form(e.operator, e); expr(e.left); expr(e.right); return end();
    case 'ConditionalExpression': form('?', e); expr(e.test); expr(e.consequent); expr(e.alternate); return end();
    case 'AssignmentExpression':
      if (e.operator === '=') { form('=', e); pattern(e.left); } else { form('op=', e); w(e.operator.slice(0, -1)); expr(e.left); }
      expr(e.right); return end();
    case 'SequenceExpression': form(',', e); e.expressions.forEach(expr); return end();
    default: throw new Error('no such expression: ' + e.type);
  }
}
function declaration(d) {
  form(d.kind, d);
  for (const x of d.declarations) { if (x.init) { w('(default'); pattern(x.id); expr(x.init); end(); } else pattern(x.id); }
  end();
}
const target = t => { if (t.type === 'VariableDeclaration') { w('('); w(t.kind); pattern(t.declarations[0].id); end(); } else pattern(t); };
function stmt(s) {
  switch (s.type) {
    case 'VariableDeclaration': return declaration(s);
    case 'FunctionDeclaration': w('(declare'); fn(s, 'function', s); return end();
    case 'ClassDeclaration': w('(declare'); cls(s); return end();
    case 'ExpressionStatement': w('(expression'); expr(s.expression); return end();
    case 'BlockStatement': form('block', s); s.body.forEach(stmt); return end();
    case 'EmptyStatement': form('empty', s); return end();
    case 'DebuggerStatement': form('debugger', s); return end();
    case 'WhileStatement': form('while', s); expr(s.test); stmt(s.body); return end();
    case 'DoWhileStatement': form('do', s); stmt(s.body); expr(s.test); return end();
    case 'ForStatement': form('for', s); opt(s.init, i => i.type === 'VariableDeclaration' ? declaration(i) : expr(i)); opt(s.test, expr); opt(s.update, expr); stmt(s.body); return end();
    case 'ForOfStatement': form('forof', s); target(s.left); expr(s.right); stmt(s.body); return end();
    case 'ForInStatement': form('forin', s); target(s.left); expr(s.right); stmt(s.body); return end();
    case 'ContinueStatement': form('continue', s); opt(s.label, plainName); return end();
    case 'BreakStatement': form('break', s); opt(s.label, plainName); return end();
    case 'ReturnStatement': form('return', s); opt(s.argument, expr); return end();
    case 'ThrowStatement': form('throw', s); expr(s.argument); return end();
    case 'IfStatement': form('if', s); expr(s.test); stmt(s.consequent); opt(s.alternate, stmt); return end();
    case 'SwitchStatement':
      form('switch', s); expr(s.discriminant);
      for (const c of s.cases) { w('(case'); opt(c.test, expr); c.consequent.forEach(stmt); end(); }
      return end();
    case 'TryStatement':
      form('try', s); s.block.body.forEach(stmt);
      if (s.handler) { w('(catch'); opt(s.handler.param, pattern); s.handler.body.body.forEach(stmt); end(); }
      if (s.finalizer) block('finally', s.finalizer.body);
      return end();
    case 'LabeledStatement': form('label', s); plain(s.label.name); stmt(s.body); return end();
    default: throw new Error('no such statement: ' + s.type);
  }
}
for (const line of require('fs').readFileSync(0, 'utf8').split('\n').slice(0, -1)) {
  out = '';
  try {
    const p = acorn.parse(line.replaceAll('¶', '\n'), { ecmaVersion: 2021, sourceType: 'module', preserveParens: true, locations: true, allowReturnOutsideFunction: true, allowSuperOutsideMethod: true });
    p.body.forEach(stmt);
    console.log(out);
  } catch (e) { console.log(process.env.WHY ? '- ' + e.message : '-'); }
}
