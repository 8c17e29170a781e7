// Has printed programs read back: node --expose-internals tools/text.js [--count N] [--seed N] [--text FILE] [--lower FILE] [--join FILE]
//
// Programs of kinds that are JavaScript (no 12, 33, op 2) are made as trees, printed by the program `text` (crates/text/out/text, or FILE)
// and read by the parser that node has inside. What it reads has to be the same program, parentheses and shorthands aside. So are the
// sources of departures.js that have such kinds alone; lowered by `lower`, joined by `join` and printed they have to pass node --check,
// but for those that are stored to throw the error that it says. Prints each difference, then the counts; the status is 1 where anything
// differs.
'use strict';

let acorn;
try {
  acorn = require('internal/deps/acorn/acorn/dist/acorn');
} catch {
  console.error('the parser inside node is wanted: node --expose-internals tools/text.js');
  process.exit(1);
}
const { spawnSync } = require('child_process');
const path = require('path');

const words = process.argv.slice(2);
const option = (name, otherwise) => words.includes(name) ? words[words.indexOf(name) + 1] : otherwise;
const COUNT = Number(option('--count', 5000));
const program = name => option('--' + name, path.join(__dirname, '..', 'crates', name, 'out', name));
function textOf(tree) {
  const ran = spawnSync(program('text'), { input: tree, maxBuffer: 1 << 20 });
  if (ran.error) {
    console.error(`${program('text')}: ${ran.error.code} (\`rt run\` in crates/text builds it)`);
    process.exit(1);
  }
  return ran.stdout.toString();
}

// ---- a generator of numbers, the same everywhere

let state = Number(option('--seed', 1)) | 0 || 1;
function below(n) {
  state ^= state << 13, state ^= state >>> 17, state ^= state << 5;
  return (state >>> 0) % n;
}
const pick = list => list[below(list.length)];
const chance = n => below(n) == 0;
const several = (n, f) => Array.from({ length: below(n + 1) }, f);

// ---- trees. A field is null, a node, {text}, {byte}, {list} or MARK; same(node) says what the parser has to read

const MARK = { mark: true };
const text = s => ({ text: s });
const byte = n => ({ byte: n });
const list = items => ({ list: items });
const node = (kind, same, ...fields) => ({ kind, same, fields });

let fresh = 0;
const NAMES = ['a', 'b2', '$', '_x', 'längere'.normalize().replace('ä', 'ae'), 'of', 'get', 'async_'];
const KEYS = ['k', 'x y', '9a', '', 'if', '"', '\\', 'tab\t', 'größe', '__proto__x'];
const newName = () => 'n' + fresh++;

const reference = s => node(18, ['id', s], text(s));
const binding = () => { const s = newName(); return node(19, ['id', s], text(s)); };
const temporary = () => { const n = below(70000) % 65536, s = 1 + below(4); return node(20, ['id', '_' + ['', 'ref', 'excluded', 'value', 'key'][s] + n], { wide: n }, byte(s)); };
const helper = () => { const n = 1 + below(5); return node(21, ['id', ['', 'ObjectSpread2', 'Extends', 'ObjectDestructuringEmpty', 'ObjectWithoutProperties', 'ToPropertyKey'][n]], byte(n)); };
const literalOf = (sort, s) => node(22, ['literal', s], byte(sort), text(s), chance(2) ? text(s) : null);
const literal = noNumber => noNumber || chance(2) ? literalOf(...pick([[1, '"s"'], [1, "'t'"], [3, 'true'], [4, 'null'], [6, '/r/g']])) : literalOf(...pick([[2, '1'], [2, '0x10'], [2, '1.5e3'], [5, '7n']]));

function expression(d, at) {
  if (d <= 0) return pick([() => reference(pick(NAMES)), literal, temporary, helper])();
  const e = () => expression(d - 1), list1 = n => [e(), ...several(n, e)];
  switch (below(15)) {
    case 0: return func(d, 2, chance(2) ? binding() : null);
    case 1: return arrow(d);
    case 2: { const qs = several(2, () => 0).concat(0).map(() => pick(['', 'q ', '$', 'x\\n'])), es = qs.slice(1).map(e);
      return node(23, ['template', qs, es.map(x => x.same)], list(qs.map(q => node(22, null, byte(1), text(q), null))), es.length || chance(2) ? list(es) : null); }
    case 3: case 4: return object(d);
    case 5: { const l = target(d - 1), r = e(); return node(27, ['=', l.same, r.same], byte(1), l, r); }
    case 6: { const es = [e(), ...list1(2)]; return node(28, ['sequence', es.map(x => x.same)], list(es)); }
    case 7: { const f = e(), as = several(3, () => argument(d)); return node(29, ['call', f.same, as.map(x => x.same)], f, list(as)); }
    case 8: { let o = e(); if (o.kind == 22) o = literal(true); const s = pick(KEYS); return node(30, ['member', o.same, s], o, text(s)); }
    case 9: { const x = e(); return node(31, x.same, x); }
    case 10: { const is = several(3, () => chance(4) ? null : argument(d)); return node(32, ['array', is.map(x => x && x.same)], list(is)); }
    case 11: return classOf(d);
    default: return expression(0);
  }
}
const spread = d => { const x = expression(d - 1); return node(26, ['...', x.same], x); };
const argument = d => chance(5) ? spread(d) : expression(d - 1);

function key(d) {
  if (chance(4)) { const x = expression(d - 1); return [x, 1, ['computed', x.same]]; }
  const s = pick(KEYS);
  return [node(38, null, text(s)), 0, ['key', s]];
}
function object(d) {
  const ps = several(3, () => {
    if (chance(5)) return spread(d);
    const [k, computed, same] = key(d), flag = pick([0, 0, 0, 4, 8, 16]);
    if (!flag) { const v = expression(d - 1); return node(25, ['init', same, v.same], k, v, byte(computed)); }
    const v = func(d, 2, null, flag == 16 ? 1 : flag == 8 ? 0 : undefined);
    return node(25, [{ 4: 'method', 8: 'get', 16: 'set' }[flag], same, v.same], k, v, byte(computed + flag));
  });
  return node(24, ['object', ps.map(p => p.same)], list(ps));
}
function params(d, n) {
  const ps = n === undefined ? several(2, () => 0) : Array(n).fill(0);
  const made = ps.map(() => { const p = pattern(d - 1), v = chance(3) ? expression(d - 2) : null; return node(15, v ? ['default', p.same, v.same] : p.same, p, v); });
  const rest = n === undefined && chance(4) ? pattern(d - 1) : null;
  return [made, rest, [...made.map(p => p.same), ...(rest ? [['...', rest.same]] : [])]];
}
function body(d) {
  const ds = chance(4) ? [literalOf(1, '"d"')] : null, ss = several(2, () => statement(d - 1, true));
  return node(16, ['block', [...(ds || []).map(x => ['expression', x.same]), ...ss.map(s => s.same)]], ds && list(ds), list(ss));
}
function func(d, sort, name, n) {
  const [ps, rest, same] = params(d, n), b = body(d);
  return node(14, ['function', name && name.same, same, b.same], MARK, byte(sort), name, list(ps), rest, b);
}
function arrow(d) {
  const [ps, rest, same] = params(d), b = chance(2) ? body(d) : expression(d - 1);
  return node(17, ['arrow', same, b.same], list(ps), rest, b);
}
function classOf(d) {
  const s = chance(2) ? newName() : null, up = chance(3) ? expression(d - 1) : null;
  const ms = several(3, () => {
    if (chance(6)) { const ss = several(2, () => statement(d - 1, false)); return node(42, ['static', ss.map(x => x.same)], list(ss)); }
    const isStatic = chance(3) ? 2 : 0, flag = pick([0, 0, 4, 8, 16]);
    const hidden = chance(5) && 'p' + fresh++;
    const [k, computed, same] = hidden ? [node(39, null, text(hidden)), 0, ['private', hidden]] : key(d);
    if (!flag) { const v = chance(2) ? expression(d - 1) : null; return node(41, ['field', isStatic, same, v && v.same], k, v, byte(computed + isStatic)); }
    const v = func(d, 2, null, flag == 16 ? 1 : flag == 8 ? 0 : undefined);
    return node(41, [{ 4: 'method', 8: 'get', 16: 'set' }[flag], isStatic, same, v.same], k, v, byte(computed + isStatic + flag));
  });
  return node(40, ['class', s && ['id', s], up && up.same, ms.map(m => m.same)], s && text(s), up, list(ms));
}

// patterns that bind, and targets
function either(d, leaf) {
  const value = () => { const l = either(d - 1, leaf); if (!chance(4)) return l; const r = expression(d - 2); return node(37, ['default', l.same, r.same], l, r); };
  if (d <= 0 || chance(2)) return leaf();
  if (chance(2)) {
    const ps = several(2, () => { const [k, computed, same] = key(d), v = value(); return node(35, ['init', same, v.same], k, v, byte(computed)); });
    const rest = chance(3) ? leaf() : null;
    return node(34, ['{}', ps.map(p => p.same), rest && rest.same], list(ps), rest);
  }
  const is = several(2, () => chance(4) ? null : value()), rest = chance(3) ? either(d - 1, leaf) : null;
  return node(36, ['[]', is.map(i => i && i.same), rest && rest.same], list(is), rest);
}
const pattern = d => either(d, binding);
const target = d => either(d, () => chance(3) ? node(30, ['member', ['id', 'o'], 'm'], reference('o'), text('m')) : reference(pick(NAMES)));

function declaration(d, isHead, inLoop) {
  const sort = 1 + below(isHead && !inLoop ? 2 : 3);
  const ds = (inLoop ? [0] : [0, ...several(2, () => 0)]).map(() => {
    const p = pattern(d - 1), v = !inLoop && (sort == 3 || p.kind != 19 || chance(2)) ? expression(d - 1) : null;
    return node(5, [p.same, v && v.same], p, v);
  });
  return node(4, ['declaration', sort, ds.map(x => x.same)], MARK, byte(sort), list(ds));
}
function statement(d, inside, inLoop) {
  const s = () => statement(d - 1, inside), lone = () => { let x; do x = s(); while (x.kind == 14 || x.kind == 4 && x.same[1] > 1); return x; };
  const block = () => { const ss = several(2, s); return node(2, ['block', ss.map(x => x.same)], MARK, list(ss)); };
  const e = () => expression(d - 1);
  switch (d <= 0 ? below(2) : below(12)) {
    case 0: { const x = e(); return node(3, ['expression', x.same], MARK, x); }
    case 1: return node(13, ['empty'], MARK);
    case 2: return declaration(d);
    case 3: return block();
    case 4: { const i = chance(3) ? null : chance(2) ? declaration(d, true) : e(), t = chance(2) ? e() : null, u = chance(2) ? e() : null, b = lone();
      return node(6, ['for', i && i.same, t && t.same, u && u.same, b.same], MARK, i, t, u, b); }
    case 5: case 6: { const of = chance(2), l = chance(2) ? declaration(d, true, true) : target(d - 1), r = e(), b = lone();
      return node(of ? 8 : 7, [of ? 'of' : 'in', l.same, r.same, b.same], MARK, l, r, b, ...(of ? [chance(3) ? byte(0) : null] : [])); }
    case 7: { const b = block(), p = chance(2) ? pattern(d - 1) : null, hb = block(), h = chance(2) ? node(10, [p && p.same, hb.same], p && node(15, null, p, null), hb) : null, f = !h || chance(2) ? block() : null;
      return node(9, ['try', b.same, h && h.same, f && f.same], MARK, b, h, f); }
    case 8: if (!inside) return s(); { const x = chance(2) ? e() : null; return node(11, ['return', x && x.same], MARK, x); }
    case 9: return func(d, 1, binding());
    case 10: { const x = e(), n = below(3), cs = several(3, () => 0).map((_, i) => { const t = i == n ? null : e(), ss = several(2, s); return node(44, [t && t.same, ss.map(y => y.same)], t, list(ss)); });
      return node(43, ['switch', x.same, cs.map(c => c.same)], MARK, x, list(cs)); }
    default: return s();
  }
}

function encoded(root) {
  const bytes = [], wide = n => bytes.push(n % 256, n >> 8);
  let mark = 0;
  (function put(n) {
    let map = 0;
    n.fields.forEach((f, i) => { if (f) map += 1 << i; });
    bytes.push(n.kind, map);
    for (const f of n.fields) {
      if (!f) continue;
      if (f == MARK) wide(++mark);
      else if (f.kind) put(f);
      else if ('byte' in f) bytes.push(f.byte);
      else if ('wide' in f) wide(f.wide);
      else if ('text' in f) { const b = Buffer.from(f.text); wide(b.length); bytes.push(...b); }
      else { wide(f.list.length); for (const x of f.list) x ? put(x) : bytes.push(0); }
    }
  })(root);
  return Buffer.from(bytes);
}

// ---- what the parser reads, in the same words

function same(n) {
  if (!n) return null;
  const each = ns => ns.map(same);
  const keyOf = p => p.computed ? ['computed', same(p.key)] : p.key.type == 'PrivateIdentifier' ? ['private', p.key.name] : ['key', p.key.type == 'Identifier' ? p.key.name : p.key.value];
  switch (n.type) {
    case 'Program': return each(n.body);
    case 'BlockStatement': return ['block', each(n.body)];
    case 'ExpressionStatement': return ['expression', same(n.expression)];
    case 'EmptyStatement': return ['empty'];
    case 'VariableDeclaration': return ['declaration', { var: 1, let: 2, const: 3 }[n.kind], n.declarations.map(d => [same(d.id), same(d.init)])];
    case 'ForStatement': return ['for', same(n.init), same(n.test), same(n.update), same(n.body)];
    case 'ForInStatement': return ['in', same(n.left), same(n.right), same(n.body)];
    case 'ForOfStatement': return ['of', same(n.left), same(n.right), same(n.body)];
    case 'TryStatement': return ['try', same(n.block), n.handler && [same(n.handler.param), same(n.handler.body)], same(n.finalizer)];
    case 'ReturnStatement': return ['return', same(n.argument)];
    case 'SwitchStatement': return ['switch', same(n.discriminant), n.cases.map(c => [same(c.test), each(c.consequent)])];
    case 'FunctionDeclaration': case 'FunctionExpression': return ['function', same(n.id), each(n.params), same(n.body)];
    case 'ArrowFunctionExpression': return ['arrow', each(n.params), same(n.body)];
    case 'ClassExpression': return ['class', same(n.id), same(n.superClass), each(n.body.body)];
    case 'PropertyDefinition': return ['field', n.static ? 2 : 0, keyOf(n), same(n.value)];
    case 'MethodDefinition': return [n.kind, n.static ? 2 : 0, keyOf(n), same(n.value)];
    case 'StaticBlock': return ['static', each(n.body)];
    case 'Identifier': return ['id', n.name];
    case 'Literal': return ['literal', n.raw];
    case 'TemplateLiteral': return ['template', n.quasis.map(q => q.value.raw), each(n.expressions)];
    case 'ObjectExpression': return ['object', each(n.properties)];
    case 'Property': return [n.method ? 'method' : n.kind, keyOf(n), same(n.value)];
    case 'SpreadElement': case 'RestElement': return ['...', same(n.argument)];
    case 'AssignmentExpression': return [n.operator, same(n.left), same(n.right)];
    case 'AssignmentPattern': return ['default', same(n.left), same(n.right)];
    case 'SequenceExpression': return ['sequence', each(n.expressions)];
    case 'CallExpression': return ['call', same(n.callee), each(n.arguments)];
    case 'MemberExpression': return ['member', same(n.object), n.computed ? n.property.value : n.property.name];
    case 'ArrayExpression': return ['array', each(n.elements)];
    case 'ObjectPattern': case 'ArrayPattern': {
      const items = each(n.type == 'ObjectPattern' ? n.properties : n.elements), last = items[items.length - 1];
      const rest = last && last[0] == '...' ? items.pop()[1] : null;
      return [n.type == 'ObjectPattern' ? '{}' : '[]', items, rest];
    }
    default: throw new Error('no words for ' + n.type);
  }
}

const wordsOf = (source, isModule) => JSON.stringify(same(acorn.parse(source, { ecmaVersion: 'latest', sourceType: isModule ? 'module' : 'script' })));

let wrong = 0, bytes = 0;
function differs(printed, read, wanted) {
  if (wrong++ < 5) console.log(`${printed.slice(0, 2000)}\nread    ${read}\nwanted  ${wanted}\n`);
}
function isReadBack(tree, wanted, isModule) {
  const printed = textOf(tree);
  bytes += printed.length;
  let read;
  try {
    read = wordsOf(printed, isModule);
  } catch (error) {
    read = String(error);
  }
  if (read != wanted) differs(printed, read, wanted);
}

for (let i = 0; i < COUNT; i++) {
  fresh = 0;
  const statements = several(4, () => statement(4, false));
  const tree = encoded(node(1, null, list(statements)));
  if (tree.length <= 32768) isReadBack(tree, JSON.stringify(statements.map(s => s.same)));
}
console.log(`${COUNT} programs, ${bytes} characters of text, ${wrong} read back otherwise`);

// ---- the sources of departures.js

const { CASES, treeOf, lower, decoded } = require('./departures.js');
const hasOther = n => n.kind == 12 || n.kind == 33 || n.fields.flat().some(f => f && f.kind && hasOther(f));

function joined(c, tree) {
  const result = lower([program('lower')], tree);
  const length = Buffer.from([result.tree.length & 255, result.tree.length >> 8]);
  const [answer, whole] = spawnSync(program('join'), { input: Buffer.concat([length, result.tree, result.list]), maxBuffer: 1 << 20 }).stdout.toString().split('\n');
  if (answer != '0') throw new Error(`join answers ${answer} for the lowered ${c.input}`);
  return Buffer.from(whole, 'hex');
}

const sources = { all: 0, back: 0, checked: 0, refused: 0 };
for (const c of CASES) {
  const tree = treeOf(c.input, c.bound || [], c.isModule);
  sources.all++;
  if (hasOther(decoded(tree))) continue;
  sources.back++;
  isReadBack(tree, wordsOf(c.input, c.isModule), c.isModule);
  const printed = textOf(joined(c, tree));
  const told = spawnSync(process.execPath, ['--check', '-'], { input: printed }).stderr.toString();
  const [error] = /^\w+Error/m.exec(told) || [];
  if (told && c.lowered != 'throws ' + error) differs(printed, told, 'a program');
  sources[told ? 'refused' : 'checked']++;
}
console.log(`${sources.all} sources, ${sources.back} printed; lowered, ${sources.checked} pass node --check, ${sources.refused} do not; ${wrong} wrong in all`);
process.exitCode = wrong ? 1 : 0;
