// Where lowered programs depart from ECMA-262, run in node:
//   node --expose-internals tools/departures.js [--lower FILE] [--join FILE] [--text FILE] [--rust FILE] [-v]
//
// Each case is a small program. It is made a tree (by the parser that node has inside, hence the flag), lowered by the program `lower`,
// joined with its list by `join`, printed by `text` (each crates/NAME/out/NAME, or FILE), and run over Babel's helpers beside its original. A
// program with something that has no kind of its own is printed here, since `text` makes a call of it. What each of the two shows is
// stored below; the status is 1 if a run shows anything else. A lowered program that ECMAScript 2017 does not know is counted as a
// SyntaxError. With --rust the Rust reference has to give the same bytes, but for targets that request 6 is for.
// With -v each case is printed.
'use strict';

function end(line) {
  console.error(line);
  process.exit(1);
}

let acorn;
try {
  acorn = require('internal/deps/acorn/acorn/dist/acorn');
} catch {
  end('the parser inside node is wanted: node --expose-internals tools/departures.js');
}
const { spawnSync } = require('child_process');
const fs = require('fs');
const path = require('path');
const vm = require('vm');

// ---- JavaScript to tree bytes. What has no kind of its own is a 12 or 33 whose name is its text, @ for each child; @@ is a function
// without its keyword

const MARK = { mark: true };
const node = (kind, ...fields) => ({ kind, fields });
const text = s => ({ text: Buffer.from(s) });
const byte = n => ({ byte: n });
const list = items => ({ list: items });

function treeOf(source, bound, isModule) {
  const symbol = name => bound.includes(name) ? { wide: 1 + bound.indexOf(name) } : null;
  const maybe = (n, f) => n ? f(n) : null;
  const isStatement = n => /Statement$|Declaration$/.test(n.type);
  const special = n => (n.async ? 'async ' : '') + (n.type == 'ArrowFunctionExpression' ? '' : n.generator ? 'function* ' : 'function ') + '@@';

  function func(n) {
    const [params, rest] = parameters(n.params);
    if (n.type == 'ArrowFunctionExpression') return node(17, params, rest, n.expression ? expression(n.body) : body(n.body));
    return node(14, MARK, byte(n.type == 'FunctionDeclaration' ? 1 : 2), maybe(n.id, binding), params, rest, body(n.body));
  }
  function parameters(ps) {
    const last = ps[ps.length - 1], hasRest = last && last.type == 'RestElement';
    const one = p => p.type == 'AssignmentPattern' ? node(15, binding(p.left), expression(p.right)) : node(15, binding(p), null);
    return [list((hasRest ? ps.slice(0, -1) : ps).map(one)), hasRest ? binding(last.argument) : null];
  }
  function body(n) {
    const directives = n.body.filter(s => s.directive);
    return node(16, directives.length ? list(directives.map(s => expression(s.expression))) : null, list(n.body.filter(s => !s.directive).map(statement)));
  }
  // the text of a node, with its expressions and statements taken out
  function other(n, kind) {
    const children = [];
    const inline = n => {
      const below = Object.values(n).flat().filter(c => c && typeof c.type == 'string').sort((a, b) => a.start - b.start);
      let s = '', at = n.start;
      for (const c of below) {
        s += source.slice(at, c.start);
        at = c.end;
        const isName = c.type == 'Identifier' && (n.label == c || n.property == c && !n.computed || n.key == c && !n.computed);
        if (isName || /^(Super|SwitchCase|TemplateElement|ClassBody|MethodDefinition|PropertyDefinition|PrivateIdentifier)$/.test(c.type)) s += inline(c);
        else if (n.type == 'MethodDefinition' && c == n.value) { s += '@@'; children.push(func(c)); }
        else { s += '@'; children.push(isStatement(c) ? statement(c) : c.type == 'SpreadElement' ? node(26, expression(c.argument)) : expression(c)); }
      }
      return s + source.slice(at, n.end);
    };
    const name = text(inline(n).replace(/;$/, ''));
    return kind == 12 ? node(12, MARK, name, list(children)) : node(33, name, list(children));
  }
  function declaration(n) {
    const kind = { var: 1, let: 2, const: 3 }[n.kind];
    return node(4, MARK, byte(kind), list(n.declarations.map(d => node(5, binding(d.id), maybe(d.init, expression)))));
  }
  function statement(n) {
    const head = left => left.type == 'VariableDeclaration' ? declaration(left) : target(left);
    switch (n.type) {
      case 'BlockStatement': return node(2, MARK, list(n.body.map(statement)));
      case 'ExpressionStatement': return node(3, MARK, expression(n.expression));
      case 'VariableDeclaration': return declaration(n);
      case 'ForStatement':
        return node(6, MARK, maybe(n.init, i => i.type == 'VariableDeclaration' ? declaration(i) : expression(i)), maybe(n.test, expression), maybe(n.update, expression), statement(n.body));
      case 'ForInStatement': return node(7, MARK, head(n.left), expression(n.right), statement(n.body));
      case 'ForOfStatement': return node(8, MARK, head(n.left), expression(n.right), statement(n.body), n.await ? byte(1) : null);
      case 'TryStatement': return node(9, MARK, statement(n.block), maybe(n.handler, handler), maybe(n.finalizer, statement));
      case 'ReturnStatement': return node(11, MARK, maybe(n.argument, expression));
      case 'EmptyStatement': return node(13, MARK);
      case 'FunctionDeclaration': return n.async || n.generator ? node(12, MARK, text(special(n)), list([func(n)])) : func(n);
      default: return other(n, 12);
    }
  }
  const handler = n => node(10, maybe(n.param, p => node(15, binding(p), null)), statement(n.body));
  function key(n) {
    if (n.computed) return expression(n.key);
    if (n.key.type == 'Identifier') return node(38, text(n.key.name));
    return n.key.type == 'PrivateIdentifier' ? node(39, text(n.key.name)) : expression(n.key);
  }
  const flags = n => byte((n.computed ? 1 : 0) + (n.shorthand ? 2 : 0) + (n.method ? 4 : 0) + (n.kind == 'get' ? 8 : 0) + (n.kind == 'set' ? 16 : 0));
  const argument = n => n.type == 'SpreadElement' ? node(26, expression(n.argument)) : expression(n);
  function literal(n) {
    const sort = n.regex ? 6 : n.bigint ? 5 : n.value === null ? 4 : { string: 1, number: 2, boolean: 3 }[typeof n.value];
    return node(22, byte(sort), text(n.raw), n.regex ? null : text(String(n.value)));
  }
  function expression(n) {
    switch (n.type) {
      case 'Identifier': return node(18, text(n.name), symbol(n.name));
      case 'Literal': return literal(n);
      case 'TemplateLiteral': {
        const quasis = n.quasis.map(q => node(22, byte(1), text(q.value.raw), text(q.value.cooked)));
        return node(23, list(quasis), n.expressions.length ? list(n.expressions.map(expression)) : null);
      }
      case 'ObjectExpression':
        return node(24, list(n.properties.map(p => p.type == 'SpreadElement' ? argument(p) : node(25, key(p), expression(p.value), flags(p)))));
      case 'AssignmentExpression': return n.operator == '=' ? node(27, byte(1), target(n.left), expression(n.right)) : other(n, 33);
      case 'SequenceExpression': return node(28, list(n.expressions.map(expression)));
      case 'CallExpression': return node(29, expression(n.callee), list(n.arguments.map(argument)));
      case 'MemberExpression': return n.computed ? other(n, 33) : node(30, expression(n.object), text(n.property.name));
      case 'ArrayExpression': return node(32, list(n.elements.map(e => e && argument(e))));
      case 'FunctionExpression': case 'ArrowFunctionExpression':
        return n.async || n.generator ? node(33, text(special(n)), list([func(n)])) : func(n);
      default: return other(n, 33);
    }
  }
  function pattern(n, leaf) {
    const down = m => pattern(m, leaf);
    const split = items => {
      const last = items[items.length - 1];
      return last && last.type == 'RestElement' ? [items.slice(0, -1), down(last.argument)] : [items, null];
    };
    if (n.type == 'ObjectPattern') {
      const [items, rest] = split(n.properties);
      return node(34, list(items.map(p => node(35, key(p), down(p.value), flags(p)))), rest);
    }
    if (n.type == 'ArrayPattern') {
      const [items, rest] = split(n.elements);
      return node(36, list(items.map(i => i && down(i))), rest);
    }
    return n.type == 'AssignmentPattern' ? node(37, down(n.left), expression(n.right)) : leaf(n);
  }
  const binding = n => pattern(n, m => node(19, text(m.name), symbol(m.name)));
  const target = n => pattern(n, expression);

  const program = acorn.parse(source, { ecmaVersion: 2018, sourceType: isModule ? 'module' : 'script' });
  return encoded(node(1, list(program.body.map(statement))));
}

function encoded(root) {
  const out = [];
  let mark = 0;
  const wide = n => out.push(n & 255, n >> 8);
  const put = n => {
    out.push(n.kind, n.fields.reduce((map, f, i) => map | (f ? 1 << i : 0), 0));
    for (const f of n.fields) {
      if (!f) continue;
      if (f.mark) wide(++mark);
      else if (f.text) { wide(f.text.length); out.push(...f.text); }
      else if (f.list) { wide(f.list.length); f.list.forEach(i => i ? put(i) : out.push(0)); }
      else if ('byte' in f) out.push(f.byte);
      else if ('wide' in f) wide(f.wide);
      else put(f);
    }
  };
  put(root);
  return Buffer.from(out);
}

// ---- tree bytes to JavaScript. The short way is that of docs/DECISIONS.md; the other one can be run, and is for what has no kind of its own

// # mark, ' text, * list, = byte, + number, . node
const FIELDS = [
  '', '*', '#*', '#.', '#=*', '..', '#....', '#...', '#...=', '#...', '..', '#.', "#'*", '#', '#=.*..', '..', '**', '*..', "'+", "'+", '+=', '=',
  "='\'", '**', '*', '..=', '.', '=..', '*', '.*', ".'", '.', '*', "'*", '*.', '..=', '*.', '..', "'", "'",
];

// names of temporaries by their stem
const STEMS = ['', 'ref', 'excluded', 'value', 'key'];

function decoded(bytes, at = { at: 0 }) {
  const wide = () => bytes[at.at++] + 256 * bytes[at.at++];
  const node = () => {
    const kind = bytes[at.at++], map = bytes[at.at++];
    const fields = [...FIELDS[kind]].map((sort, i) => {
      if (!(map >> i & 1)) return null;
      if (sort == '.') return node();
      if (sort == '=') return bytes[at.at++];
      if (sort == '*') return Array.from({ length: wide() }, () => bytes[at.at] ? node() : (at.at++, null));
      if (sort != "'") return wide();
      const length = wide();
      at.at += length;
      return bytes.subarray(at.at - length, at.at).toString();
    });
    return { kind, fields };
  };
  return node();
}
function decodedList(bytes) {
  const at = { at: 0 };
  const wide = () => bytes[at.at++] + 256 * bytes[at.at++];
  const declarators = () => Array.from({ length: wide() }, () => decoded(bytes, at));
  const entries = Array.from({ length: wide() }, () => ({ mark: wide(), declarators: declarators() }));
  return { entries, excluded: declarators() };
}

function printer(isShort) {
  const mark = n => isShort ? `@${n} ` : '';
  const commas = ns => ns.map(show).join(', ');
  const simple = n => [18, 20, 21, 22, 23, 29, 30, 32].includes(n.kind) || n.kind == 33 && !n.fields[1].length;
  const inner = n => simple(n) ? show(n) : `(${show(n)})`;
  const plain = s => /^[{]|^function/.test(s) ? `(${s})` : s;
  const body = ([directives, statements]) => '{ ' + (directives || []).map(d => show(d) + '; ').join('') + statements.map(show).join(' ') + ' }';
  const parameters = (ps, rest) => '(' + [...ps.map(show), ...(rest ? ['...' + show(rest)] : [])].join(', ') + ')';
  const arrow = ([ps, rest, b]) => parameters(ps, rest) + ' => ' + (b.kind == 16 ? show(b) : plain(show(b)));
  const headless = n => n.kind == 17 ? arrow(n.fields) : (n.fields[2] ? show(n.fields[2]) : '') + parameters(n.fields[3], n.fields[4]) + ' ' + show(n.fields[5]);
  function other(name, children) {
    let i = 0;
    return name.replace(/@@?/g, m => m == '@@' ? headless(children[i++]) : ((c, s) => c.kind > 14 && c.kind != 26 && !simple(c) ? `(${s})` : s)(children[i], show(children[i++])));
  }
  const key = (k, flags) => flags & 1 ? `[${show(k)}]` : k.kind == 38 ? k.fields[0] : k.kind == 39 ? '#' + k.fields[0] : k.kind == 22 ? show(k) : `[${show(k)}]`;
  function property([k, v, flags]) {
    if (flags & 2) return show(v);
    if (flags & 28) return (flags & 8 ? 'get ' : flags & 16 ? 'set ' : '') + key(k, flags) + headless(v);
    return key(k, flags) + ': ' + show(v);
  }
  const isCopy = (c, args) => isShort && c.kind == 21 && c.fields[0] == 2 && args.length == 2 && args[1].kind == 28;
  function show(n) {
    const f = n.fields;
    switch (n.kind) {
      case 1: return f[0].map(show).join(' ');
      case 2: return mark(f[0]) + '{ ' + f[1].map(show).join(' ') + ' }';
      case 3: return mark(f[0]) + plain(show(f[1])) + ';';
      case 4: return mark(f[0]) + ['', 'var ', 'let ', 'const '][f[1]] + commas(f[2]) + ';';
      case 5: case 37: case 15: return show(f[0]) + (f[1] ? ' = ' + show(f[1]) : '');
      case 6: return mark(f[0]) + `for (${f[1] ? show(f[1]).replace(/;$/, '') : ''}; ${f[2] ? show(f[2]) : ''}; ${f[3] ? show(f[3]) : ''}) ` + show(f[4]);
      case 7: case 8: return mark(f[0]) + `for ${f[4] ? 'await ' : ''}(${show(f[1]).replace(/;$/, '')} ${n.kind == 7 ? 'in' : 'of'} ${show(f[2])}) ` + show(f[3]);
      case 9: return mark(f[0]) + 'try ' + show(f[1]) + (f[2] ? ' ' + show(f[2]) : '') + (f[3] ? ' finally ' + show(f[3]) : '');
      case 10: return 'catch ' + (f[0] ? `(${show(f[0])}) ` : '') + show(f[1]);
      case 11: return mark(f[0]) + 'return' + (f[1] ? ' ' + show(f[1]) : '') + ';';
      case 12: return mark(f[0]) + other(f[1], f[2]) + (/@@|}$|@$/.test(f[1]) ? '' : ';');
      case 13: return mark(f[0]) + ';';
      case 14: return mark(f[0]) + 'function ' + headless(n);
      case 16: return body(f);
      case 17: return arrow(f);
      case 18: case 19: return f[0] + (isShort && f[1] !== null && n.kind == 18 ? '#' + f[1] : '');
      case 20: return '$' + STEMS[f[1]] + f[0];
      case 21: return ' SXEWK'[f[0]];
      case 22: return f[1] || JSON.stringify(f[2]);
      case 23: return '`' + f[0].map((q, i) => q.fields[1] + (f[1] && f[1][i] ? '${' + show(f[1][i]) + '}' : '')).join('') + '`';
      case 24: return '{' + commas(f[0]) + '}';
      case 25: case 35: return property(f);
      case 26: return '...' + show(f[0]);
      case 27: return show(f[1]) + ' = ' + show(f[2]);
      case 28: return '(' + commas(f[0]) + ')';
      case 29: return isCopy(f[0], f[1]) ? `X(${show(f[1][1].fields[0][1])})` : inner(f[0]) + '(' + commas(f[1]) + ')';
      case 30: return inner(f[0]) + '.' + f[1];
      case 31: return `(${show(f[0])})`;
      case 32: case 36: return '[' + [...f[0].map(i => i ? show(i) : ''), ...(n.kind == 36 && f[1] ? ['...' + show(f[1])] : [])].join(', ') + ']';
      case 33: return other(f[0], f[1]);
      case 34: return '{' + [...f[0].map(show), ...(f[1] ? ['...' + show(f[1])] : [])].join(', ') + '}';
      case 38: case 39: return f[0];
    }
  }
  return show;
}
function shortText(tree, list) {
  const show = printer(true);
  const entries = list.entries.map(e => `@${e.mark}: ` + e.declarators.map(show).join(', '));
  if (list.excluded.length) entries.push('excluded: ' + list.excluded.map(show).join(', '));
  return show(tree) + (entries.length ? '  list ' + entries.join('; ') : '');
}

// ---- Babel's helpers, under the short names that the printer writes

const HELPERS = fs.readFileSync(path.join(__dirname, '..', 'helpers', 'helpers.js'), 'utf8')
  + 'var S = ObjectSpread2, X = Extends, E = ObjectDestructuringEmpty, W = ObjectWithoutProperties, K = ToPropertyKey;\n';

// ---- the cases: the program; what runs before it and is not lowered; what is looked at behind it (`it` is the program's own value);
// what the original shows, and the lowered program. `bound` are the names that have a symbol; `isOurs` is where request 6 is another rule than the Rust's. `log` is there for notes, and
// watched({..}) makes an object whose reads are noted: a proxy, since node's own rest reads a getter that it excludes

const CASES = [
  // literals
  { input: '({...x, __proto__: p})', before: 'var x = {a: 1}, p = {b: 2}', after: 'it.b', original: '2', lowered: 'undefined' },
  { input: '({...a, m() { return super.m() }})', before: 'var a = {}', after: 'Object.setPrototypeOf(it, {m() { return 1 }}).m()', original: '1', lowered: 'throws TypeError' },
  { input: '({...a})', what: 'a proxy', before: PROXY('a'), after: 'log', original: 'keys, of x, get x, of y, get y', lowered: 'keys, of x, of y, keys, get x, get y' },
  { input: '({...a})', what: 'a getter takes a key away', before: 'var a = {get x() { delete this.y; return 1 }, y: 2}', after: 'it', original: '{x: 1}', lowered: '{x: 1, y: undefined}' },
  { ...SPREADS(1500), before: 'var a = {x: 1}', after: 'it', original: '{x: 1}', lowered: 'throws RangeError' },
  // declarations
  { input: 'var {a, ...r} = a', before: 'var a = {a: {c: 1}, b: 2}', after: 'r', original: '{b: 2}', lowered: '{c: 1}' },
  { input: 'var {a = (s = x), ...r} = s', before: 'var s = {b: 1}, x = {c: 2}', after: 'r', original: '{b: 1}', lowered: '{c: 2}' },
  { input: 'let {a, ...r} = s', what: 's a getter of the global object', before: 'var n = 0; Object.defineProperty(globalThis, "s", {get() { return {a: 0, n: ++n} }})', after: 'r', original: '{n: 1}', lowered: '{n: 2}' },
  { input: 'let {a: {b, ...c}, d = b} = s', before: 'var s = {a: {b: 1}}', after: 'd', original: '1', lowered: 'throws ReferenceError' },
  { input: 'let {a: {b, ...c}, d} = s', before: 'var s = watched({a: watched({b: 1}), d: 2})', after: 'log', original: 'a, b, d', lowered: 'a, d, b' },
  { input: 'let [{...a}, b] = c', before: 'var c = {[Symbol.iterator]() { return {next() { log.push("next"); return {value: null} }, return() { log.push("return"); return {} }} }}', after: 'log', isCaught: true, original: 'next, return', lowered: 'next, next, return' },
  { input: "let {a, [a + '']: b, ...r} = s", before: 'var s = {a: 1, 1: 2}', after: 'b', original: '2', lowered: 'throws ReferenceError' },
  { input: 'let {a = d(), [k()]: b, ...r} = s', before: 'var s = {}, d = () => log.push("d"), k = () => log.push("k")', after: 'log', original: 'd, k', lowered: 'k, d' },
  { input: 'let {[k]: a, ...r} = s', bound: ['k'], before: 'var s = {x: 1}, k = {toString() { log.push("k"); return "x" }}', after: 'log', original: 'k', lowered: 'k, k' },
  { input: "let {[k]: a = (k = 'y'), ...r} = s", bound: ['k'], before: 'var s = {x: undefined, y: 1}, k = "x"', after: 'r', original: '{y: 1}', lowered: '{x: undefined}' },
  { input: 'var [...[{...a}]] = b', before: 'var b = [{c: 1}]', after: 'a', original: '{c: 1}', lowered: 'throws SyntaxError' },
  { input: 'let {x, ...r} = s', what: 'an own __proto__', before: `var s = JSON.parse('{"__proto__": {"y": 1}, "x": 2}')`, after: '[Object.keys(r), r.y]', original: '[["__proto__"], undefined]', lowered: '[[], 1]' },
  { input: 'let {x, ...r} = s', what: 'a setter on Object.prototype', before: 'var s = {x: 0, y: 1}; Object.defineProperty(Object.prototype, "y", {set() {}})', after: 'Object.keys(r)', original: '["y"]', lowered: '[]' },
  { input: 'let {x, ...r} = s', what: 'a read-only property on Object.prototype', before: 'var s = Object.defineProperty({x: 0}, "y", {value: 1, enumerable: true}); Object.defineProperty(Object.prototype, "y", {value: 2})', after: 'Object.keys(r)', original: '["y"]', lowered: '[]' },
  { input: 'let {x, ...r} = s', what: 'a proxy', before: PROXY('s'), after: 'log', original: 'get x, keys, of y, get y', lowered: 'get x, keys, proto, of x, of x, of y, of y, get y, keys' },
  { input: 'let {name, ...r} = () => 1', after: 'name', original: '""', lowered: '"_value1"' },
  // parameters
  { input: 'function f({a, ...r}) { var a }', after: '1', original: '1', lowered: 'throws SyntaxError' },
  { input: 'function f({a, ...r}) { function a() { } }', after: '1', original: '1', lowered: 'throws SyntaxError' },
  { input: 'function f({a, ...r}, b = a) { return b }', after: 'f({a: 1})', original: '1', lowered: 'throws ReferenceError' },
  { input: 'function f({a, ...r}, b = a) { return b }', what: 'another a outside', before: 'var a = 9', after: 'f({a: 1})', original: '1', lowered: '9' },
  { input: 'function f({a, ...r}, g = () => r) { return g() }', after: 'f({b: 1})', original: '{b: 1}', lowered: 'throws ReferenceError' },
  { input: 'function f({a, ...r}, {b = a, ...s}) { return b }', after: 'f({a: 1}, {})', original: '1', lowered: 'throws ReferenceError' },
  { input: 'function f({a, ...r}, {b, ...s}) { }', after: 'f(watched({a: 1}), watched({b: 1})), log', original: 'a, b', lowered: 'b, a' },
  { input: 'function f({a, ...r}, b = g()) { }', before: 'var g = () => log.push("g")', after: 'f(watched({a: 1})), log', original: 'a, g', lowered: 'g, a' },
  { input: 'function f({a, ...r}, b = g()) { }', what: 'null', before: 'var g = () => log.push("g")', after: '(() => { try { f(null) } catch (e) { } })(), log', original: '', lowered: 'g' },
  { input: 'function* g({...a}) { }', after: 'g(null), 1', original: 'throws TypeError', lowered: '1' },
  { input: 'function f({a, ...r}, b) { arguments[1] = 2; return b }', after: 'f({}, 1)', original: '1', lowered: '2' },
  { input: 'function f({a, ...r}, b) { b = 2; return arguments[1] }', after: 'f({}, 1)', original: '1', lowered: '2' },
  { input: 'function f([a = () => 1, {...b}]) { return a.name }', after: 'f([, {}])', original: '"a"', lowered: '"_ref1"' },
  { input: 'function f(...[{...a}]) { return a }', after: 'f({b: 1})', original: '{b: 1}', lowered: 'throws SyntaxError' },
  // loops
  { input: 'for (let {a, ...b} of c) { let a }', before: 'var c = []', after: '1', original: '1', lowered: 'throws SyntaxError' },
  { input: 'for (var {a, ...r} of c); use(a)', before: 'var c = [{a: 1}], use = x => log.push(x)', after: 'log', original: '1', lowered: 'throws ReferenceError' },
  { input: 'for (var {a, ...r} of c) f.push(() => a)', before: 'var c = [{a: 1}, {a: 2}], f = []', after: 'f.map(g => g())', original: '[2, 2]', lowered: '[1, 2]' },
  { input: 'for (const {a, ...b} of c) a = 2', before: 'var c = [{}]', after: '1', original: 'throws TypeError', lowered: '1' },
  { input: 'for (let {a, ...b} of [a]);', before: 'var a = {}', after: '1', original: 'throws ReferenceError', lowered: '1' },
  // assignments
  { input: '({a: {b, ...c}, d = b, ...e} = s)', isOurs: true, before: 'var b = 0, c, d, e, s = {a: {b: 1}}', after: 'd', original: '1', lowered: '0' },
  { input: '({a: {b, ...c}, d} = s)', before: 'var b, c, d, s = watched({a: watched({b: 1}), d: 2})', after: 'log', original: 'a, b, d', lowered: 'a, d, b' },
  { input: '({a: {b, ...c}, d, ...e} = s)', isOurs: true, before: 'var b, c, d, e, s = watched({a: watched({b: 1}), d: 2})', after: 'log', original: 'a, b, d', lowered: 'a, d, b' },
  { input: '({a: {...f().x}, b: g().y, ...h} = s)', isOurs: true, before: 'var h, s = {a: {}, b: 1}, f = () => (log.push("f"), {}), g = () => (log.push("g"), {})', after: 'log', original: 'f, g', lowered: 'g, f' },
  // no departure: each rest is read from its own object
  { input: '({a: {...b}, ...c} = d)', isOurs: true, before: 'var b, c, d = {a: {x: 1}, y: 2}', after: 'b', original: '{x: 1}', lowered: '{x: 1}' },
  { input: '[{a: {...b}, ...c}] = d', isOurs: true, before: 'var b, c, d = [{a: {x: 1}}]', after: 'b', original: '{x: 1}', lowered: '{x: 1}' },
  { input: 'v = [{...a}] = d', before: 'var a, v, d = [{x: 1}]', after: 'v', original: '[{x: 1}]', lowered: '{x: 1}' },
  { input: '({a, ...r} = s)', what: 'the value of the statement', before: 'var a, r, s = {a: 1, b: 2}', after: 'it', original: '{a: 1, b: 2}', lowered: '{b: 2}' },
  { input: 'for (s of c) ({[k()]: a, ...r} = s)', before: 'var s, a, r, i = 0, c = [{x1: 1}, {x2: 2}], k = () => "x" + ++i', after: 'a', original: '2', lowered: 'undefined' },
  { input: 'c && ({[k()]: a, ...r} = s)', before: 'var c, a, r, s, k = () => log.push("k")', after: 'log', original: '', lowered: 'k' },
  { input: "f = (k, s) => ({[k + '']: a, ...r} = s)", before: 'var f, a, r', after: 'f("x", {x: 1}), a', original: '1', lowered: 'throws ReferenceError' },
  { input: "f = (k, s) => ({[k + '']: a, ...r} = s)", what: 'another k outside', before: 'var f, a, r, k = "y"', after: 'f("x", {x: 1, y: 2}), a', original: '1', lowered: '2' },
  { input: 'f = n => ({a = n && f(n - 1), ...r} = {n})', before: 'var f, a, r', after: 'f(1), r', original: '{n: 1}', lowered: '{n: 0}' },
  { input: 'f = async s => ({a = await 0, ...r} = s)', before: 'var f, a, r', after: 'Promise.all([f({x: 1}), f({y: 2})])', original: '[{x: 1}, {y: 2}]', lowered: '[{y: 2}, {y: 2}]' },
  // no departure: a body in braces has a temporary of its own
  { input: 'f = async s => { return {a = await 0, ...r} = s }', before: 'var f, a, r', after: 'Promise.all([f({x: 1}), f({y: 2})])', original: '[{x: 1}, {y: 2}]', lowered: '[{x: 1}, {y: 2}]' },
  { input: '({[{...x}]: a, ...r} = s)', before: 'var x = {toString() { return "y" }}, a, r, s = {y: 1}', after: 'r', original: '{}', lowered: 'throws SyntaxError' },
  { input: 'f = async () => ({[await k()]: a, ...r} = s)', before: 'var f, a, r', after: '1', original: '1', lowered: 'throws SyntaxError' },
  // outside the tree
  { input: 'function f(x) { return {...x} }', what: 'the function as text, elsewhere', after: 'elsewhere("(" + f + ")({a: 1})")', original: '{a: 1}', lowered: 'throws ReferenceError' },
  { input: 'export const {a, ...r} = {b: 1}', isModule: true, original: '["a", "r"]', lowered: '["$value1", "a", "r"]' },
  { input: "'use strict'; { let {a, ...r} = s } u = 1", what: 'excluded keys go to the head', before: 'var s = {}', after: 'typeof u', original: 'throws ReferenceError', lowered: '"number"' },
];

// so many spreads in one literal, too deep for the printer: its result by hand
function SPREADS(n) {
  return {
    title: `({...a, ..}) with ${n} spreads`, input: `({${Array(n).fill('...a')}})`, text: 'S('.repeat(n) + '{}' + ', a)'.repeat(n),
    bytes: '0101010003030100' + '1d031501010200'.repeat(n) + '18010000' + '1201010061'.repeat(n),
  };
}
// a proxy whose traps are noted
function PROXY(name) {
  return `var ${name} = new Proxy({x: 1, y: 2}, {
    ownKeys(o) { log.push("keys"); return Reflect.ownKeys(o) },
    getOwnPropertyDescriptor(o, k) { log.push("of " + String(k)); return Reflect.getOwnPropertyDescriptor(o, k) },
    getPrototypeOf(o) { log.push("proto"); return Reflect.getPrototypeOf(o) },
    get(o, k) { log.push("get " + String(k)); return o[k] },
  })`;
}

const BEFORE = `
var log = [];
function watched(o) { return new Proxy(o, {get(o, k) { log.push(String(k)); return o[k] }}) }`;

function dump(v) {
  if (Array.isArray(v)) return '[' + v.map(dump).join(', ') + ']';
  if (v && typeof v == 'object') return '{' + Object.keys(v).map(k => k + ': ' + dump(v[k])).join(', ') + '}';
  return typeof v == 'string' ? JSON.stringify(v) : String(v);
}
async function shown(c, program, helpers) {
  if (c.isModule) return dump(Object.keys(await import('data:text/javascript,' + encodeURIComponent(helpers + program))));
  const context = vm.createContext({ elsewhere: t => vm.runInNewContext(t) });
  const run = t => vm.runInContext(t, context);
  try {
    run(helpers + BEFORE);
    run(c.before || '');
    try {
      context.it = run(program);
    } catch (e) {
      if (!c.isCaught) throw e;
    }
    const v = await run(c.after);
    return v === run('log') ? v.join(', ') : dump(v);
  } catch (e) {
    return 'throws ' + e.name;
  }
}

// ---- the run

function lower(words, tree) {
  const given = Buffer.concat([Buffer.from([0]), tree]);
  const ran = spawnSync(words[0], words.slice(1), { input: given });
  if (ran.error) end(`${words[0]}: ${ran.error.code} (\`rt run\` in crates/lower builds it)`);
  const lines = ran.stdout.toString().split('\n');
  if (lines[0].split(' ')[0] != '0') throw new Error(`${words[0]} answers ${lines[0]} for ${tree.toString('hex')}`);
  return { lines: lines.slice(0, 3).join('\n'), tree: Buffer.from(lines[1], 'hex'), list: Buffer.from(lines[2], 'hex') };
}

// the program that is loaded: the tree with what was handed out in place
function joined(binary, result) {
  const length = Buffer.from([result.tree.length & 255, result.tree.length >> 8]);
  const ran = spawnSync(binary, [], { input: Buffer.concat([length, result.tree, result.list]) });
  if (ran.error) end(`${binary}: ${ran.error.code} (\`rt run\` in crates/join builds it)`);
  const [answer, tree] = ran.stdout.toString().split('\n');
  if (answer != '0') throw new Error(`${binary} answers ${answer} for ${result.tree.toString('hex')} ${result.list.toString('hex')}`);
  return Buffer.from(tree, 'hex');
}

const hasOther = n => n && (n.kind == 12 || n.kind == 33 || n.fields.flat().some(f => f && f.kind && hasOther(f)));

function textOf(binary, tree) {
  const root = decoded(tree);
  if (hasOther(root)) return printer(false)(root);
  const ran = spawnSync(binary, [], { input: tree });
  if (ran.error) end(`${binary}: ${ran.error.code} (\`rt run\` in crates/text builds it)`);
  return ran.stdout.toString();
}

function isOld(text, isModule) {
  try {
    acorn.parse(text, { ecmaVersion: 2017, sourceType: isModule ? 'module' : 'script' });
    return true;
  } catch (e) {
    // a RangeError: too deep for this parser, which says nothing
    return e.name != 'SyntaxError';
  }
}

async function main(words) {
  const option = name => words.includes(name) ? words[words.indexOf(name) + 1] : null;
  const built = name => option('--' + name) || path.join(__dirname, '..', 'crates', name, 'out', name);
  const binary = built('lower');
  const rust = option('--rust');
  let wrong = 0;
  for (const c of CASES) {
    const tree = treeOf(c.input, c.bound || [], c.isModule);
    const result = lower([binary], tree);
    const list = decodedList(result.list);
    if (c.text && result.tree.toString('hex') != c.bytes) throw new Error(`${c.title}: another tree`);
    const text = c.text || textOf(built('text'), joined(built('join'), result));
    const original = await shown(c, c.input, ''), lowered = isOld(text, c.isModule) ? await shown(c, text, HELPERS) : 'throws SyntaxError';
    const isRust = !rust || c.isOurs || lower([rust, '--template-key=node', '--stems'], tree).lines == result.lines;
    const isRight = original === c.original && lowered === c.lowered && isRust;
    if (!isRight) wrong++;
    if (!isRight || words.includes('-v')) {
      console.log(`${c.title || c.input}${c.what ? ` (${c.what})` : ''}`);
      if (!c.title) console.log(`  tree     ${tree.toString('hex')}\n  gives    ${shortText(decoded(result.tree), list)}\n  run as   ${text}`);
      console.log(`  original ${original}\n  lowered  ${lowered}`);
      if (!isRight) console.log(`  WRONG: stored are ${c.original} and ${c.lowered}` + (isRust ? '' : '; the Rust reference gives other bytes'));
    }
  }
  console.log(`${CASES.length} cases, ${wrong} wrong`);
  process.exit(wrong ? 1 : 0);
}

if (require.main === module) main(process.argv.slice(2));
module.exports = { CASES, treeOf, lower, joined, decoded, decodedList, printer, shortText, HELPERS, acorn };
