// Taken keys and rest make the whole, run in node: node tools/packing.js [--lower FILE] [number of declarations]
//
// Random declarations `let {k: b, .., ...r} = s` of the law's class (docs/PACKING.md), lowered as document 01 says, are run over the text of
// Babel's helpers W, X and E, with objects that meet the premises. Looked at behind each run: that nothing was thrown and the object is as it
// was; that each enumerable own key is in its binding or in the rest, with its value, and the rest has no other; and that the named keys that
// are own and enumerable, with the rest laid over them by CopyDataProperties, are the same map. Each lowered text is held to the bytes that the
// program `lower` (crates/lower/out/lower, or FILE) gives for the declaration. Then what breaks the law when a premise is dropped. The status is 1
// if a run breaks the law, the text is not what `lower` writes, or a breaking case does not break it.
'use strict';

const { spawnSync } = require('child_process');
const fs = require('fs');
const path = require('path');
const v8 = require('v8');
const vm = require('vm');

// ---- Babel's helpers

const helpers = () => fs.readFileSync(path.join(__dirname, '..', 'helpers', 'helpers.js'), 'utf8')
  + 'var X = Extends, E = ObjectDestructuringEmpty, W = ObjectWithoutProperties;\n';

// ---- declarations

function rng(seed) {
  let s = seed >>> 0 || 1;
  return n => { s ^= s << 13; s >>>= 0; s ^= s >>> 17; s ^= s << 5; s >>>= 0; return s % n; };
}
// keys as they are written: names, and strings
const KEYS = ['a', 'b', 'c', 'h', 'i', 'length', 'name', 'constructor', 'toString', '__proto__', "'x y'", "'0'", "'1'", "'10'", "'a'", "''", "'é'"];
const isString = key => key[0] == "'";
const spelled = key => isString(key) ? key.slice(1, -1) : key;

function declaration(r) {
  const takes = [];
  for (let n = r(5); n > 0; n--) takes.push({ key: KEYS[r(KEYS.length)], binding: 'b' + takes.length });
  return { kind: 1 + r(3), isRoot: r(2) == 0, takes };
}

// document 01, 'The rewriting', Declarator and Rest
function lowered({ kind, isRoot, takes }) {
  const keys = '[' + takes.map(t => JSON.stringify(spelled(t.key))).join(', ') + ']';
  const isHoisted = !isRoot && takes.length > 0;
  const rest = takes.length == 0 ? 'X({}, (E(s), s))' : `W(s, ${isHoisted ? '$excluded1' : keys})`;
  const pattern = takes.length == 0 ? '' : `{${takes.map(t => t.key + ': ' + t.binding).join(', ')}} = s, `;
  return { list: isHoisted ? `const $excluded1 = ${keys};` : '', text: `${['', 'var', 'let', 'const'][kind]} ${pattern}r = ${rest};` };
}

// ---- the same as tree bytes (docs/FORMAT.md): the declaration, and what is written of it

const wide = n => [n & 255, n >> 8];
const text = s => { const b = [...Buffer.from(s)]; return [...wide(b.length), ...b]; };
const list = items => [...wide(items.length), ...items.flat()];
const reference = x => [18, 1, ...text(x)];
const binding = x => [19, 1, ...text(x)];
const string = form => [22, 7, 1, ...text(''), ...text(form)];
const key = k => isString(k) ? [22, 7, 1, ...text(k), ...text(spelled(k))] : [38, 1, ...text(k)];
const take = t => [35, 7, ...key(t.key), ...binding(t.binding), 0];
const declarator = (id, init) => [5, 3, ...id, ...init];
const call = (helper, args) => [29, 3, 21, 1, helper, ...list(args)];
const program = (declarators, { kind, isRoot }) => {
  const statement = mark => [4, 7, ...wide(mark), kind, ...list(declarators)];
  return [1, 1, ...list([isRoot ? statement(1) : [2, 3, ...wide(1), ...list([statement(2)])]])];
};
function input(d) {
  return program([declarator([34, 3, ...list(d.takes.map(take)), ...binding('r')], reference('s'))], d);
}
function output(d) {
  const isHoisted = !d.isRoot && d.takes.length > 0;
  const array = [32, 1, ...list(d.takes.map(t => string(spelled(t.key))))];
  const temporary = [20, 3, ...wide(1), 2];
  const rest = d.takes.length == 0
    ? call(2, [[24, 1, ...list([])], [28, 1, ...list([call(3, [reference('s')]), reference('s')])]])
    : call(4, [reference('s'), isHoisted ? temporary : array]);
  const pattern = d.takes.length == 0 ? [] : [declarator([34, 1, ...list(d.takes.map(take))], reference('s'))];
  return { tree: program([...pattern, declarator(binding('r'), rest)], d), list: [...wide(0), ...list(isHoisted ? [declarator(temporary, array)] : [])] };
}
const hex = bytes => Buffer.from(bytes).toString('hex');
function isWritten(lower, d) {
  const run = spawnSync(lower, { input: Buffer.from([0, ...input(d)]) });
  const [answer, tree, entries] = run.stdout.toString().split('\n');
  const { tree: wantedTree, list: wantedList } = output(d);
  return answer.startsWith('0 ') && tree == hex(wantedTree) && entries == hex(wantedList);
}

// ---- objects that meet the premises

const hide = (o, k, v) => Object.defineProperty(o, k, { value: v, enumerable: false, configurable: true, writable: true });
const MARK = Symbol('mark'), HIDDEN = Symbol('hidden');
class Bench { constructor() { this.a = 1; this.slips = 2; } get i() { return 3; } }
const OBJECTS = [
  {}, { a: 1, b: 2, c: 3 }, { 'x y': 1, 0: 2, 10: 3, '': 4, é: 5 }, { a: undefined, b: null, c: NaN, h: -0 },
  [1, 2, 3], Object.assign([, 2, , 4], { a: 5, [MARK]: 6 }), function f(a, b) {}, Object.assign(() => 1, { a: 1, [MARK]: 2 }),
  Object.freeze({ a: 1, [MARK]: 2 }), Object.seal({ b: 1 }), Object.assign(Object.create(null), { a: 1, constructor: 2, [MARK]: 3 }),
  hide(hide({ a: 1, [MARK]: 2 }, 'h', 3), HIDDEN, 4), { [MARK]: 1, [Symbol.iterator]: 2, a: 3 }, Object.create({ i: 1, a: 2, [MARK]: 3 }, { b: { value: 4, enumerable: true } }),
  new Bench(), Object.assign(new String('ab'), { a: 1 }), new Uint8Array([7, 8]), Object.assign(new Map([[1, 2]]), { a: 1 }),
  (function () { return arguments; })(1, 2), { a: 1, set b(v) { throw v; } },
];

// ---- the law

const isEnumerable = (o, k) => Object.prototype.propertyIsEnumerable.call(o, k);
const shown = o => new Map(Reflect.ownKeys(o).filter(k => isEnumerable(o, k)).map(k => [k, Object.getOwnPropertyDescriptor(o, k).value]));
const state = o => Reflect.ownKeys(o).map(k => [k, Object.getOwnPropertyDescriptor(o, k)]);
const alike = (a, b) => a.length == b.length && a.every(([k, d], i) => k === b[i][0] && Object.keys(d).every(x => Object.is(d[x], b[i][1][x])));
// CopyDataProperties and CreateDataProperty
const define = (o, k, v) => Object.defineProperty(o, k, { value: v, enumerable: true, configurable: true, writable: true });

// what is wrong behind a run, or nothing: `own` is what the object showed before it, `takes` the keys with what their bindings have
function wrong(own, takes, rest) {
  if (Object(rest) !== rest) return 'the rest is no object';
  const left = shown(rest), packed = {};
  for (const [k, v] of own) {
    const named = takes.filter(t => t.key === k);
    if (named.some(t => !Object.is(t.value, v))) return `the binding of ${String(k)} has another value`;
    if (named.length > 0 && left.has(k)) return `${String(k)} is on both sides`;
    if (named.length == 0 && !left.has(k)) return `${String(k)} is lost`;
    if (named.length == 0 && !Object.is(left.get(k), v)) return `${String(k)} has another value in the rest`;
  }
  for (const k of left.keys()) if (!own.has(k)) return `the rest has ${String(k)}`;
  for (const t of takes) if (own.has(t.key)) define(packed, t.key, t.value);
  for (const [k, v] of left) define(packed, k, v);
  const whole = shown(packed);
  return whole.size == own.size && [...own].every(([k, v]) => whole.has(k) && Object.is(whole.get(k), v)) ? '' : 'the packed object differs';
}

function main(count, lower) {
  const r = rng(13), of = new Function(`"use strict"; ${helpers()} return { W, X, E };`)();
  let runs = 0, twice = 0, held = 0;
  const failures = [];
  for (let i = 0; i < count; i++) {
    const d = declaration(r), { list: handed, text: code } = lowered(d);
    if (new Set(d.takes.map(t => spelled(t.key))).size < d.takes.length) twice++;
    if (lower) isWritten(lower, d) ? held++ : failures.push(`${code} is not what is written`);
    const body = d.isRoot ? code : `{ ${code}`;
    const run = new Function('W', 'X', 'E', 's', `"use strict"; ${handed} ${body} return { got: [${d.takes.map(t => t.binding).join(', ')}], rest: r };${d.isRoot ? '' : ' }'}`);
    for (const o of OBJECTS) {
      runs++;
      const own = shown(o), before = state(o);
      try {
        const { got, rest } = run(of.W, of.X, of.E, o);
        const what = alike(before, state(o)) ? wrong(own, d.takes.map((t, j) => ({ key: spelled(t.key), value: got[j] })), rest) : 'the object has changed';
        if (what) failures.push(`${handed} ${code} of object ${OBJECTS.indexOf(o)}: ${what}`);
      } catch (e) { failures.push(`${handed} ${code} of object ${OBJECTS.indexOf(o)}: ${e}`); }
    }
  }
  console.log(`${count} declarations (${twice} with a key twice) by ${OBJECTS.length} objects: ${runs} runs, ${failures.length} differences`);
  console.log(lower ? `${held} of ${count} are written so by ${path.basename(lower)}` : 'not held to lower, which is not there');
  failures.slice(0, 10).forEach(f => console.log('  ' + f));
  return failures.length == 0;
}

// ---- what breaks the law, each in a realm of its own: what is there before (`o` is the object, `s` the source), the lowered declaration, the
// named keys with their bindings

const two = 'var {a: b} = s, r = W(s, ["a"]);';
const CASES = [
  ['two reads give two objects', 'var o = {a: 1, c: 2}, n = 0; Object.defineProperty(globalThis, "s", {get() { return n++ ? {a: 1} : o }})', two, { a: 'b' }],
  ['a read of the source changes the object', 'var o = {a: 1, c: 2}, n = 0; Object.defineProperty(globalThis, "s", {get() { if (n++) o.c = 3; return o }})', two, { a: 'b' }],
  ['an [[IsHTMLDDA]] object', 'var o = undetectable, s = o; o.a = 1; o.c = 2', two, { a: 'b' }],
  ['a getter changes another key', 'var o = {get a() { this.c = 3 }, c: 2}, s = o', two, { a: 'b' }],
  ['an own __proto__', `var o = JSON.parse('{"a": 1, "__proto__": {"c": 2}}'), s = o`, two, { a: 'b' }],
  ['an inherited getter changes a key', 'var o = Object.create({get a() { o.c = 3; return 1 }}, {c: {value: 2, enumerable: true, writable: true}}), s = o', two, { a: 'b' }],
  ['an inherited getter throws', 'var o = Object.create({get a() { throw new Error("a") }}), s = o', two, { a: 'b' }],
  ['storing a binding changes the object, whose names are in scope', 'var o = {a: 1, b: 5}, s = o', `with (o) { ${two} }`, { a: 'o.b' }],
  ['storing a binding throws', 'var o = {a: 1}, s = o', '"use strict"; var {a: NaN} = s, r = W(s, ["a"]);', { a: 'NaN' }],
  ['a binding does not keep what it gets', 'var o = {a: 1}, s = o', 'var {a: NaN} = s, r = W(s, ["a"]);', { a: 'NaN' }],
  ['a setter on Object.prototype', 'var o = {a: 1, c: 2}, s = o; Object.defineProperty(Object.prototype, "c", {set() { }})', two, { a: 'b' }],
  ['a read-only property on Object.prototype', 'var o = {a: 1, c: 2}, s = o; Object.defineProperty(Object.prototype, "c", {value: 3})', two, { a: 'b' }],
  ["the source's name is bound", 'var o = {a: {d: 1}, c: 2}, s = o', 'var {a: s} = s, r = W(s, ["a"]);', { a: 's' }],
  ['two bindings are alike', 'var o = {a: 1, c: 2}, s = o', 'var {a: b, c: b} = s, r = W(s, ["a", "c"]);', { a: 'b', c: 'b' }],
  ["the rest's binding is a named one's", 'var o = {a: 1, c: 2}, s = o', 'var {a: r} = s, r = W(s, ["a"]);', { a: 'r' }],
];

function broken([what, before, code, takes]) {
  const context = vm.createContext({});
  v8.setFlagsFromString('--allow-natives-syntax');
  if (before.includes('undetectable')) context.undetectable = vm.runInContext('%GetUndetectable()', context);
  v8.setFlagsFromString('--no-allow-natives-syntax');
  vm.runInContext(helpers() + before, context);
  const own = shown(vm.runInContext('o', context));
  let shows;
  try {
    vm.runInContext(code, context);
    shows = wrong(own, Object.entries(takes).map(([k, b]) => ({ key: k, value: vm.runInContext(b, context) })), vm.runInContext('r', context));
  } catch (e) { shows = 'throws ' + e.name; }
  console.log(`  ${what}: ${shows || 'NOTHING IS WRONG'}`);
  return shows != '';
}

const args = process.argv.slice(2);
const at = args.indexOf('--lower');
const built = at < 0 ? path.join(__dirname, '..', 'crates', 'lower', 'out', 'lower') : args.splice(at, 2)[1];
const holds = main(Number(args[0] || 400), fs.existsSync(built) ? built : null);
console.log('with a premise or a condition of the class dropped:');
const breaks = CASES.map(broken);
process.exit(holds && breaks.every(b => b) ? 0 : 1);
