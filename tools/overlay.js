// The overlay law, run in node: node tools/overlay.js [number of literals]
//
// Random plain literals, lowered by document 01's literal rule over the text of Babel's objectSpread2, are compared with ECMA-262 done by
// hand (CopyDataProperties and CreateDataProperty, property by property), and so is each cut: the lowered front, with the back laid on it
// by hand. Compared are the steps that an engine can show (evaluations, conversions, reads), the throw, and the object with the order of
// its keys and their attributes. The engine's own literals are no reference: those of V8 depart from ECMA-262 in the order of reads and
// of keys, and how many do is printed. Then what breaks the law when a premise is dropped.
'use strict';

// ---- Babel's helper

const fs = require('fs');
const path = require('path');
const HELPERS = fs.readFileSync(path.join(__dirname, '..', 'helpers', 'helpers.js'), 'utf8');
const S = new Function(HELPERS + 'return ObjectSpread2;')();

// ---- random plain literals

function rng(seed) {
  let s = seed >>> 0 || 1;
  return n => { s ^= s << 13; s >>>= 0; s ^= s >>> 17; s ^= s << 5; s >>>= 0; return s % n; };
}
const names = ['x', 'y', '0', '7', '10', '"a b"', '0x10', 'get', 'set', '"get"'];
const keys = ['x', 'y', '0', '7', '10', '__proto__', 'value', 'toString', 'constructor', Symbol('s'), Symbol('t'), Symbol.iterator];

let count; // each expression has a number
function literal(r, depth) {
  const ps = [];
  for (let n = r(5); n > 0; n--) ps.push(part(r, depth));
  return ps;
}
const operand = (r, depth) => depth > 0 && r(4) == 0 ? { literal: literal(r, depth - 1) } : { text: `E(${count++})` };
function part(r, depth) {
  const k = r(10);
  if (k < 4) return { spread: operand(r, depth) };
  const value = operand(r, depth);
  if (k < 6) return { key: names[r(names.length)], value };
  if (k < 7) return { key: `[K(${count++})]`, value };
  if (k < 8) return { short: ['x', '__proto__', 'y'][r(3)] };
  return { method: ['x', 'm', '__proto__', `[K(${count++})]`][r(4)] };
}

// ---- a literal as text: as it is, lowered, and done by hand

const valueText = (v, f) => v.literal ? '(' + f(v.literal) + ')' : v.text;
function propertyText(p, f) {
  if (p.spread) return '...' + valueText(p.spread, f);
  if (p.short) return p.short;
  if (p.method) return p.method + '(){}';
  return p.key + ':' + valueText(p.value, f);
}
const native = ps => '{' + ps.map(p => propertyText(p, native)).join(',') + '}';

// document 01, 'The rewriting', Literal
function lowered(ps) {
  let call = null, pending = [];
  const object = qs => '{' + qs.map(p => propertyText(p, lowered)).join(',') + '}';
  const opened = () => {
    const args = call === null ? [object(pending)] : pending.length ? [call, '{}', object(pending)] : [call];
    pending = [];
    return args;
  };
  for (const p of ps) {
    if (p.spread) call = 'S(' + [...opened(), valueText(p.spread, lowered)].join(',') + ')';
    else pending.push(p);
  }
  if (call === null) return object(pending);
  return pending.length ? 'S(' + opened().join(',') + ')' : call;
}

// one property after the other on the object o. A literal of the engine is used for one property at a time only
function lay(ps) {
  return ps.map(p => p.spread
    ? '{const s=' + (p.spread.literal ? ecma(p.spread.literal) : p.spread.text) + ';if(s!==null&&s!==undefined){const f=Object(s);'
      + 'for(const k of Reflect.ownKeys(f)){const d=Reflect.getOwnPropertyDescriptor(f,k);if(d&&d.enumerable){const v=f[k];'
      + 'Object.defineProperty(o,k,{value:v,enumerable:true,writable:true,configurable:true});}}}}'
    : '{const q={' + propertyText(p, ecma) + '};for(const k of Reflect.ownKeys(q))'
      + 'Object.defineProperty(o,k,Object.getOwnPropertyDescriptor(q,k));}').join('');
}
const ecma = ps => '(()=>{let o={};' + lay(ps) + 'return o})()';
const laid = (front, back) => '(()=>{let o=' + lowered(front) + ';' + lay(back) + 'return o})()';

// ---- the outside: a reply depends on the seed and on how many steps came before

function world(seed, throwing) {
  const log = [], ids = new Map();
  const reply = n => rng(seed * 7919 + log.length * 104729 + 17)(n);
  const step = s => { log.push(s); if (throwing && reply(12) == 0) throw { thrown: log.length }; };
  const makers = [() => ({}), () => [], () => Object.create(null), () => function () {}, () => new String('ab'), () => new Uint8Array(2), () => (function () { return arguments; })(1, 2)];
  function object() {
    const o = makers[reply(7)](), id = ids.size, r = rng(seed * 31 + log.length);
    ids.set(o, id);
    for (let n = r(5); n > 0; n--) {
      const k = keys[r(keys.length)], enumerable = r(4) != 0;
      try {
        if (r(2)) Object.defineProperty(o, k, { get() { step('read ' + id + ' ' + String(k)); return log.length; }, enumerable, configurable: true });
        else Object.defineProperty(o, k, { value: log.length, enumerable, configurable: true, writable: true });
      } catch (e) { }
    }
    return o;
  }
  const any = () => { const r = reply(10); return r < 6 ? object() : r < 7 ? null : r < 8 ? undefined : r < 9 ? 'ab' : 42; };
  const E = i => { step('evaluate ' + i); return any(); };
  const K = i => { step('compute ' + i); return { [Symbol.toPrimitive]() { step('convert ' + i); return keys[reply(keys.length)]; } }; };
  const dump = v => {
    if (v === null || typeof v != 'object' && typeof v != 'function') return typeof v + String(v);
    if (ids.has(v)) return '#' + ids.get(v);
    if (typeof v == 'function') return 'f ' + String(v.name) + v.toString();
    const entry = k => {
      const d = Object.getOwnPropertyDescriptor(v, k);
      return String(k) + (d.get || d.set ? ' accessor' : (d.enumerable && d.writable && d.configurable ? '' : ' attributes') + ':' + dump(d.value));
    };
    return '{' + (Object.getPrototypeOf(v) === Object.prototype ? '' : 'prototype ') + Reflect.ownKeys(v).map(entry).join(',') + '}';
  };
  return { log, E, K, dump };
}
function run(text, seed, throwing) {
  const w = world(seed, throwing);
  const f = new Function('E', 'K', 'S', 'x', 'y', '__proto__', 'return ' + (text[0] == '{' ? '(' + text + ')' : text));
  try {
    return w.dump(f(w.E, w.K, S, 1, 2, 3)) + ' after ' + w.log.join('; ');
  } catch (e) {
    if (!('thrown' in Object(e))) throw e;
    return 'threw ' + e.thrown + ' after ' + w.log.join('; ');
  }
}

// ---- the comparison

const total = +process.argv[2] || 20000;
let differences = 0, cuts = 0, engine = 0;
const differs = (what, ...texts) => { if (differences++ < 5) console.log(what, ...texts.map(t => '\n  ' + t)); };
for (let i = 1; i <= total; i++) {
  const r = rng(i * 2654435761);
  count = 0;
  const ps = literal(r, 2), throwing = r(2) == 1;
  const e = run(ecma(ps), i, throwing), b = run(lowered(ps), i, throwing);
  if (e !== b) differs('lowered', native(ps), lowered(ps), e, b);
  if (e !== run(native(ps), i, throwing)) engine++;
  for (let c = 0; c <= ps.length; c++) {
    cuts++;
    const l = run(laid(ps.slice(0, c), ps.slice(c)), i, throwing);
    if (l !== b) differs('cut at ' + c, native(ps), l, b);
  }
}
console.log(`${total} literals, ${cuts} cuts: ${differences} differences; the engine's own literals depart from ECMA-262 in ${engine}`);

// ---- without a premise: the lowered `{...a}` is S({}, a)

const show = f => {
  try {
    const o = f();
    return '{' + Reflect.ownKeys(o).map(k => String(k) + ': ' + String(o[k])).join(', ') + '}';
  } catch (e) { return 'throws ' + e.constructor.name; }
};
const both = (what, a, around) => console.log(`${what}: {...a} is ${show(() => around(() => ({ ...a })))}, S({}, a) ${show(() => around(() => S({}, a)))}`);
const holding = (holder, key, d) => f => {
  Object.defineProperty(holder, key, { configurable: true, ...d });
  try { return f(); } finally { delete holder[key]; }
};
const s = Symbol('s');
both('a setter of 0 on Object.prototype', { [s]: 1 }, holding(Object.prototype, '0', { set() { } }));
both('a read-only 0 on Object.prototype', { [s]: 1 }, holding(Object.prototype, '0', { value: 1, writable: false }));
both('a setter of 0 on Array.prototype', { [s]: 1 }, holding(Array.prototype, '0', { set() { } }));
both('Object.keys replaced', { x: 1 }, f => { const k = Object.keys; Object.keys = () => []; try { return f(); } finally { Object.keys = k; } });
both('a getter puts `get` on Object.prototype', { get toString() { Object.prototype.get = function () { }; return 1; } }, f => { try { return f(); } finally { delete Object.prototype.get; } });
// no premise is needed for these
both('a setter of x on Object.prototype', { x: 1 }, holding(Object.prototype, 'x', { set() { } }));
both('a read-only x on Object.prototype', { x: 1 }, holding(Object.prototype, 'x', { value: 2, writable: false }));
both('an own __proto__', JSON.parse('{"__proto__": 1}'), f => f());
