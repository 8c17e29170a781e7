// Nested assignment targets, run in node:
//   node --expose-internals tools/targets.js [--lower FILE] [--join FILE] [--seed N] [number of programs]
//
// Random assignments and for heads whose targets have objects with a rest below one another, through objects, defaults and arrays, each
// beside what the programs `lower` and `join` (crates/NAME/out/NAME, or FILE) make of it, over Babel's helpers. Looked at behind each run: every binding
// and every property that was assigned, every rest with its keys in their order, and the value of the assignment where it is used.
//
// A target may have a default that reads another of its bindings. There the two may differ, since a part is taken apart behind the whole
// outer pattern (docs/DIFFERENCES.md); such programs are counted by themselves. The status is 1 if any other program differs.
'use strict';

const { treeOf, lower, joined, decoded, printer, HELPERS } = require('./departures.js');
const path = require('path');

function rng(seed) {
  let s = seed >>> 0 || 1;
  return n => { s ^= s << 13; s >>>= 0; s ^= s >>> 17; s ^= s << 5; s >>>= 0; return s % n; };
}

const MARK = Symbol('mark');
const KEYS = ['a', 'b', 'c', 'd', 'length', 'toString', '__proto__', "'x y'", '0', '7'];
const spelled = key => key.startsWith("'") ? key.slice(1, -1) : key;

// ---- targets. Each is its text and how a value for it is drawn

class Maker {
  constructor(r) {
    this.r = r;
    this.names = 0;
    this.members = 0;
    this.reads = false;
    this.rests = 0;
    this.parts = false;
    this.arrays = false;
  }
  leaf() {
    if (this.r(8) == 0) return `o.p${this.members++}`;
    return `v${this.names++}`;
  }
  any() {
    const r = this.r;
    return () => [1, 'text', null, undefined, true, { a: 1, [MARK]: 2 }, [3]][r(7)];
  }
  // a target below `depth` more levels; `inside` says whether an object with a rest is around it through objects
  target(depth, inside, inArray) {
    const r = this.r;
    if (depth == 0 || r(4) == 0) return { text: this.leaf(), value: this.any() };
    return r(4) == 0 ? this.array(depth, inside, inArray) : this.object(depth, r(5) < 3, inside, inArray);
  }
  // with a default at times; it is a number or, for a pattern, an object or an array
  item(depth, inside, inArray) {
    const r = this.r, t = this.target(depth, inside, inArray);
    if (r(4) > 0) return t;
    if (t.make) {
      const given = t.isArray ? '[{a: 1}, {b: 2}, {c: 3}]' : '{a: {a: {a: 1}, b: []}, b: [{a: 1}], c: {d: 2}, d: [], length: {a: 1}, toString: {}, __proto__: {a: {}}, "x y": {}, 0: {}, 7: []}';
      return t.fits ? t : { text: `${t.text} = ${given}`, value: () => r(3) == 0 ? undefined : t.value(), make: t.make };
    }
    let other = String(r(100));
    if (this.names > 1 && r(12) == 0) {
      this.reads = true;
      other = `v${r(this.names)}`;
    }
    return { text: `${t.text} = ${other}`, value: () => r(2) ? undefined : t.value() };
  }
  object(depth, hasRest, inside, inArray) {
    const r = this.r, items = [], made = [];
    if (hasRest) {
      this.rests++;
      if (inside) this.parts = true;
      if (inArray) this.arrays = true;
    }
    for (let n = r(4); n > 0; n--) {
      const key = KEYS[r(KEYS.length)], t = this.item(depth - 1, inside || hasRest, inArray);
      // the same key twice asks for one value that fits both, so the first is the only one
      if (made.some(m => m.key == spelled(key))) continue;
      made.push({ key: spelled(key), value: t.value });
      items.push((r(6) == 0 ? `[k(${JSON.stringify(spelled(key))})]` : r(8) == 0 ? '[`' + spelled(key) + '`]' : key) + ': ' + t.text);
    }
    if (hasRest) items.push('...' + this.leaf());
    const value = () => {
      const o = r(5) ? {} : Object.create({ inherited: 1 });
      for (const m of made) define(o, m.key, m.value(), r(6) > 0);
      for (let n = r(3); n > 0; n--) define(o, ['e', 'f', '9', 'x', MARK][r(5)], r(50), true);
      return o;
    };
    return { text: '{' + items.join(', ') + '}', value, make: true, fits: made.length > 0 };
  }
  array(depth, inside, inArray) {
    const r = this.r, items = [], made = [];
    for (let n = r(3); n >= 0; n--) {
      if (r(6) == 0) { items.push(''); made.push(this.any()); continue; }
      const t = this.item(depth - 1, inside, true);
      items.push(t.text);
      made.push(t.value);
    }
    if (items[items.length - 1] == '') items.push('');
    if (r(4) == 0) items.push('...' + this.leaf());
    return { text: '[' + items.join(', ') + ']', value: () => [...made.map(m => m()), ...(r(2) ? [8, 9] : [])], make: true, isArray: true, fits: made.length > 0 };
  }
}
const define = (o, k, v, enumerable) => Object.defineProperty(o, k, { value: v, enumerable, configurable: true, writable: true });

function drawn(r) {
  for (;;) {
    const m = new Maker(r);
    const isTop = r(3) > 0, t = isTop ? m.object(2 + r(3), true, false, false) : m.target(2 + r(3), false, false);
    if (!t.make || m.rests < 2) continue;
    const place = r(6);
    const used = isTop && r(3) == 0;
    const assigned = `${used ? 'w = ' : ''}(${t.text} = s)`;
    const text = place == 0 ? `for (${t.text} of [s]);`
      : place == 1 ? `{ ${assigned}; }`
        : place == 2 ? `function f() { ${assigned}; } f();`
          : place == 3 ? `(() => ${assigned})();`
            : place == 4 ? `for (${t.text} of [s]) { u = 1; }`
              : `${assigned};`;
    return { text: text.startsWith('{') && place == 5 ? `(${text})` : text, value: t.value, maker: m };
  }
}

// ---- a run: what every binding is

function shown(text, names, members, value) {
  const bindings = ['w', 'o', 'u', ...Array.from({ length: names }, (_, i) => 'v' + i)];
  // the properties stand from the start, so that the order in which they are assigned does not show
  const o = '{' + Array.from({ length: members }, (_, i) => `p${i}: 0`) + '}';
  const run = new Function('s', 'k', HELPERS + `var ${bindings.join(', ')}; o = ${o};\n${text}\nreturn [${bindings.join(', ')}];`);
  try {
    return run(value, x => x);
  } catch (e) {
    return e.name;
  }
}
const enumerates = (o, k) => Object.prototype.propertyIsEnumerable.call(o, k);
function same(a, b) {
  if (Object.is(a, b)) return true;
  if (typeof a != 'object' || typeof b != 'object' || !a || !b || Object.getPrototypeOf(a) !== Object.getPrototypeOf(b)) return false;
  const keys = Reflect.ownKeys(a), others = Reflect.ownKeys(b);
  return keys.length == others.length && keys.every((k, i) => k === others[i] && enumerates(a, k) == enumerates(b, k) && same(a[k], b[k]));
}

function main(words) {
  const option = name => words.includes(name) ? words.splice(words.indexOf(name), 2)[1] : null;
  const built = name => option('--' + name) || path.join(__dirname, '..', 'crates', name, 'out', name);
  const binary = built('lower'), join = built('join');
  const r = rng(Number(option('--seed') || 1));
  const count = Number(words[0] || 1000);
  let wrong = 0, reading = 0, other = 0, parts = 0, arrays = 0, thrown = 0;
  for (let n = 0; n < count; n++) {
    const { text, value, maker } = drawn(r);
    const tree = treeOf(text, [], false);
    const lowered = printer(false)(decoded(joined(join, lower([binary], tree))));
    const given = value();
    const a = shown(text, maker.names, maker.members, given), b = shown(lowered, maker.names, maker.members, given);
    parts += maker.parts;
    arrays += maker.arrays;
    thrown += typeof a == 'string';
    if (maker.reads) reading++;
    if (same(a, b)) continue;
    if (maker.reads) { other++; continue; }
    if (++wrong <= 5) console.log(`${text}\n  ${lowered}\n`, given, '\n  original', a, '\n  lowered ', b);
  }
  console.log(`${count} programs, ${wrong} differ; ${parts} have an object with a rest that is reached from another one through objects, ${arrays} one below an array, ${thrown} throw; ` +
    `a default reads another binding in ${reading} of them, of which ${other} differ`);
  process.exit(wrong ? 1 : 0);
}

main(process.argv.slice(2));
