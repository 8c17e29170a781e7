// The helpers beside a copy of Babel's: node tools/helpers.js FOLDER, where FOLDER is that of a @babel/runtime (Debian's package
// node-babel7-runtime has 7.20.13 in /usr/share/nodejs/@babel/runtime)
//
// Each function of helpers/helpers.js and its counterpart are called with the same random objects, 20,000 times in all. Compared are
// the result with the order of its keys and their attributes, the throw with its message, and which getters are read in what order.
'use strict';

const fs = require('fs');
const path = require('path');

const TEXT = fs.readFileSync(path.join(__dirname, '..', 'helpers', 'helpers.js'), 'utf8');
const NAMES = { objectSpread2: 'ObjectSpread2', extends: 'Extends', objectDestructuringEmpty: 'ObjectDestructuringEmpty', objectWithoutProperties: 'ObjectWithoutProperties', toPropertyKey: 'ToPropertyKey' };
const own = {}, babel = {};
const folder = path.resolve(process.argv[2] || '/usr/share/nodejs/@babel/runtime');
if (!fs.existsSync(path.join(folder, 'helpers'))) {
  console.error(`${folder}: no @babel/runtime is there; node tools/helpers.js FOLDER names another`);
  process.exit(1);
}
for (const [name, called] of Object.entries(NAMES)) {
  own[name] = new Function(`${TEXT}return ${called};`)();
  const module = require(path.join(folder, 'helpers', name + '.js'));
  babel[name] = module.default || module;
}

const symbols = [Symbol('a'), Symbol('b')];
const keys = ['a', 'b', '0', '1', '__proto__', 'x y', ...symbols];

// one call, drawn from a seed
function run(helpers, seed) {
  let s = seed;
  const draw = n => { s ^= s << 13; s ^= s >>> 17; s ^= s << 5; return (s >>> 0) % n; };
  const key = () => keys[draw(keys.length)];
  const log = [];
  const object = () => {
    const o = draw(4) ? {} : Object.create({ inherited: 1 });
    for (let i = draw(6); i > 0; i--) {
      const k = key(), enumerable = draw(3) > 0;
      const what = draw(2) ? { value: draw(9), writable: true } : { get() { log.push(String(k)); return 7; } };
      Object.defineProperty(o, k, { ...what, enumerable, configurable: true });
    }
    return o;
  };
  const any = () => draw(9) ? object() : [null, undefined, 'ab', 42][draw(4)];
  const calls = [
    () => helpers.objectSpread2(object(), any(), object(), any()),
    () => helpers.extends({}, any()),
    () => helpers.objectDestructuringEmpty([null, undefined, 1, {}][draw(4)]),
    () => helpers.objectWithoutProperties(any(), [key(), key()]),
    () => helpers.toPropertyKey([1, 'a', symbols[0], { toString() { return 'q'; } }, null, { [Symbol.toPrimitive]() { return {}; } }][draw(6)]),
  ];
  const show = v => v === null || typeof v != 'object' ? String(v) : Reflect.ownKeys(v).map(k => String(k) + JSON.stringify(Object.getOwnPropertyDescriptor(v, k))).join();
  let shown;
  try { shown = show(calls[draw(calls.length)]()); } catch (e) { shown = `throws ${e.name}: ${e.message}`; }
  return `${shown} after ${log}`;
}

let different = 0;
for (let i = 1; i <= 20000; i++) {
  const seed = (i * 2654435761) >>> 0, a = run(own, seed), b = run(babel, seed);
  if (a !== b && different++ < 5) console.log(`${a}\n  Babel's: ${b}`);
}
const version = JSON.parse(fs.readFileSync(path.join(folder, 'package.json'))).version;
console.log(`20000 calls beside @babel/runtime ${version}: ${different} differences`);
process.exit(different ? 1 : 0);
