// Writes the rows of toFixed, Math.min and Math.max, with the answers of the JavaScript engine that
// runs it (compare/README.md).

const SEED = 0x5eedn;
const MASK = 0xffffffffffffffffn;
const view = new DataView(new ArrayBuffer(8));

function bitsOf(x) {
  view.setFloat64(0, x);
  return Number.isNaN(x) ? 0x7ff8000000000000n : view.getBigUint64(0);
}

function floatOf(bits) {
  view.setBigUint64(0, bits & MASK);
  return view.getFloat64(0);
}

const hex = (bits) => bits.toString(16).toUpperCase().padStart(16, "0");
const row = (kind, a, b, r) => `${kind} ${hex(bitsOf(a))} ${hex(b)} ${hex(r)}`;

// Splitmix64.
let state = SEED;
function random(n) {
  state = (state + 0x9e3779b97f4a7c15n) & MASK;
  let z = state;
  z = ((z ^ (z >> 30n)) * 0xbf58476d1ce4e5b9n) & MASK;
  z = ((z ^ (z >> 27n)) * 0x94d049bb133111ebn) & MASK;
  return (z ^ (z >> 31n)) % n;
}

// x and the numbers up to `steps` steps from it on each side.
function around(x, steps) {
  const list = [];
  for (let k = -steps; k <= steps; k++) list.push(floatOf(bitsOf(Math.abs(x)) + BigInt(k)));
  return list.map((y) => (x < 0 ? -y : y));
}

// The inputs of toFixed.
function inputs() {
  const list = [0, -0, NaN, Infinity, -Infinity, Number.MAX_VALUE, -Number.MAX_VALUE];
  const both = (xs) => xs.forEach((x) => list.push(x, -x));
  // subnormals, and both sides of the least normal number
  both([1n, 2n, 3n, 0x8000000000000n, 0xfffffffffffffn, 0x10000000000000n, 0x10000000000001n].map(floatOf));
  // exact ties: odd sixteenths, and both neighbours of each
  for (const k of [1, 3, 5, 7, 9, 11, 13, 15, 17, 33, 1001, 115199, 115201]) both(around(k / 16, 2));
  for (let i = 0; i < 100; i++) list.push(...around((Number(random(131072n)) * 2 + 1) / 16, 1));
  for (let i = 0; i < 100; i++) list.push((Number(random(1n << 46n)) * 2 + 1) / 16);
  // halves of a thousandth that no double is, and their neighbours
  for (const k of [1, 3, 5, 7, 9, 11, 13, 1999, 2001, 14399999]) both(around(k / 2000, 2));
  for (let i = 0; i < 100; i++) list.push(...around((Number(random(7200000n)) * 2 + 1) / 2000, 1));
  for (let i = 0; i < 40; i++) list.push(-(Number(random(7200000n)) * 2 + 1) / 2000);
  // x * 1000 + 0.5 rounds to the wrong whole number here
  both(around(2254.2585, 1));
  both([1.0005, 1.005, 8.345, 0.9995, 0.99949999, 999.9995, 0.00049999999999999999, 1e-9, 1e-300]);
  // powers of two
  for (let e = -12; e <= 70; e++) list.push(...around(2 ** e, 1));
  // where a step passes a thousandth, where toFixed gives x back, and where it stops rounding
  for (const e of [42, 43, 44, 48, 49, 50, 52, 53, 54]) {
    both(around(2 ** e, 3));
    for (let i = 0; i < 10; i++) list.push(2 ** e * (0.75 + Number(random(1n << 40n)) / 2 ** 41));
  }
  both(around(1e21, 3));
  both([1e20, 1e22, 123456789012345680000, 4503599627370495.5, 4503599627370497.5]);
  // times as they occur, before and after rounding
  for (let i = 0; i < 250; i++) list.push(Number(random(7200001n)) / 1000);
  for (let i = 0; i < 100; i++) list.push(Number(random(720001n)) * 0.01);
  for (let i = 0; i < 250; i++) list.push((Number(random(1n << 53n)) / 2 ** 53) * 7200);
  for (let i = 0; i < 150; i++) list.push((Number(random(1n << 53n)) / 2 ** 53) * -7200);
  for (let i = 0; i < 100; i++) list.push((Number(random(1n << 53n)) / 2 ** 53) * 0.002 - 0.001);
  // any bits
  for (let i = 0; i < 100; i++) list.push(floatOf((random(1n << 32n) << 32n) | random(1n << 32n)));
  return list;
}

const out = [];
for (const x of inputs()) out.push(row("F", x, 0n, bitsOf(+x.toFixed(3))));

const edges = [
  0, -0, 1, -1, 5e-324, -5e-324, 2.2250738585072014e-308, Number.MAX_VALUE, -Number.MAX_VALUE,
  Infinity, -Infinity, NaN, 0.06, 7200, -7200, 1.0000000000000002,
];
for (const a of edges) {
  for (const b of edges) {
    out.push(row("L", a, bitsOf(b), bitsOf(Math.min(a, b))));
    out.push(row("H", a, bitsOf(b), bitsOf(Math.max(a, b))));
  }
}

// The planted row: the answer for 0.0625 is 0.063, and this is the double after it.
out.push(row("X", 0.0625, 0n, bitsOf(0.063) + 1n));

process.stdout.write(out.join("\n") + "\n");
