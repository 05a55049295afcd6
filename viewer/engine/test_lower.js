// Tests lower.js on a module that is written here byte by byte: node viewer/engine/test_lower.js [LOWER.js]
//
// Each function of the module touches a 64-bit memory or table in one way. Once lowered, it must do
// the same with a 32-bit one. Prints what failed; the exit status is 1 if something did.
"use strict";

const assert = require("assert");
const path = require("path");
const { lower } = require(path.resolve(process.argv[2] || `${__dirname}/lower.js`));

const [I32, I64, F64] = [0x7f, 0x7e, 0x7c];
const get = (index) => [0x20, index];
// (all counts and lengths below are less than 128, so that each is one byte, except for sections)
const vector = (items) => [items.length, ...items.flat()];
const long = (number) => [(number & 127) | 128, number >> 7];
const section = (id, bytes) => [id, ...long(bytes.length), ...bytes];
const text = (it) => [it.length, ...Buffer.from(it)];

// Name, parameters, results, and the instructions before `end`.
const FUNCTIONS = [
  ["store", [I64, I64], [], [...get(0), ...get(1), 0x37, 3, 8]],
  ["load", [I64], [I64], [...get(0), 0x29, 3, 8]],
  ["store8", [I64, I32], [], [...get(0), ...get(1), 0x3a, 0, 0]],
  ["load8", [I64], [I32], [...get(0), 0x2d, 0, 0]],
  ["storeDouble", [I64, F64], [], [...get(0), ...get(1), 0x39, 3, 0]],
  ["loadDouble", [I64], [F64], [...get(0), 0x2b, 3, 0]],
  ["fill", [I64, I32, I64], [], [...get(0), ...get(1), ...get(2), 0xfc, 11, 0]],
  ["copy", [I64, I64, I64], [], [...get(0), ...get(1), ...get(2), 0xfc, 10, 0, 0]],
  ["size", [], [I64], [0x3f, 0]],
  ["grow", [I64], [I64], [...get(0), 0x40, 0]],
  ["called", [I64], [I64], [...get(0), 0x42, 1, 0x7c]],
  ["doubled", [I64], [I64], [...get(0), ...get(0), 0x7c]],
  ["indirect", [I64, I64], [I64], [...get(0), ...get(1), 0x11, 10, 0]],
  // two blocks: 0 leaves the inner one and answers 7, anything else leaves both and answers 9
  ["branch", [I32], [I32], [0x02, 0x40, 0x02, 0x40, ...get(0), 0x0e, 1, 0, 1, 0x0b, 0x41, 7, 0x0f, 0x0b, 0x41, 9]],
  ["constant", [], [F64], [0x44, 0x28, 0x3e, 0xfc, 0, 0x11, 0, 0xf8, 0x3f]],
];

function wide(more = []) {
  const bodies = FUNCTIONS.map(([, , , code], index) => {
    const body = [0, ...code, ...(index === 0 ? more : []), 0x0b];
    return [body.length, ...body];
  });
  return Uint8Array.from([
    0, 0x61, 0x73, 0x6d, 1, 0, 0, 0,
    ...section(1, vector(FUNCTIONS.map(([, parameters, results]) => [0x60, ...vector(parameters), ...vector(results)]))),
    ...section(3, vector(FUNCTIONS.map((_, index) => index))),
    ...section(4, vector([[0x70, 5, 2, 2]])), // a table of 2 with 64-bit indices
    ...section(5, vector([[5, 1, 3]])), // a memory of 1 to 3 pages with 64-bit addresses
    ...section(7, vector([[...text("memory"), 2, 0], ...FUNCTIONS.map(([name], index) => [...text(name), 0, index])])),
    ...section(9, vector([[0, 0x42, 0, 0x0b, ...vector([[10], [11]])]])),
    ...section(10, [FUNCTIONS.length, ...bodies.flat()]),
    ...section(11, vector([[0, 0x42, ...long(256), 0x0b, ...text("data")]])),
  ]);
}

const one = new WebAssembly.Instance(new WebAssembly.Module(lower(wide()))).exports;
const bytes = () => new Uint8Array(one.memory.buffer);

const TESTS = {
  "a data segment lies at its offset": () => assert.equal(Buffer.from(bytes().subarray(256, 260)).toString(), "data"),
  "a store and a load have their offset": () => {
    one.store(16n, 0x0102030405060708n);
    assert.deepEqual([...bytes().subarray(24, 32)], [8, 7, 6, 5, 4, 3, 2, 1]);
    assert.equal(one.load(16n), 0x0102030405060708n);
  },
  "a store of a byte keeps its value and its neighbors": () => {
    one.store8(40n, 0x1ff);
    assert.deepEqual([...bytes().subarray(39, 42)], [0, 255, 0]);
    assert.equal(one.load8(40n), 255);
  },
  "a double is stored": () => {
    one.storeDouble(48n, 1.5);
    assert.equal(one.loadDouble(48n), 1.5);
  },
  "an access behind the end traps": () => assert.throws(() => one.load(65536n), WebAssembly.RuntimeError),
  "a fill has address, value, length": () => {
    one.fill(64n, 5, 3n);
    assert.deepEqual([...bytes().subarray(63, 68)], [0, 5, 5, 5, 0]);
  },
  "a copy goes from the second address to the first": () => {
    one.copy(80n, 64n, 2n);
    assert.deepEqual([...bytes().subarray(79, 83)], [0, 5, 5, 0]);
  },
  "memory has pages, grows, and says -1 where it can't": () => {
    assert.equal(one.size(), 1n);
    assert.equal(one.grow(1n), 1n);
    assert.equal(one.size(), 2n);
    assert.equal(one.grow(100n), -1n);
    one.store(131056n, 1n);
    assert.throws(() => one.store(131072n, 1n), WebAssembly.RuntimeError);
  },
  "a call goes through the table": () => {
    assert.equal(one.indirect(20n, 0n), 21n);
    assert.equal(one.indirect(20n, 1n), 40n);
    assert.throws(() => one.indirect(20n, 2n), WebAssembly.RuntimeError);
  },
  "a branch by a table and a constant pass unchanged": () => {
    assert.deepEqual([one.branch(0), one.branch(1), one.branch(5)], [7, 9, 9]);
    assert.equal(one.constant(), new Float64Array(Uint8Array.from([0x28, 0x3e, 0xfc, 0, 0x11, 0, 0xf8, 0x3f]).buffer)[0]);
  },
  // (an atomic fence, a truncation of vectors, and an instruction behind the longer ones that are known)
  "an instruction that isn't known is refused": () => {
    for (const it of [[0xfe, 3, 0], [0xfd, 0], [0xfc, 12]]) {
      assert.throws(() => lower(wide(it)), /lower: instruction/);
    }
  },
};

let failed = 0;
for (const [name, test] of Object.entries(TESTS)) {
  try {
    test();
  } catch (error) {
    failed += 1;
    console.log(`${name}: ${error.message.split("\n")[0]}`);
  }
}
console.log(`${Object.keys(TESTS).length - failed} passed, ${failed} failed`);
process.exitCode = failed ? 1 : 0;
