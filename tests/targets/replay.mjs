// Makes calls by the exports of thalluskin.wasm, and writes of each what tests/exports/replay.c writes. Each call is
// made twice, into memory filled with a pattern; what is lent empty is at address 0 in the second.
//
//     node replay.mjs thalluskin.wasm plan.json calls.bin left.bin
//
// The plan (tests/targets/wasm.py) says where a call's numbers stand, and what becomes of them in each function.
import { readFileSync, writeFileSync } from "node:fs";

const [library, planned, calls, left] = process.argv.slice(2);
const plan = JSON.parse(readFileSync(planned));
const AROUND = 32, PATTERN = 0x5a, PAINT = 0xc5c5c5c5, PAGE = 65536, ANSWER = 512, STRUCTS = 256;
const FONT = 1, BUFFER = 3, SAME_FONT = 2n ** 64n - 1n;

// ---- the library's memory: the stack, constants up to the heap's base, then the answer, structs, and what is lent

const { instance } = await WebAssembly.instantiate(readFileSync(library), {});
const { memory, __heap_base: { value: base }, ...functions } = instance.exports;
const structs = base + ANSWER;
const objects = [];
let free = structs + STRUCTS;
for (const { name, room, step } of plan.objects) {
  objects.push({ name, step, from: free + AROUND, at: 0, held: new Uint8Array(0) });
  free += Math.ceil((room + 2 * AROUND + 4 * step) / 8) * 8;
}
// as much again for the one that stands at the memory's end
memory.grow(Math.ceil((2 * free - base) / PAGE) - memory.buffer.byteLength / PAGE);
const bytes = new Uint8Array(memory.buffer), view = new DataView(memory.buffer);
const stack = new Uint32Array(memory.buffer, 0, plan.stack / 4), constants = bytes.slice(plan.stack, base);
const deepest = plan.functions.map(() => 0);

// What is lent stands between patterns; one object in turn ends where the memory ends, past which nothing can be read.
function lend(turn) {
  objects.forEach((object, k) => {
    const { step, from, held } = object, isLast = turn % objects.length === k;
    object.at = isLast ? bytes.length - held.length : from + step * (turn >> 2 * k & 3);
    bytes.fill(PATTERN, object.at - AROUND, object.at + held.length + AROUND);
    bytes.set(held, object.at);
  });
}

function takeBack() {
  objects.forEach(({ name, at, held }, k) => {
    const around = [...bytes.subarray(at - AROUND, at), ...bytes.subarray(at + held.length, at + held.length + AROUND)];
    if (around.some((byte) => byte !== PATTERN))
      throw new Error(`memory around the ${name} is written`);
    if (k !== BUFFER && Buffer.compare(bytes.subarray(at, at + held.length), held) !== 0)
      throw new Error(`the ${name} is written`);
  });
}

// ---- a call

function setNumber(at, size, n) {
  const [set, value] = {
    2: [view.setUint16, Number(BigInt.asUintN(16, n))], 4: [view.setUint32, Number(BigInt.asUintN(32, n))],
    8: [view.setBigUint64, n],
  }[size];
  set.call(view, at, value, true);
}

function argumentsOf(parameters, numbers, isSecond) {
  const given = [];
  let at = structs;
  bytes.fill(PATTERN, structs, structs + STRUCTS);
  for (const { object, width, struct, size, number } of parameters) {
    if (object !== undefined) {
      const lent = objects[object];
      given.push(isSecond && lent.held.length === 0 ? 0 : lent.at);
      if (width)
        given.push(BigInt(lent.held.length / width));
    } else if (struct) {
      for (const part of struct)
        setNumber(at + part.offset, part.size, numbers[part.number]);
      given.push(at);
      at += Math.ceil(size / 8) * 8;
    } else {
      given.push(size === 8 ? numbers[number] : Number(BigInt.asUintN(32, numbers[number])));
    }
  }
  return given;
}

// How much of the painted stack is not as it was painted.
function depth() {
  let k = 0;
  while (k < stack.length && stack[k] === PAINT)
    k++;
  return 4 * (stack.length - k);
}

// What the call leaves: the answer's memory, and the buffer.
function made({ name, answer, parameters }, kind, numbers, turn, isSecond) {
  lend(turn);
  const given = argumentsOf(parameters, numbers, isSecond);
  bytes.fill(plan.pattern, base, base + ANSWER);
  stack.fill(PAINT);
  functions[name](base, ...given);
  deepest[kind] = Math.max(deepest[kind], depth());
  takeBack();
  const { at, held } = objects[BUFFER];
  return [bytes.slice(base, base + answer + plan.beyond), bytes.slice(at, at + held.length)];
}

// ---- all of them

if (functions.thalluskin_version() !== plan.version)
  throw new Error("the library is of another version than the header");
if (base < plan.stack || bytes.subarray(0, plan.stack).some((byte) => byte !== 0))
  throw new Error("the library has data where its stack is looked for");
const input = readFileSync(calls), output = [];
let place = 0;
for (let turn = 0; place < input.length; turn++) {
  const numbers = [];
  for (let k = 0; k < plan.numbers; k++, place += 8)
    numbers.push(input.readBigUInt64LE(place));
  const [kind, ...lengths] = numbers.slice(0, objects.length).map(Number), of = plan.functions[kind];
  [plan.record, lengths[0], lengths[1], lengths[2] * of.width].forEach((length, k) => {
    if (k === FONT && numbers[k] === SAME_FONT)
      return;
    objects[k].held = input.subarray(place, place + length);
    place += length;
  });
  const [[answer, buffer], [again, after]] = [0, 1].map((k) => made(of, kind, numbers, turn + k, k === 1));
  if (Buffer.compare(buffer, after) !== 0)
    throw new Error("the second call leaves another buffer");
  const size = Buffer.alloc(8);
  size.writeUInt32LE(of.answer);
  output.push(size, answer.subarray(0, of.answer), again, buffer);
}
if (place !== input.length)
  throw new Error("the input is cut");
if (Buffer.compare(bytes.subarray(plan.stack, base), constants) !== 0)
  throw new Error("the library's constants are written");
writeFileSync(left, Buffer.concat(output));
deepest.forEach((bytes, kind) => console.log(`stack ${kind.toString(16)} ${bytes.toString(16)}`));
