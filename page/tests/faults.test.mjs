// An engine whose memory is capped reports that there wasn't enough, or answers as always; and one that traps ends in a sentence.
import assert from "node:assert/strict";
import { File } from "node:buffer";
import { test } from "node:test";
import { engineBytes, example, take } from "./scripts.mjs";

const { fingerprint, hexadecimal, normalise, DONE, NO_MEMORY } = await take("engine");
const { lineOf } = await take("refusals");
const { JOBS, sentence } = await take("worker");

globalThis.postMessage = () => {};
const masks = { sources: false, reserved: false };
const MEMORY_SECTION = 5;
const PAGES = [0, 1, 2, 4, 8, 16, 24, 32, 40];

// An unsigned number as WebAssembly spells it.
function numberBytes(value) {
  const [low, rest] = [value & 127, value >>> 7];
  return rest ? [low | 128, ...numberBytes(rest)] : [low];
}

function readNumber(bytes, at) {
  let [value, shift, place] = [0, 0, at];
  for (;;) {
    value |= (bytes[place] & 127) << shift;
    shift += 7;
    place += 1;
    if (bytes[place - 1] < 128) return [value, place];
  }
}

// The engine with at most so many pages of memory more than it begins with.
function capped(bytes, more) {
  for (let at = 8; at < bytes.length; ) {
    const [length, content] = readNumber(bytes, at + 1);
    if (bytes[at] === MEMORY_SECTION) {
      const [least] = readNumber(bytes, content + 2);
      const section = [1, 1, ...numberBytes(least), ...numberBytes(least + more)];
      return Uint8Array.from([...bytes.subarray(0, at), MEMORY_SECTION, ...numberBytes(section.length), ...section, ...bytes.subarray(content + length)]);
    }
    at = content + length;
  }
  throw new Error("the engine has no memory");
}

const text = (name) => [...new TextEncoder().encode(name)];
const sized = (bytes) => [...numberBytes(bytes.length), ...bytes];
const section = (kind, bytes) => [kind, ...sized(bytes)];
const named = (name, kind, number) => [...sized(text(name)), kind, number];

// A module with one page of memory or more, whose malloc returns an address, and whose other call has this body.
function made(pages, address, called, type, body) {
  const [i32, i64] = [0x7f, 0x7e];
  const types = [2, 0x60, 1, i64, 1, i64, 0x60, type.length, ...type.map((bits) => (bits === 32 ? i32 : i64)), 1, i32];
  const exported = [3, ...named("memory", 2, 0), ...named("malloc", 0, 0), ...named(called, 0, 1)];
  const bodies = [2, ...sized([0, 0x42, ...address, 0x0b]), ...sized([0, ...body, 0x0b])];
  const memory = [1, 0, ...numberBytes(pages)];
  const sections = [section(1, types), section(3, [2, 0, 1]), section(5, memory), section(7, exported), section(10, bodies)];
  return new WebAssembly.Module(Uint8Array.from([0, ...text("asm"), 1, 0, 0, 0, ...sections.flat()]));
}

const engine = engineBytes();
const parts = [example("two-maps/first.txt")];
const county = (bytes) => ({ stem: "a", whole: new File([bytes], "a"), notes: [] });

test("with little memory the engine reports that, and with more it answers as always", () => {
  const wanted = Buffer.from(normalise(new WebAssembly.Module(engine), parts, masks).text);
  const counts = { memory: 0, done: 0 };
  for (const more of PAGES) {
    const { status, text: found, fault } = normalise(new WebAssembly.Module(capped(engine, more)), parts, masks);
    if (status === NO_MEMORY && lineOf(fault) === "refused 9 Memory") counts.memory += 1;
    else if (status === DONE && wanted.equals(Buffer.from(found))) counts.done += 1;
    else assert.fail(`with ${more} more pages of memory the answer is ${fault ? lineOf(fault) : "another text"}`);
  }
  assert.ok(counts.memory > 0 && counts.done > 0, JSON.stringify(counts));
});

test("an engine that traps ends in a sentence", async () => {
  const module = made(1, [32], "tigercanon_normalise", [64, 64, 32, 32, 64, 64], [0x00]);
  const error = await JOBS.judge({ module, county: county("1"), masks }).catch((trouble) => trouble);
  assert.match(sentence(error), /^The engine stopped by a fault of its own \(.*\)\. Please report it\.$/);
});

test("a full memory ends in the program's line and a sentence", async () => {
  const module = new WebAssembly.Module(capped(engine, 0));
  const small = await JOBS.judge({ module, county: county(parts[0]), masks });
  assert.equal(small.line, "refused 9 Memory");
  assert.ok(small.notes.some((note) => note.includes("enough memory")), small.notes.join());
});

test("addresses beyond 2 GiB are read as they are meant", () => {
  // The address of each block is 2^31 as a number of 64 bits whose upper half is filled by its sign. The call returns 0 for done.
  const address = [0x80, 0x80, 0x80, 0x80, 0x78];
  const module = made(32769, address, "tigercanon_fingerprint", [64, 64, 32, 32, 64, 64], [0x41, 0]);
  const { status, fingerprint: found } = fingerprint(module, [Uint8Array.from([7, 8, 9])], masks);
  assert.equal(status, DONE);
  // All blocks lie at one place: the array of the parts was written last, with the address and the length of the part.
  assert.equal(found, hexadecimal(Uint8Array.from([0, 0, 0, 0x80, 0, 0, 0, 0, 3, ...new Array(23).fill(0)])));
});

test("a text beyond 2 GiB is read where it is", () => {
  const address = [0x80, 0x80, 0x80, 0x80, 0x78];
  // The call writes that the text begins at 2^31, where this is written, and has nine bytes.
  const begin = [0x41, ...address, 0x42, 0x80, 0x80, 0x80, 0x80, 0x08, 0x37, 3, 0];
  const length = [0x41, ...address, 0x42, 9, 0x37, 3, 8];
  const module = made(32769, address, "tigercanon_normalise", [64, 64, 32, 32, 64, 64], [...begin, ...length, 0x41, 0]);
  const { status, text } = normalise(module, [Uint8Array.from([7, 8, 9])], masks);
  assert.deepEqual([status, [...text]], [DONE, [0, 0, 0, 0x80, 0, 0, 0, 0, 9]]);
});
