// Zips: what is unpacked is bounded by what the directory announces, and a zip that contradicts itself is broken.
import assert from "node:assert/strict";
import { Blob, File } from "node:buffer";
import { test } from "node:test";
import { crc32, deflateRawSync, gzipSync } from "node:zlib";
import { example, take } from "./scripts.mjs";

const { Unreadable } = await take("unreadable");
const { membersOf, unpacked, LARGEST } = await take("zips");
const { partsOf } = await take("sets");
const MIB = 1 << 20;

function checksum(bytes) {
  if (crc32) return crc32(bytes);
  let sum = ~0;
  for (const byte of bytes) {
    sum ^= byte;
    for (let bit = 0; bit < 8; bit += 1) sum = sum & 1 ? (sum >>> 1) ^ 0xedb88320 : sum >>> 1;
  }
  return ~sum >>> 0;
}

const asNumber = (value, bytes) => {
  const number = Buffer.alloc(bytes);
  if (bytes === 8) number.writeBigUInt64LE(BigInt(value));
  else number.writeUIntLE(value, 0, bytes);
  return number;
};

// A zip of files, each with what its directory says of it in place of the truth. Large ones have their numbers of 64 bits.
function zipOf(files, { count = files.length, isLarge = false } = {}) {
  const [bodies, directory] = [[], []];
  let at = 0;
  for (const [name, content, says] of files) {
    const packed = says?.stored ? Buffer.from(content) : deflateRawSync(content);
    const all = { method: says?.stored ? 0 : 8, crc: checksum(content), packed: packed.length, size: content.length, ...says };
    const fields = Buffer.alloc(26);
    fields.writeUInt16LE(20, 0);
    fields.writeUInt16LE(all.flags ?? 0, 2);
    fields.writeUInt16LE(all.method, 4);
    fields.writeUInt32LE(all.crc, 10);
    fields.writeUInt32LE(all.packed, 14);
    fields.writeUInt32LE(all.size, 18);
    fields.writeUInt16LE(name.length, 22);
    const head = Buffer.concat([Buffer.from("PK\x03\x04", "latin1"), fields, Buffer.from(name), packed]);
    const rest = Buffer.alloc(14);
    rest.writeUInt32LE(all.isLarge ? 0xffffffff : at, 10);
    const extra = all.isLarge ? Buffer.concat([asNumber(1, 2), asNumber(24, 2), ...[all.size, all.packed, at].map((value) => asNumber(value, 8))]) : Buffer.alloc(0);
    if (all.isLarge) fields.fill(0xff, 14, 22);
    fields.writeUInt16LE(extra.length, 24);
    directory.push(Buffer.concat([Buffer.from("PK\x01\x02\x14\x00", "latin1"), fields, rest, Buffer.from(name), extra]));
    bodies.push(head);
    at += head.length;
  }
  const listed = Buffer.concat(directory);
  const numbers = (bytes) => [count, count, listed.length, at].map((value, place) => asNumber(value, bytes ?? (place < 2 ? 2 : 4)));
  const [sizes, versions] = [Buffer.concat([asNumber(44, 8)]), Buffer.alloc(12)];
  const largeEnd = Buffer.concat([Buffer.from("PK\x06\x06", "latin1"), sizes, versions, ...numbers(8)]);
  const locator = Buffer.concat([Buffer.from("PK\x06\x07", "latin1"), asNumber(0, 4), asNumber(at + listed.length, 8), asNumber(1, 4)]);
  const end = Buffer.concat([Buffer.from("PK\x05\x06", "latin1"), asNumber(0, 4), ...(isLarge ? [Buffer.alloc(12, 0xff)] : numbers()), asNumber(0, 2)]);
  return new Blob([...bodies, listed, ...(isLarge ? [largeEnd, locator] : []), end]);
}

// What comes of unpacking a zip with one file: its bytes or the sentence, and how many bytes were taken.
async function outcome(zip) {
  let taken = 0;
  try {
    const [[, member]] = await membersOf(zip);
    const bytes = await unpacked(zip, member, (more) => (taken += more));
    return { bytes, taken };
  } catch (error) {
    return { sentence: error instanceof Unreadable ? error.message : `${error.name}: ${error.message}`, taken };
  }
}

const name = "TGR01001.RT1";
const broken = `the zip is broken at ${name}`;
const large = Buffer.alloc(4 * MIB, "1");
const all = example("autauga/all.txt");

// The parts of a county that is a zip with these files, their names and the notes.
const partsIn = (files) => partsOf({ stem: "TGR01001", zip: zipOf(files), notes: [] }, () => {});

test("a file is unpacked whole", async () => {
  const { bytes, taken } = await outcome(zipOf([[name, large]]));
  assert.ok(large.equals(Buffer.from(bytes)));
  assert.equal(taken, large.length);
});

for (const stored of [false, true]) {
  test(`of a file so many bytes are read as the directory announces, if these are right, ${stored ? "stored" : "compressed"}`, async () => {
    const more = await outcome(zipOf([[name, large, { size: 100, stored }]]));
    assert.equal(more.sentence, broken);
    assert.ok(more.taken <= 100);
    const begun = await outcome(zipOf([[name, large, { size: 100, stored, crc: checksum(large.subarray(0, 100)) }]]));
    assert.deepEqual([Buffer.from(begun.bytes).toString(), begun.taken], ["1".repeat(100), 100]);
    const less = await outcome(zipOf([[name, large, { size: large.length + 1, stored }]]));
    assert.equal(less.sentence, broken);
    const other = await outcome(zipOf([[name, large, { crc: 1, stored }]]));
    assert.equal(other.sentence, broken);
  });
}

test("a zip unpacks to as many bytes as the page takes, and not to more", async () => {
  const halves = (second) => zipOf([[name, Buffer.from("1"), { size: LARGEST / 2 }], ["TGR01001.RT2", Buffer.from("2"), { size: second }]]);
  assert.equal((await membersOf(halves(LARGEST / 2))).size, 2);
  const { sentence } = await outcome(halves(LARGEST / 2 + 1));
  assert.equal(sentence, "the zip unpacks to 1,000,000,001 bytes, and this page takes at most 1,000,000,000: use the program");
});

test("a zip whose end counts other files than its directory has is broken", async () => {
  for (const count of [1, 3]) {
    const { sentence } = await outcome(zipOf([[name, "1"], ["TGR01001.RT2", "2"]], { count }));
    assert.equal(sentence, `the zip is broken: its directory has 2 files, and its end counts ${count}`);
  }
});

test("the numbers of a small zip may stand where those of a large one do", async () => {
  const { parts } = await partsIn([[name, "1", { isLarge: true }], ["TGR01001.RT2", "22", { isLarge: true, stored: true }]]);
  assert.deepEqual(parts.map(({ length }) => length), [1, 2, 0, 0, 0, 0, 0, 0, 0]);
  const { parts: others } = await partsOf({ zip: zipOf([[name, "333"]], { isLarge: true }), notes: [] }, () => {});
  assert.equal(others[0].length, 3);
});

test("what a Mac leaves in a zip is none of the county's files", async () => {
  const { parts, notes } = await partsIn([[name, "1"], [`__MACOSX/${name}`, "22"], [`._${name}`, "22"], ["in/.DS_Store", "1"]]);
  assert.equal(Buffer.from(parts[0]).toString(), "1");
  assert.deepEqual(notes, ["no .RT2 .RT4 .RT5 .RT6 .RT7 .RT8 .RTI .RTP"]);
});

test("a zip with one file of all records is that file", async () => {
  for (const stored of [false, true]) {
    const { parts, names, notes } = await partsIn([["read.me", "nothing"], ["county/all.txt", all, { stored }], ["empty/", ""]]);
    assert.deepEqual([parts.length, names, notes], [1, ["county/all.txt"], []]);
    assert.ok(Buffer.from(all).equals(Buffer.from(parts[0])));
  }
  const two = await outcome(zipOf([["b.txt", all], ["a.txt", all]]));
  assert.equal(two.sentence, "the zip has 2 counties in it: a.txt, b.txt");
  assert.equal((await outcome(zipOf([["TGR01001", all], [name, "1"]]))).sentence, "the zip has 2 counties in it: TGR01001, TGR01001");
  assert.equal((await outcome(zipOf([["read.me", "nothing"]]))).sentence, "the zip has no county in it");
});

test("of a zip without a county the reason is the first file that can't be read", async () => {
  const nothing = ["read.me", "nothing"];
  const locked = ["a.txt", all, { flags: 1 }];
  for (const [files, sentence] of [
    [[nothing, locked, ["b.txt", all, { method: 99 }]], "the zip is locked with a password"],
    [[nothing, ["b.txt", all, { method: 99 }], locked], "the zip can't be unpacked: b.txt is compressed by an unknown method"],
    [[["b.txt", "xxxxxxxxxxxxxxxxx", { stored: true, method: 8 }], nothing], "the zip is broken at b.txt"],
  ]) assert.equal((await outcome(zipOf(files))).sentence, sentence);
  assert.ok((await outcome(zipOf([locked, ["all.txt", all]]))).bytes);
});

test("a file that gzip packed is unpacked, and a broken one can't be", async () => {
  const whole = (bytes, called = "all.txt.gz") => partsOf({ whole: new File([bytes], called), notes: ["a note"] }, () => {});
  const { parts, names, notes } = await whole(gzipSync(all));
  assert.ok(Buffer.from(all).equals(Buffer.from(parts[0])));
  assert.deepEqual([names, notes], [["all.txt.gz"], ["a note"]]);
  await assert.rejects(whole(gzipSync(all).subarray(0, 300)), new Unreadable("it can't be unpacked"));
  await assert.rejects(whole(gzipSync("")), new Unreadable("it is empty, so it has no records"));
});

test("a zip that is cut off, one that isn't a zip, and files that can't be unpacked", async () => {
  const whole = Buffer.from(await zipOf([[name, "1"]]).arrayBuffer());
  const directory = whole.indexOf("PK\x01\x02");
  const changed = (at, bytes) => new Blob([whole.subarray(0, at), Buffer.from(bytes), whole.subarray(at + bytes.length)]);
  const sentences = [
    [new Blob([whole.subarray(0, whole.length - 10)]), "the zip is cut off"],
    [new Blob(["nothing"]), "it isn't a zip"],
    [new Blob(["PX"]), "it isn't a zip"],
    [new Blob([]), "it isn't a zip"],
    [changed(directory, "XX"), "the zip is broken: its directory can't be read"],
    [changed(directory + 28, [200]), "the zip is broken: its directory can't be read"],
    [changed(directory + 8, [1]), "the zip is locked with a password"],
    [changed(directory + 10, [99]), `the zip can't be unpacked: ${name} is compressed by an unknown method`],
    [changed(0, "XX"), broken],
    [changed(30, "X"), broken],
    [changed(directory + 42, [1]), broken],
    [zipOf([[name, "1", { packed: 1000 }]]), broken],
    [zipOf([["A.RT1", "1"], ["a.rt1", "2"]]), "the zip has 2 files .RT1"],
  ];
  for (const [zip, sentence] of sentences) assert.equal((await outcome(zip)).sentence, sentence);
});

test("bytes that can't be had don't make a zip broken", async () => {
  const whole = zipOf([[name, "123", { stored: true }]]);
  const failing = (error) => ({
    size: whole.size,
    slice: (from, to) => (to - from === 3 ? { size: 3, stream: () => new ReadableStream({ pull: (controller) => controller.error(error) }) } : whole.slice(from, to)),
  });
  for (const [error, sentence] of [
    [new RangeError("full"), "RangeError: full"],
    [new DOMException("gone", "NotReadableError"), "NotReadableError: gone"],
    [new TypeError("wrong"), broken],
  ]) assert.equal((await outcome(failing(error))).sentence, sentence);
});

test("what stands before a zip, and a comment behind it, don't matter", async () => {
  const whole = Buffer.from(await zipOf([[name, "123"]]).arrayBuffer());
  const comment = Buffer.from("PK, a comment");
  whole.writeUInt16LE(comment.length, whole.length - 2);
  const { bytes } = await outcome(new Blob(["a program that unpacks it", whole, comment]));
  assert.equal(Buffer.from(bytes).toString(), "123");
  assert.equal((await outcome(new Blob([whole.subarray(10), comment]))).sentence, "the zip is broken: its directory can't be read");
});
