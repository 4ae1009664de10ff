// Reads zips as TIGER/Line files are distributed. What is unpacked is bounded: never more than a zip's directory announces, and no
// county of more than LARGEST bytes.
import { firstLine, isRecord } from "./first_line.js";
import { groupedBy } from "./grouping.js";
import { isLeftOut, kindOf, stemOf } from "./names.js";
import { counted } from "./numbers.js";
import { TYPES } from "./tables.js";
import { Unreadable } from "./unreadable.js";

export const LARGEST = 1_000_000_000;

const END_MARK = 0x06054b50;
const END_64_MARK = 0x06064b50;
const LOCATOR_MARK = 0x07064b50;
const ENTRY_MARK = 0x02014b50;
const FILE_MARK = 0x04034b50;
const LONGEST_END = 65557;
const END_BYTES = 22;
const LOCATOR_BYTES = 20;
const END_64_BYTES = 56;
const ENTRY_BYTES = 46;
const FILE_BYTES = 30;
const STORED = 0;
const DEFLATED = 8;
const LOCKED = 1;
const UTF_8 = 0x800;
const BEYOND_32_BITS = 0xffffffff;
const LARGE_NUMBERS = 1; // the extra field with numbers that 32 bits don't hold

const noDirectory = () => new Unreadable("the zip is broken: its directory can't be read");

async function wordsOf(blob, from, to) {
  return new DataView(await blob.slice(from, to).arrayBuffer());
}

// The entries of a zip's directory.
export async function entriesOf(blob) {
  const from = Math.max(0, blob.size - LONGEST_END);
  const tail = await wordsOf(blob, from, blob.size);
  let end = tail.byteLength - END_BYTES;
  while (end >= 0 && tail.getUint32(end, true) !== END_MARK) end -= 1;
  if (end < 0) {
    const start = new Uint8Array(await blob.slice(0, 2).arrayBuffer());
    throw new Unreadable(start[0] === 0x50 && start[1] === 0x4b ? "the zip is cut off" : "it isn't a zip");
  }
  const { count, size, at, behind } = (await largeEnd(blob, from + end)) ?? {
    count: tail.getUint16(end + 10, true), size: tail.getUint32(end + 12, true), at: tail.getUint32(end + 16, true), behind: from + end,
  };
  // What stands before a zip, such as a program that unpacks it, moves every place in it.
  const moved = behind - size - at;
  if (moved < 0) throw noDirectory();
  return readDirectory(await wordsOf(blob, at + moved, at + moved + size), count, moved);
}

// The end of a zip whose numbers may be larger than 32 bits hold, if it has one before its end.
async function largeEnd(blob, end) {
  const locator = await wordsOf(blob, Math.max(0, end - LOCATOR_BYTES), end);
  if (locator.byteLength < LOCATOR_BYTES || locator.getUint32(0, true) !== LOCATOR_MARK) return undefined;
  const place = end - LOCATOR_BYTES - END_64_BYTES;
  const words = await wordsOf(blob, Math.max(0, place), place + END_64_BYTES);
  if (words.byteLength < END_64_BYTES || words.getUint32(0, true) !== END_64_MARK) throw noDirectory();
  const [count, size, at] = [32, 40, 48].map((field) => Number(words.getBigUint64(field, true)));
  return { count, size, at, behind: place };
}

// The directory takes all its bytes: a zip whose end counts other entries than it has contradicts itself.
function readDirectory(directory, count, moved) {
  const entries = [];
  let at = 0;
  while (at < directory.byteLength) {
    if (at + ENTRY_BYTES > directory.byteLength || directory.getUint32(at, true) !== ENTRY_MARK) throw noDirectory();
    const { entry, bytes } = readEntry(directory, at);
    entries.push({ ...entry, at: entry.at + moved });
    at += bytes;
  }
  if (entries.length !== count) throw new Unreadable(`the zip is broken: its directory has ${counted(entries.length)} files, and its end counts ${counted(count)}`);
  return entries;
}

function readEntry(directory, at) {
  const short = (place) => directory.getUint16(at + place, true);
  const long = (place) => directory.getUint32(at + place, true);
  const bytes = ENTRY_BYTES + short(28) + short(30) + short(32);
  if (at + bytes > directory.byteLength) throw noDirectory();
  const name = new Uint8Array(directory.buffer, at + ENTRY_BYTES, short(28));
  const extra = new DataView(directory.buffer, at + ENTRY_BYTES + short(28), short(30));
  const [size, packed, place] = largeNumbers([long(24), long(20), long(42)], extra);
  return { entry: { name: nameIn(name, short(8)), flags: short(8), method: short(10), crc: long(16), packed, size, at: place }, bytes };
}

const nameIn = (bytes, flags) => new TextDecoder(flags & UTF_8 ? "utf-8" : "windows-1252").decode(bytes);

// Numbers of an entry. Those that 32 bits don't hold stand in an extra field, in this order.
function largeNumbers(numbers, extra) {
  for (let at = 0; at + 4 <= extra.byteLength; at += 4 + extra.getUint16(at + 2, true)) {
    if (extra.getUint16(at, true) !== LARGE_NUMBERS) continue;
    let place = at + 4;
    return numbers.map((number) => {
      if (number !== BEYOND_32_BITS) return number;
      if (place + 8 > extra.byteLength) throw noDirectory();
      place += 8;
      return Number(extra.getBigUint64(place - 8, true));
    });
  }
  return numbers;
}

// The files of the one county in a zip by their types, in either case of their names; or the one file with all records, by no type.
export async function membersOf(blob) {
  const entries = (await entriesOf(blob)).filter(({ name }) => !isLeftOut(name));
  const singles = entries.filter(({ name }) => [...TYPES].includes(kindOf(name)));
  const { wholes, trouble } = await wholesAmong(blob, entries);
  const counties = [...groupedBy(singles, ({ name }) => stemOf(name).toUpperCase()), ...wholes.map((entry) => [entry.name, [entry]])];
  if (!counties.length) throw trouble;
  if (counties.length > 1) {
    const names = counties.map(([name]) => name).sort().slice(0, 3).join(", ");
    throw new Unreadable(`the zip has ${counties.length} counties in it: ${names}`);
  }
  const members = new Map();
  for (const [kind, found] of groupedBy(counties[0][1], ({ name }) => kindOf(name))) {
    if (found.length > 1) throw new Unreadable(`the zip has ${found.length} files .RT${kind}`);
    if (found[0].flags & LOCKED) throw locked();
    members.set(kind, found[0]);
  }
  checkSize([...members.values()].reduce((sum, entry) => sum + entry.size, 0), "the zip unpacks to");
  return members;
}

// The files of a zip that begin with a record, and why there may be none: the first one that can't be read, if any.
async function wholesAmong(blob, entries) {
  const found = { wholes: [], trouble: new Unreadable("the zip has no county in it") };
  for (const entry of entries.filter(({ name }) => !name.endsWith("/") && !kindOf(name)).reverse()) {
    try {
      if (await beginsWithRecordIn(blob, entry)) found.wholes.push(entry);
    } catch (error) {
      found.trouble = error;
    }
  }
  return found;
}

async function beginsWithRecordIn(blob, entry) {
  if (entry.flags & LOCKED) throw locked();
  const line = firstLine(await unpackedStream(blob, entry));
  return isRecord(await line.catch((error) => {
    throw reasonFor(error, entry);
  }));
}

export function checkSize(size, what) {
  if (size > LARGEST) throw new Unreadable(`${what} ${counted(size)} bytes, and this page takes at most ${counted(LARGEST)}: use the program`);
}

const locked = () => new Unreadable("the zip is locked with a password");
const brokenAt = (entry) => new Unreadable(`the zip is broken at ${entry.name}`);

// Why bytes of a file in a zip can't be read: there is no memory for them, the zip is gone, or else they are wrong.
const reasonFor = (error, entry) => (error instanceof RangeError || error.name === "NotReadableError" ? error : brokenAt(entry));

// A stream of the bytes of a file in a zip, which has its name before them too.
async function unpackedStream(blob, entry) {
  const head = await wordsOf(blob, entry.at, entry.at + FILE_BYTES);
  if (head.byteLength < FILE_BYTES || head.getUint32(0, true) !== FILE_MARK) throw brokenAt(entry);
  const named = entry.at + FILE_BYTES + head.getUint16(26, true);
  const from = named + head.getUint16(28, true);
  const packed = blob.slice(from, from + entry.packed);
  if (packed.size !== entry.packed || nameIn(await wordsOf(blob, entry.at + FILE_BYTES, named), entry.flags) !== entry.name) throw brokenAt(entry);
  if (![STORED, DEFLATED].includes(entry.method)) {
    throw new Unreadable(`the zip can't be unpacked: ${entry.name} is compressed by an unknown method`);
  }
  return entry.method === STORED ? packed.stream() : packed.stream().pipeThrough(new DecompressionStream("deflate-raw"));
}

// The bytes of a file in a zip.
export async function unpacked(blob, entry, progress) {
  const stream = await unpackedStream(blob, entry);
  const bytes = new Uint8Array(entry.size);
  const length = await filled(bytes, stream.getReader(), entry, progress);
  if (length !== entry.size || checksum(bytes) !== entry.crc) throw brokenAt(entry);
  return bytes;
}

// Reads pieces into so many bytes, and returns how many came. What is behind them isn't read.
async function filled(bytes, reader, entry, progress) {
  let at = 0;
  try {
    while (at < bytes.length) {
      const { done, value } = await reader.read();
      if (done) break;
      const piece = value.subarray(0, bytes.length - at);
      bytes.set(piece, at);
      at += piece.length;
      progress(piece.length);
    }
    return at;
  } catch (error) {
    throw reasonFor(error, entry);
  } finally {
    reader.cancel().catch(() => {});
  }
}

const CHECKSUMS = Array.from({ length: 4 }, () => new Uint32Array(256));
for (let byte = 0; byte < 256; byte += 1) {
  let sum = byte;
  for (let bit = 0; bit < 8; bit += 1) sum = sum & 1 ? (sum >>> 1) ^ 0xedb88320 : sum >>> 1;
  CHECKSUMS[0][byte] = sum;
}
for (let table = 1; table < 4; table += 1) {
  for (let byte = 0; byte < 256; byte += 1) {
    const before = CHECKSUMS[table - 1][byte];
    CHECKSUMS[table][byte] = (before >>> 8) ^ CHECKSUMS[0][before & 255];
  }
}

// The CRC-32 of a file in a zip, four bytes at a time.
function checksum(bytes) {
  const [one, two, three, four] = CHECKSUMS;
  const whole = bytes.length & ~3;
  let sum = ~0;
  for (let at = 0; at < whole; at += 4) {
    sum ^= bytes[at] | (bytes[at + 1] << 8) | (bytes[at + 2] << 16) | (bytes[at + 3] << 24);
    sum = four[sum & 255] ^ three[(sum >>> 8) & 255] ^ two[(sum >>> 16) & 255] ^ one[sum >>> 24];
  }
  for (let at = whole; at < bytes.length; at += 1) sum = (sum >>> 8) ^ one[(sum ^ bytes[at]) & 255];
  return ~sum >>> 0;
}
