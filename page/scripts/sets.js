// Reads the parts of a county: in the order of the nine files, or the one file with all records.
import { beginningOf, isPacked, GZIP, unzippedStream } from "./first_line.js";
import { TYPES } from "./tables.js";
import { Unreadable } from "./unreadable.js";
import { checkSize, LARGEST, membersOf, unpacked } from "./zips.js";

// The parts with their names, and notes about files that are missing or empty. `report` is told how far reading has come.
export async function partsOf(county, report) {
  const all = await partsRead(county, report);
  if (all.parts.every(({ length }) => !length)) throw new Unreadable("it is empty, so it has no records");
  return all;
}

async function partsRead(county, report) {
  if (county.trouble) throw new Unreadable(county.trouble);
  if (county.whole) return wholeParts(county, report);
  const { files, names } = county.zip ? await unzipped(county.zip, report) : await singles(county.files, report);
  if (files.has("")) return { parts: [files.get("")], names: [names.get("")], notes: county.notes };
  const parts = [...TYPES].map((type) => files.get(type) ?? new Uint8Array(0));
  return { parts, names: [...TYPES].map((type) => names.get(type) ?? `.RT${type}`), notes: [...notesOn(files), ...county.notes] };
}

// A file with all records, which may be packed by gzip.
async function wholeParts({ whole, notes }, report) {
  checkSize(whole.size, "the file has");
  const count = reading(report, whole.size);
  const bytes = isPacked(await beginningOf(whole)) ? await unpackedFile(whole, count) : await readFile(whole, count);
  return { parts: [bytes], names: [whole.name], notes };
}

const reading = (report, total) => progress(report, "reading", total);

// Counts bytes, and reports them at most ten times a second.
function progress(report, stage, total) {
  let [done, last] = [0, 0];
  report({ stage, done, total });
  return (more) => {
    done += more;
    const now = performance.now();
    if (now - last > 100 || done >= total) report({ stage, done, total });
    if (now - last > 100) last = now;
  };
}

const changed = ({ name }) => new Unreadable(`a file changed while it was read: ${name}`);

async function readFile(file, count) {
  if (file.type === GZIP) return unpackedFile(file, count);
  const bytes = new Uint8Array(file.size);
  const reader = file.stream().getReader();
  let at = 0;
  for (;;) {
    const { done, value } = await reader.read();
    if (done) break;
    if (at + value.length > bytes.length) throw changed(file);
    bytes.set(value, at);
    at += value.length;
    count(value.length);
  }
  if (at !== bytes.length) throw changed(file);
  return bytes;
}

// The bytes of a file that gzip packed. How many they are is known only at the end.
async function unpackedFile(file, count) {
  const [pieces, reader] = [[], unzippedStream(file).getReader()];
  let size = 0;
  for (;;) {
    const { done, value } = await reader.read().catch(() => {
      throw new Unreadable("it can't be unpacked");
    });
    if (done) break;
    size += value.length;
    if (size > LARGEST) reader.cancel();
    checkSize(size, "the file unpacks to");
    pieces.push(value);
  }
  count(file.size);
  const bytes = new Uint8Array(size);
  let at = 0;
  for (const piece of pieces) {
    bytes.set(piece, at);
    at += piece.length;
  }
  return bytes;
}

async function singles(given, report) {
  const kinds = [...TYPES].filter((type) => given[type]);
  const total = kinds.reduce((sum, type) => sum + given[type].size, 0);
  checkSize(total, "the files have");
  const count = reading(report, total);
  const [files, names] = [new Map(), new Map()];
  for (const type of kinds) {
    files.set(type, await readFile(given[type], count));
    names.set(type, given[type].name);
  }
  return { files, names };
}

async function unzipped(zip, report) {
  report({ stage: "reading", done: 0, total: zip.size });
  const members = await membersOf(zip);
  const count = progress(report, "unpacking", [...members.values()].reduce((sum, entry) => sum + entry.size, 0));
  const [files, names] = [new Map(), new Map()];
  for (const [type, entry] of members) {
    files.set(type, await unpacked(zip, entry, count));
    names.set(type, entry.name);
  }
  return { files, names };
}

// Which of the nine files are missing, and whether that of the chains is empty.
function notesOn(files) {
  const missing = [...TYPES].filter((type) => !files.has(type)).map((type) => `.RT${type}`);
  const notes = missing.length ? [`no ${missing.join(" ")}`] : [];
  return files.get("1")?.length === 0 ? [...notes, "empty .RT1"] : notes;
}
