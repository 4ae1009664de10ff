// What to show of a refused set: the faulty line with its field marked, or the records that a refusal of a county is about.
import { groupedBy } from "./grouping.js";
import { counted } from "./numbers.js";
import { cenidText, placeOf } from "./refusals.js";
import { HINTS, RECORD_TYPES, TYPES } from "./tables.js";

const LF = 10;
const CR = 13;
const MOST_SHOWN = 4;
const LONGEST_SHOWN = 400;

// The fields that lead to the records of each refusal: the record type (or the place with it), the fields to look for, and the ones to
// mark.
const RECORDS = {
  11: { type: "1", keys: ["TLID"] },
  12: { keys: ["TLID"] },
  13: { keys: ["TLID"], marked: ["RTSQ"] },
  14: { type: "1", keys: ["TLID"] },
  15: { type: "I", keys: ["TLID"] },
  16: { type: "5", keys: ["FEAT"] },
  17: { type: "4", keys: ["TLID", "FEAT"], marked: ["FEAT"] },
  18: { type: "P", keys: ["CENID", "POLYID"] },
  19: { type: "8", keys: ["LAND"] },
  20: { type: "8", keys: ["CENID", "POLYID"] },
  23: { type: "P", keys: ["CENID", "POLYID"] },
};

const latin1 = (bytes) => String.fromCharCode(...bytes.subarray(0, LONGEST_SHOWN));

// Each line of a part: its number, its bytes, and its line ending.
export function* linesOf(part) {
  for (let [at, number] = [0, 1]; at < part.length; number += 1) {
    const found = part.indexOf(LF, at);
    const next = found < 0 ? part.length : found;
    const hasReturn = next > at && part[next - 1] === CR;
    yield { number, bytes: part.subarray(at, hasReturn ? next - 1 : next), ending: `${hasReturn ? "CR " : ""}${found < 0 ? "" : "LF"}`.trim() };
    at = next + 1;
  }
}

const fieldsOf = (type) => RECORD_TYPES[type]?.fields.map(([name, first, last, kind, holds]) => ({ name, first, last, kind, holds })) ?? [];

// What to show of a fault: lines with marks, and how a right value looks.
export function shownOf(fault, parts, names) {
  const part = placeOf(fault, "PART");
  if (part) return shownLine(fault, parts[part - 1], names[part - 1], part);
  const rule = RECORDS[fault.number];
  if (rule) return { lines: recordsOf(fault, rule, parts, names) };
  return { lines: fault.number === 24 ? repeatedEnds(parts, names) : [] };
}

function shownLine(fault, part, file, number) {
  const wanted = placeOf(fault, "LINE");
  for (const line of linesOf(part)) {
    if (line.number === wanted) {
      const text = latin1(line.bytes);
      const mark = markOf(fault, text, line.bytes.length);
      const shown = { file, line: wanted, text, mark: [mark.first, mark.last], label: mark.label, isCut: line.bytes.length > LONGEST_SHOWN };
      return { lines: [shown], right: mark.right, hint: hintOf(part, wanted, number) };
    }
  }
  return { lines: [] };
}

// The columns to mark in a faulty line, what they hold, and how a right value looks.
function markOf(fault, text, length) {
  const [type, column] = [text[0], placeOf(fault, "COLUMN")];
  if (fault.number === 1) return { first: 1, last: 1, label: "the record type", right: { means: `one of ${[...TYPES].join(" ")}` } };
  if (fault.number === 2) return markOfLength(type, length);
  const field = fieldsOf(type).find(({ first, last }) => first <= column && column <= last);
  if (fault.number === 3) return markOfByte(text, column, field);
  if (!field) return { first: column, last: column, label: "" };
  const label = `${field.name}, ${columnsOf(field)}${field.holds ? `: ${field.holds}` : ""}`;
  return { first: field.first, last: field.last, label, right: fault.number === 6 ? gapAdvice(type) : rightValue(field) };
}

function markOfLength(type, length) {
  const full = RECORD_TYPES[type]?.length ?? length;
  const right = `a line of type ${type} has at most ${full} bytes; this one has ${length}`;
  return { first: full + 1, last: Math.max(length, full + 1), label: `what is beyond column ${full}`, right: { means: right } };
}

function markOfByte(text, column, field) {
  const code = text.charCodeAt(column - 1);
  const names = { 9: "a tab", 13: "a CR", 26: "a Control-Z", 0: "a zero byte" };
  const hexadecimal = `0x${code.toString(16).toUpperCase().padStart(2, "0")}`;
  const label = `the byte ${hexadecimal}${names[code] ? `, ${names[code]},` : ""} in ${field ? field.name : "the line"}`;
  const means = "a printable character: 0x20 to 0x7E, or 0xA0 to 0xFF for letters with accents";
  return { first: column, last: column, label, right: { means } };
}

const columnsOf = ({ first, last }) => (first === last ? `column ${first}` : `columns ${first} to ${last}`);

const gapAdvice = (type) => ({ means: `the places of type ${type} are used from the left, without a blank one between` });

// How a right value of a field looks, in the columns that it takes.
function rightValue({ first, last, kind, name }) {
  const width = last - first + 1;
  if (/LONG/.test(name)) return { example: "-086468669", means: "for 86.468669° W" };
  if (/LAT/.test(name)) return { example: "+32424914", means: "for 32.424914° N" };
  const means = `digits, with blanks or zeros around them${kind === "n" ? ", or only blanks" : ""}`;
  return { example: "500".slice(-width).padStart(width), means };
}

// What the first bytes of a file, or the last ones, suggest about its faulty line.
function hintOf(part, line, number) {
  const found = HINTS.find(([beginning]) => beginning.every((byte, at) => part[at] === byte));
  if (line === 1 && found) return found[1];
  const tail = latin1(part.subarray(Math.max(0, part.length - 4))).replace(/[\r\n]+$/, "");
  if (!tail.endsWith("\x1a")) return "";
  let last = 0;
  for (const each of linesOf(part)) last = each.number;
  return line === last && number ? "the file ends with a Control-Z, the end mark of an old system: remove it" : "";
}

// The value of a number field: its digits, or nothing.
const numberIn = (text) => (/^ *[0-9]+ *$/.test(text) ? Number(text) : 0);

// The first records that a refusal of a county is about, with the columns to mark.
function recordsOf(fault, { type, keys, marked = keys }, parts, names) {
  const wanted = type ?? placeOf(fault, "TYPE");
  const fields = fieldsOf(wanted);
  const within = (name) => fields.filter((field) => field.name === name || (name === "FEAT" && /^FEAT[1-5]?$/.test(field.name)));
  const valueIn = (text, { kind }) => (kind === "B" ? text : numberIn(text));
  const value = (bytes, field) => valueIn(latin1(bytes.subarray(field.first - 1, field.last)), field);
  const sought = Object.fromEntries(keys.map((key) => [key, key === "CENID" ? cenidText(fault) : placeOf(fault, key)]));
  const fieldsUnder = Object.fromEntries([...keys, ...marked].map((key) => [key, within(key)]));
  const found = [];
  for (const [place, part] of parts.entries()) {
    for (const { number, bytes } of linesOf(part)) {
      if (bytes[0] !== wanted.charCodeAt(0)) continue;
      if (!keys.every((key) => fieldsUnder[key].some((field) => value(bytes, field) === sought[key]))) continue;
      const text = latin1(bytes).padEnd(RECORD_TYPES[wanted].length);
      const marks = marked.flatMap((key) => fieldsUnder[key].filter((field) => key === "RTSQ" || value(bytes, field) === sought[key]));
      const mark = [Math.min(...marks.map(({ first }) => first)), Math.max(...marks.map(({ last }) => last))];
      found.push({ file: names[place], line: number, text, mark, label: labelOf(marks), sequence: text.slice(15, 18) });
    }
  }
  return fault.number === 13 ? repeated(found, ({ sequence }) => numberIn(sequence)) : found.slice(0, MOST_SHOWN);
}

const labelOf = (fields) => fields.map((field) => `${field.name}, ${columnsOf(field)}`).join("; ");

// The first of those that have one key in common.
function repeated(found, key) {
  return ([...groupedBy(found, key).values()].find((group) => group.length > 1) ?? found).slice(0, MOST_SHOWN);
}

// Chains that run between the same two points, of the pair of points that most chains have.
function repeatedEnds(parts, names) {
  const groups = new Map();
  for (const [place, part] of parts.entries()) {
    for (const { number, bytes } of linesOf(part)) {
      if (bytes[0] !== 0x31) continue;
      const ends = latin1(bytes.subarray(190, 228));
      if (!groups.has(ends)) groups.set(ends, { count: 0, lines: [] });
      const group = groups.get(ends);
      group.count += 1;
      if (group.lines.length < MOST_SHOWN) group.lines.push({ file: names[place], line: number, text: latin1(bytes), mark: [191, 228] });
    }
  }
  const most = [...groups.values()].reduce((best, group) => (group.count > best.count ? group : best), { count: 1, lines: [] });
  return most.lines.map((line) => ({ ...line, label: `the ends of ${counted(most.count)} chains` }));
}
