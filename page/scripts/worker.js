// The work of the page, in a worker of its own. It is asked by one message and answers with any number of { stage } and one { answer }
// or { trouble }. After the differences of two maps were found it goes on to answer questions about them.
import { readColumns } from "./columns.js";
import { fileDifferences } from "./file_differences.js";
import { flagsOf } from "./manifests.js";
import { compareCounties, ownNumbers } from "./matching.js";
import { geojson } from "./geojson.js";
import { Findings } from "./findings.js";
import { fingerprint, hexadecimal, NO_MEMORY, normalise, respell } from "./engine.js";
import { County } from "./records.js";
import { counted } from "./numbers.js";
import { lineOf } from "./refusals.js";
import { partsOf } from "./sets.js";
import { shownOf } from "./faulty.js";
import { shapesOf } from "./shapes.js";
import { Unreadable } from "./unreadable.js";

const MOST_LISTED = 400_000_000; // bytes of both canonical texts: the list needs about seven times as much memory
const FULL = "There wasn't enough memory for this in the browser. Close other pages and try again, or use the program.";

const report = (stage) => postMessage({ stage });

const digestOf = async (bytes) => hexadecimal(new Uint8Array(await crypto.subtle.digest("SHA-256", bytes)));

const refusedAnswer = (fault, parts, names, notes) => {
  const shown = fault.number === 9 ? { lines: [] } : shownOf(fault, parts, names);
  return { isAccepted: false, line: lineOf(fault), number: fault.number, notes, ...shown };
};

// Judges a county: its canonical text, the hash of that, and the map's shapes or, if it isn't shown alone, its columns.
async function judge({ module, county, masks, isAlone }) {
  const { parts, names, notes } = await partsOf(county, report);
  report({ stage: "judging" });
  const { status, text, fault } = normalise(module, parts, masks);
  if (fault) return refusedAnswer(fault, parts, names, status === NO_MEMORY ? [...notes, FULL] : notes);
  parts.length = 0;
  report({ stage: "fingerprint" });
  const digest = digestOf(text);
  // While the hash is made elsewhere, what the map or a comparison needs is read.
  if (isAlone) report({ stage: "map" });
  const read = isAlone ? { shapes: shapesOf(text) } : { columns: readColumns(text) };
  return { isAccepted: true, fingerprint: await digest, text: new Blob([text]), size: text.length, ...read, notes };
}

// Judges a county of many: only its fingerprint, by the engine's own call.
async function judgeOfMany({ module, county, masks }) {
  const { parts, names, notes } = await partsOf(county, report);
  report({ stage: "judging" });
  const answer = fingerprint(module, parts, masks);
  if (answer.fault) return refusedAnswer(answer.fault, parts, names, notes);
  return { isAccepted: true, fingerprint: answer.fingerprint, notes };
}

let findings;

const tooLarge = (size, most) =>
  `They are too large for a list of the differences here: ${counted(size)} bytes, and the list takes at most ${counted(most)}. tigercanon-tools diff lists them.`;

function areEqual(one, other) {
  if (one.length !== other.length) return false;
  for (let at = 0; at < one.length; at += 1) if (one[at] !== other[at]) return false;
  return true;
}

// Compares two canonical texts byte by byte, and finds what differs, if they aren't too large for that.
async function compareTexts({ texts, columns = [], most = MOST_LISTED }) {
  report({ stage: "comparing" });
  const [first, second] = await Promise.all(texts.map(async (text) => new Uint8Array(await text.arrayBuffer())));
  if (areEqual(first, second)) return { areOneMap: true, shapes: shapesOf(first) };
  const size = first.length + second.length;
  if (size > most) return { areOneMap: false, tooLarge: tooLarge(size, most) };
  const counties = [first, second].map((text, place) => new County(text, columns[place]));
  report({ stage: "matching" });
  findings = new Findings(compareCounties(...counties), counties);
  report({ stage: "map" });
  return findings.summary();
}

// A county's files, respelled: with the numbers, the order and the directions that they have.
async function respelled(module, county) {
  const { parts } = await partsOf(county, () => report({ stage: "reading again" }));
  const { text } = respell(module, parts);
  if (!text) throw new Unreadable(`a county can't be read again as it was: ${county.stem}`);
  return { parts, text };
}

const canonicalCounty = async (text) => new County(new Uint8Array(await text.arrayBuffer()));

// The numbers of things in the files of both sets, by the keys that are wanted.
async function numbersOf({ module, counties, texts, masks, wanted }) {
  const found = [];
  for (const [side, county] of counties.entries()) {
    const { text } = await respelled(module, county);
    const numbers = ownNumbers(new County(text), await canonicalCounty(texts[side]), masks);
    found.push(new Map(wanted[side].map((key) => [key, numbers.get(key)])));
  }
  return found;
}

// How two files of one map differ.
async function compareFiles({ module, counties, text, masks }) {
  const files = [];
  for (const county of counties) files.push(await respelled(module, county));
  return fileDifferences(files, await canonicalCounty(text), masks);
}

// The differences as GeoJSON, with the numbers in the users' files.
async function saveDifferences({ module, counties, sets, masks, withAlike }) {
  const own = [];
  for (const [place, county] of counties.entries()) {
    const { text } = await respelled(module, county);
    own.push(ownNumbers(new County(text), findings.counties[place], masks));
  }
  report({ stage: "writing" });
  const pieces = geojson(findings.comparison, sets, false, flagsOf(masks).join(" "), own, withAlike);
  return { text: new Blob([...pieces], { type: "application/geo+json" }) };
}

export const JOBS = {
  judge,
  judgeOfMany,
  compareTexts,
  saveDifferences,
  numbersOf,
  compareFiles,
  list: (question) => findings.list(question),
  details: ({ number }) => findings.details(number),
  detailsOfAlike: ({ chain }) => findings.detailsOfAlike(chain),
  alikePolygons: () => findings.alikePolygons(),
  takeNumbers: ({ numbers }) => findings.takeNumbers(numbers),
};

// What went wrong, as a sentence.
export function sentence(error) {
  if (error instanceof Unreadable) return `${error.message[0].toUpperCase()}${error.message.slice(1)}.`;
  if (error instanceof RangeError) return FULL;
  if (error?.name === "NotReadableError" || error?.name === "NotFoundError") return "The file can't be read: it was moved, changed or is locked.";
  if (error instanceof WebAssembly.RuntimeError) return `The engine stopped by a fault of its own (${error.message}). Please report it.`;
  return `This page failed (${error?.message ?? error}). Please report it.`;
}

if (typeof WorkerGlobalScope !== "undefined") {
  addEventListener("message", async ({ data }) => {
    try {
      postMessage({ ticket: data.ticket, answer: await JOBS[data.job](data) });
    } catch (error) {
      postMessage({ ticket: data.ticket, trouble: sentence(error) });
    }
  });
}
