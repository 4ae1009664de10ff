// Where the records of a text are, which the engine prints, and what they say in numbers: all of it in plain arrays, as a worker can
// send them.
import { Numbering } from "./numbering.js";
import { LENGTHS } from "./tables.js";

const [LINE_FEED, SPACE, ZERO, MINUS] = [0x0a, 0x20, 0x30, 0x2d];
const [TLID_WIDTH, POLYGON_WIDTH] = [10, 15];

export class NotCanonical extends Error {}

// The text of so many bytes. All that a record may have is spelled in Latin-1.
export const textIn = (bytes, from, to) => String.fromCharCode.apply(null, bytes.subarray(from, to));

// The line that begins there.
export const lineAt = (bytes, at) => textIn(bytes, at, at + LENGTHS[String.fromCharCode(bytes[at])]);

// The number in a field, or 0 if it is blank.
export function numberAt(bytes, from, to) {
  let value = 0;
  for (let at = from; at < to; at += 1) if (bytes[at] !== SPACE) value = value * 10 + bytes[at] - ZERO;
  return value;
}

function coordinateAt(bytes, from, to) {
  const value = numberAt(bytes, from + 1, to);
  return bytes[from] === MINUS ? -value : value;
}

const longitudeAt = (bytes, point) => coordinateAt(bytes, point, point + 10);
const latitudeAt = (bytes, point) => coordinateAt(bytes, point + 10, point + 19);

// The number of a record among those of its chain.
export const sequenceAt = (bytes, line) => numberAt(bytes, line + 15, line + 18);

// How many of the ten places of a record of type 2 have points. They are used from the left.
export function usedPlaces(bytes, line) {
  let used = 10;
  while (used && !longitudeAt(bytes, line + 19 * used - 1) && !latitudeAt(bytes, line + 19 * used - 1)) used -= 1;
  return used;
}

// Where the lines of each record type begin.
function beginnings(bytes) {
  const [lines, lengths] = [[], []];
  for (const [type, length] of Object.entries(LENGTHS)) [lines[type.charCodeAt(0)], lengths[type.charCodeAt(0)]] = [[], length];
  for (let at = 0; at < bytes.length; ) {
    const end = at + lengths[bytes[at]];
    if (bytes[end] !== LINE_FEED) throw new NotCanonical(`it has a line that isn't a record: ${textIn(bytes, at, at + 20)}`);
    lines[bytes[at]].push(at);
    at = end + 1;
  }
  return Object.fromEntries(Object.keys(LENGTHS).map((type) => [type, Uint32Array.from(lines[type.charCodeAt(0)])]));
}

// Lines side by side, chain by chain, and where those of each chain begin. Those of a chain are in the order of their RTSQs.
function byChain(bytes, count, lines, chainOf) {
  const chains = Int32Array.from(lines, chainOf);
  const starts = new Uint32Array(count + 1);
  for (const chain of chains) starts[chain + 1] += 1;
  for (let chain = 0; chain < count; chain += 1) starts[chain + 1] += starts[chain];
  const next = starts.slice();
  const sorted = new Uint32Array(lines.length);
  chains.forEach((chain, number) => {
    sorted[next[chain]] = lines[number];
    next[chain] += 1;
  });
  const bySequence = (one, other) => sequenceAt(bytes, one) - sequenceAt(bytes, other);
  for (let chain = 0; chain < count; chain += 1) {
    if (starts[chain + 1] - starts[chain] > 1) sorted.subarray(starts[chain], starts[chain + 1]).sort(bySequence);
  }
  return { starts, lines: sorted };
}

// The points of all chains side by side, each as two numbers in millionths of a degree, and where those of each chain begin.
function pointsOf(bytes, records, inner) {
  const starts = new Uint32Array(records.length + 1);
  const places = new Int32Array(2 * (2 * records.length + 10 * inner.lines.length));
  let end = 0;
  const add = (point) => {
    places[end] = longitudeAt(bytes, point);
    places[end + 1] = latitudeAt(bytes, point);
    end += 2;
  };
  records.forEach((line, chain) => {
    add(line + 190);
    for (let at = inner.starts[chain]; at < inner.starts[chain + 1]; at += 1) {
      const used = usedPlaces(bytes, inner.lines[at]);
      for (let place = 1; place <= used; place += 1) add(inner.lines[at] + 19 * place - 1);
    }
    add(line + 209);
    starts[chain + 1] = end / 2;
  });
  return { starts, places: places.slice(0, end) };
}

// The numbers of polygons, those with a record first: where their keys are in the text, those on the sides of each chain, or -1, and those
// that records of type 8 name.
function polygonsOf(bytes, lines, topologies) {
  const numbers = Numbering.ofBytes(bytes, POLYGON_WIDTH, lines.P.length + 2 * topologies.length);
  for (const line of lines.P) numbers.of(line + 10);
  const sides = new Int32Array(2 * topologies.length);
  const side = (key) => (bytes[key + POLYGON_WIDTH - 1] === SPACE ? -1 : numbers.of(key));
  topologies.forEach((line, chain) => {
    sides[2 * chain] = side(line + 40);
    sides[2 * chain + 1] = side(line + 55);
  });
  const areas = Int32Array.from(lines["8"], (line) => numbers.find(line + 10));
  return { sides, areas, polygons: Uint32Array.from(numbers.things) };
}

// What is read of a text once: where the lines of each type begin, those of each chain, its points and polygons.
export function readColumns(bytes) {
  const lines = beginnings(bytes);
  const records = lines["1"];
  const tlids = Numbering.ofBytes(bytes, TLID_WIDTH, records.length);
  for (const line of records) tlids.of(line + 5);
  const its = (type, tlid) => byChain(bytes, records.length, lines[type], (line) => {
    const chain = tlids.find(line + tlid);
    if (chain < 0) throw new NotCanonical(`there is no record of type 1 for ${textIn(bytes, line, line + 20)}`);
    return chain;
  });
  const [inner, further, ranges, topologies] = [its("2", 5), its("4", 5), its("6", 5), its("I", 10)];
  if (topologies.starts.some((start, chain) => start !== chain)) throw new NotCanonical("a chain hasn't one record of type I");
  return { lines, inner, further, ranges, topologies: topologies.lines, ...pointsOf(bytes, records, inner), ...polygonsOf(bytes, lines, topologies.lines) };
}
