// The shapes of a map for drawing: the points of chains, each chain with a class, and single points. Points are numbers in millionths
// of a degree. If a map crosses the line of 180 degrees, its eastern longitudes are moved to the west by a whole turn.
import { classOf } from "./classes.js";
import { readColumns, lineAt } from "./columns.js";
import { CHAIN, LANDMARK } from "./contents.js";
import { chainTitle, landmarkTitle } from "./fields.js";
import { Numbering } from "./numbering.js";
import { NO_POINT, position } from "./points.js";

const TURN = 360_000_000;
const [TITLE, TITLE_END] = [17, 58]; // in a record of type 1: the name and the class of a chain

// Moves the points of a map that crosses the line of 180 degrees, and returns by how much.
export function shift(places) {
  let [least, most] = [Infinity, -Infinity];
  for (let at = 0; at < places.length; at += 2) {
    least = Math.min(least, places[at]);
    most = Math.max(most, places[at]);
  }
  if (most - least <= TURN / 2) return 0;
  for (let at = 0; at < places.length; at += 2) if (places[at] > 0) places[at] -= TURN;
  return TURN;
}

// The lines of chains, which may be of several counties.
export function linesOfChains(chains, classes) {
  const starts = new Uint32Array(chains.length + 1);
  chains.forEach(({ size }, at) => {
    starts[at + 1] = starts[at] + size;
  });
  const places = new Int32Array(2 * starts[chains.length]);
  chains.forEach(({ county: { columns }, place, size }, at) => {
    const from = 2 * columns.starts[place];
    places.set(columns.places.subarray(from, from + 2 * size), 2 * starts[at]);
  });
  return { starts, places, classes, shift: shift(places) };
}

// The shapes of a canonical text.
export function shapesOf(text) {
  const { starts, places, lines } = readColumns(text);
  const classes = Uint8Array.from(lines["1"], (line) => classOf(text[line + 55], text[line + 56]));
  const counts = Object.fromEntries(Object.entries(lines).map(([type, { length }]) => [type, length]));
  return { chains: { starts, places, classes, shift: shift(places) }, titles: titlesOf(text, lines["1"]), landmarks: landmarksOf(text, lines["7"]), counts };
}

// The titles of the chains with these records of type 1: each title once, and the number of each chain's.
export function titlesOf(text, lines) {
  const titles = Numbering.ofBytes(text, TITLE_END - TITLE, lines.length);
  const ofChains = Uint32Array.from(lines, (line) => titles.of(line + TITLE));
  return { all: titles.things.map((at) => chainTitle({ body: CHAIN.of(lineAt(text, at - TITLE)) })), ofChains };
}

// The landmarks that are points.
function landmarksOf(text, lines) {
  const bodies = Array.from(lines, (line) => LANDMARK.of(lineAt(text, line)));
  const placed = bodies.map((body) => ({ body, point: LANDMARK.value(body, "LALONG, LALAT") })).filter(({ point }) => point !== NO_POINT);
  return placed.map(({ body, point }) => ({ place: position(point), title: landmarkTitle({ bodies: [body] }) }));
}
