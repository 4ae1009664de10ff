// Reads the records that the engine prints: a county's chains, feature names, polygons and landmarks. The engine spells each number
// and point in one way, so equal ones are equal bytes. Nearly all that two maps have is alike. So a county keeps its text as bytes, and
// only what differs is made into strings.
import { lineAt, NotCanonical, numberAt, readColumns, textIn, usedPlaces } from "./columns.js";
import { areAlike, CHAIN, isBlank, LANDMARK, NAME, POLYGON, RANGE, TOPOLOGY } from "./contents.js";
import { NO_POINT, POINT_WIDTH, reversedPoints } from "./points.js";

const NONE_OF_THEM = [];

const KEY_WIDTH = 15; // of a polygon's key

export const OFFICE_WIDTH = 5;

function there(thing, key) {
  if (thing === undefined) throw new NotCanonical(`there is no record under ${key}`);
  return thing;
}

// A chain by its place among those of its county. It may be seen from its other end.
export class Chain {
  constructor(county, place, isTurned = false) {
    Object.assign(this, { county, place, isTurned });
  }

  get turned() {
    return new Chain(this.county, this.place, !this.isTurned);
  }

  // How many points the chain has.
  get size() {
    const { starts } = this.county.columns;
    return starts[this.place + 1] - starts[this.place];
  }

  // Where a point of the chain is among those of its county.
  pointAt(number) {
    const { starts } = this.county.columns;
    return this.isTurned ? starts[this.place + 1] - 1 - number : starts[this.place] + number;
  }

  get recordAt() {
    return this.county.columns.lines["1"][this.place];
  }

  get topologyAt() {
    return this.county.columns.topologies[this.place];
  }

  get key() {
    return `1${this.county.text(this.recordAt + 5, this.recordAt + 15)}`;
  }

  get body() {
    return this.seen(CHAIN, CHAIN.of(this.county.line(this.recordAt)));
  }

  get ranges() {
    return this.county.linesOf("ranges", this.place).map((line) => this.seen(RANGE, RANGE.of(this.county.line(line))));
  }

  get topologyBody() {
    return TOPOLOGY.of(this.county.line(this.topologyAt));
  }

  // The further names of the chain.
  get names() {
    return this.county.namesOf.get(this.place) ?? NONE_OF_THEM;
  }

  get points() {
    const line = this.county.line(this.recordAt);
    const inner = this.county.linesOf("inner", this.place).map((at) => this.county.text(at + 18, at + 18 + POINT_WIDTH * usedPlaces(this.county.bytes, at)));
    const points = `${line.slice(190, 209)}${inner.join("")}${line.slice(209)}`;
    return this.isTurned ? reversedPoints(points) : points;
  }

  seen(layout, content) {
    return this.isTurned ? layout.turned(content) : content;
  }

  // The number of the node at the start (0) or at the end (1), or 0 if there is none.
  node(end) {
    const at = this.topologyAt + (this.isEnd(end) ? 30 : 20);
    return numberAt(this.county.bytes, at, at + 10);
  }

  // The polygon on the left (0) or on the right (1), if there is one.
  side(hand) {
    return this.county.polygons[this.county.columns.sides[2 * this.place + Number(this.isEnd(hand))]];
  }

  // The office of the polygon on the left or on the right.
  office(hand) {
    const at = this.topologyAt + (this.isEnd(hand) ? 55 : 40);
    return this.county.text(at, at + OFFICE_WIDTH);
  }

  // Whether another chain has further names that are spelled the same.
  hasNamesOf(other) {
    const [names, others] = [this.names, other.names];
    return names.length === others.length && names.every(({ body }, at) => body === others[at].body);
  }

  // Whether the second of both ends or sides is meant, as the records have them.
  isEnd(which) {
    return Boolean(which) !== this.isTurned;
  }
}

// A polygon on a side of a chain or of type P, which may have no record. Its key is the office that numbers it, in 5 columns, and its
// number there, in 10.
export class Polygon {
  constructor(county, place, keyAt, recordAt) {
    Object.assign(this, { county, place, keyAt, recordAt });
  }

  get key() {
    return this.county.text(this.keyAt, this.keyAt + KEY_WIDTH);
  }

  get cenid() {
    return this.county.text(this.keyAt, this.keyAt + OFFICE_WIDTH);
  }

  // The content of its record, or nothing if it has none.
  get body() {
    return this.recordAt === undefined ? "" : POLYGON.of(this.county.line(this.recordAt));
  }

  get point() {
    return this.body ? POLYGON.value(this.body, "POLYLONG, POLYLAT") : NO_POINT;
  }

  get content() {
    return this.cenid + this.body;
  }

  hasContentOf(other) {
    const [{ bytes }, { bytes: others }] = [this.county, other.county];
    if (!areAlike(bytes, this.keyAt, others, other.keyAt, 0, OFFICE_WIDTH)) return false;
    if (this.recordAt === undefined || other.recordAt === undefined) return this.recordAt === other.recordAt;
    return POLYGON.isSame(bytes, this.recordAt, others, other.recordAt);
  }
}

// The county of a canonical text, or of respelled records.
export class County {
  constructor(bytes, columns = readColumns(bytes)) {
    Object.assign(this, { bytes, columns });
    const { lines, polygons } = columns;
    this.chains = Array.from(lines["1"], (_, place) => new Chain(this, place));
    this.polygons = Array.from(polygons, (key, place) => new Polygon(this, place, key, lines.P[place]));
    this.readNames();
    this.readLandmarks();
  }

  text(from, to) {
    return textIn(this.bytes, from, to);
  }

  line(at) {
    return lineAt(this.bytes, at);
  }

  // The further lines of a chain: `inner` ones with its points, `further` ones with its names, or its `ranges`.
  linesOf(name, chain) {
    const { starts, lines } = this.columns[name];
    return starts[chain] === starts[chain + 1] ? NONE_OF_THEM : [...lines.subarray(starts[chain], starts[chain + 1])];
  }

  // The feature names, and those of each chain.
  readNames() {
    const numbered = (at, place) => ({ place, feat: this.text(at + 10, at + 18), body: NAME.of(this.line(at)), uses: 0 });
    this.names = Array.from(this.columns.lines["5"], numbered);
    const byFeat = new Map(this.names.map((name) => [name.feat, name]));
    this.namesOf = new Map();
    for (const { place } of this.chains) {
      const names = this.linesOf("further", place).flatMap((line) => this.feats(line)).map((feat) => there(byFeat.get(feat), feat));
      for (const name of names) name.uses += 1;
      if (names.length) this.namesOf.set(place, names);
    }
  }

  // The FEATs of a record of type 4.
  feats(line) {
    return [18, 26, 34, 42, 50].map((at) => this.text(line + at, line + at + 8)).filter((feat) => !isBlank(feat));
  }

  // The landmarks, in the order of their first records.
  readLandmarks() {
    const landmarks = new Map();
    const { lines, areas } = this.columns;
    for (const at of lines["7"]) {
      const key = this.text(at + 10, at + 20);
      if (!landmarks.has(key)) landmarks.set(key, { key, bodies: [], places: [] });
      landmarks.get(key).bodies.push(LANDMARK.of(this.line(at)));
    }
    lines["8"].forEach((at, number) => {
      const [key, polygon] = [this.text(at + 25, at + 35), this.polygons[areas[number]]];
      there(landmarks.get(key), key).places.push({ file: this.text(at + 5, at + 10), polygon: there(polygon, this.text(at + 10, at + 25)) });
    });
    this.landmarks = [...landmarks.values()];
  }
}

export const numberOf = (key) => Number(key.slice(-10));
