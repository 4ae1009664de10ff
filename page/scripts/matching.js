// Finds what two maps have in common and what differs.
//
// Each map has numbers of its own, so numbers are never compared. The things that they tie together come after the rest.
//
// A canonical text has numbers of its own. The same set, respelled by the engine, keeps its own numbers. Both describe one map, so
// they are matched as two maps are. Things that nothing tells apart may have their numbers exchanged.
import { areAlike, CHAIN, isBlank, LANDMARK, TOPOLOGY } from "./contents.js";
import { landmarkRows, pairBy, polygonFields, rows, Teller } from "./fields.js";
import { Groups, isOwnReverse, orderOfEnds } from "./lines.js";
import { NO_POINT } from "./points.js";
import { numberOf, OFFICE_WIDTH } from "./records.js";
import { areasOf, areTied, tiesAmong, tiesOf } from "./ties.js";

const BOTH = [0, 1]; // ends or sides of a chain
const OFFICES = [40, 55]; // where a record of type I has the offices of the polygons on its left and right

// What is in the first map alone, in the second alone, changed, and alike.
class Matched {
  constructor(first = [], second = []) {
    Object.assign(this, { first, second, changed: [], alike: [] });
  }

  get counts() {
    return [this.first, this.second, this.changed, this.alike].map((found) => found.length);
  }

  get isAlike() {
    return this.counts.slice(0, 3).every((count) => count === 0);
  }

  // Pairs what is alone in both maps and has one key, by one kind of key after another.
  pair(kind, ...keys) {
    for (const key of keys) {
      const { pairs, ones, others } = pairBy(this.first, this.second, key);
      for (const pair of pairs) this[kind].push(pair);
      Object.assign(this, { first: ones, second: others });
    }
  }
}

// Where two maps differ. Certain are the pairs of chains whose points no other chain has.
class Comparison {
  constructor(fields) {
    Object.assign(this, fields);
  }

  get parts() {
    return { chain: this.chains, landmark: this.landmarks, polygon: this.polygons, "feature name": this.names };
  }

  // Whether nothing differs, except how things are joined.
  get isAlike() {
    return Object.values(this.parts).every((part) => part.isAlike);
  }

  // The nodes, polygons and names that are one in one map and several in the other. Chains and landmarks that nothing else tells apart
  // are paired at will, so they are asked only if nothing else differs.
  get ties() {
    const ofChains = (pairs) => (areTied(pairs, this.first, this.second) ? pairs.flatMap(([one, other]) => tiesOf(one, other, this.first, this.second)) : []);
    const ofLandmarks = (pairs) => pairs.flatMap(([one, other]) => areasOf(one, other, this.first, this.second));
    if (!this.foundTies) {
      this.foundTies = tiesAmong(ofChains(this.certain));
      if (!this.foundTies.length && this.isAlike) {
        this.foundTies = tiesAmong([...ofChains(this.chains.alike), ...ofLandmarks(this.landmarks.alike)]);
      }
    }
    return this.foundTies;
  }
}

export function compareCounties(first, second) {
  const { groups, certain, polygons, one, other } = prepared(first, second);
  const names = new Matched(first.names, second.names);
  names.pair("alike", bodyOf);
  const chains = matchChains(groups, groups.pairs, one, other);
  return new Comparison({ first: one, second: other, certain, chains, landmarks: matchLandmarks(one, other), polygons, names });
}

// What chains are matched by: their groups, and the polygons.
function prepared(first, second) {
  const groups = new Groups(first.chains, second.chains);
  const certain = groups.pairs.filter((pair) => isCertain(groups, pair));
  const polygons = matchPolygons(first, second, certain);
  const [one, other] = tellersOf(first, second, polygons);
  return { groups, certain, polygons, one, other };
}

const isCertain = (groups, pair) => groups.isSingle(pair) && !isOwnReverse(pair[0]);

// A mark of each map's polygons: their content, or, if they changed, one mark for both maps.
function tellersOf(first, second, polygons) {
  const [marks, others] = [[], []];
  for (const one of polygons.first) marks[one.place] = one;
  for (const other of polygons.second) others[other.place] = other;
  for (const [one, other] of polygons.alike) marks[one.place] = others[other.place] = one;
  polygons.changed.forEach(([one, other], number) => {
    marks[one.place] = others[other.place] = `changed ${number}`;
  });
  return [new Teller(first, marks), new Teller(second, others)];
}

// Matches chains by their points, and those of the same points by their fields: those of the groups with these pairs.
function matchChains(groups, pairs, first, second) {
  const matched = new Matched();
  for (const pair of pairs) {
    if (groups.isSingle(pair) && sayTheSame(pair[0], pair[1], first, second)) {
      matched.alike.push(pair);
      continue;
    }
    const [ones, others] = groups.listsOf(pair);
    if (ones.length && others.length) {
      matchGroup(ones, others, first, second, matched);
    } else {
      matched.first.push(...ones);
      matched.second.push(...others);
    }
  }
  return matched;
}

// Matches chains of the same points as a multiset: those with the same content, and then those that differ the least. A chain that is
// its own reverse may be seen from either end.
function matchGroup(allOnes, allOthers, first, second, matched) {
  const mayBeTurned = isOwnReverse(allOnes[0]);
  const seen = (chain, teller) => (mayBeTurned ? lesserTurn(chain, teller) : chain);
  const said = new Map();
  const [seenOnes, seenOthers] = [[allOnes, first], [allOthers, second]].map(([chains, teller]) =>
    chains.map((each) => {
      const chain = seen(each, teller);
      said.set(chain, says(chain, teller));
      return chain;
    }),
  );
  const { pairs, ones, others } = pairBy(seenOnes, seenOthers, (chain) => said.get(chain));
  matched.alike.push(...pairs);
  pairTheNearest(ones, others, first, second, mayBeTurned, matched);
}

function pairTheNearest(onesLeft, othersLeft, first, second, mayBeTurned, matched) {
  let [ones, others] = [onesLeft, othersLeft];
  while (ones.length && others.length) {
    const seen = others.flatMap((other) => (mayBeTurned ? [other, other.turned] : [other]));
    const distance = (one, other) => rows(first.chain(one), second.chain(other)).filter((row) => row.differs).length;
    const pairs = ones.flatMap((one) => seen.map((other) => ({ one, other, distance: distance(one, other) })));
    const nearest = pairs.reduce((best, pair) => (pair.distance < best.distance ? pair : best));
    matched.changed.push([nearest.one, nearest.other]);
    ones = ones.filter((chain) => chain !== nearest.one);
    others = others.filter((chain) => chain.key !== nearest.other.key);
  }
  matched.first.push(...ones);
  matched.second.push(...others);
}

// Whether two chains have the same content without their points and numbers. `says` would make long strings of all chains.
function sayTheSame(one, other, first, second) {
  if (one.isTurned || other.isTurned) return says(one, first) === says(other, second);
  return haveSameRecords(one, other) && hasNode(one, 0) === hasNode(other, 0) && hasNode(one, 1) === hasNode(other, 1)
    && isSameSide(0, one, other, first, second) && isSameSide(1, one, other, first, second)
    && one.hasNamesOf(other) && haveSame(one.ranges, other.ranges);
}

function haveSameRecords(one, other) {
  const [{ bytes }, { bytes: others }] = [one.county, other.county];
  const [topology, twin] = [one.topologyAt, other.topologyAt];
  return CHAIN.isSame(bytes, one.recordAt, others, other.recordAt) && TOPOLOGY.isSame(bytes, topology, others, twin)
    && OFFICES.every((at) => areAlike(bytes, topology, others, twin, at, at + OFFICE_WIDTH));
}

const hasNode = (chain, end) => chain.node(end) !== 0;
const isSameSide = (hand, one, other, first, second) => first.isMarkedAs(one.side(hand), second, other.side(hand));
const haveSame = (ones, others) => ones.length === others.length && ones.every((one, at) => one === others[at]);
const bodyOf = ({ body }) => body;

// The content of a chain without its points and numbers, as one string.
function says(chain, teller) {
  const nodes = BOTH.map((end) => (chain.node(end) ? "yes" : "no")).join();
  const marks = BOTH.map((hand) => teller.markOf(chain.side(hand)) ?? "-");
  const names = chain.names.map(bodyOf).join("|");
  const parts = [chain.body, chain.topologyBody, chain.office(0), chain.office(1), ...marks, nodes, names, chain.ranges.join("|")];
  return parts.join("\n");
}

// Of the ways to see a chain that is its own reverse the one that says the lesser.
const lesserTurn = (chain, teller) => (says(chain.turned, teller) < says(chain, teller) ? chain.turned : chain);

// Matches polygons by their content, the others by their point, and then by the sides of chains.
function matchPolygons(first, second, certain) {
  const sides = [new SidesOf(first, certain, 0), new SidesOf(second, certain, 1)];
  const sideOf = (polygon) => sides[Number(first.polygons[polygon.place] !== polygon)].of(polygon);
  // Those of one side and content are found without making a text of each.
  const bySide = (polygon) => {
    const side = sideOf(polygon);
    if (side === undefined) return polygon.content;
    const [one, other] = sides.map((its) => its.polygons[side]);
    return one && other && one.hasContentOf(other) ? side : undefined;
  };
  const matched = new Matched(first.polygons, second.polygons);
  matched.pair("alike", bySide, (polygon) => polygon.content);
  const point = (polygon) => (polygon.point === NO_POINT ? undefined : polygon.point);
  matched.pair("changed", point, sideOf);
  return matched;
}

// Of each polygon of a map the first side on which it lies, among the chains that both maps have: a number.
class SidesOf {
  constructor(county, certain, which) {
    this.sides = new Int32Array(county.polygons.length).fill(-1);
    this.polygons = new Array(2 * certain.length);
    certain.forEach((pair, place) => {
      for (const hand of BOTH) this.add(pair[which].side(hand), 2 * place + hand);
    });
  }

  add(polygon, side) {
    if (!polygon || this.sides[polygon.place] >= 0) return;
    this.sides[polygon.place] = side;
    this.polygons[side] = polygon;
  }

  of({ place }) {
    return this.sides[place] < 0 ? undefined : this.sides[place];
  }
}

// Matches landmarks by their whole content, and the others by their records, points, names and polygons.
function matchLandmarks(first, second) {
  const bodies = new Map();
  const places = new Map();
  for (const teller of [first, second]) {
    for (const landmark of teller.county.landmarks) {
      bodies.set(landmark, [...landmark.bodies].sort().join("\n"));
      const its = landmark.places.map(({ file, polygon }) => `${file}|${teller.markOf(polygon)}`);
      places.set(landmark, its.length ? its.sort().join("\n") : undefined);
    }
  }
  // A column of the landmark's records, or nothing if it is blank in all.
  const column = (name) => (landmark) => {
    const values = landmark.bodies.map((body) => LANDMARK.value(body, name)).sort();
    return values.every(isBlank) ? undefined : values.join("\n");
  };
  const matched = new Matched(first.county.landmarks, second.county.landmarks);
  matched.pair("alike", (landmark) => `${bodies.get(landmark)}\n\n${places.get(landmark) ?? ""}`);
  const byPlaces = (landmark) => places.get(landmark);
  matched.pair("changed", (landmark) => bodies.get(landmark), column("LALONG, LALAT"), column("LANAME"), byPlaces);
  return matched;
}

export const rowsOfLandmark = (comparison, one, other) => landmarkRows(comparison.first, comparison.second, one, other);
export const rowsOfPolygon = (one, other) => rows(one && polygonFields(one), other && polygonFields(other));
export const rowsOfChain = (comparison, one, other) => rows(one && comparison.first.chain(one), other && comparison.second.chain(other));

// The keys in these records of the things in their canonical text, which was made with these masks, by the keys of the things there.
// Chains are matched by their points, so that they need no mask.
export function ownKeys(records, canonical, masks) {
  const chains = records.chains.map((chain) => (orderOfEnds(chain) > 0 ? chain.turned : chain));
  const unsourced = (landmark) => ({ ...landmark, bodies: landmark.bodies.map((body) => LANDMARK.blanked(body, "SOURCE")) });
  const landmarks = masks.sources ? records.landmarks.map(unsourced) : records.landmarks;
  const { groups, certain, polygons, one, other } = prepared({ ...records, chains, landmarks }, canonical);
  const others = matchChains(groups, groups.pairs.filter((pair) => !isCertain(groups, pair)), one, other);
  const keys = new Map(certain.map(([own, chain]) => [chain.key, own.key]));
  for (const part of [others, matchLandmarks(one, other), polygons]) {
    for (const [own, thing] of [...part.alike, ...part.changed]) keys.set(thing.key, own.key);
  }
  return keys;
}

export function ownNumbers(records, canonical, masks) {
  return new Map([...ownKeys(records, canonical, masks)].map(([key, own]) => [key, numberOf(own)]));
}
