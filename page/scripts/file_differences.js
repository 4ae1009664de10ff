// How two files of one map differ, though they describe the same things: in the numbers, in the order of records, in the direction of
// chains, in how shape points and names are divided among records, and in spelling.
import { sequenceAt, usedPlaces } from "./columns.js";
import { linesOf } from "./faulty.js";
import { ownKeys } from "./matching.js";
import { counted } from "./numbers.js";
import { haveSamePoints } from "./lines.js";
import { County } from "./records.js";

const SAME = "the same";

// Each file has its parts, and its text as the engine respells it: line by line, with the numbers of the file. Returns a sentence for
// each way in which they may differ.
export function fileDifferences(files, canonical, masks) {
  const sides = files.map(({ parts, text }) => new Side(parts, text, canonical, masks));
  return [
    { label: "Numbers", text: numbersText(sides, canonical) },
    { label: "Order", text: orderText(sides) },
    { label: "Direction", text: directionText(sides, canonical) },
    { label: "Division", text: divisionText(sides, canonical) },
    { label: "Spelling", text: spellingText(sides) },
  ];
}

// One of the files: what has which number in it.
class Side {
  constructor(parts, text, canonical, masks) {
    Object.assign(this, { parts, text, county: new County(text) });
    this.keys = ownKeys(this.county, canonical, masks);
    this.chains = new Map(this.county.chains.map((chain) => [chain.key, chain]));
  }

  chain(key) {
    return this.chains.get(this.keys.get(key));
  }

  // The things of the canonical text in the order in which this file has them, by a text for each.
  order() {
    const canonical = new Map([...this.keys].map(([key, own]) => [own, key]));
    const { chains, names, landmarks, polygons } = this.county;
    const recorded = polygons.filter(({ body }) => body);
    const keys = (things) => things.map(({ key }) => canonical.get(key)).join();
    return { chains: keys(chains), names: names.map(({ body }) => body).join("\n"), landmarks: keys(landmarks), polygons: keys(recorded) };
  }
}

const differing = (things, isOther) => things.filter(isOther).length;
const ofAll = (count, all, name) => `${counted(count)} of ${counted(all)} ${name}`;

function numbersText([first, second], canonical) {
  const isOther = ({ key }) => first.keys.get(key) !== second.keys.get(key);
  const found = [["chains", "TLID", canonical.chains], ["landmarks", "LAND", canonical.landmarks], ["polygons", "POLYID", canonical.polygons]]
    .map(([name, field, things]) => [differing(things, isOther), things.length, `${name} (${field})`]);
  found.splice(1, 0, otherNames(first, second));
  const parts = found.filter(([count]) => count > 0).map(([count, all, name]) => ofAll(count, all, name));
  return parts.length ? `other numbers for ${parts.join(", ")}` : SAME;
}

// How many feature names have another FEAT.
function otherNames(first, second) {
  const spelled = (side) => [...side.county.names].map(({ feat, body }) => `${body}\n${feat}`).sort();
  const others = new Set(spelled(second));
  const names = spelled(first);
  return [differing(names, (name) => !others.has(name)), names.length, "names (FEAT)"];
}

function orderText([first, second]) {
  const [one, other] = [first.order(), second.order()];
  const found = Object.keys(one).filter((name) => one[name] !== other[name]);
  return found.length ? `another order of ${found.join(", ")}` : SAME;
}

function directionText([first, second], canonical) {
  const count = differing(canonical.chains, ({ key }) => !haveSamePoints(first.chain(key), second.chain(key)));
  return count ? `${ofAll(count, canonical.chains.length, "chains")} run the other way` : SAME;
}

function divisionText([first, second], canonical) {
  const count = differing(canonical.chains, ({ key }) => divisionOf(first.chain(key)) !== divisionOf(second.chain(key)));
  return count ? `the shape points or names of ${ofAll(count, canonical.chains.length, "chains")} are divided differently among records` : SAME;
}

// How many places each record of types 2 and 4 of a chain has in use.
function divisionOf({ county, place }) {
  const points = county.linesOf("inner", place).map((line) => `2:${sequenceAt(county.bytes, line)}:${usedPlaces(county.bytes, line)}`);
  const names = county.linesOf("further", place).map((line) => `4:${sequenceAt(county.bytes, line)}:${county.feats(line).length}`);
  return [...points, ...names].join(" ");
}

function spellingText(sides) {
  const [first, second] = sides.map(spellingOf);
  const parts = [];
  if (first.endings !== second.endings) parts.push(`lines end in ${first.endings} in the first and in ${second.endings} in the second`);
  [first, second].forEach(({ respelled, lines }, place) => {
    if (respelled) parts.push(`${ofAll(respelled, lines, "lines")} of the ${place ? "second" : "first"} aren't in canonical spelling`);
  });
  return parts.length ? parts.join("; ") : SAME;
}

// How the lines of a file end, and how many of them the engine spells in another way.
function spellingOf({ parts, text }) {
  const endings = new Set();
  let [lines, respelled, at] = [0, 0, 0];
  for (const part of parts) {
    for (const { bytes, ending } of linesOf(part)) {
      const length = text.indexOf(10, at) - at;
      if (length !== bytes.length || bytes.some((byte, place) => byte !== text[at + place])) respelled += 1;
      at += length + 1;
      lines += 1;
      if (ending) endings.add(ending);
    }
  }
  return { lines, respelled, endings: [...endings].sort().reverse().join(" and ") || "nothing" };
}
