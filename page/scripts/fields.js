// What a chain, a landmark or a polygon says, field by field and in words, and in which fields two of them differ.
//
// A field has a name, what it holds, and a kind: a text, a point, or a flag that something is there. Its text is what is read (plain),
// the bytes (exact), and what is compared (mark).
import { CHAIN, isBlank, LANDMARK, NAME, POLYGON, RANGE, TOPOLOGY } from "./contents.js";
import { groupedBy } from "./grouping.js";
import { degrees, NO_POINT } from "./points.js";
import { BLANK, NO, NONE, YES } from "./tables.js";
import { fieldWords, phrase } from "./wording.js";

const NOTHING = { plain: "", exact: "", mark: "" };
const THERE = { plain: YES, exact: YES, mark: YES };

const named = (label, holds, kind = "text") => ({ label, holds, kind });

// The fields of something, in their order.
class Fields {
  constructor() {
    this.all = new Map();
  }

  add(label, holds, text, kind) {
    this.all.set(label, { name: named(label, holds, kind), text });
  }

  addContent(layout, content, suffix = "") {
    for (const column of layout.columns) {
      const kind = column.name.includes(", ") ? "point" : "text";
      this.add(column.name + suffix, column.holds, textOf(layout.value(content, column.name), kind), kind);
    }
  }

  text(label) {
    return this.all.get(label)?.text ?? NOTHING;
  }
}

function textOf(value, kind = "text") {
  const plain = isBlank(value) ? "" : kind === "point" ? degrees(value) : value.trim();
  return { plain, exact: value, mark: value };
}

// Tells what the parts of one map say. Polygons of two maps that are taken for one have one mark, even if they differ: a text, or one of
// the polygons, for its content.
export class Teller {
  constructor(county, marks) {
    this.county = county;
    this.marks = marks;
  }

  markOf(polygon) {
    const mark = polygon && this.marks[polygon.place];
    return mark?.content ?? mark;
  }

  // Whether two polygons, either of which may be missing, have one mark.
  isMarkedAs(polygon, teller, other) {
    return this.marks[polygon?.place] === teller.marks[other?.place] || this.markOf(polygon) === teller.markOf(other);
  }

  chain(chain) {
    const fields = new Fields();
    fields.addContent(CHAIN, chain.body);
    chain.names.forEach(({ body }, place) => {
      fields.add(...fieldWords("further name", place + 1), { plain: nameText(NAME, body) || BLANK, exact: body, mark: body });
    });
    chain.ranges.forEach((content, place) => {
      fields.add(...fieldWords("range", place + 1), THERE, "flag");
      fields.addContent(RANGE, content, phrase("of range", place + 1));
    });
    ["start", "end"].forEach((end, place) => {
      fields.add(...fieldWords("node", end, end), chain.node(place) ? THERE : NOTHING, "flag");
    });
    ["left", "right"].forEach((hand, place) => this.addSide(fields, hand, chain.office(place), chain.side(place)));
    fields.addContent(TOPOLOGY, chain.topologyBody, " of type I");
    return fields;
  }

  addSide(fields, hand, office, polygon) {
    fields.add(...fieldWords("side's office", hand[0].toUpperCase(), hand), textOf(office));
    if (polygon) fields.add(...fieldWords("side", hand, hand), this.polygonText(polygon));
  }

  // A polygon, as something else names it.
  polygonText(polygon) {
    return { plain: polygonWords(polygon.body), exact: polygon.content, mark: this.markOf(polygon) };
  }

  // The polygons, as a landmark's records of type 8 name them.
  placeTexts(landmark) {
    return (landmark?.places ?? []).map(({ file, polygon }) => {
      const text = this.polygonText(polygon);
      return { plain: `${text.plain} (${polygon.cenid.trim()})`, exact: file + text.exact, mark: `${file}|${text.mark}` };
    });
  }
}

export function polygonFields(polygon) {
  const fields = new Fields();
  fields.add(...fieldWords("office"), textOf(polygon.cenid));
  fields.add(...fieldWords("record of type P"), polygon.body ? THERE : NOTHING, "flag");
  if (polygon.body) fields.addContent(POLYGON, polygon.body);
  return fields;
}

// The fields of a landmark with these records of type 7, in these polygons.
function landmarkFields(bodies, places) {
  const fields = new Fields();
  bodies.forEach((body, place) => {
    const number = place + 1;
    if (number > 1) fields.add(...fieldWords("record of type 7", number), THERE, "flag");
    fields.addContent(LANDMARK, body, number > 1 ? phrase("of record", number) : "");
  });
  places.forEach((text, place) => fields.add(...fieldWords("area", place + 1), text));
  return fields;
}

// The fields of a landmark of both maps, or of one of them. What both have stands first in its repeated fields.
export function landmarkRows(first, second, one, other) {
  const bodies = aligned(one?.bodies ?? [], other?.bodies ?? [], (body) => body);
  const places = aligned(first.placeTexts(one), second.placeTexts(other), (text) => text.mark);
  return rows(one && landmarkFields(bodies[0], places[0]), other && landmarkFields(bodies[1], places[1]));
}

// Both lists with what they have in common at their beginning, in one order.
function aligned(first, second, mark) {
  const { pairs, ones, others } = pairBy(first, second, mark);
  const order = (one, other) => (mark(one[0]) < mark(other[0]) ? -1 : Number(mark(one[0]) > mark(other[0])));
  pairs.sort(order);
  return [pairs.map((pair) => pair[0]).concat(ones), pairs.map((pair) => pair[1]).concat(others)];
}

// Pairs what has one key, as multisets, and returns the rest of both. Items without a key aren't paired.
export function pairBy(first, second, key) {
  const waiting = groupedBy([...second.keys()].reverse(), (place) => key(second[place]));
  waiting.delete(undefined);
  const taken = new Set();
  const pairs = [];
  const ones = first.filter((item) => {
    const place = waiting.get(key(item))?.pop();
    if (place === undefined) return true;
    taken.add(place);
    pairs.push([item, second[place]]);
    return false;
  });
  return { pairs, ones, others: second.filter((_, place) => !taken.has(place)) };
}

// The fields of what both maps have or one of them alone, in the order of the first, without those that are blank in both.
export function rows(first, second) {
  const labels = new Map([...(first?.all ?? []), ...(second?.all ?? [])].map(([label, field]) => [label, field.name]));
  const table = [];
  for (const [label, name] of labels) {
    const [one, other] = [first?.text(label) ?? NOTHING, second?.text(label) ?? NOTHING];
    if (!one.plain && !other.plain) continue;
    const isOfBoth = Boolean(first && second);
    // A field that isn't there says as little as a blank one.
    const differs = isOfBoth && (one.plain && one.mark) !== (other.plain && other.mark);
    const told = isOfBoth ? [shown(name, one, other), shown(name, other, one)] : [first ? one.plain : null, second ? other.plain : null];
    table.push({ name, first: told[0], second: told[1], differs, firstExact: one.exact, secondExact: other.exact });
  }
  return table;
}

// A field in words. If it would read like the other map's, which is another, it is shown byte for byte.
function shown(name, text, other) {
  if (name.kind === "flag") return text.plain ? YES : NO;
  if (!text.exact) return NONE;
  return text.plain === other.plain && text.exact !== other.exact ? `"${text.exact}"` : text.plain || BLANK;
}

// A polygon by its record of type P: where it lies.
export function polygonWords(body) {
  if (!body) return phrase("without a record");
  const point = POLYGON.value(body, "POLYLONG, POLYLAT");
  return point === NO_POINT ? phrase("without a point") : phrase("place", degrees(point));
}

// The feature name in a record of type 1 or 5: the direction before it, the name, its type and the direction after it.
export function nameText(layout, content) {
  const parts = ["FEDIRP", "FENAME", "FETYPE", "FEDIRS"].map((part) => layout.value(content, part).trim());
  return parts.filter(Boolean).join(" ");
}

const titled = (name, cfcc) => (cfcc.trim() ? `${name} (${cfcc.trim()})` : name);

export const chainTitle = (chain) => titled(nameText(CHAIN, chain.body) || phrase("unnamed chain"), CHAIN.value(chain.body, "CFCC"));

export function landmarkTitle(landmark) {
  const body = landmark.bodies[0];
  return titled(LANDMARK.value(body, "LANAME").trim() || phrase("unnamed landmark"), LANDMARK.value(body, "CFCC"));
}

// Where a landmark lies: its own points, or else the internal points of its polygons.
export function landmarkPoints(landmark) {
  const without = (points) => [...new Set(points)].filter((point) => point !== NO_POINT).sort();
  const own = without(landmark.bodies.map((body) => LANDMARK.value(body, "LALONG, LALAT")));
  return own.length ? own : without(landmark.places.map(({ polygon }) => polygon.point));
}
