// Writes where two maps differ as GeoJSON (RFC 7946), so that any GIS shows it.
import { nameOf, things, verdictOf } from "./differences.js";
import { decimal } from "./points.js";
import { numberOf } from "./records.js";
import { BLANK, KINDS, NONE, YES } from "./tables.js";
import { tieLine, tiedPlace, tiePoints } from "./ties.js";

const ABOUT = "Where two maps differ, found by tigercanon.html. This list isn't proved.";
const SIDES = ["first", "second"];

// The pieces of the file. `sets` are the two sets' names and fingerprints, `own` the numbers in both sets' files.
export function* geojson(found, sets, areOneMap, leftOut, own, withAlike) {
  const head = JSON.stringify(headOf(found, sets, areOneMap, leftOut)).slice(1, -1);
  yield `{"type":"FeatureCollection",${head},"features":[`;
  let number = 0;
  for (const [shape, told] of features(found, own, withAlike)) {
    yield `${number ? "," : ""}\n{"type":"Feature","geometry":${shape},"properties":${JSON.stringify(told)}}`;
    number += 1;
  }
  yield "\n]}\n";
}

function headOf(found, sets, areOneMap, leftOut) {
  const told = { about: ABOUT, verdict: areOneMap ? "same" : "different" };
  SIDES.forEach((side, place) => {
    told[side] = { name: sets[place].name, fingerprint: sets[place].fingerprint };
  });
  if (leftOut) told.left_out = leftOut;
  const note = verdictOf(found, areOneMap);
  if (note) told.note = note;
  return told;
}

function* features(found, own, withAlike) {
  for (const thing of things(found, withAlike)) yield [geometry(thing.points, thing.what === "chain"), properties(thing, own)];
  for (const tie of found.ties) yield [geometry(tiePoints(tie), false), tieProperties(tie, own[0])];
}

// The properties of a thing: its numbers in the user's files and in the canonical texts, and its fields in both maps.
function properties(thing, own) {
  const table = thing.rows();
  const told = { what: thing.what, kind: thing.kind, title: nameOf(thing) };
  told.differs = table.filter((row) => row.differs).map((row) => row.name.label).join("; ") || null;
  const both = [thing.one, thing.other].map((one, place) => ({ side: SIDES[place], one, numbers: own[place] })).filter(({ one }) => one);
  if (thing.numberField) {
    for (const { side, one, numbers } of both) told[`${side}_${thing.numberField}`] = numbers.get(one.key) ?? null;
    for (const { side, one } of both) told[`canonical_${side}_${thing.numberField}`] = numberOf(one.key);
  } else {
    told.uses = thing.about;
  }
  for (const row of table) Object.assign(told, values(SIDES[0], row.name, row.first, row.firstExact));
  for (const row of table) Object.assign(told, values(SIDES[1], row.name, row.second, row.secondExact));
  return told;
}

// What is one in one map and several in the other, at the places where chains or landmarks have it. These have the first set's numbers.
function tieProperties(tie, own) {
  const counts = tie.isOneInFirst ? [1, tie.groups.length] : [tie.groups.length, 1];
  const told = { what: "tie", kind: KINDS[2], title: tieLine(tie), differs: tie.subject };
  SIDES.forEach((side, place) => {
    told[`${side}_count`] = counts[place];
  });
  told.places = tie.groups.map((group) => group.map(tiedPlace).join("; ")).join(" | ");
  for (const [name, owner] of [["first_TLIDs", "chain"], ["first_LANDs", "landmark"]]) {
    const listed = tie.groups.map((group) => group.filter((at) => at[owner]).map((at) => own.get(at[owner].key) ?? ""));
    if (listed.some((group) => group.length)) told[name] = listed.map((group) => group.join("; ")).join(" | ");
  }
  return told;
}

// A field of one map: a text, true or false, or the two coordinates of a point in degrees, under the names of their columns. There is
// none if the map hasn't what the field is of.
function values(side, name, shown, exact) {
  if (shown === null) return {};
  if (name.kind === "point") {
    const [both, of, suffix] = name.label.split(/( of )/);
    const parts = [exact.slice(0, 10), exact.slice(10)].map((part) => (part.trim() ? Number(decimal(part)) : null));
    const labels = both.split(", ").map((column) => propertyName(side, column + (of ?? "") + (suffix ?? "")));
    return Object.fromEntries(labels.map((label, place) => [label, parts[place]]));
  }
  const text = shown === BLANK || shown === NONE ? null : shown;
  return { [propertyName(side, name.label)]: name.kind === "flag" ? shown === YES : text };
}

// A field's name, for readers that take letters, digits and underscores alone.
const propertyName = (side, label) => `${side}_${label.replace(/\W+/g, "_")}`;

function geometry(points, isLine) {
  if (!points.length) return "null";
  const positions = points.map((point) => `[${decimal(point.slice(0, 10))},${decimal(point.slice(10))}]`).join(",");
  if (isLine) return `{"type":"LineString","coordinates":[${positions}]}`;
  return points.length > 1 ? `{"type":"MultiPoint","coordinates":[${positions}]}` : `{"type":"Point","coordinates":${positions}}`;
}
