// What differs, thing by thing, as each report shows it.
import { NAME } from "./contents.js";
import { chainTitle, landmarkPoints, landmarkTitle, nameText, polygonWords } from "./fields.js";
import { counted } from "./numbers.js";
import { rowsOfChain, rowsOfLandmark, rowsOfPolygon } from "./matching.js";
import { degrees, eachPoint, NO_POINT } from "./points.js";
import { BLANK, KINDS, ONE_MAP, TIED } from "./tables.js";
import { phrase } from "./wording.js";

// Each thing has a title, what follows the title, its points, the field with its number, and its fields in both maps. Of what one map
// has alone, the other one is undefined.
export const MAKERS = {
  chain(found, one, other) {
    const points = eachPoint((one ?? other).points);
    const about = phrase("chain", points.length, degrees(points[0]), degrees(points[points.length - 1]));
    return { title: chainTitle(one ?? other), about, points, numberField: "TLID", rows: () => rowsOfChain(found, one, other) };
  },
  landmark(found, one, other) {
    const points = landmarkPoints(one ?? other);
    const name = points.length > 1 ? "place and more" : points.length ? "place" : "without a place";
    const about = phrase(name, ...points.slice(0, 1).map(degrees), counted(points.length - 1));
    return { title: landmarkTitle(one ?? other), about, points, numberField: "LAND", rows: () => rowsOfLandmark(found, one, other) };
  },
  polygon(found, one, other) {
    const either = one ?? other;
    const points = either.point === NO_POINT ? [] : [either.point];
    const about = phrase("office", either.cenid.trim() || BLANK);
    return { title: polygonWords(either.body), about, points, numberField: "POLYID", rows: () => rowsOfPolygon(one, other) };
  },
  "feature name"(found, one, other) {
    const { body, uses } = one ?? other;
    const file = NAME.value(body, "FILE").trim() || BLANK;
    const about = phrase(uses === 1 ? "name of one" : "name of several", file, uses ? counted(uses) : "no");
    return { title: nameText(NAME, body) || BLANK, about, points: [], rows: () => [] };
  },
};

export const SUBJECTS = Object.keys(MAKERS);

// The title where `what` isn't shown beside it.
export const nameOf = (thing) => (thing.what === "polygon" ? `polygon ${thing.title}` : thing.title);

// Everything that isn't alike, or everything: the things of each subject, in the order of their kinds.
export function* things(found, withAlike = false) {
  for (const what of SUBJECTS) {
    const part = found.parts[what];
    const pairs = [
      part.first.map((one) => [one, undefined]),
      part.second.map((other) => [undefined, other]),
      part.changed,
      withAlike ? part.alike : [],
    ];
    for (const [place, kind] of KINDS.entries()) {
      for (const [one, other] of pairs[place]) yield { what, kind, one, other, ...MAKERS[what](found, one, other) };
    }
  }
}

// The first sentence of a report if nothing differs, or only how things are joined.
export function verdictOf(found, areOneMap) {
  if (areOneMap) return ONE_MAP;
  return found.isAlike ? TIED : "";
}

// How many things of each subject are of each kind.
export const countsOf = (found) => Object.fromEntries(SUBJECTS.map((what) => [what, found.parts[what].counts]));
