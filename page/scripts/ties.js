// How things are joined: the nodes, polygons and feature names that are one in one of two maps and several in the other, though what
// they number is the same in both.
import { LANDMARK } from "./contents.js";
import { chainTitle, landmarkTitle, pairBy } from "./fields.js";
import { groupedBy } from "./grouping.js";
import { degrees, eachPoint, NO_POINT } from "./points.js";
import { phrase } from "./wording.js";

const SUBJECTS_OF_TIES = ["node", "polygon", "feature name"];
const ENDS = ["start", "end"];
const HANDS = ["left side", "right side"];

// Ties are groups of places: those that have one number in the one map, by the number that they have in the other.
export function tiesAmong(tied) {
  const ties = [];
  for (const subject of SUBJECTS_OF_TIES) {
    const its = tied.filter((at) => at.subject === subject);
    for (const [one, other] of [["first", "second"], ["second", "first"]]) {
      for (const places of groupedBy(its, (at) => at[one]).values()) {
        const groups = [...groupedBy(places, (at) => at[other]).values()];
        if (groups.length > 1) ties.push({ subject, isOneInFirst: one === "first", groups });
      }
    }
  }
  return ties;
}

// Calls `add` with the numbers that both maps have at a chain's places: the nodes at its ends, the polygons on sides with the same
// content in both maps, and the further names, if they are the same.
export function eachTied(chain, twin, first, second, add) {
  for (let end = 0; end < ENDS.length; end += 1) {
    const [node, other] = [chain.node(end), twin.node(end)];
    if (node && other) add("node", node, other, ENDS[end]);
  }
  for (let hand = 0; hand < HANDS.length; hand += 1) {
    const [side, other] = [chain.side(hand), twin.side(hand)];
    if (side && other && first.isMarkedAs(side, second, other)) add("polygon", side.place, other.place, HANDS[hand]);
  }
  if (!chain.names.length || !chain.hasNamesOf(twin)) return;
  chain.names.forEach((name, at) => add("feature name", name.place, twin.names[at].place, `further name ${at + 1}`));
}

// What a chain and its twin tie together.
export function tiesOf(chain, twin, first, second) {
  const found = [];
  eachTied(chain, twin, first, second, (subject, one, other, place) => found.push({ subject, first: one, second: other, chain, place }));
  return found;
}

// Whether the chains of these pairs have one number in the one map where they have several in the other. Nearly always they don't, and
// this is found in much less time than what is tied.
export function areTied(pairs, first, second) {
  const numbers = Object.fromEntries(SUBJECTS_OF_TIES.map((subject) => [subject, [[], []]]));
  let isTied = false;
  const add = (subject, one, other) => {
    const [others, ones] = numbers[subject];
    isTied ||= isAnother(others, one, other) || isAnother(ones, other, one);
  };
  for (const [chain, twin] of pairs) {
    eachTied(chain, twin, first, second, add);
    if (isTied) return true;
  }
  return false;
}

// Whether a number has another partner than it had before.
function isAnother(partners, number, partner) {
  partners[number] ??= partner;
  return partners[number] !== partner;
}

// The polygons that a landmark lies in, in both maps.
export function areasOf(landmark, twin, first, second) {
  const areas = (its, teller) => its.places.map(({ file, polygon }) => ({ mark: `${file} ${teller.markOf(polygon)}`, polygon }));
  const { pairs } = pairBy(areas(landmark, first), areas(twin, second), (area) => area.mark);
  return pairs.map(([one, other], at) => {
    return { subject: "polygon", first: one.polygon.place, second: other.polygon.place, landmark, place: `polygon ${at + 1}` };
  });
}

// The place of a tie: an end of the chain, or else its middle; or the landmark's own point, if it has one.
export function tiedPoint(at) {
  if (at.landmark) return LANDMARK.value(at.landmark.bodies[0], "LALONG, LALAT");
  const points = eachPoint(at.chain.points);
  const place = { start: 0, end: points.length - 1 }[at.place] ?? Math.floor(points.length / 2);
  return points[place];
}

export const tiePoints = (tie) => [...new Set(tie.groups.flat().map(tiedPoint))].filter((point) => point !== NO_POINT).sort();

export function tieLine(tie) {
  const [one, several] = tie.isOneInFirst ? ["first", "second"] : ["second", "first"];
  return phrase("tie", tie.subject, one, tie.groups.length, several);
}

export function tiedPlace(at) {
  const [title, point] = [at.landmark ? landmarkTitle(at.landmark) : chainTitle(at.chain), tiedPoint(at)];
  return `${phrase("place of", at.place, title)}${point === NO_POINT ? "" : `, ${degrees(point)}`}`;
}
