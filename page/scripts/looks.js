// How maps look: the classes of chains of one county, and the kinds of differences of two. Colours are those of the page's style, so
// that they follow its light and dark schemes.
import { CLASSES } from "./classes.js";
import { ALIKE, ASIDE, CHANGED, FIRST, KIND_CLASSES, KIND_LINES, KIND_SIGNS, SECOND } from "./kinds.js";

const color = (name) => getComputedStyle(document.documentElement).getPropertyValue(`--${name}`).trim();

// From what is drawn first to what lies on top.
const ORDER = ["boundary", "water", "other", "road", "rail", "main road", "highway"].map((name) => CLASSES.indexOf(name));

// Lines are finer where more of the map is shown, so that dense streets can be told apart.
const FINEST_WIDTH = 0.35;
const WIDE_AT = 4; // metres to a pixel up to which lines have their full width
const FINE_AT = 60;

export function widthAt(view) {
  const metres = Math.min(FINE_AT, Math.max(WIDE_AT, view.metresToPixel()));
  return 1 - (1 - FINEST_WIDTH) * (Math.log(metres / WIDE_AT) / Math.log(FINE_AT / WIDE_AT));
}

export const countyLook = {
  order: ORDER,
  styles(view) {
    const drawn = {
      highway: { color: color("map-highway"), width: 3 },
      "main road": { color: color("map-main"), width: 2 },
      road: { color: color("map-road"), width: 1 },
      rail: { color: color("map-rail"), width: 1.3, dash: [6, 3] },
      water: { color: color("map-water"), width: 1.2 },
      boundary: { color: color("map-boundary"), width: 1, dash: [3, 3] },
      other: { color: color("map-other"), width: 0.8 },
    };
    const factor = widthAt(view);
    return {
      chains: CLASSES.map((name) => ({ ...drawn[name], width: drawn[name].width * factor })),
      points: [{ color: color("map-landmark"), radius: 3.5 }],
      chosen: { color: color("chosen"), width: 9 },
      paper: color("paper"),
    };
  },
};

// What is alike is drawn first, and thinned out where it is dense.
export const differencesLook = {
  order: [ALIKE, SECOND, FIRST, CHANGED],
  styles(view) {
    const colors = KIND_CLASSES.map(color);
    const chains = KIND_LINES.map((line, kind) => ({ ...line, color: colors[kind], isCased: true, sign: KIND_SIGNS[kind], aside: ASIDE[kind] }));
    chains[ALIKE] = { color: colors[ALIKE], width: KIND_LINES[ALIKE].width * widthAt(view), isThin: true };
    const points = colors.map((each, kind) => ({ color: each, radius: 7, sign: KIND_SIGNS[kind] }));
    points[ALIKE] = { color: colors[ALIKE], radius: 3, isThin: true };
    return { chains, points, chosen: { color: color("chosen"), width: 15 }, paper: color("paper") };
  },
};
