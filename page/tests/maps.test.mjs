// What is drawn of maps: the classes of chains, lines and marks of each kind, what is small or dense, and the part that is shown.
import { equal, take } from "./scripts.mjs";

const { CLASSES, classOf } = await take("classes");
const { boundsOf, byStyle, chainNear, draw, drawOne, specksOf, Squares, strokesOf } = await take("drawing");
const { ALIKE, CHANGED, FIRST, KIND_LINES, SECOND } = await take("kinds");
const { widthAt } = await take("looks");
const { drawMark } = await take("marks");
const { shift } = await take("shapes");
const { View } = await take("view");

// The classes of roads are those of the CFCC: A1 has limited access, A2 and A3 are main roads, A4 and more are others.
const className = (cfcc) => CLASSES[classOf(cfcc.charCodeAt(0), cfcc.charCodeAt(1))];
const cfccs = ["A11", "A21", "A31", "A41", "A74", "B11", "H11", "F10", "D43", "X00"];
equal("the classes of chains", ["highway", "main road", "main road", "road", "road", "rail", "water", "boundary", "other", "other"], cfccs.map(className));

// A canvas that keeps what is done with it.
function recorder() {
  const calls = [];
  const state = {};
  const keep = (name) => (...values) => calls.push([name, ...values]);
  return new Proxy({ calls }, {
    get(target, name) {
      if (name === "calls") return target.calls;
      if (name === "stroke" || name === "fill") return () => calls.push([name, { ...state }]);
      if (name === "setLineDash") return (dash) => (state.dash = dash);
      return keep(name);
    },
    set(_, name, value) {
      state[name] = value;
      return true;
    },
  });
}

// Four chains around the middle of a map of a thousandth of a degree: one from corner to corner, one short, one of a point, one away.
const chains = {
  starts: Uint32Array.from([0, 2, 4, 6, 8]),
  places: Int32Array.from([0, 0, 1000, 1000, 500, 400, 502, 402, 100, 900, 100, 900, 5000, 5000, 5010, 5000]),
  classes: Uint8Array.from([ALIKE, CHANGED, FIRST, SECOND]),
};
const { bounds, all } = boundsOf(chains);
equal("the bounds of all chains", [0, 0, 5010, 5000], all);
equal("the bounds of each chain", [0, 0, 1000, 1000, 500, 400, 502, 402, 100, 900, 100, 900, 5000, 5000, 5010, 5000], [...bounds]);
const bent = boundsOf({ starts: Uint32Array.of(0, 4), places: Int32Array.of(-15, 5, -20, 7, -10, 9, -12, 3) });
equal("the bounds of a bent chain", [[-20, 3, -10, 9], [-20, 3, -10, 9]], [[...bent.bounds], bent.all]);
equal("the bounds of no chains", [-1, -1, 1, 1], boundsOf({ starts: Uint32Array.of(0), places: Int32Array.of() }).all);
equal("chains by their style", [[ALIKE, [0]], [SECOND, [3]], [FIRST, [2]], [CHANGED, [1]]], byStyle(chains.classes, [ALIKE, SECOND, FIRST, CHANGED]));

const view = new View([0, 0, 1000, 1000]);
view.resize(448, 248);
equal("the scale that shows all", 0.2, view.scale);
equal("the place of a corner on the canvas", [124, 224], [view.x(0), view.y(0)].map(Math.round));
equal("the place of a point of the canvas", [0, 0], view.placeAt(124, 224).map(Math.round).map(Math.abs));
const rulers = view.rulers(110);
// 110 pixels are 550 millionths of a degree, 61.2 m or 200.9 ft.
equal("the rulers", [["50 m", 90], ["200 ft", 110]], rulers.map(({ text, pixels }) => [text, Math.round(pixels)]));
view.zoom(2, 124, 224);
equal("a place that the map is zoomed around", [124, 224], [view.x(0), view.y(0)].map(Math.round));
equal("the scale after that", 0.4, view.scale);
view.move(10, -20);
equal("a place after the map was moved", [134, 204], [view.x(0), view.y(0)].map(Math.round));
view.showWhole();
const resized = (change) => {
  const made = new View([0, 0, 1000, 1000]);
  made.resize(448, 248);
  change(made);
  const { scale } = made;
  made.resize(848, 848);
  return made.scale === scale;
};
const changes = [(made) => made.zoom(2), (made) => made.move(1, 1), (made) => made.show([0, 0, 10, 10]), (made) => made.showWhole()];
equal("a new size keeps what was chosen to be shown, or shows all", [true, true, true, false], changes.map(resized));
const wide = new View([0, 0, 10_000_000, 1_000_000]);
wide.resize(448, 248);
equal("rulers in kilometres and miles", [["200 km"], ["100 mi"]], wide.rulers(110).map(({ text }) => [text]));
const before = wide.scale;
for (let round = 0; round < 40; round += 1) wide.zoom(0.5);
equal("the least scale is a quarter of all", before / 4, wide.scale);
for (let round = 0; round < 90; round += 1) wide.zoom(2);
equal("the greatest scale", 2, wide.scale);

// Lines have their full width up to 4 metres to a pixel, and are thinner the more of the map is shown.
equal("how wide lines are", [1, 1, 0.68, 0.35, 0.35], [1, 4, Math.sqrt(4 * 60), 60, 200].map((metres) => Math.round(100 * widthAt({ metresToPixel: () => metres })) / 100));

// A line of a kind that differs has a casing, a hollow one shows what is below its middle, and very many are thin lines.
const style = (kind) => ({ ...KIND_LINES[kind], color: "ink", isCased: kind !== ALIKE });
equal("the strokes of what the first map has alone", [["paper", 6, [8, 6]], ["ink", 3, [8, 6]]], strokesOf(style(FIRST), "paper", 1).map(({ color, width, dash }) => [color, width, dash]));
equal("the strokes of what the second map has alone", [["paper", 8], ["ink", 5]], strokesOf(style(SECOND), "paper", 5000).map(({ color, width }) => [color, width]));
equal("the strokes of what changed", [["paper", 10], ["ink", 7], ["paper", 3]], strokesOf(style(CHANGED), "paper", 1).map(({ color, width }) => [color, width]));
equal("the strokes of very many", [["ink", 1.5]], strokesOf(style(CHANGED), "paper", 5001).map(({ color, width }) => [color, width]));
equal("the strokes of what is alike", [["ink", 1.2]], strokesOf(style(ALIKE), "paper", 1).map(({ color, width }) => [color, width]));

const styles = { paper: "paper", chains: [FIRST, SECOND, CHANGED, ALIKE].map((kind) => ({ ...style(kind), color: `color ${kind}`, sign: kind === ALIKE ? undefined : "+", isThin: kind === ALIKE })) };
const layer = { ...chains, bounds };
const groups = byStyle(chains.classes, [ALIKE, SECOND, FIRST, CHANGED]);
const canvas = recorder();
let done = [];
await draw(canvas, view, layer, groups, styles, () => false, (isDone) => done.push(isDone), Infinity);
equal("drawn at once", [true], done);
const strokes = canvas.calls.filter(([name]) => name === "stroke").map(([, { strokeStyle }]) => strokeStyle);
equal("the order in which kinds are drawn", ["color 3", "color 1", "color 0", "color 2"], strokes.filter((each) => each !== "paper"));
equal("the chains in view begin at", [[124, 224], [144, 44], [224, 144]], canvas.calls.filter(([name]) => name === "moveTo").map(([, x, y]) => [Math.round(x), Math.round(y)]));
equal("small chains with a sign", [[FIRST, 100, 900], [CHANGED, 501, 401], [SECOND, 5005, 5000]].sort(), specksOf(view, layer, groups, styles).map(({ kind, place }) => [kind, ...place.map(Math.round)]).sort());

const outside = { starts: Uint32Array.of(0, 2, 4, 6, 8), places: Int32Array.of(-2000, 500, -1900, 510, 3000, 500, 3100, 510, 500, 3000, 510, 3100, 500, -2000, 510, -1900), classes: Uint8Array.of(0, 0, 0, 0) };
const empty = recorder();
await draw(empty, view, { ...outside, bounds: boundsOf(outside).bounds }, [[FIRST, [0, 1, 2, 3]]], styles, () => false, () => {}, Infinity);
equal("what lies to the left, to the right, above and below isn't drawn", 0, empty.calls.filter(([name]) => name === "moveTo").length);
const single = recorder();
drawOne(single, view, layer, 0, { color: "chosen", width: 15 });
equal("a single chain", [["moveTo", "lineTo", "stroke"], "chosen", 15], (([calls, [, { strokeStyle, lineWidth }]]) => [calls, strokeStyle, lineWidth])([single.calls.map(([name]) => name).filter((name) => name !== "beginPath"), single.calls.at(-1)]));

const squares = new Squares(3);
equal("a square is taken once", [true, false, true, true], [squares.take(1, 1), squares.take(2.9, 0), squares.take(3, 1), squares.take(1, 3)]);
const dense = { starts: Uint32Array.from([0, 2, 4, 6]), places: Int32Array.from([0, 0, 2, 2, 1, 1, 3, 3, 0, 0, 500, 0]), classes: Uint8Array.of(ALIKE, ALIKE, ALIKE) };
const thinned = recorder();
await draw(thinned, view, { ...dense, bounds: boundsOf(dense).bounds }, [[ALIKE, [0, 1, 2]]], styles, () => false, () => {}, Infinity);
equal("of two small chains of a place one is drawn, and the long one", 2, thinned.calls.filter(([name]) => name === "moveTo").length);

// A map across the line of 180 degrees is moved to one side; one on one side isn't.
const crossing = (longitudes) => {
  const places = Int32Array.from(longitudes.flatMap((longitude, at) => [longitude, at + 50]));
  return [shift(places), [...places]];
};
equal("a map across the line of 180 degrees", [360_000_000, [-180_000_001, 50, -179_999_999, 51, -180_500_000, 52]], crossing([179_999_999, -179_999_999, 179_500_000]));
equal("a map on one side of it", [0, [-86_000_000, 50, -85_000_000, 51]], crossing([-86_000_000, -85_000_000]));
equal("a map on the eastern side", [0, [144_000_000, 50, 145_000_000, 51]], crossing([144_000_000, 145_000_000]));

const near = (x, y, isShown = () => true) => chainNear(view, layer, x, y, 8, isShown);
equal("the chain at a place", 0, near(view.x(250), view.y(250) + 3));
equal("no chain within reach", -1, near(view.x(900), view.y(100)));
equal("the nearer of two chains", 1, near(view.x(501), view.y(401)));
equal("a hidden chain isn't found", -1, near(view.x(100), view.y(900), (chain) => chain !== 2));

const marked = (mark) => {
  const context = recorder();
  drawMark(context, 10, 20, mark, "paper");
  return context.calls;
};
const rounded = (calls, name) => calls.filter(([each]) => each === name).map(([, ...place]) => place.map((value) => Math.round(value * 100) / 100));
const signOf = (sign) => ["moveTo", "lineTo"].map((name) => rounded(marked({ color: "ink", radius: 10, sign }), name));
equal("the sign for less", [[[4.5, 20]], [[15.5, 20]]], signOf("−"));
equal("the sign for more", [[[4.5, 20], [10, 14.5]], [[15.5, 20], [10, 25.5]]], signOf("+"));
equal("the sign for another", [[[4.5, 17.8], [4.5, 22.2], [7.25, 25.5]], [[15.5, 17.8], [15.5, 22.2], [12.75, 14.5]]], signOf("≠"));
equal("a circle with the sign for more", ["arc", 2], [marked({ color: "ink", radius: 7, sign: "+" })[1][0], marked({ color: "ink", radius: 7, sign: "+" }).filter(([name]) => name === "lineTo").length]);
equal("a square for a polygon", ["rect", 3, 13, 14, 14], marked({ color: "ink", radius: 7, sign: "≠", isSquare: true })[1]);
const strokesIn = (mark) => marked(mark).filter(([name]) => name === "stroke").length;
equal("a mark's edge, and its sign", [2, 1], [strokesIn({ color: "ink", radius: 7, sign: "−" }), strokesIn({ color: "ink", radius: 3 })]);
equal("how wide a mark's edge and sign are", [1, 1.6], marked({ color: "ink", radius: 7, sign: "−" }).filter(([name]) => name === "stroke").map(([, { lineWidth }]) => lineWidth));
equal("a filled mark", ["ink", "paper"], (({ fillStyle, strokeStyle }) => [fillStyle ?? "", strokeStyle])(marked({ color: "ink", radius: 7, sign: "−" }).find(([name]) => name === "stroke")[1]));
equal("an empty mark", ["paper", "ink"], (({ fillStyle, strokeStyle }) => [fillStyle, strokeStyle])(marked({ color: "ink", radius: 3 }).find(([name]) => name === "stroke")[1]));
