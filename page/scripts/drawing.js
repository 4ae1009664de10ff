// Draws the chains of a map piece by piece, so that the page stays alive however many there are.

const SLICE = 10; // milliseconds at a time
const CHAINS_AT_ONCE = 500;
const FINEST = 0.6; // pixels between two points that are drawn
const CASING = 3; // pixels by which the casing of a line is wider
const MOST_CASED = 5000; // with more chains than this a kind is drawn as thin lines
const THINNEST = 1.5;
const SPECK = 12; // pixels below which a chain's form can't be seen
const THIN_CELL = 3; // pixels in which one chain of those that are thinned out is drawn

// The bounds of each chain, and of all.
export function boundsOf({ starts, places }) {
  const count = starts.length - 1;
  const bounds = new Int32Array(4 * count);
  const all = [Infinity, Infinity, -Infinity, -Infinity];
  for (let chain = 0; chain < count; chain += 1) {
    let [west, south, east, north] = [Infinity, Infinity, -Infinity, -Infinity];
    for (let at = 2 * starts[chain]; at < 2 * starts[chain + 1]; at += 2) {
      if (places[at] < west) west = places[at];
      if (places[at] > east) east = places[at];
      if (places[at + 1] < south) south = places[at + 1];
      if (places[at + 1] > north) north = places[at + 1];
    }
    bounds.set([west, south, east, north], 4 * chain);
    if (west < all[0]) all[0] = west;
    if (south < all[1]) all[1] = south;
    if (east > all[2]) all[2] = east;
    if (north > all[3]) all[3] = north;
  }
  return { bounds, all: count ? all : [-1, -1, 1, 1] };
}

function trace(context, view, { starts, places }, chain) {
  let [lastX, lastY] = [NaN, NaN];
  const end = 2 * starts[chain + 1];
  for (let at = 2 * starts[chain]; at < end; at += 2) {
    const [x, y] = [view.x(places[at]), view.y(places[at + 1])];
    if (at === 2 * starts[chain]) context.moveTo(x, y);
    else if (Math.abs(x - lastX) + Math.abs(y - lastY) < FINEST && at + 2 < end) continue;
    else context.lineTo(x, y);
    [lastX, lastY] = [x, y];
  }
}

function set(context, { color, width, dash = [] }) {
  context.strokeStyle = color;
  context.lineWidth = width;
  context.setLineDash(dash);
  context.lineJoin = "round";
  context.lineCap = dash.length ? "butt" : "round";
}

// The lines that make up a style, one upon the other: its casing, the line, and what makes it hollow.
export function strokesOf({ color, width, dash, hollow, isCased }, paper, count) {
  if (!isCased) return [{ color, width, dash }];
  if (count > MOST_CASED) return [{ color, width: Math.min(width, THINNEST) }];
  const strokes = [{ color: paper, width: width + CASING, dash }, { color, width, dash }];
  return hollow ? [...strokes, { color: paper, width: hollow }] : strokes;
}

// Small squares of the canvas, each of which is taken once.
export class Squares {
  constructor(size) {
    this.size = size;
    this.taken = new Set();
  }

  take(x, y) {
    const key = Math.floor(x / this.size) * 65_536 + Math.floor(y / this.size);
    if (this.taken.has(key)) return false;
    this.taken.add(key);
    return true;
  }
}

// The chains of each style in the order in which styles are drawn.
export function byStyle(classes, order) {
  const groups = new Map(order.map((kind) => [kind, []]));
  classes.forEach((kind, chain) => groups.get(kind)?.push(chain));
  return [...groups].filter(([, chains]) => chains.length);
}

// Draws the groups on a context, a slice at a time. `isStale` ends it early, and `drawn` is called after each slice with whether all is
// done. A slice without an end draws everything at once.
export async function draw(context, view, layer, groups, style, isStale, drawn, slice = SLICE) {
  let until = performance.now() + slice;
  for (const [kind, chains] of groups) {
    const strokes = strokesOf(style.chains[kind], style.paper, chains.length);
    const squares = style.chains[kind].isThin ? new Squares(THIN_CELL) : null;
    for (let from = 0; from < chains.length; from += CHAINS_AT_ONCE) {
      const shown = chains.slice(from, from + CHAINS_AT_ONCE).filter((chain) => isDrawn(view, layer.bounds, chain, squares));
      strokeChains(context, view, layer, shown, strokes);
      if (performance.now() < until) continue;
      drawn(false);
      await new Promise((resume) => requestAnimationFrame(resume));
      if (isStale()) return;
      until = performance.now() + slice;
    }
  }
  drawn(true);
}

function strokeChains(context, view, layer, chains, strokes) {
  context.beginPath();
  for (const chain of chains) trace(context, view, layer, chain);
  for (const stroke of strokes) {
    set(context, stroke);
    context.stroke();
  }
}

// A chain's box on the canvas: its left, upper, right and lower edge.
function boxOf(view, bounds, chain) {
  const at = 4 * chain;
  return [view.x(bounds[at]), view.y(bounds[at + 3]), view.x(bounds[at + 2]), view.y(bounds[at + 1])];
}

// Whether a chain is in view; and, if it is smaller than a square, whether it is the first one there.
function isDrawn(view, bounds, chain, squares) {
  const [left, upper, right, lower] = boxOf(view, bounds, chain);
  if (left >= view.width || right <= 0 || upper >= view.height || lower <= 0) return false;
  if (!squares || right - left > squares.size || lower - upper > squares.size) return true;
  return squares.take((left + right) / 2, (upper + lower) / 2);
}

// The chains whose kind has a sign and that are so small that only the sign can be seen: each with its kind and its middle.
export function specksOf(view, layer, groups, style) {
  const found = [];
  for (const [kind, chains] of groups) {
    if (!style.chains[kind].sign || chains.length > MOST_CASED) continue;
    for (const chain of chains) {
      const [left, upper, right, lower] = boxOf(view, layer.bounds, chain);
      if (right - left >= SPECK || lower - upper >= SPECK) continue;
      found.push({ kind, place: view.placeAt((left + right) / 2, (upper + lower) / 2) });
    }
  }
  return found;
}

export function drawOne(context, view, layer, chain, style) {
  set(context, style);
  context.beginPath();
  trace(context, view, layer, chain);
  context.stroke();
}

// The nearest chain to a place on the canvas, if one is within so many pixels. Those that come later lie on top.
export function chainNear(view, layer, x, y, reach, isShown) {
  let [nearest, least] = [-1, reach];
  for (let chain = layer.starts.length - 2; chain >= 0; chain -= 1) {
    const at = 4 * chain;
    const { bounds } = layer;
    if (view.x(bounds[at]) > x + least || view.x(bounds[at + 2]) < x - least) continue;
    if (view.y(bounds[at + 3]) > y + least || view.y(bounds[at + 1]) < y - least || !isShown(chain)) continue;
    const distance = distanceTo(view, layer, chain, x, y);
    if (distance < least) [nearest, least] = [chain, distance];
  }
  return nearest;
}

function distanceTo(view, { starts, places }, chain, x, y) {
  let least = Infinity;
  for (let at = 2 * starts[chain]; at + 2 < 2 * starts[chain + 1]; at += 2) {
    const [x1, y1, x2, y2] = [view.x(places[at]), view.y(places[at + 1]), view.x(places[at + 2]), view.y(places[at + 3])];
    const length = (x2 - x1) ** 2 + (y2 - y1) ** 2;
    const along = length ? Math.max(0, Math.min(1, ((x - x1) * (x2 - x1) + (y - y1) * (y2 - y1)) / length)) : 0;
    least = Math.min(least, Math.hypot(x - x1 - along * (x2 - x1), y - y1 - along * (y2 - y1)));
  }
  return least;
}
