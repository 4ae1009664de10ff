// A map on a canvas, to move and zoom by pointer and keyboard.
import { boundsOf, byStyle, chainNear, draw, drawOne, specksOf, Squares } from "./drawing.js";
import { h } from "./dom.js";
import { keyOfKind } from "./kinds.js";
import { drawMark } from "./marks.js";
import { PlaceCard } from "./place_card.js";
import { Pointers } from "./pointers.js";
import { View } from "./view.js";

const STEP = 80; // pixels that an arrow key moves the map
const REACH = 8; // pixels within which a pointer finds something
const MARK_CELL = 12; // pixels in which one mark of those that are thinned out is drawn
const SPECK_MARK = 6; // pixels of radius of the mark of a small chain
const HALO = 5; // pixels around a chosen mark
const PAPER_RATIO = 4; // pixels of the canvas to one of the page, on paper
const AROUND = 1500; // millionths of a degree that are shown around places
const ABOVE = 1.5; // times the height of the places that is shown above them
const UPPER = 0.52; // of the map's height, for the northernmost place
const CLOSEST = 0.12; // pixels for a millionth of a degree
const KEYS = "Arrow keys move it, plus and minus zoom, 0 shows all of it, Enter opens what is nearest to its middle.";

// `look` has the order of the classes, and their styles in a view. Points are single places, each with its kind and its subject.
// onpick is called with { chain } or { point }, the place, and whether it was picked by the keyboard.
export class MapView {
  constructor({ chains, points = [], look, onpick, titleOf, onclose, label }) {
    const { bounds, all } = boundsOf(chains);
    this.layer = { ...chains, bounds };
    Object.assign(this, { points, look, onpick, titleOf, onclose, hidden: new Set(), chosen: null, round: 0, specks: [] });
    this.groups = byStyle(chains.classes, look.order);
    this.shown = points;
    this.view = new View(chains.starts.length > 1 || !points.length ? all : boundsOfPoints(points));
    this.build(label);
    this.observer = new ResizeObserver(() => this.resize());
    this.observer.observe(this.frame);
    this.scheme = matchMedia("(prefers-color-scheme: dark)");
    this.listeners = [[this.scheme, "change", () => this.redraw()], [window, "beforeprint", () => this.toPaper()], [window, "afterprint", () => this.toScreen()]];
    for (const [target, name, listener] of this.listeners) target.addEventListener(name, listener);
  }

  build(label) {
    const button = (text, name, onclick) => h("button", { type: "button", "aria-label": name, title: name, onclick }, text);
    this.canvas = h("canvas", { "aria-hidden": "true" });
    this.tip = h("div", { class: "tip", hidden: true });
    this.rulers = h("div", { class: "rulers", "aria-hidden": "true" }, h("div", {}), h("div", {}));
    this.frame = h("div", { class: "map", tabIndex: 0, role: "application", "aria-label": `${label}. ${KEYS}`, onkeydown: (event) => this.key(event) });
    const tools = h("div", { class: "tools" }, [
      button("+", "Zoom in", () => this.zoom(1.6)),
      button("−", "Zoom out", () => this.zoom(1 / 1.6)),
      button("⤢", "Show all", () => this.whole()),
    ]);
    this.frame.append(this.canvas, this.tip, this.rulers, tools);
    this.card = new PlaceCard(() => this.closeCard());
    this.node = h("div", { class: "chart" }, this.frame, this.card.node);
    this.working = document.createElement("canvas");
    this.finished = document.createElement("canvas");
    this.pointers = new Pointers(this, this.frame, this.tip);
  }

  dispose() {
    this.observer.disconnect();
    for (const [target, name, listener] of this.listeners) target.removeEventListener(name, listener);
    this.round += 1;
  }

  resize() {
    const { clientWidth: width, clientHeight: height } = this.frame;
    if (!width || !height) return;
    this.ratio = this.isOnPaper ? PAPER_RATIO : Math.min(devicePixelRatio || 1, 2);
    for (const canvas of [this.canvas, this.working]) Object.assign(canvas, { width: width * this.ratio, height: height * this.ratio });
    this.view.resize(width, height);
    this.redraw();
  }

  // Draws what is shown of the map at once, in the size and the colours that it has on paper.
  toPaper() {
    document.documentElement.classList.add("printing");
    this.isOnPaper = true;
    this.onScreen = { ...this.view };
    const { width, height } = this.view;
    this.resize();
    if (!this.view.isWhole) this.zoom(Math.min(this.view.width / width, this.view.height / height));
  }

  toScreen() {
    document.documentElement.classList.remove("printing");
    this.isOnPaper = false;
    Object.assign(this.view, this.onScreen);
    this.resize();
  }

  key(event) {
    const moves = { ArrowLeft: [STEP, 0], ArrowRight: [-STEP, 0], ArrowUp: [0, STEP], ArrowDown: [0, -STEP] };
    const zooms = { "+": 1.6, "=": 1.6, "-": 1 / 1.6 };
    if (event.ctrlKey || event.metaKey || event.altKey) return;
    if (moves[event.key]) this.move(...moves[event.key]);
    else if (zooms[event.key]) this.zoom(zooms[event.key]);
    else if (event.key === "0") this.whole();
    else if (event.key === "Escape") this.closeCard();
    else if (event.key === "Enter" && event.target === this.frame) this.pickMiddle();
    else return;
    event.preventDefault();
  }

  move(x, y) {
    this.view.move(x, y);
    this.redraw();
  }

  zoom(factor, x, y) {
    this.view.zoom(factor, x, y);
    this.redraw();
  }

  whole() {
    this.view.showWhole();
    this.redraw();
  }

  // Shows places, each a longitude and a latitude, in the lower half, so that a card has space above them.
  showPlaces(places) {
    const [longitudes, latitudes] = [0, 1].map((at) => places.map((place) => place[at]));
    const [west, south, east, north] = [Math.min(...longitudes), Math.min(...latitudes), Math.max(...longitudes), Math.max(...latitudes)];
    this.view.show([west - AROUND, south - AROUND, east + AROUND, north + AROUND + (north - south) * ABOVE], CLOSEST);
    this.move(0, this.view.height * UPPER - this.view.y(north));
  }

  // Hides what is of these subjects and kinds.
  hide(keys) {
    this.hidden = new Set(keys);
    this.shown = this.points.filter(({ subject, kind }) => this.isShown(subject, kind));
    this.redraw();
  }

  // Adds points that are drawn before the others.
  addPoints(points) {
    this.points = [...points, ...this.points];
    this.hide(this.hidden);
  }

  isShown(subject, kind) {
    return !this.hidden.has(keyOfKind(subject, kind));
  }

  choose(chosen) {
    this.chosen = chosen;
    this.present();
  }

  // Opens a card with this content at a place. From the keyboard the focus goes to it.
  openCard(content, place, isFocused = false) {
    this.card.open(content, place, this.at(place), this.view);
    if (isFocused) this.card.content.focus();
  }

  closeCard() {
    if (!this.card.isOpen) return;
    const hadFocus = this.card.node.contains(document.activeElement);
    this.card.close();
    this.choose(null);
    if (!this.onclose?.(hadFocus) && hadFocus) this.frame.focus();
  }

  at(place) {
    return [this.view.x(place[0]), this.view.y(place[1])];
  }

  // Draws the map as it is now behind the scenes, and meanwhile shows what was drawn before, moved.
  redraw() {
    this.round += 1;
    const round = this.round;
    if (!this.ratio) return;
    const context = this.working.getContext("2d");
    context.setTransform(1, 0, 0, 1, 0, 0);
    context.clearRect(0, 0, this.working.width, this.working.height);
    context.setTransform(this.ratio, 0, 0, this.ratio, 0, 0);
    this.style = this.look.styles(this.view);
    this.drawnFor = this.view.copy();
    const groups = this.groups.filter(([kind]) => this.isShown("chain", kind));
    this.specks = specksOf(this.view, this.layer, groups, this.style);
    if (!this.isOnPaper) this.present();
    draw(context, this.view, this.layer, groups, this.style, () => round !== this.round, (isDone) => this.drawn(isDone), this.isOnPaper ? Infinity : undefined);
  }

  drawn(isDone) {
    if (isDone) {
      Object.assign(this.finished, { width: this.working.width, height: this.working.height });
      this.finished.getContext("2d").drawImage(this.working, 0, 0);
      this.finishedFor = this.drawnFor;
    }
    this.present(isDone);
  }

  // Puts together what is drawn and what lies below and on it: what is chosen, and marks.
  present(isDone = false) {
    if (!this.ratio || !this.style) return;
    const context = this.canvas.getContext("2d");
    context.setTransform(1, 0, 0, 1, 0, 0);
    context.clearRect(0, 0, this.canvas.width, this.canvas.height);
    context.setTransform(this.ratio, 0, 0, this.ratio, 0, 0);
    this.drawHalo(context);
    context.setTransform(1, 0, 0, 1, 0, 0);
    if (!isDone && this.finishedFor && this.finishedFor !== this.drawnFor) this.putMoved(context);
    else context.drawImage(this.working, 0, 0);
    context.setTransform(this.ratio, 0, 0, this.ratio, 0, 0);
    this.drawMarks(context);
    this.view.rulers(110).forEach(({ text, pixels }, place) => {
      this.rulers.children[place].textContent = text;
      this.rulers.children[place].style.width = `${pixels}px`;
    });
    if (this.card.isOpen) this.card.moveTo(this.at(this.card.place));
    this.frame.dataset.drawn = isDone || this.finishedFor === this.drawnFor ? "whole" : "";
  }

  putMoved(context) {
    const [then, now] = [this.finishedFor, this.view];
    const factor = now.scale / then.scale;
    const x = now.width / 2 + (then.longitude - now.longitude) * now.squeeze * now.scale;
    const y = now.height / 2 - (then.latitude - now.latitude) * now.scale;
    const [width, height] = [this.finished.width, this.finished.height];
    context.setTransform(factor, 0, 0, factor, x * this.ratio - (width * factor) / 2, y * this.ratio - (height * factor) / 2);
    context.drawImage(this.finished, 0, 0);
  }

  drawHalo(context) {
    const { chosen } = this.style;
    if (this.chosen?.chain >= 0) drawOne(context, this.view, this.layer, this.chosen.chain, chosen);
    const point = this.chosen?.point;
    if (!point) return;
    context.beginPath();
    context.arc(...this.at(point.place), this.style.points[point.kind].radius + HALO, 0, 2 * Math.PI);
    context.fillStyle = chosen.color;
    context.fill();
  }

  // Marks of small chains, and of points; those that are alike come first, thinned out.
  drawMarks(context) {
    const squares = new Squares(MARK_CELL);
    for (const { place, kind, subject } of this.shown) {
      const style = this.style.points[kind];
      const [x, y] = this.at(place);
      if (style.isThin && !squares.take(x, y)) continue;
      drawMark(context, x, y, { ...style, isSquare: subject === "polygon" }, this.style.paper);
    }
    for (const { kind, place } of this.specks) {
      const [x, y] = this.at(place);
      const { color, sign, aside } = this.style.chains[kind];
      drawMark(context, x + aside, y, { color, sign, radius: SPECK_MARK }, this.style.paper);
    }
  }

  // What is at a place of the canvas: a point, or else a chain. What was drawn last lies on top.
  found(x, y) {
    const { point } = this.nearestPoint(x, y, REACH);
    return point ? { point } : this.chainAt(x, y, REACH);
  }

  // What is nearest to a place of the canvas, however far.
  nearest(x, y) {
    const { point, distance } = this.nearestPoint(x, y, Infinity);
    return this.chainAt(x, y, distance) ?? (point ? { point } : null);
  }

  chainAt(x, y, reach) {
    const chain = chainNear(this.view, this.layer, x, y, reach, (each) => this.isShown("chain", this.layer.classes[each]));
    return chain >= 0 ? { chain } : null;
  }

  nearestPoint(x, y, reach) {
    let nearest = { point: null, distance: reach };
    for (const point of this.shown) {
      const [left, top] = this.at(point.place);
      const distance = Math.hypot(left - x, top - y);
      if (distance <= nearest.distance) nearest = { point, distance };
    }
    return nearest;
  }

  pick(x, y) {
    this.pickFound(this.found(x, y), [x, y], false);
  }

  pickMiddle() {
    const { width, height } = this.view;
    this.pickFound(this.nearest(width / 2, height / 2), [width / 2, height / 2], true);
  }

  pickFound(found, [x, y], isFocused) {
    if (!found && this.card.isOpen) return this.closeCard();
    this.choose(found);
    if (found) this.onpick?.(found, this.view.placeAt(x, y), isFocused);
    return undefined;
  }

  titleAt(x, y) {
    const found = this.titleOf && this.found(x, y);
    return found ? this.titleOf(found) : "";
  }
}

function boundsOfPoints(points) {
  const all = [Infinity, Infinity, -Infinity, -Infinity];
  for (const { place } of points) {
    all[0] = Math.min(all[0], place[0]);
    all[1] = Math.min(all[1], place[1]);
    all[2] = Math.max(all[2], place[0]);
    all[3] = Math.max(all[3], place[1]);
  }
  return all;
}
