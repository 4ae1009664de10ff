// Marks on a map: circles, and squares for polygons, each with the sign of its kind; and the form of each kind for a key.
import { ALIKE, KIND_CLASSES, KIND_LINES, KIND_SIGNS } from "./kinds.js";

const SIGN_STROKES = {
  "−": [[-1, 0, 1, 0]],
  "+": [[-1, 0, 1, 0], [0, -1, 0, 1]],
  "≠": [[-1, -0.4, 1, -0.4], [-1, 0.4, 1, 0.4], [-0.5, 1, 0.5, -1]],
};
const SIGN_SIZE = 0.55; // of the mark's radius

// Draws a mark in the middle of a place of the canvas.
export function drawMark(context, x, y, { color, radius, sign, isSquare }, paper) {
  context.setLineDash([]);
  context.beginPath();
  if (isSquare) context.rect(x - radius, y - radius, 2 * radius, 2 * radius);
  else context.arc(x, y, radius, 0, 2 * Math.PI);
  context.fillStyle = sign ? color : paper;
  context.fill();
  context.strokeStyle = sign ? paper : color;
  context.lineWidth = 1;
  context.stroke();
  if (sign) drawSign(context, x, y, sign, radius * SIGN_SIZE, paper);
}

function drawSign(context, x, y, sign, half, color) {
  context.beginPath();
  for (const [fromX, fromY, toX, toY] of SIGN_STROKES[sign]) {
    context.moveTo(x + fromX * half, y + fromY * half);
    context.lineTo(x + toX * half, y + toY * half);
  }
  context.lineWidth = 1.6;
  context.strokeStyle = color;
  context.stroke();
}

const SVG = "http://www.w3.org/2000/svg";

function svg(tag, attributes, ...children) {
  const element = document.createElementNS(SVG, tag);
  for (const [name, value] of Object.entries(attributes)) element.setAttribute(name, value);
  element.append(...children);
  return element;
}

// The form in which a kind is drawn: a line, and a mark with its sign.
export function swatchOf(kind) {
  const { width, dash = [], hollow } = KIND_LINES[kind];
  const line = (lineWidth, className) =>
    svg("line", { x1: 1, y1: 8, x2: 32, y2: 8, class: className, "stroke-width": lineWidth, "stroke-dasharray": dash.join(" ") });
  const sign = svg("text", { x: 44, y: 12, "text-anchor": "middle" }, KIND_SIGNS[kind]);
  const mark = kind === ALIKE ? [svg("circle", { cx: 44, cy: 8, r: 3, class: "outline" })] : [svg("circle", { cx: 44, cy: 8, r: 7 }), sign];
  const lines = [line(width, ""), ...(hollow ? [line(hollow, "hollow")] : [])];
  return svg("svg", { class: `swatch ${KIND_CLASSES[kind]}`, width: 52, height: 16, "aria-hidden": "true" }, ...lines, ...mark);
}
