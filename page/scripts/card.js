// What is shown of one county: its stages while it is judged, and then whether it is accepted, its fingerprint, or its refusal.
import { copyButton, h, sizeText } from "./dom.js";
import { rendered } from "./markdown.js";
import { flagsOf } from "./manifests.js";
import { FORM, REFUSALS } from "./tables.js";

const STAGES = {
  reading: "Reading",
  unpacking: "Unpacking",
  judging: "Judging",
  fingerprint: "Fingerprint",
  map: "Drawing the map",
  comparing: "Comparing",
  matching: "Finding what differs",
  "reading again": "Reading the files again",
  writing: "Writing",
};

// The stages of a job, the present one with how far it has come. Its node is put where it is to be seen.
export class Stages {
  constructor(names, onstop) {
    this.items = new Map(names.map((name) => [name, h("li", {}, STAGES[name])]));
    this.bar = h("progress", { "aria-label": "Progress" });
    this.text = h("span", { class: "far" });
    const stop = onstop && h("button", { type: "button", class: "quiet", onclick: onstop }, "Stop");
    this.node = h("div", { class: "stages" }, h("ol", {}, [...this.items.values()]), h("div", { class: "bar" }, this.bar, this.text, stop));
  }

  at({ stage, done, total }) {
    let isPast = this.items.has(stage);
    for (const [name, item] of this.items) {
      if (name === stage) isPast = false;
      item.className = name === stage ? "now" : isPast ? "past" : "";
      if (name === stage) item.setAttribute("aria-current", "step");
      else item.removeAttribute("aria-current");
    }
    if (total > 0) Object.assign(this.bar, { max: total, value: done });
    else this.bar.removeAttribute("value");
    this.text.textContent = total > 0 ? `${sizeText(done)} of ${sizeText(total)}` : "";
  }
}

export const badge = (kind, text) => h("span", { class: `badge ${kind}` }, text);

const isOfMissing = (note) => note.startsWith("no .RT");

// Notes on an accepted county, which may be named.
export function notesOf(notes, name = "") {
  if (!notes.length) return null;
  const why = "If a missing file belongs to the county, this is another map, with another fingerprint.";
  const texts = [...notes.map(noteText), notes.some(isOfMissing) && why].filter(Boolean);
  return h("div", { class: "note" }, texts.map((text, place) => h("p", {}, name && !place && h("strong", {}, `${name}: `), text)));
}

// Refusals for which a record isn't there: the chain, the record of type I, the name, the landmark, the polygon, the polygon's side.
const MISSED_BY = [12, 14, 17, 19, 20, 23];

// Notes on a refused county. A missing file is the likely cause, if what is refused is that records aren't there.
function causesOf(notes, number) {
  const missing = MISSED_BY.includes(number) ? notes.filter(isOfMissing) : [];
  const cause = missing.map((note) => h("p", {}, h("strong", {}, "The likely cause: "), `there is ${note}. Add what belongs to the county, and try again.`));
  const others = notes.filter((note) => !missing.includes(note)).map((note) => h("p", {}, noteText(note)));
  return notes.length ? h("div", { class: "note" }, cause, others) : null;
}

const noteText = (note) => (isOfMissing(note) ? `There is ${note}.` : `${note[0].toUpperCase()}${note.slice(1).replace(/\.?$/, ".")}`);

// The fingerprint, under an identifier if it is the only one on the page.
export function fingerprintOf(fingerprint, masks, id) {
  const flags = flagsOf(masks);
  const halves = [fingerprint.slice(0, 32), fingerprint.slice(32)];
  const form = FORM.replace("# ", "");
  return h("div", { class: "fingerprint" }, [
    h("div", { class: "row" }, h("h3", {}, "Fingerprint"), copyButton(fingerprint, "fingerprint")),
    h("p", { class: "digits", id }, halves.map((half) => h("span", {}, half))),
    h("p", { class: "quiet" }, `The SHA-256 hash of the canonical text, ${form}${flags.length ? `, with ${flags.join(" ")}` : ""}.`),
  ]);
}

// A refusal: the program's line, the line of the file with its field marked, what it means, and how a right value looks.
export function refusalShown({ line, number, lines, right, hint, notes }) {
  return h("div", { class: "refusal" }, [
    causesOf(notes, number),
    h("p", { class: "line" }, h("code", {}, line), copyButton(line, "refusal")),
    lines.map(shownLine),
    right && h("p", { class: "right" }, h("strong", {}, "A right value: "), right.example && [h("code", { class: "example" }, right.example), ", "], right.means, "."),
    hint && h("p", { class: "right" }, h("strong", {}, "Look at this: "), hint, "."),
    h("h3", {}, "What it means"),
    h("div", { class: "guide" }, rendered(REFUSALS[number]?.text ?? "")),
  ]);
}

const SYMBOLS = { "\t": "␉", "\r": "␍", "\x1a": "␚", "\x00": "␀" };
const visible = (text) => text.replace(/[\x00-\x1f\x7f-\x9f]/g, (letter) => SYMBOLS[letter] ?? "�");

// A line of a file, with the marked columns, and the numbers of columns above it.
function shownLine({ file, line, text, mark: [first, last], label, isCut }) {
  const padded = text.padEnd(last);
  const [before, marked, after] = [padded.slice(0, first - 1), padded.slice(first - 1, last), padded.slice(last)];
  const mark = h("mark", {}, visible(marked).replace(/ /g, "\u00a0"));
  const ruler = Array.from({ length: Math.ceil(padded.length / 10) }, (_, tens) => String(10 * (tens + 1)).padStart(10, "·")).join("");
  const shown = h("div", { class: "columns", tabIndex: 0, role: "group", "aria-label": `Line ${line} of ${file}` }, [
    h("div", { class: "ruler-line", "aria-hidden": "true" }, ruler.slice(0, Math.max(10, padded.length))),
    h("div", { class: "text" }, visible(before), mark, visible(after), isCut && "…"),
  ]);
  requestAnimationFrame(() => {
    shown.scrollLeft = Math.max(0, mark.offsetLeft - shown.clientWidth / 3);
  });
  return h("figure", {}, h("figcaption", {}, h("strong", {}, `${file}, line ${line}`), label ? ` — ${label}` : ""), shown);
}

export function troubleOf(sentence) {
  return h("div", { class: "refusal" }, h("p", { class: "line" }, sentence));
}
