// The table of how many things of each subject are of each kind, with a key and a switch for each.
import { counted } from "./numbers.js";
import { h } from "./dom.js";
import { ALIKE, CHANGED, keyOfKind } from "./kinds.js";
import { swatchOf } from "./marks.js";

// Marks are shown at first unless there are so many that nothing else would be seen.
const MOST_ALIKE = 500;
const MOST_MARKS = 5000;

const HEADS = { chain: "chains", landmark: "landmarks", polygon: "polygons", "feature name": "names" };

const isName = (subject) => subject === "feature name";

// Whether there is something to show or hide, on the map or in the list.
const isSwitched = (subject, kind, count) => count > 0 && !(isName(subject) && kind === ALIKE);

export function isShownAtFirst(subject, kind, count) {
  if (kind !== ALIKE) return subject === "chain" || count <= MOST_MARKS;
  return subject === "chain" || (subject === "landmark" && count <= MOST_ALIKE);
}

export class KindsTable {
  // onchange is called with the keys of what is hidden, and with the key that was switched.
  constructor({ kinds, subjects, counts, ties }, onchange) {
    Object.assign(this, { kinds, counts, onchange, hidden: new Set() });
    const heads = subjects.map((subject) => h("th", { scope: "col" }, HEADS[subject]));
    const rows = kinds.map((name, kind) => h("tr", {}, h("th", { scope: "row" }, swatchOf(kind), name), subjects.map((subject) => this.cell(subject, kind))));
    this.node = h("div", { class: "kinds-box" }, [
      h("table", { class: "kinds" }, h("thead", {}, h("tr", {}, h("td", {}), heads)), h("tbody", {}, rows)),
      ties > 0 && h("p", { class: "quiet" }, `Joined differently: ${counted(ties)}.`),
    ]);
  }

  cell(subject, kind) {
    const count = this.counts[subject][kind];
    if (isName(subject) && kind === CHANGED) return h("td", { class: "zero" }, "–");
    if (!isSwitched(subject, kind, count)) return h("td", { class: count ? "" : "zero" }, counted(count));
    const checked = isShownAtFirst(subject, kind, count);
    if (!checked) this.hidden.add(keyOfKind(subject, kind));
    const label = `${HEADS[subject]} ${this.kinds[kind]}: ${counted(count)}`;
    const box = h("input", { type: "checkbox", checked, "aria-label": label, onchange: () => this.toggle(keyOfKind(subject, kind), box.checked) });
    return h("td", {}, h("label", {}, box, counted(count)));
  }

  toggle(key, isShown) {
    if (isShown) this.hidden.delete(key);
    else this.hidden.add(key);
    this.onchange([...this.hidden], key);
  }
}
