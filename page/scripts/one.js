// One county: its result, and its map.
import { counted } from "./numbers.js";
import { CountyMap } from "./county_map.js";
import { h, replace, save, sizeText } from "./dom.js";
import { CountyPanel } from "./county_panel.js";
import { canonicalName } from "./names.js";

const CONTENTS_SHOWN = [["1", "chains"], ["5", "feature names"], ["6", "further address ranges"], ["7", "landmarks"], ["P", "polygons"]];

export class OneCounty {
  constructor(county, masks, actions) {
    this.actions = actions;
    this.panel = new CountyPanel(county, masks, () => this.finish(), true);
    this.aside = h("div", { class: "facts" }, this.panel.node);
    this.place = h("div", { class: "rest-box" });
    this.node = h("div", { class: "one" }, this.aside, this.place);
  }

  start() {
    this.panel.judge();
  }

  finish() {
    const { panel } = this;
    this.node.classList.toggle("refused", !panel.isAccepted);
    const other = h("button", { type: "button", onclick: this.actions.addSecond }, "Compare with another county…");
    if (!panel.isAccepted) {
      this.aside.append(h("div", { class: "actions" }, h("button", { type: "button", class: "main", onclick: this.actions.addFirst }, "Choose another file…")));
      return;
    }
    const { size, text, shapes } = panel.result;
    const keep = h("button", { type: "button", class: "main", onclick: () => save(canonicalName(panel.county.stem), text) }, [
      "Save canonical text ", h("span", { class: "size" }, sizeText(size)),
    ]);
    panel.body.append(h("div", { class: "actions" }, keep, other), this.contents(shapes.counts));
    this.map = new CountyMap(panel.result, "Map of the county");
    replace(this.place, this.map.node);
  }

  get isRefused() {
    return this.panel.isDone && !this.panel.isAccepted;
  }

  contents(counts) {
    const rows = CONTENTS_SHOWN.map(([type, what]) => h("div", {}, h("dt", {}, what), h("dd", {}, counted(counts[type]))));
    const all = Object.values(counts).reduce((sum, count) => sum + count, 0);
    return h("div", {}, h("h3", {}, "Contents"), h("dl", { class: "counts" }, rows, h("div", {}, h("dt", {}, "records in all"), h("dd", {}, counted(all)))));
  }

  dispose() {
    this.panel.dispose();
    this.map?.dispose();
  }
}
