// The map of one county: its chains by their classes, its landmarks, and a key. A card shows the fields of a chain that is chosen.
import { CHAIN, isBlank } from "./contents.js";
import { h } from "./dom.js";
import { fieldTable } from "./field_table.js";
import { countyLook } from "./looks.js";
import { MapView } from "./map.js";
import { LENGTHS } from "./tables.js";

const KEY = ["highway", "main road", "road", "rail", "water", "boundary", "landmark"];

// `shapes` are those of the canonical text, a Blob.
export class CountyMap {
  constructor({ text, shapes }, label) {
    this.text = text;
    if (shapes.counts["1"] === 0) {
      this.node = h("div", { class: "chart" }, h("p", { class: "empty" }, "This set has no chains, so there is nothing to draw."));
      return;
    }
    const points = shapes.landmarks.map(({ place, title }) => ({ place: shifted(place, shapes.chains.shift), title, kind: 0, subject: "landmark" }));
    this.titleOf = ({ chain, point }) => point?.title ?? shapes.titles.all[shapes.titles.ofChains[chain]];
    const onpick = (found, place, isFocused) => this.open(found, place, isFocused);
    this.map = new MapView({ chains: shapes.chains, points, look: countyLook, onpick, titleOf: this.titleOf, label });
    this.node = this.map.node;
    this.node.append(h("ul", { class: "key", "aria-label": "Key" }, KEY.map((name) => h("li", { class: `key-${name.replace(" ", "-")}` }, name))));
  }

  // Opens a card with the fields of a chain, from its line of the canonical text, or with the name of a landmark.
  async open(found, place, isFocused) {
    const rows = found.chain >= 0 ? await this.rowsOf(found.chain) : [];
    const what = found.chain >= 0 ? "chain" : "landmark";
    this.map.openCard([h("p", { class: "kind" }, what), h("h3", {}, this.titleOf(found)), rows.length ? fieldTable(rows, []) : ""], place, isFocused);
  }

  async rowsOf(chain) {
    const step = LENGTHS["1"] + 1;
    const bytes = await this.text.slice(chain * step, (chain + 1) * step - 1).arrayBuffer();
    const body = CHAIN.of(new TextDecoder("windows-1252").decode(bytes));
    const rows = CHAIN.columns.map(({ name, holds }) => ({ label: name, holds, first: CHAIN.value(body, name), second: null }));
    return rows.filter(({ first }) => !isBlank(first)).map((row) => ({ ...row, first: row.first.trim() }));
  }

  dispose() {
    this.map?.dispose();
  }
}

// A place on a map whose eastern longitudes were moved to the west.
export const shifted = ([longitude, latitude], shift) => [longitude > 0 ? longitude - shift : longitude, latitude];
