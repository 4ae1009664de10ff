// Two files of one map: the map, and how the files differ.
import { CountyMap } from "./county_map.js";
import { troubleOf } from "./card.js";
import { h, replace } from "./dom.js";
import { Assistant, engineModule } from "./jobs.js";

export class OneMap {
  constructor(shapes, panels, masks) {
    this.map = new CountyMap({ text: panels[0].result.text, shapes }, "Map of both counties");
    this.rows = h("dl", { class: "ways" }, h("p", { class: "quiet" }, "Reading the files again…"));
    this.node = h("div", { class: "compared" }, this.map.node, h("div", { class: "side" }, h("h3", {}, "How the files differ"), this.rows));
    this.read(panels, masks);
  }

  async read(panels, masks) {
    this.reader = new Assistant();
    try {
      const [counties, texts] = [panels.map(({ county }) => county), panels.map(({ result }) => result.text)];
      const ways = await this.reader.ask("compareFiles", { module: await engineModule(), counties, text: texts[0], masks });
      replace(this.rows, ways.map(({ label, text }) => h("div", {}, h("dt", {}, label), h("dd", {}, text))));
    } catch (error) {
      if (!this.isGone) replace(this.rows, troubleOf(error.message));
    }
    this.reader.end();
  }

  dispose() {
    this.isGone = true;
    this.reader.end();
    this.map.dispose();
  }
}
