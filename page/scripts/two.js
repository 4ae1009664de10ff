// Two counties: whether they are one map; where they differ, or how their files differ although they are one map.
import { badge, notesOf, Stages, troubleOf } from "./card.js";
import { pageWith } from "./carried.js";
import { CountyPanel } from "./county_panel.js";
import { Differing } from "./differing.js";
import { announce, copyButton, h, replace, save } from "./dom.js";
import { Assistant } from "./jobs.js";
import { KIND_CLASSES } from "./kinds.js";
import { flagsOf, leftOut } from "./manifests.js";
import { baseOf, plainName, shownName } from "./names.js";
import { counted } from "./numbers.js";
import { OneMap } from "./one_map.js";

const COUNTED = { chain: "chain", landmark: "landmark", polygon: "polygon", "feature name": "name" };

export class TwoCounties {
  constructor(counties, masks) {
    Object.assign(this, { counties, masks });
    this.panels = counties.map((county) => new CountyPanel(county, masks, () => this.finishOne()));
    this.verdict = h("div", { class: "verdict" });
    this.sets = h("div", { class: "sets-box" });
    this.pair = h("div", { class: "pair" });
    this.rest = h("div", { class: "rest-box" });
    this.node = h("div", { class: "two" }, h("div", { class: "top" }, this.verdict, this.sets), this.pair, this.rest);
    this.order();
  }

  // Names the panels by their order.
  order() {
    this.panels.forEach((panel, place) => {
      panel.ordinal = KIND_CLASSES[place];
    });
    replace(this.pair, this.panels.map((panel) => panel.node));
  }

  start() {
    for (const panel of this.panels) panel.judge();
  }

  finishOne() {
    if (!this.panels.every((panel) => panel.isDone)) return;
    if (this.panels.every((panel) => panel.isAccepted)) this.compare();
    else this.tell("They can't be compared: not both are accepted.");
  }

  tell(sentence) {
    replace(this.verdict, h("p", { class: "none" }, sentence));
    announce(sentence);
  }

  async compare() {
    const stages = new Stages(["comparing", "matching", "map"], () => this.assistant.end());
    replace(this.verdict, stages.node);
    this.assistant = new Assistant((stage) => (this.shown?.onstage ?? ((each) => stages.at(each)))(stage));
    try {
      const [texts, columns] = ["text", "columns"].map((name) => this.panels.map(({ result }) => result[name]));
      this.found = await this.assistant.ask("compareTexts", { texts, columns });
    } catch (error) {
      if (!this.isGone) replace(this.verdict, troubleOf(error.message));
      return;
    }
    if (!this.isGone) this.show();
  }

  show() {
    const { areOneMap, tooLarge } = this.found;
    const without = leftOut(this.masks);
    const text = `${areOneMap ? "Same map" : "Different maps"}${without ? `, leaving out ${without}` : ""}`;
    const why = areOneMap ? "Both canonical texts are equal, byte for byte." : (tooLarge ?? sentenceOf(this.found));
    replace(this.verdict, h("h2", {}, badge(areOneMap ? "accepted" : "differ", text)), h("p", {}, why));
    announce(`${text}. ${why}`);
    replace(this.pair);
    replace(this.sets, this.setsTable(), this.panels.map((panel) => notesOf(panel.result.notes, shownName(panel.county.stem))));
    if (tooLarge) return;
    this.shown = areOneMap ? new OneMap(this.found.shapes, this.panels, this.masks) : new Differing(this.found, this.assistant, this.panels, this.masks);
    replace(this.rest, this.shown.node);
    document.body.classList.add("one-screen");
  }

  // Both sets with their fingerprints, and what was compared.
  setsTable() {
    const rows = this.panels.map(({ county, result }, place) => h("tr", {}, [
      h("th", { scope: "row", class: KIND_CLASSES[place] }, KIND_CLASSES[place]),
      h("td", { class: "name" }, h("bdi", { title: shownName(county.stem) }, shownName(baseOf(county.stem)))),
      h("td", {}, h("code", { class: "fingerprint" }, result.fingerprint)),
      h("td", {}, copyButton(result.fingerprint, `${KIND_CLASSES[place]} fingerprint`)),
    ]));
    const without = leftOut(this.masks);
    const what = without ? `all fields but ${without} (${flagsOf(this.masks).join(" ")})` : "all fields";
    const exchange = h("button", { type: "button", class: "quiet", onclick: () => this.exchange() }, "⇄ Exchange first and second");
    const keep = h("button", { type: "button", class: "quiet", onclick: () => this.save() }, "Save this comparison");
    return h("table", { class: "sets" }, h("tbody", {}, rows, h("tr", {}, h("th", { scope: "row" }, "compared"), h("td", {}, what), h("td", { colSpan: 2 }, exchange, keep))));
  }

  // Saves the page with both counties in it, which compares them wherever it is opened.
  async save() {
    const { counties, masks, panels } = this;
    try {
      const page = await pageWith(counties, panels.map(({ result }) => result.fingerprint), masks);
      save(`${counties.map(({ stem }) => plainName(stem)).join("-")}.html`, page);
      announce("Comparison saved");
    } catch (error) {
      this.sets.append(troubleOf(error.message));
    }
  }

  // Compares them the other way round.
  exchange() {
    this.end();
    this.counties.reverse();
    this.panels.reverse();
    this.order();
    replace(this.rest);
    this.compare();
  }

  end() {
    this.assistant?.end();
    this.shown?.dispose();
    this.shown = undefined;
    document.body.classList.remove("one-screen");
  }

  dispose() {
    this.isGone = true;
    for (const panel of this.panels) panel.dispose();
    this.end();
  }
}

// How many things of each subject differ, in a sentence.
export function sentenceOf({ verdict, counts, subjects, ties }) {
  const numbers = subjects.map((subject) => [COUNTED[subject], counts[subject].slice(0, 3).reduce((sum, count) => sum + count, 0)]);
  const parts = numbers.filter(([, count]) => count > 0).map(([name, count]) => `${counted(count)} ${name}${count === 1 ? "" : "s"}`);
  const joined = ties ? `${counted(ties)} joined differently` : "";
  if (!parts.length) return `${verdict || "The canonical texts differ."}${joined ? ` ${joined[0].toUpperCase()}${joined.slice(1)}.` : ""}`;
  const last = parts.pop();
  const isOne = !parts.length && last.startsWith("1 ");
  return `${parts.length ? `${parts.join(", ")} and ${last}` : last} differ${isOne ? "s" : ""}${joined ? `, ${joined}` : ""}.`;
}
