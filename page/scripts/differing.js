// Where two maps differ: a map of both, the table of the kinds, and the list of differences.
import { Stages, troubleOf } from "./card.js";
import { announce, h, replace, save } from "./dom.js";
import { shifted } from "./county_map.js";
import { differenceCard } from "./difference_card.js";
import { DifferenceList } from "./difference_list.js";
import { Assistant, engineModule } from "./jobs.js";
import { ALIKE, keyOfKind } from "./kinds.js";
import { KindsTable } from "./kinds_table.js";
import { differencesLook } from "./looks.js";
import { MapView } from "./map.js";
import { plainName } from "./names.js";

const ALIKE_POLYGONS = keyOfKind("polygon", ALIKE);

export class Differing {
  // `assistant` has found the differences. `sets` are the counties with their results.
  constructor(found, assistant, sets, masks) {
    Object.assign(this, { found, assistant, sets, masks });
    this.wide = matchMedia("(min-width: 64.01rem)");
    this.showMap();
    this.kinds = new KindsTable(found, (hidden, key) => this.hide(hidden, key));
    this.map.hide(this.kinds.hidden);
    const onchoose = (entry, item, isFocused) => this.openItem(entry, item, isFocused);
    const ask = (job, question) => this.ask(job, question);
    this.list = new DifferenceList({ total: found.total, ask, hidden: [...this.kinds.hidden], onchoose });
    this.side = h("div", { class: "side" }, this.kinds.node, this.list.node, this.actions());
    this.node = h("div", { class: "compared" }, this.map.node, this.side);
    this.readNumbers();
  }

  showMap() {
    const { chains, points, titles, entries, firstEntry } = this.found.shapes;
    this.entryOf = (found) => (found.point ? found.point.entry : entries[found.chain - firstEntry]);
    this.places = points.map((point) => ({ ...point, place: shifted(point.place, chains.shift) }));
    const titleOf = (found) => found.point?.title ?? titles.all[titles.ofChains[found.chain]] ?? "";
    this.map = new MapView({
      chains, points: this.places, look: differencesLook, titleOf, label: "Map of both counties",
      onpick: (found, place, isFocused) => this.openFound(found, place, isFocused),
      onclose: (hadFocus) => this.closed(hadFocus),
    });
  }

  // The worker's answer. If it has none, the reason is shown, unless the comparison is gone, and what waits for the answer goes no further.
  async ask(job, question) {
    try {
      return await this.assistant.ask(job, question);
    } catch (error) {
      if (!this.isGone) replace(this.state, troubleOf(error.message));
      return new Promise(() => {});
    }
  }

  async hide(hidden, key) {
    if (key === ALIKE_POLYGONS && !this.hasAlikePolygons) {
      this.hasAlikePolygons = true;
      const points = await this.ask("alikePolygons");
      this.map.addPoints(points.map((point) => ({ ...point, place: shifted(point.place, this.found.shapes.chains.shift) })));
    }
    this.map.hide(hidden);
    this.list.refresh(hidden);
  }

  // Reads the numbers that things have in the files of both sets, and shows them.
  async readNumbers() {
    this.reader = new Assistant();
    try {
      const texts = this.sets.map(({ result }) => result.text);
      const counties = this.sets.map(({ county }) => county);
      const numbers = await this.reader.ask("numbersOf", { module: await engineModule(), counties, texts, masks: this.masks, wanted: this.found.wanted });
      await this.assistant.ask("takeNumbers", { numbers });
      await this.list.showNumbers();
      this.node.dataset.numbered = "yes";
    } catch (error) {
      if (!this.isGone) this.list.node.append(h("p", { class: "quiet" }, `The numbers in the files can't be shown. ${error.message}`));
    }
    this.reader.end();
  }

  // Opens what was chosen on the map in a card there.
  async openFound(found, place, isFocused) {
    const number = this.entryOf(found);
    this.closeInside();
    this.list.mark(number);
    const entry = await this.detailsOf(found, number);
    this.map.openCard(differenceCard(entry), place, isFocused);
  }

  detailsOf(found, number) {
    if (number !== undefined) return this.ask("details", { number });
    if (found.point) return { what: found.point.subject, kind: ALIKE, title: found.point.title, about: "", numbers: "", rows: [] };
    return this.ask("detailsOfAlike", { chain: found.chain });
  }

  // Opens an entry of the list: in a card on the map, or, where there is no place for one, in the list.
  async openItem(entry, item, isFocused) {
    const isOpen = this.opened === item;
    this.closeInside();
    this.map.closeCard();
    if (isOpen) return;
    this.list.mark(entry.number);
    const places = entry.places.map((place) => shifted(place, this.found.shapes.chains.shift));
    if (places.length) this.showOnMap(entry, places);
    const content = differenceCard(await this.ask("details", { number: entry.number }));
    if (places.length && this.wide.matches) this.map.openCard(content, northernmost(places), isFocused);
    else this.openInside(item, content);
  }

  showOnMap(entry, places) {
    const { entries, firstEntry } = this.found.shapes;
    const chain = entries.indexOf(entry.number);
    const point = this.places.find((each) => each.entry === entry.number);
    this.map.showPlaces(places);
    this.map.choose(chain >= 0 ? { chain: chain + firstEntry } : { point });
  }

  openInside(item, content) {
    this.opened = item;
    item.firstElementChild.setAttribute("aria-expanded", "true");
    item.append(h("div", { class: "inside", onkeydown: (event) => event.key === "Escape" && this.closeInside() }, content));
  }

  closeInside() {
    this.opened?.querySelector(".inside")?.remove();
    this.opened?.firstElementChild.setAttribute("aria-expanded", "false");
    this.opened = undefined;
  }

  // After a card was closed the focus goes back to the list, if the card was opened there.
  closed(hadFocus) {
    const current = this.list.list.querySelector("[aria-current]");
    if (!hadFocus || !current) return false;
    current.focus();
    return true;
  }

  actions() {
    this.withAlike = h("input", { type: "checkbox", id: "with-alike" });
    this.state = h("div", {});
    const button = h("button", { type: "button", class: "main", onclick: () => this.save(button) }, "Save as GeoJSON");
    const label = h("label", { for: "with-alike" }, this.withAlike, "with what is alike");
    return h("div", { class: "actions" }, button, label, h("button", { type: "button", onclick: () => this.print() }, "Print…"), this.state);
  }

  async print() {
    await this.list.loadForPrinting();
    print();
  }

  async save(button) {
    button.disabled = true;
    const stages = new Stages(["reading again", "writing"]);
    replace(this.state, stages.node);
    this.onstage = (stage) => stages.at(stage);
    try {
      const sets = this.sets.map(({ county, result }) => ({ name: county.stem, fingerprint: result.fingerprint }));
      const counties = this.sets.map(({ county }) => county);
      const { text } = await this.assistant.ask("saveDifferences", {
        module: await engineModule(), counties, sets, masks: this.masks, withAlike: this.withAlike.checked,
      });
      save(`${counties.map(({ stem }) => plainName(stem)).join("-")}.geojson`, text);
      replace(this.state);
      announce("GeoJSON saved");
    } catch (error) {
      replace(this.state, troubleOf(error.message));
    }
    button.disabled = false;
  }

  dispose() {
    this.isGone = true;
    this.reader.end();
    this.map.dispose();
  }
}

const northernmost = (places) => places.reduce((best, place) => (place[1] > best[1] ? place : best));
