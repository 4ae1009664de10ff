// The table of many counties: sorted by its columns, and filtered by words. At first those that were refused or failed come first.
import { badge } from "./card.js";
import { counted } from "./numbers.js";
import { h, replace } from "./dom.js";
import { shownName } from "./names.js";

const COLUMN_HEADS = ["County", "Result", "Fingerprint or refusal", "Notes"];

const collator = new Intl.Collator("en", { numeric: true });
const textOf = (row, column) => row.cells[column].textContent;
const hasFault = (row) => row.dataset.fault === "yes";

export class CountyTable {
  constructor(names) {
    this.rows = new Map();
    this.body = h("tbody", {});
    for (const name of names) this.add(name, "busy", "Waiting");
    this.heads = COLUMN_HEADS.map((text, column) => h("th", { scope: "col" }, h("button", { type: "button", class: "sort", onclick: () => this.sortBy(column) }, text)));
    this.filter = h("input", { type: "search", id: "county-filter", autocomplete: "off", spellcheck: false, placeholder: "name, result, fingerprint or note", oninput: () => this.showFiltered() });
    this.status = h("span", { class: "quiet listed", role: "status" });
    const table = h("table", { class: "counties" }, h("thead", {}, h("tr", {}, this.heads)), this.body);
    this.node = h("div", { class: "county-table" }, [
      h("p", { class: "filter" }, h("label", { for: "county-filter" }, "Only those with"), this.filter, this.status),
      h("div", { class: "scroll", tabIndex: 0, role: "region", "aria-label": "Table of counties" }, table),
    ]);
  }

  add(name, kind, text) {
    const row = h("tr", {}, h("th", { scope: "row" }, shownName(name)), h("td", {}, badge(kind, text)), h("td", {}), h("td", {}));
    this.rows.set(name, row);
    this.body.append(row);
    return row;
  }

  cells(name) {
    return this.rows.get(name).cells;
  }

  // Shows a result. A row with a fault goes to the upper end.
  setResult(name, kind, text) {
    const row = this.rows.get(name);
    replace(row.cells[1], badge(kind, text));
    const isFault = kind === "refused";
    if (isFault && !hasFault(row)) this.body.prepend(row);
    row.dataset.fault = isFault ? "yes" : "";
  }

  // The order of the beginning: faults first, and then by names.
  order() {
    this.arrange((one, other) => hasFault(other) - hasFault(one) || collator.compare(textOf(one, 0), textOf(other, 0)));
    this.showFiltered();
  }

  // Sorts by a column, and the other way round if it was sorted by that.
  sortBy(column) {
    const isDescending = this.heads[column].getAttribute("aria-sort") === "ascending";
    for (const head of this.heads) head.removeAttribute("aria-sort");
    this.heads[column].setAttribute("aria-sort", isDescending ? "descending" : "ascending");
    const factor = isDescending ? -1 : 1;
    this.arrange((one, other) => factor * collator.compare(textOf(one, column), textOf(other, column)));
  }

  arrange(compare) {
    replace(this.body, [...this.rows.values()].sort(compare));
  }

  showFiltered() {
    const words = this.filter.value.toLowerCase().split(/\s+/).filter(Boolean);
    let count = 0;
    for (const row of this.rows.values()) {
      const text = row.textContent.toLowerCase();
      row.hidden = !words.every((word) => text.includes(word));
      count += Number(!row.hidden);
    }
    this.status.textContent = words.length ? `${counted(count)} of ${counted(this.rows.size)}` : "";
  }
}
