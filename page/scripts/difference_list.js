// The list of differences, which is asked of the worker in pieces.
import { counted } from "./numbers.js";
import { h, replace } from "./dom.js";
import { kindText } from "./difference_card.js";
import { KIND_CLASSES, KIND_SIGNS } from "./kinds.js";

const PATIENCE = 200; // milliseconds after the last letter of a filter
const MOST_PRINTED = 2000;

export class DifferenceList {
  // onchoose is called with an entry, its item of the list, and whether it was chosen by the keyboard.
  constructor({ total, ask, hidden, onchoose }) {
    Object.assign(this, { total, ask, hidden, onchoose, items: new Map(), from: 0, asked: 0 });
    this.filter = h("input", { type: "search", id: "filter", autocomplete: "off", spellcheck: false, placeholder: "name, TLID, field or value", oninput: () => this.refreshSoon() });
    this.status = h("p", { class: "quiet listed", role: "status" });
    this.printed = h("p", { class: "printed" });
    this.list = h("ol", { class: "differences", "aria-label": "Differences", onkeydown: (event) => this.key(event) });
    this.more = h("button", { type: "button", class: "more", hidden: true, onclick: () => this.loadMore() });
    this.node = h("div", { class: "list" }, [
      h("p", { class: "filter" }, h("label", { for: "filter" }, "Only those with"), this.filter, this.status),
      this.printed, this.list, this.more,
    ]);
    this.refresh();
  }

  refreshSoon() {
    clearTimeout(this.timer);
    this.timer = setTimeout(() => this.refresh(), PATIENCE);
  }

  // Lists what isn't hidden, from the beginning.
  refresh(hidden = this.hidden) {
    this.hidden = hidden;
    return this.load({ from: 0 });
  }

  pieceOf({ from, most }) {
    return this.ask("list", { text: this.filter.value, hidden: this.hidden, from, most });
  }

  async load({ from, most }) {
    this.asked += 1;
    const { asked } = this;
    const { count, piece } = await this.pieceOf({ from, most });
    if (asked !== this.asked) return [];
    if (from === 0) {
      this.items.clear();
      replace(this.list);
    }
    const items = piece.map((entry) => this.item(entry));
    this.list.append(...items);
    this.from = from + piece.length;
    this.count = count;
    if (from === 0 && items.length) this.reach(items[0]);
    this.showCounts();
    return items;
  }

  async loadMore() {
    const [first] = await this.load({ from: this.from });
    first?.firstElementChild.focus();
  }

  // Lists as much as is printed.
  async loadForPrinting() {
    if (this.from < Math.min(this.count, MOST_PRINTED)) await this.load({ from: this.from, most: MOST_PRINTED - this.from });
  }

  showCounts() {
    const left = this.count - this.from;
    this.more.hidden = left === 0;
    this.more.textContent = `Show more of ${counted(left)}`;
    this.status.textContent = this.count === this.total ? `${counted(this.count)} in all` : `${counted(this.count)} of ${counted(this.total)}`;
    const listed = this.count === this.total ? `all ${counted(this.count)} differences` : `the ${counted(this.count)} of ${counted(this.total)} differences that were listed`;
    const which = left ? `the first ${counted(this.from)} of ${listed}` : listed;
    this.printed.textContent = `Printed: ${which}, and of each at most three fields. The saved GeoJSON has all differences and all fields.`;
  }

  item(entry) {
    const { kind, title, number } = entry;
    const button = h("button", { type: "button", tabIndex: -1, onclick: (event) => this.onchoose(entry, item, event.detail === 0) }, [
      h("span", { class: `sign ${KIND_CLASSES[kind]}`, "aria-hidden": "true" }, KIND_SIGNS[kind]),
      h("span", { class: "told" }, [
        h("span", { class: "line" }, [
          h("span", {}, h("span", { class: "name" }, title), h("span", { class: "quiet" }, ` ${kindText(entry)}`)),
          h("span", { class: "numbers quiet" }, entry.numbers),
        ]),
        linesOf(entry).map((line) => h("span", { class: entry.changes.length ? "rest" : "rest about" }, line)),
      ]),
    ]);
    const item = h("li", {}, button);
    this.items.set(number, item);
    return item;
  }

  // Shows the numbers of what is listed, which came after the list.
  async showNumbers() {
    const { piece } = await this.pieceOf({ from: 0, most: this.from });
    for (const { number, numbers } of piece) {
      const place = this.items.get(number)?.querySelector(".numbers");
      if (place) place.textContent = numbers;
    }
  }

  // Makes an item the one that the tabulator key comes to.
  reach(item) {
    for (const button of this.list.querySelectorAll('li > button[tabindex="0"]')) button.tabIndex = -1;
    item.firstElementChild.tabIndex = 0;
  }

  key(event) {
    const item = event.target.closest(".differences > li");
    if (!item || event.target !== item.firstElementChild) return;
    const next = { ArrowDown: item.nextElementSibling, ArrowUp: item.previousElementSibling, Home: this.list.firstElementChild, End: this.list.lastElementChild }[event.key];
    if (!next) return;
    event.preventDefault();
    this.reach(next);
    next.firstElementChild.focus();
  }

  // Marks the item of an entry as the present one, and shows it in the list if it is there.
  mark(number) {
    this.list.querySelector("[aria-current]")?.removeAttribute("aria-current");
    const item = this.items.get(number);
    if (!item) return;
    item.firstElementChild.setAttribute("aria-current", "true");
    this.reach(item);
    const [top, bottom] = [item.offsetTop, item.offsetTop + item.offsetHeight];
    const { scrollTop, clientHeight } = this.list;
    if (top < scrollTop) this.list.scrollTop = top;
    else if (bottom > scrollTop + clientHeight) this.list.scrollTop = bottom - clientHeight;
  }
}

// What the list shows below a title: the fields that changed, with both values, or else where the thing is.
function linesOf({ changes, more, about }) {
  const lines = changes.map(({ label, first, second }) => [h("b", {}, label), ` ${first} → ${second}`]);
  if (more > 0) lines.push([`and ${more} more field${more === 1 ? "" : "s"}`]);
  return lines.length ? lines : [[about]];
}
