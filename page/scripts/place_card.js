// A card on a map, at a place, with what is there. It moves with the map.
import { h } from "./dom.js";

const RIM = 8; // pixels between the card and the map's rim
const AWAY = 18; // and between the card and its place

export class PlaceCard {
  constructor(onclose) {
    this.content = h("div", { tabIndex: -1, class: "content" });
    const close = h("button", { type: "button", class: "quiet close", "aria-label": "Close", onclick: onclose }, "✕");
    const key = (event) => event.key === "Escape" && onclose();
    this.node = h("section", { class: "place-card", "aria-label": "What was chosen", hidden: true, onkeydown: key }, close, this.content);
  }

  get isOpen() {
    return !this.node.hidden;
  }

  // Opens the card beside a place of the map, which is at x and y now, in what is shown of the map.
  open(content, place, [x, y], { width, height }) {
    this.place = place;
    this.content.replaceChildren(...content);
    this.node.hidden = false;
    this.content.scrollTop = 0;
    const within = (value, most) => Math.max(RIM, Math.min(value, most - RIM));
    const [ownWidth, ownHeight] = [this.node.offsetWidth, this.node.offsetHeight];
    const isAbove = y - AWAY - ownHeight >= RIM || y > height / 2;
    const top = isAbove ? y - AWAY - ownHeight : y + AWAY;
    this.offset = [within(x - ownWidth / 2, width - ownWidth) - x, within(top, height - ownHeight) - y];
    this.moveTo([x, y]);
  }

  moveTo([x, y]) {
    this.node.style.transform = `translate(${Math.round(x + this.offset[0])}px, ${Math.round(y + this.offset[1])}px)`;
  }

  close() {
    this.node.hidden = true;
    this.content.replaceChildren();
  }
}
