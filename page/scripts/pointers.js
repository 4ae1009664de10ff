// What pointers do on a map: they move and zoom it, choose what they click, and show what they are at.

const CLICK = 4; // pixels that a pointer may move in a click
const SHOWN = 2500; // milliseconds that a hint is shown

export class Pointers {
  // `map` has move, zoom and pick, and titleAt, the title of what is at a place.
  constructor(map, frame, tip) {
    Object.assign(this, { map, frame, tip, pressed: new Map() });
    const on = (name, listener, options) => frame.addEventListener(name, listener, options);
    on("wheel", (event) => this.turn(event), { passive: false });
    on("pointerdown", (event) => this.press(event));
    on("pointermove", (event) => (this.pressed.size ? this.drag(event) : this.hover(event)));
    on("pointerup", (event) => this.release(event));
    on("pointercancel", (event) => this.cancel(event));
    on("pointerleave", () => this.show(""));
    // One finger scrolls the page past the map, if the page can be scrolled. Two fingers are the map's.
    on("touchmove", (event) => event.touches.length > 1 && event.cancelable && event.preventDefault(), { passive: false });
  }

  at(event) {
    const { left, top } = this.frame.getBoundingClientRect();
    return [event.clientX - left, event.clientY - top];
  }

  turn(event) {
    event.preventDefault();
    this.map.zoom(Math.exp(-event.deltaY * (event.deltaMode ? 0.05 : 0.002)), ...this.at(event));
  }

  press(event) {
    if (event.target.closest("button") || event.button !== 0) return;
    this.frame.setPointerCapture(event.pointerId);
    this.pressed.set(event.pointerId, this.at(event));
    this.pressedAt = this.at(event);
    this.show("");
  }

  get isScrolledByOneFinger() {
    return getComputedStyle(this.frame).touchAction !== "none";
  }

  drag(event) {
    const before = this.pressed.get(event.pointerId);
    if (!before) return;
    const now = this.at(event);
    const other = [...this.pressed].find(([id]) => id !== event.pointerId)?.[1];
    this.pressed.set(event.pointerId, now);
    if (other) this.pinch(before, now, other);
    else if (event.pointerType !== "touch" || !this.isScrolledByOneFinger) this.map.move(now[0] - before[0], now[1] - before[1]);
  }

  // Moves and zooms the map by two fingers, one of which stays.
  pinch(before, now, other) {
    const length = (from) => Math.hypot(from[0] - other[0], from[1] - other[1]);
    this.map.move((now[0] - before[0]) / 2, (now[1] - before[1]) / 2);
    this.map.zoom(length(now) / Math.max(1, length(before)), (now[0] + other[0]) / 2, (now[1] + other[1]) / 2);
  }

  release(event) {
    if (!this.pressed.delete(event.pointerId)) return;
    const now = this.at(event);
    if (Math.hypot(now[0] - this.pressedAt[0], now[1] - this.pressedAt[1]) <= CLICK) this.map.pick(...now);
  }

  // The browser took the finger to scroll the page.
  cancel(event) {
    if (!this.pressed.delete(event.pointerId) || event.pointerType !== "touch") return;
    this.show("Two fingers move the map", this.pressedAt);
    clearTimeout(this.hint);
    this.hint = setTimeout(() => this.show(""), SHOWN);
  }

  hover(event) {
    if (event.target.closest("button") || event.pointerType === "touch") return;
    this.show(this.map.titleAt(...this.at(event)), this.at(event));
  }

  // Shows a title beside a place, or hides it.
  show(title, [x, y] = [0, 0]) {
    this.tip.hidden = !title;
    if (!title) return;
    this.tip.textContent = title;
    this.tip.style.transform = `translate(${Math.min(x + 12, this.frame.clientWidth - this.tip.offsetWidth - 4)}px, ${Math.max(4, y - 34)}px)`;
  }
}
