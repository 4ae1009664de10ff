// A county on the page: judged in a worker, and shown with its stages, then with its result.
import { badge, fingerprintOf, notesOf, refusalShown, Stages, troubleOf } from "./card.js";
import { announce, h, replace } from "./dom.js";
import { job } from "./jobs.js";
import { baseOf, shownName } from "./names.js";

const STEPS = ["reading", "unpacking", "judging", "fingerprint", "map"];

// Calls `done` with the panel when there is a result. The panel then has { result } or { trouble }. A county that isn't shown alone has no
// map of its own.
export class CountyPanel {
  constructor(county, masks, done, isAlone = false) {
    Object.assign(this, { county, masks, done, isAlone, ordinal: "" });
    this.head = h("div", { class: "head" });
    this.body = h("div", { class: "body" });
    this.name = shownName(county.stem);
    this.node = h("section", { class: "card", "aria-label": this.name }, this.head, this.body);
  }

  async judge() {
    const { county, masks, isAlone } = this;
    const steps = STEPS.filter((step) => (county.zip || step !== "unpacking") && (isAlone || step !== "map"));
    const stages = new Stages(steps, () => this.assistant?.end());
    replace(this.head, this.title(badge("busy", "Working")));
    replace(this.body, stages.node);
    announce(`${this.name}: judging`);
    try {
      this.result = await job("judge", { county, masks, isAlone }, (stage) => stages.at(stage), (assistant) => {
        this.assistant = assistant;
      });
    } catch (error) {
      this.trouble = error.message;
    }
    if (this.isGone) return;
    this.show();
    this.done(this);
  }

  get isDone() {
    return Boolean(this.result || this.trouble);
  }

  get isAccepted() {
    return Boolean(this.result?.isAccepted);
  }

  title(state) {
    const name = h("h2", {}, this.ordinal && h("span", { class: `ordinal ${this.ordinal}` }, this.ordinal), h("bdi", {}, baseOf(this.name) || this.name));
    return h("div", { class: "title" }, name, state);
  }

  show() {
    if (this.trouble) this.showTrouble();
    else if (this.result.isAccepted) this.showAccepted();
    else this.showRefused();
  }

  showTrouble() {
    replace(this.head, this.title(badge("refused", "Failed")));
    replace(this.body, troubleOf(this.trouble));
    announce(`${this.name}: ${this.trouble}`);
  }

  showAccepted() {
    replace(this.head, this.title(badge("accepted", "Accepted")));
    replace(this.body, fingerprintOf(this.result.fingerprint, this.masks, this.ordinal ? undefined : "fingerprint"), notesOf(this.result.notes));
    announce(`${this.name}: accepted. Fingerprint ${this.result.fingerprint.slice(0, 8)}`);
  }

  showRefused() {
    replace(this.head, this.title(badge("refused", "Refused")));
    replace(this.body, refusalShown(this.result));
    announce(`${this.name}: ${this.result.line}`);
  }

  dispose() {
    this.isGone = true;
    this.assistant?.end();
  }
}
