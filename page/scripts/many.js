// Many counties: a table with the result of each, to be saved as a manifest, and compared with one.
import { troubleOf } from "./card.js";
import { countyIn, doublesAmong, endingsOf } from "./counties.js";
import { CountyTable } from "./county_table.js";
import { counted } from "./numbers.js";
import { announce, h, replace, save, sizeText } from "./dom.js";
import { Crew } from "./jobs.js";
import { groupedBy } from "./grouping.js";
import { flagsOf, manifestOf, readManifest, verified } from "./manifests.js";
import { foldedName, shownName } from "./names.js";
import { Queue, STOPPED, weightOf } from "./queue.js";

const SHOWN_DIGITS = 16;
const UNCHECKED = "not checked yet"; // what a manifest has of a county that wasn't reached
const KINDS_OF_STATES = { OK: "accepted", NEW: "busy", REFUSED: "busy", ACCEPTED: "busy", FAILED: "refused", MISSING: "refused" };

const digitsOf = (fingerprint) => h("code", { title: fingerprint }, `${fingerprint.slice(0, SHOWN_DIGITS)}…`);

export class ManyCounties {
  constructor({ counties, manifests, skipped }, masks, actions) {
    Object.assign(this, { counties, manifests, skipped, masks, actions, crew: new Crew() });
    this.counts = { accepted: 0, refused: 0, troubled: 0 };
    this.summary = h("p", { class: "summary" });
    this.bar = h("progress", { "aria-label": "Counties judged", max: counties.length });
    const stop = h("button", { type: "button", class: "quiet", onclick: () => this.queue.stop() }, "Stop");
    this.notes = h("div", {});
    this.table = new CountyTable(counties.map(({ stem }) => stem));
    this.actionRow = h("div", { class: "actions" });
    this.node = h("div", { class: "many" }, [
      h("h2", {}, "Counties"),
      h("div", { class: "bar" }, this.bar, stop),
      this.summary, this.notes, this.actionRow, this.table.node,
    ]);
  }

  async start() {
    await this.readManifests();
    await this.takeListed();
    if (this.isGone) return;
    this.queue = new Queue(this.counties, this.masks, (task, masks) => this.judge(task, masks));
    this.showSummary();
    for await (const task of this.queue.ended()) {
      if (this.isGone) return;
      this.showResult(task);
      this.showSummary();
    }
    if (!this.isGone) this.finish();
  }

  // Takes the last manifest that can be read. Its flags are those of the fingerprints that it is compared with.
  async readManifests() {
    for (const { path, file } of this.manifests) {
      try {
        this.manifest = { name: path, ...readManifest(await file.text()) };
      } catch (error) {
        this.notes.append(troubleOf(`${path}: ${error.message}.`));
      }
    }
    if (!this.manifest || this.isGone) return;
    if (this.manifests.length > 1) this.notes.append(troubleOf(`There are ${this.manifests.length} manifests; ${this.manifest.name} is compared.`));
    this.masks = this.manifest.masks;
    this.actions.fixMasks(this.masks);
  }

  // Takes files that were skipped, although the manifest lists them.
  async takeListed() {
    const listed = new Set(this.manifest?.counties.map(({ stem }) => foldedName(stem)));
    const found = await Promise.all(this.skipped.map((given) => listed.has(foldedName(given.path)) && countyIn(given, true)));
    this.skipped = this.skipped.filter((_, place) => !found[place]);
    const more = found.filter(Boolean);
    for (const { stem } of more) this.table.add(stem, "busy", "Waiting");
    this.counties = [...this.counties, ...more];
    this.bar.max = this.counties.length;
  }

  judge(task, masks) {
    this.table.setResult(task.county.stem, "busy", "Judging");
    return this.crew.job("judgeOfMany", { county: task.county, masks }, weightOf(task.county), (assistant) => {
      task.assistant = assistant;
    });
  }

  showResult({ county, result, trouble }) {
    const cells = this.table.cells(county.stem);
    const open = h("button", { type: "button", class: "link", onclick: () => this.actions.open(county) }, shownName(county.stem));
    replace(cells[0], open);
    const [count, kind, text] = trouble ? ["troubled", "refused", "Failed"] : result.isAccepted ? ["accepted", "accepted", "Accepted"] : ["refused", "refused", "Refused"];
    this.counts[count] += 1;
    this.table.setResult(county.stem, kind, text);
    replace(cells[2], result?.isAccepted ? digitsOf(result.fingerprint) : h("span", {}, trouble ?? result.line));
    replace(cells[3], (result?.notes ?? []).join("; "));
  }

  // The counties with their results. A file with the map of the zip or the single files beside it is a double.
  judged() {
    const judged = new Map(this.queue.tasks.map(({ county, result, trouble }) => {
      const isRefused = result && !result.isAccepted;
      const reason = isRefused ? result.line : trouble && `failed: ${trouble === STOPPED ? UNCHECKED : trouble}`;
      const isInManifest = !county.trouble || county.isNamed;
      return [county, { stem: county.stem, fingerprint: result?.fingerprint, reason, isInManifest, isRefused, isUnread: Boolean(county.trouble) }];
    }));
    for (const [file, county] of doublesAmong(this.counties)) {
      const [double, first] = [judged.get(file), judged.get(county)];
      if (!double.fingerprint || double.fingerprint !== first?.fingerprint) continue;
      double.double = first;
      this.table.cells(file.stem)[3].prepend(`the same map as ${shownName(county.stem)}, which is counted once `);
    }
    return [...judged.values()];
  }

  showSummary() {
    const { accepted, refused, troubled } = this.counts;
    const ended = accepted + refused + troubled;
    const parts = [`${counted(accepted)} accepted`, `${counted(refused)} refused`, `${counted(troubled)} failed`];
    this.bar.value = ended;
    this.summary.textContent = `${counted(ended)} of ${counted(this.counties.length)} counties: ${parts.join(", ")}.${this.skippedText()}`;
  }

  skippedText() {
    return this.skipped.length ? ` Other files were skipped: ${endingsOf(this.skipped)}.` : "";
  }

  finish() {
    this.crew.end();
    this.bar.parentElement.hidden = true;
    const judged = this.judged();
    const accepted = judged.filter(({ fingerprint, double }) => fingerprint && !double);
    const listed = judged.filter(({ double, isInManifest }) => isInManifest && !double);
    const text = manifestOf(listed, this.masks);
    const button = h("button", { type: "button", class: "main", disabled: !accepted.length, onclick: () => save("counties.manifest", new Blob([text])) }, [
      "Save as manifest ", h("span", { class: "size" }, sizeText(text.length)),
    ]);
    const verify = h("button", { type: "button", onclick: this.actions.addMore }, "Compare with a manifest…");
    replace(this.actionRow, button, verify);
    this.showAlike(accepted);
    const verdict = this.manifest ? this.verify(judged) : "";
    this.table.order();
    announce(`${this.summary.textContent} ${verdict}`);
  }

  // Which counties are one map.
  showAlike(accepted) {
    const alike = [...groupedBy(accepted, ({ fingerprint }) => fingerprint).values()].filter((group) => group.length > 1);
    const listed = (group) => group.map(({ stem }) => shownName(stem)).join(", ");
    if (alike.length) this.notes.append(h("div", { class: "note" }, alike.map((group) => h("p", {}, `One map: ${listed(group)}.`))));
  }

  verify(judged) {
    const { isByName, lines } = verified(this.manifest, judged);
    const counts = new Map();
    for (const { stem, state, isOtherMap, wanted } of lines) {
      counts.set(state, (counts.get(state) ?? 0) + 1);
      if (!this.table.rows.has(stem)) this.table.add(stem, "busy", "").cells[2].append(state === "MISSING" ? "not among these files" : "can be listed now");
      this.table.setResult(stem, KINDS_OF_STATES[state], state);
      const cells = this.table.cells(stem);
      if (isOtherMap) cells[3].prepend(h("strong", {}, "another map "));
      if (wanted) cells[2].append(h("div", { class: "wanted" }, "in the manifest: ", digitsOf(wanted)));
    }
    const text = [...counts].map(([state, count]) => `${counted(count)} ${state}`).join(", ");
    const flags = flagsOf(this.masks).join(" ") || "no flags";
    const how = `${isByName ? "" : " Counties are matched by their names without folder, case and ending."} It was made with ${flags}.`;
    const verdict = h("p", { class: "verified" }, h("strong", {}, `Compared with ${this.manifest.name}: ${text}.`), how);
    this.notes.prepend(verdict);
    return verdict.textContent;
  }

  dispose() {
    this.isGone = true;
    this.queue?.stop();
    this.crew.end();
  }
}
