// The page: takes files, and shows one county, two, or many.
import { takeCarried, unpackCarried } from "./carried.js";
import { endingsOf, sortedOut } from "./counties.js";
import { announce, h, replace } from "./dom.js";
import { chosenFiles, droppedFiles } from "./dropping.js";
import { engineModule, unpackedBase64 } from "./jobs.js";
import { ManyCounties } from "./many.js";
import { baseOf, isFolder, shownName } from "./names.js";
import { OneCounty } from "./one.js";
import { EXAMPLES, IS_PROVED } from "./tables.js";
import { TwoCounties } from "./two.js";

const byId = (id) => document.getElementById(id);
const MASK_BOXES = ["no-sources", "no-reserved"];
const NOTHING = { counties: [], manifests: [], skipped: [] };
const state = { ...NOTHING, view: null, adds: false, taking: Promise.resolve(), round: 0 };
const NEEDED = "This page needs a browser of 2023 or later: Chrome or Edge 103, Firefox 113, Safari 16.4.";

const masksNow = () => ({ sources: byId("no-sources").checked, reserved: byId("no-reserved").checked });

function setMasks({ sources, reserved }) {
  byId("no-sources").checked = sources;
  byId("no-reserved").checked = reserved;
}

// The masks of a manifest can't be changed while counties are compared with it. At a new start the user's own come back.
function fixMasks(masks) {
  state.ownMasks ??= masksNow();
  setMasks(masks);
  for (const id of MASK_BOXES) byId(id).disabled = true;
}

// Shows what fits the counties that there are.
function show() {
  state.view?.dispose();
  byId("notice").hidden = true;
  for (const id of MASK_BOXES) byId(id).disabled = false;
  const { counties, manifests } = state;
  const isStart = !counties.length && !manifests.length;
  document.body.classList.toggle("at-start", isStart);
  byId("start").hidden = !isStart;
  byId("again").hidden = isStart;
  state.view = isStart ? null : viewOf(counties, manifests);
  replace(byId("results"), state.view?.node);
  state.view?.start();
  if (!isStart) byId("results").focus();
}

function viewOf(counties, manifests) {
  if (counties.length === 1 && !manifests.length) {
    return new OneCounty(counties[0], masksNow(), { addSecond: () => choose(true), addFirst: () => choose(false) });
  }
  if (counties.length === 2 && !manifests.length && !counties.some(({ stem }) => isFolder(stem))) return new TwoCounties(counties, masksNow());
  return new ManyCounties(state, masksNow(), { open: (county) => open(county), addMore: () => choose(true), fixMasks });
}

// Shows one county of many. The way back is the browser's own.
function open(county) {
  const before = { counties: state.counties, manifests: state.manifests, skipped: state.skipped };
  history.pushState(null, "");
  state.before = before;
  Object.assign(state, { counties: [county], manifests: [] });
  show();
}

function goBack() {
  if (!state.before) return;
  Object.assign(state, state.before, { before: undefined });
  show();
}

function choose(adds) {
  state.adds = adds;
  byId("files").click();
}

// Takes files that were dropped or chosen, in the order in which they were given, however long some take to be found. What was given
// before a new start is dropped.
function take(files, adds) {
  const { round } = state;
  const sorting = Promise.resolve(files).then(async (all) => ({ all, found: await sortedOut(all) }));
  const before = state.taking;
  state.taking = Promise.allSettled([sorting, before]).then(([{ value, reason }]) => {
    if (round !== state.round) return;
    if (reason) complain(reason.message ? `The files can't be read: ${reason.message}` : "The files can't be read.");
    else if (value.found.counties.length || value.found.manifests.length) put(value.found, adds);
    else if (value.all.length) complain(nothingIn(value.all, value.found.skipped));
  });
  return state.taking;
}

// Shows counties and manifests: a second county beside the first one, unless that was refused, and more in a table. A manifest is compared
// with what is there.
function put({ counties, manifests, skipped }, adds) {
  const isSecond = state.counties.length === 1 && counties.length === 1 && !manifests.length && !state.view?.isRefused;
  const keeps = adds || isSecond || !counties.length || state.view instanceof ManyCounties;
  const before = { counties: state.counties, manifests: state.manifests, skipped: state.skipped };
  const kept = keeps ? before : NOTHING;
  const names = new Set(counties.map(({ stem }) => stem));
  // Two files of one name are two counties, so the later one gets another name, unless it goes into a table.
  if (kept.counties.length === 1 && counties.length === 1 && names.delete(kept.counties[0].stem)) counties[0].stem = `${counties[0].stem} (2)`;
  const first = kept.counties.filter(({ stem }) => !names.has(stem));
  const left = keeps || before.counties.length < 2 ? undefined : before;
  if (left) history.pushState(null, "");
  const all = { counties: [...first, ...counties], manifests: [...kept.manifests, ...manifests], skipped: [...kept.skipped, ...skipped] };
  Object.assign(state, { ...all, before: left });
  complain("");
  show();
  if (left) notify(left.counties);
}

// Says what became of two counties when others were given. The way back is the browser's own.
function notify(left) {
  const names = left.map(({ stem }) => shownName(baseOf(stem))).join(" and ");
  const back = h("button", { type: "button", class: "link", onclick: () => history.back() }, "Back to them");
  replace(byId("notice"), `The comparison of ${names} was closed, since two counties are compared at a time. `, back, ".");
  byId("notice").hidden = false;
}

function nothingIn(files, skipped) {
  return `There is no county in ${files.length === 1 ? "this" : "these"}: ${endingsOf(skipped) || "no files"}. A county is nine files .RT1 to .RTP, a zip of them, or one file with all records.`;
}

function complain(text) {
  byId("complaint").hidden = !text;
  byId("complaint").textContent = text;
  if (text) announce(text);
}

async function example(name) {
  const files = EXAMPLES[name].map(async ({ name: path, gzip }) => {
    const file = new File([await unpackedBase64(gzip)], path.replace("/all", "").replace(/^.*\//, ""));
    return { path: file.name, file };
  });
  Object.assign(state, NOTHING);
  await take(Promise.all(files), false);
}

function startAgain() {
  Object.assign(state, { ...NOTHING, before: undefined, round: state.round + 1 });
  if (state.ownMasks) setMasks(state.ownMasks);
  state.ownMasks = undefined;
  complain("");
  show();
  byId("choose-files").focus();
}

function listen() {
  const over = (event) => {
    event.preventDefault();
    event.dataTransfer.dropEffect = "copy";
    document.body.classList.add("dropping");
  };
  addEventListener("dragover", over);
  addEventListener("dragleave", (event) => event.relatedTarget === null && document.body.classList.remove("dropping"));
  addEventListener("drop", (event) => {
    event.preventDefault();
    document.body.classList.remove("dropping");
    take(droppedFiles(event.dataTransfer), false);
  });
  addEventListener("popstate", goBack);
  for (const id of ["files", "folder"]) {
    byId(id).addEventListener("change", ({ target }) => {
      const files = chosenFiles(target.files);
      target.value = "";
      take(files, state.adds);
    });
  }
  byId("choose-files").addEventListener("click", () => choose(false));
  byId("choose-folder").addEventListener("click", () => {
    state.adds = false;
    byId("folder").click();
  });
  byId("again").addEventListener("click", startAgain);
  for (const id of MASK_BOXES) byId(id).addEventListener("change", () => state.view && show());
  for (const button of document.querySelectorAll("[data-example]")) button.addEventListener("click", () => example(button.dataset.example));
}

// What this page can't do without.
const isAble = () => typeof WebAssembly === "object" && typeof DecompressionStream === "function" && typeof crypto.subtle === "object";

// Compares the counties that the page carries, in their masks. At a new start the user's own come back.
async function openCarried(carried) {
  const { counties, masks } = await unpackCarried(carried);
  state.ownMasks = masksNow();
  setMasks(masks);
  Object.assign(state, { counties });
  show();
}

async function begin() {
  const carried = takeCarried();
  listen();
  byId("unproved").hidden = IS_PROVED;
  if (!isAble()) return complain(NEEDED);
  byId("start").classList.add("ready");
  try {
    await engineModule();
    if (carried) await openCarried(carried);
    document.body.dataset.ready = "yes";
  } catch (error) {
    complain(`The engine can't be started: ${error.message}. ${NEEDED}`);
  }
}

begin();
