// What was found about two maps, for the page: a summary, the shapes of the map, and a list that is asked for in pieces.
import { countsOf, MAKERS, nameOf, SUBJECTS, things, verdictOf } from "./differences.js";
import { landmarkTitle, landmarkPoints } from "./fields.js";
import { ALIKE, CHANGED, keyOfKind } from "./kinds.js";
import { counted } from "./numbers.js";
import { NO_POINT, position } from "./points.js";
import { linesOfChains, titlesOf } from "./shapes.js";
import { KINDS } from "./tables.js";
import { tieLine, tiedPlace, tiePoints } from "./ties.js";

const PIECE = 200;
const MOST_CHANGES = 3; // fields that the list shows of what changed

export class Findings {
  constructor(comparison, counties) {
    Object.assign(this, { comparison, counties, own: [new Map(), new Map()], words: [] });
    this.things = [...things(comparison)];
    this.ties = comparison.ties;
    this.entries = [...this.things.map(entryOf), ...this.ties.map(entryOfTie)].map((entry, number) => ({ ...entry, number }));
  }

  summary() {
    const { comparison } = this;
    return {
      areOneMap: false,
      verdict: verdictOf(comparison, false),
      counts: countsOf(comparison),
      ties: this.ties.length,
      subjects: SUBJECTS,
      kinds: KINDS,
      total: this.entries.length,
      wanted: this.wanted(),
      shapes: this.shapes(),
    };
  }

  // The keys of what has a number and differs, in both maps.
  wanted() {
    const numbered = this.things.filter((thing) => thing.numberField);
    return ["one", "other"].map((side) => numbered.map((thing) => thing[side]?.key).filter(Boolean));
  }

  // All chains, those that differ last so that they are drawn on top, each with the number of its entry behind it, and the points of
  // whatever else differs, and of landmarks. The class of a chain is its kind.
  shapes() {
    const alike = this.comparison.chains.alike.map(([one]) => one);
    const entries = this.entries.filter((entry) => entry.what === "chain");
    const different = entries.map(({ number }) => this.things[number].one ?? this.things[number].other);
    const kinds = new Uint8Array(alike.length + different.length).fill(ALIKE);
    kinds.set(entries.map(({ kind }) => kind), alike.length);
    return {
      chains: linesOfChains(alike.concat(different), kinds),
      firstEntry: alike.length,
      entries: Uint32Array.from(entries, ({ number }) => number),
      titles: titlesOf(this.counties[0].bytes, alike.map(({ recordAt }) => recordAt)),
      points: [...this.alikeLandmarks(), ...this.differingPoints()],
    };
  }

  differingPoints() {
    const single = this.entries.filter((entry) => entry.what !== "chain");
    return single.flatMap(({ points, kind, what, number }) => points.map((point) => ({ place: position(point), kind, subject: what, entry: number })));
  }

  alikeLandmarks() {
    return this.comparison.landmarks.alike.flatMap(([one]) => {
      const title = landmarkTitle(one);
      return landmarkPoints(one).map((point) => ({ title, place: position(point), kind: ALIKE, subject: "landmark" }));
    });
  }

  // The points inside of polygons that are alike.
  alikePolygons() {
    const inside = this.comparison.polygons.alike.map(([one]) => one).filter(({ point }) => point !== NO_POINT);
    const title = (one) => nameOf({ what: "polygon", ...MAKERS.polygon(this.comparison, one) });
    return inside.map((one) => ({ title: title(one), place: position(one.point), kind: ALIKE, subject: "polygon" }));
  }

  // Takes the numbers that things have in the files of both sets, by their keys.
  takeNumbers(own) {
    this.own = own;
    this.words = [];
  }

  // The numbers of an entry in both files, if they are known: `TLID 7 and 9`.
  numbersOf(number) {
    const { numberField, one, other } = this.things[number] ?? {};
    const known = [one, other].map((each, side) => each && this.own[side].get(each.key)).filter((each) => each !== undefined);
    return known.length && numberField ? `${numberField} ${[...new Set(known)].join(" and ")}` : "";
  }

  // The entries with all these words in their names, numbers, fields or values, from a place on.
  list({ text, hidden, from, most = PIECE }) {
    const wanted = text.toLowerCase().split(/\s+/).filter(Boolean);
    const isFound = ({ what, kind, number }) => !hidden.includes(keyOfKind(what, kind)) && wanted.every((word) => this.wordsOf(number).includes(word));
    const found = this.entries.filter(isFound);
    return { count: found.length, piece: found.slice(from, from + most).map(({ number }) => this.shown(number)) };
  }

  // What the list shows of an entry: of what changed, the fields that differ.
  shown(number) {
    const { what, kind, title, about, points } = this.entries[number];
    const changes = this.rowsOfEntry(number).filter((row) => kind === CHANGED && row.differs);
    const values = changes.slice(0, MOST_CHANGES).map(({ name, first, second }) => ({ label: name.label, first, second }));
    return { number, what, kind, title, about, numbers: this.numbersOf(number), places: points.map(position), changes: values, more: changes.length - values.length };
  }

  rowsOfEntry(number) {
    return this.things[number]?.rows() ?? [];
  }

  // An entry with its fields in both maps, or with the places of what is joined differently.
  details(number) {
    const entry = this.shown(number);
    const tie = this.ties[number - this.things.length];
    return tie ? { ...entry, rows: [], groups: tie.groups.map((group) => group.map(tiedPlace)) } : { ...entry, rows: this.rowsOfEntry(number).map(shownRow) };
  }

  // A chain that is alike, with its fields.
  detailsOfAlike(chain) {
    const { title, about, rows } = MAKERS.chain(this.comparison, ...this.comparison.chains.alike[chain]);
    return { what: "chain", kind: ALIKE, title, about, numbers: "", rows: rows().map(shownRow) };
  }

  // All words of an entry, in small letters, by which it is found. Of what changed these are the fields that differ.
  wordsOf(number) {
    this.words[number] ??= this.allWords(number).join("\n").toLowerCase();
    return this.words[number];
  }

  allWords(number) {
    const { what, kind, title, about } = this.entries[number];
    const rows = this.rowsOfEntry(number).filter((row) => kind !== CHANGED || row.differs);
    const places = this.ties[number - this.things.length]?.groups.flat().map(tiedPlace) ?? [];
    return [what, KINDS[kind], title, about, this.numbersOf(number), ...places, ...rows.flatMap((row) => [row.name.label, row.first ?? "", row.second ?? ""])];
  }
}

const shownRow = ({ name, first, second, differs }) => ({ label: name.label, holds: name.holds, first, second, differs });

const entryOf = (thing) => ({ what: thing.what, kind: KINDS.indexOf(thing.kind), title: nameOf(thing), about: thing.about, points: thing.points });

const entryOfTie = (tie) => ({
  what: "tie",
  kind: CHANGED,
  title: tieLine(tie),
  about: `at ${counted(tiePoints(tie).length)} places`,
  points: tiePoints(tie),
});
