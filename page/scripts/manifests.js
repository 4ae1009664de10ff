// Manifests in the form of tigercanon-tools: a line with the fingerprint, two blanks and the name for each county, in the order of the
// names, behind a first line with the form of the texts and the flags that leave fields out. The tools also write comments: the sizes
// and times of files, and counties that were refused. They are read over here.
import { groupedBy } from "./grouping.js";
import { byBytes, folderOf, isFolder, keyOf, kindOf } from "./names.js";
import { FLAGS, FORM, IS_PROVED, UNPROVED } from "./tables.js";
import { Unreadable } from "./unreadable.js";

const LINE = /^([0-9a-fA-F]{64}) {2}([^\n]+)$/;
const COMMENT = /^# [0-9?]+ [^ \n]+(?:, [0-9?]+ [^ \n]+)* {2}(?:(refused(?: [0-9A-Za-z]+)+|failed: (?:(?! {2})[^\n])+) {2})?([^\n]+)$/;
const OTHER_FORM = /^# tigercanon form /;

// The flags of two masks, as command lines have them.
export const flagsOf = (masks) => FLAGS.filter((flag) => masks[flag.slice("--no-".length)]);

// What two masks leave out, in words.
export const leftOut = (masks) => [masks.sources && "sources", masks.reserved && "reserved fields"].filter(Boolean).join(" and ");

const heading = (flags) => [FORM, ...flags].join(" ");

// A manifest of these counties, each with its stem and its fingerprint, or the reason why it has none: a refusal, or a text after
// `failed: `.
export function manifestOf(counties, masks) {
  const lines = counties.map(({ fingerprint, reason, stem }) => ({ stem, line: fingerprint ? `${fingerprint}  ${stem}` : `# ? -  ${reason.replace(/\s+/g, " ")}  ${stem}` }));
  lines.sort((one, other) => byBytes(one.stem, other.stem) || byBytes(one.line, other.line));
  const mark = IS_PROVED ? [] : [UNPROVED];
  return [heading([...mark, ...flagsOf(masks)]), ...lines.map(({ line }) => line)].map((line) => `${line}\n`).join("");
}

// The masks and the counties of a manifest. Those that it lists as refused have no fingerprint.
export function readManifest(text) {
  const lines = text.replace(/\r\n/g, "\n").split("\n");
  if (lines.pop() !== "") throw new Unreadable("its last line has no line ending, so it may be cut off");
  const masks = masksOf(lines[0]);
  if (!masks && OTHER_FORM.test(lines[0])) throw new Unreadable(`its first line is "${lines[0]}", and this page knows "${FORM}" with its own flags alone`);
  // Of several lines for a county the last one counts.
  const counties = new Map();
  lines.forEach((line, number) => {
    const { stem, fingerprint } = masks && number === 0 ? {} : readLine(line, number + 1, Boolean(masks));
    if (stem) counties.set(stem, { fingerprint, stem });
  });
  if (!counties.size) throw new Unreadable("the manifest is empty");
  return { masks: masks ?? { sources: false, reserved: false }, counties: [...counties.values()] };
}

// The county of a line, with its fingerprint or, if it was refused, with none; or nothing of a comment with sizes and times.
function readLine(line, number, hasHeading) {
  const [, fingerprint, stem] = LINE.exec(line) ?? [];
  if (stem && !hasHeading && kindOf(stem)) throw new Unreadable(`not a manifest but a list of other hashes: line ${number} is of the file ${stem}`);
  if (stem) return { stem, fingerprint: fingerprint.toLowerCase() };
  const [comment, refusal, refused] = COMMENT.exec(line) ?? [];
  if (!comment) throw new Unreadable(`not a manifest: line ${number} isn't a fingerprint and a name`);
  return refusal ? { stem: refused, fingerprint: "" } : {};
}

// The masks of a first line. Manifests of earlier tools have the flags alone there, or no such line.
function masksOf(line) {
  const choices = [[], [FLAGS[0]], [FLAGS[1]], FLAGS];
  const isHeading = (each) => line === heading(each) || line === heading([UNPROVED, ...each]);
  const flags = choices.find((each) => isHeading(each) || (each.length && line === `# ${each.join(" ")}`));
  return flags && { sources: flags.includes(FLAGS[0]), reserved: flags.includes(FLAGS[1]) };
}

// How counties compare with a manifest: OK, FAILED, MISSING or NEW for each name, and whether one that failed has another map; of those
// that it lists as refused REFUSED, or ACCEPTED if one is accepted now. A county without a fingerprint has failed. `double` is the county
// whose map a file beside it has. A folder that couldn't be listed is ACCEPTED if there are counties of it now.
export function verified(manifest, counties) {
  const { isByName, found } = matched(manifest.counties, counties);
  const isListed = (folder) => isFolder(folder) && counties.some(({ stem }) => stem.startsWith(folder));
  const lineOf = (line) => (!found.has(line) && isListed(line.stem) ? { stem: line.stem, state: "ACCEPTED" } : lineOfCounty(line, found.get(line)));
  const lines = manifest.counties.map(lineOf);
  const wanted = new Map([...found].map(([{ fingerprint }, county]) => [county, fingerprint]));
  const stateOf = ({ double, fingerprint, isUnread }) => (isUnread ? "FAILED" : double && wanted.get(double) === fingerprint ? "OK" : "NEW");
  const others = counties.filter((county) => !wanted.has(county)).map((county) => ({ stem: county.stem, state: stateOf(county) }));
  return { isByName, lines: [...lines, ...others] };
}

function lineOfCounty({ stem: name, fingerprint: wanted }, county) {
  if (!county) return { stem: name, state: "MISSING" };
  const { stem, fingerprint, isRefused } = county;
  if (!wanted) return { stem, state: fingerprint ? "ACCEPTED" : isRefused ? "REFUSED" : "FAILED" };
  return fingerprint === wanted ? { stem, state: "OK" } : { stem, state: "FAILED", wanted, isOtherMap: Boolean(fingerprint) };
}

// The counties of a manifest's lines. They have the same names, or, if files were packed, unpacked or joined since, the same but for case
// and ending. If no county is found so, the folders don't count either. A name that several have is none.
function matched(lines, counties) {
  const found = new Map();
  const matchBy = (key, isExact = false) => {
    const taken = new Set(found.values());
    const named = groupedBy(lines.filter((line) => !found.has(line) && (isExact || !isFolder(line.stem))), ({ stem }) => key(stem));
    const left = counties.filter((county) => !taken.has(county) && (isExact || !(county.double || isFolder(county.stem))));
    for (const [name, there] of groupedBy(left, ({ stem }) => key(stem))) {
      if (there.length === 1 && named.get(name)?.length === 1) found.set(named.get(name)[0], there[0]);
    }
  };
  matchBy((stem) => stem, true);
  matchBy((stem) => folderOf(stem) + keyOf(stem));
  const isByName = found.size > 0;
  if (!isByName) matchBy(keyOf);
  return { isByName, found };
}
