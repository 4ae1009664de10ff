// Finds the counties among the files that a user drops, as tigercanon-tools finds them in folders: zips, single files by their stems, and
// files with all records.
//
// A county has a stem, which is its name, and either single files by their types, a zip or one whole file. trouble says why it can't be
// judged, and isNamed that it is a county by the names of its files all the same. notes are reported with its result.
import { beginningOf, beginsWithRecord } from "./first_line.js";
import { groupedBy } from "./grouping.js";
import { baseOf, byBytes, endingOf, folderOf, foldedName, isFolder, isLeftOut, keyOf, kindOf, stemOf } from "./names.js";
import { counted } from "./numbers.js";
import { FORM, TYPES } from "./tables.js";
import { Unreadable } from "./unreadable.js";

const FILE_KINDS = [...TYPES, "ZIP"];
const AT_ONCE = 32; // files of which the beginning is read
const UNREADABLE = "it can't be read: it was moved, changed or is locked";
const UNLISTED = "can't be listed: it was moved or is locked"; // a folder
const PACKED = "it is one file of several, packed by gzip: unpack it first";
const COUNTY_NAME = /^TGR[0-9]{5}$/;
const OTHER_ENDINGS = /\.(?:met|csv|geojson|html)$/i; // of files that are distributed with a county's records, or made of them

// The files are given with their paths. Names that differ only in case belong to one county. A file without a folder was named by the
// user, so it is a manifest or a county even if no record is in it. In folders such files are skipped.
export async function sortedOut(files) {
  const found = { counties: [], manifests: [], skipped: [] };
  const named = files.filter(({ path }) => !isLeftOut(path));
  const isOfNine = ({ path }) => FILE_KINDS.includes(kindOf(path));
  for (const [kind, each] of await eachOf(named.filter((given) => !isOfNine(given)), decided)) found[kind].push(each);
  const ofNine = groupedBy(named.filter(isOfNine), ({ path }) => foldedName(stemOf(path)));
  const wholes = groupedBy(found.counties, ({ stem }) => foldedName(stem));
  const counties = [...[...ofNine.values()].map(countyOf), ...[...wholes.values()].map(aloneOf)].map(nameable);
  found.counties = [...groupedBy(counties, ({ stem }) => stem).values()].map(firstOf);
  found.counties.sort((one, other) => byBytes(one.stem, other.stem));
  return found;
}

// What a function makes of each thing, in their order. It is called for several at a time.
async function eachOf(things, make) {
  const [made, entries] = [new Array(things.length), things.entries()];
  const makeSome = async () => {
    for (const [place, thing] of entries) made[place] = await make(thing);
  };
  await Promise.all(Array.from({ length: AT_ONCE }, makeSome));
  return made;
}

// What a file is that isn't one of a county's nine, nor a zip. A folder that can't be listed is in the place of the counties in it.
async function decided(given) {
  const { path, file } = given;
  if (isFolder(path)) return ["counties", failing(path, UNLISTED, true)];
  const isNamed = !path.includes("/") && kindOf(path) === "";
  try {
    const head = await beginningOf(file);
    if (isManifest(head)) return ["manifests", given];
    const county = isNamed ? wholeCounty(given) : await countyIn(given, false, head);
    return county ? ["counties", county] : ["skipped", given];
  } catch {
    return ["counties", failing(path, UNREADABLE, COUNTY_NAME.test(keyOf(path)))];
  }
}

const wholeCounty = ({ path, file }) => ({ stem: path, whole: file, notes: [] });

const failing = (stem, trouble, isNamed = false) => ({ stem, trouble, isNamed, notes: [] });

// A line of a manifest can't have a name with a line break.
const nameable = (county) => (county.stem.includes("\n") ? failing(county.stem, "its name has a line break in it") : county);

// Files with all records whose names differ only in case are one county, which fails.
function aloneOf(counties) {
  const [first, ...others] = counties.map(({ stem }) => stem).sort(byBytes);
  const names = [first, ...others].map(baseOf).join(", ");
  return others.length ? failing(first, `there are ${counties.length} files with all records: ${names}`, true) : counties[0];
}

// Of a zip or single files and a file with all records of the same name without an ending the former.
const firstOf = ([county, other]) => (other ? { ...county, notes: [...county.notes, `the file ${baseOf(county.stem)} beside it isn't read`] } : county);

// The endings of files with their counts, the most frequent first.
export function endingsOf(files) {
  const counts = [...groupedBy(files, ({ path }) => endingOf(path))].map(([ending, { length }]) => [ending, length]);
  return counts.sort((one, other) => other[1] - one[1]).map(([ending, count]) => `${counted(count)} ${ending}`).join(", ");
}

// The county that a file in a folder is, although it isn't one of a county's nine, nor a zip; or nothing. What can't be read or unpacked
// is one that fails. A county is what begins with a record and, however it begins, what has a county's name or is listed in a manifest.
export async function countyIn({ path, file }, isListed, head) {
  const inner = path.replace(/\.gz$/i, "");
  const isCounty = isListed || COUNTY_NAME.test(keyOf(path));
  if (kindOf(path) || OTHER_ENDINGS.test(inner)) return undefined;
  if (kindOf(inner)) return isCounty && FILE_KINDS.includes(kindOf(inner)) ? failing(path, PACKED) : undefined;
  try {
    return (await beginsWithRecord(file, head ?? (await beginningOf(file)))) || isCounty ? wholeCounty({ path, file }) : undefined;
  } catch (error) {
    return failing(path, error instanceof Unreadable ? error.message : UNREADABLE, isCounty);
  }
}

// A manifest begins with its form, or with a fingerprint and two blanks.
function isManifest(head) {
  const start = new TextDecoder().decode(head);
  return start.startsWith(FORM) || /^# --no-|^[0-9a-fA-F]{64} {2}[^\n]/.test(start);
}

// The county of files whose names differ only in case and ending: its single files if there are any, else its zip.
function countyOf(group) {
  const sorted = [...group].sort((one, other) => byBytes(one.path, other.path));
  const named = new Map(FILE_KINDS.map((kind) => [kind, sorted.filter(({ path }) => kindOf(path) === kind)]));
  const singles = [...TYPES].filter((kind) => named.get(kind).length);
  const kinds = singles.length ? singles : ["ZIP"];
  const stem = stemOf(named.get(kinds[0])[0].path);
  const listed = (kind) => named.get(kind).map(({ path }) => baseOf(path)).join(", ");
  const several = kinds.find((kind) => named.get(kind).length > 1);
  if (several) {
    const what = several === "ZIP" ? "zips" : `files of type ${several}`;
    return failing(stem, `there are ${named.get(several).length} ${what}: ${listed(several)}`, true);
  }
  if (!singles.length) return { stem, zip: named.get("ZIP")[0].file, notes: [] };
  const notes = named.get("ZIP").length ? [`its single files are read, and not ${listed("ZIP")}`] : [];
  return { stem, files: Object.fromEntries(singles.map((kind) => [kind, named.get(kind)[0].file])), notes };
}

// The files with all records beside a zip or single files of the same name, each with the county of these.
export function doublesAmong(counties) {
  const name = ({ stem }) => folderOf(stem) + keyOf(stem);
  const others = new Map(counties.filter(({ zip, files }) => zip || files).map((county) => [name(county), county]));
  return new Map(counties.filter(({ whole }) => whole).map((county) => [county, others.get(name(county))]));
}

// The bytes that a county's files take as they are.
export function packedSize(county) {
  const all = [county.zip, county.whole, ...Object.values(county.files ?? {})].filter(Boolean);
  return all.reduce((sum, file) => sum + file.size, 0);
}
