// The names of a county's files.

const COUNTY_FILE = /^(.+)\.(?:RT([0-9A-Z])|ZIP)$/is;
const FOLDERS_LEFT_OUT = ["__MACOSX", "lost+found"];

// The stem of a path: the name of a county's file or zip without its ending.
export const stemOf = (path) => COUNTY_FILE.exec(path)?.[1] ?? path;

// The record type of a file of records, ZIP for a zip, and nothing for another name.
export function kindOf(path) {
  const ending = COUNTY_FILE.exec(path);
  return ending ? (ending[2] ?? "ZIP").toUpperCase() : "";
}

// A name without the marks that turn its line round.
export const shownName = (path) => path.replace(/[\u061c\u200e\u200f\u202a-\u202e\u2066-\u2069]/g, "");

// Whether a path is that of a folder, which stands for a folder that can't be listed.
export const isFolder = (path) => path.endsWith("/");

export const baseOf = (path) => path.slice(path.lastIndexOf("/") + 1);

export const folderOf = (path) => path.slice(0, path.length - baseOf(path).length);

// A path that is the same for names that differ only in case.
export const foldedName = (path) => folderOf(path) + baseOf(path).toUpperCase();

// Whether a file is none of a county's, whatever its name: what a Mac leaves beside others, what a repair of the disk finds, or what is in
// a hidden folder.
export function isLeftOut(path) {
  const folders = path.split("/").slice(0, -1);
  const isInHidden = folders.slice(1).some((name) => name.startsWith("."));
  return isInHidden || /^\._|^\.DS_Store$/.test(baseOf(path)) || folders.some((name) => FOLDERS_LEFT_OUT.includes(name));
}

// The name by which counties of two manifests are matched: without folder, case and ending. An ending has no blank in it.
export const keyOf = (stem) => baseOf(stem).replace(/\.gz$/i, "").replace(/(?<=.)\.[^. ]*$/, "").toUpperCase();

// The ending under which a skipped file is counted.
export const endingOf = (path) => (/\.tar\.gz$/i.test(path) ? ".tar.gz" : (/[^./]+(\.[^./]*)$/.exec(path)?.[1] ?? "without an ending"));

// The order of names in manifests: that of their bytes in UTF-8.
export function byBytes(one, other) {
  const [a, b] = [one, other].map((name) => new TextEncoder().encode(name));
  const at = a.findIndex((byte, place) => byte !== b[place]);
  return at < 0 ? a.length - b.length : a[at] - (b[at] ?? -1);
}

// The name of a county for files to save: without folders, without the ending of a text, and without letters that file systems refuse.
export const plainName = (stem) => baseOf(stem).replace(/\.txt$/i, "").replace(/[^\w .()-]+/g, "_") || "county";

// The name under which a canonical text is saved, which isn't that of the file that it comes from.
export const canonicalName = (stem) => (/\.txt$/i.test(stem) ? `${plainName(stem)}-canonical.txt` : `${plainName(stem)}.txt`);
