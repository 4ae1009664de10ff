// Files that are dropped or chosen, each with its path.
//
// In Chromium a page that was opened from disk can't read what is dropped on it as entries (EncodingError), only as handles. Firefox and
// Safari have only entries for what is dropped.

import { counted } from "./numbers.js";

const MOST_FILES = 100_000;

export class TooManyFiles extends Error {}

// The files of what was dropped, with all that is in folders, and the folders that can't be listed: these have no file, and a slash after
// their paths. What was dropped must be asked for at once, before the event is over.
export async function droppedFiles(transfer, most = MOST_FILES) {
  const items = [...transfer.items].filter((item) => item.kind === "file");
  const dropped = items.map((item) => item.getAsFileSystemHandle?.() ?? item.webkitGetAsEntry?.()).filter(Boolean);
  if (!dropped.length) return chosenFiles(transfer.files);
  const found = [];
  for (const item of await Promise.all(dropped)) {
    for await (const each of filesIn(item, item.name)) {
      if (found.length >= most) throw new TooManyFiles(`There are more than ${counted(most)} files. Drop fewer at once, or use tigercanon-tools.`);
      found.push(each);
    }
  }
  return Promise.all(found.map(async ({ item, path }) => (item ? { path, file: await fileOf(item) } : { path })));
}

// The files in a handle or an entry, each with its path. Handles have a kind, and entries say whether they are files.
async function* filesIn(item, path) {
  if (item.kind === "file" || item.isFile) return yield { item, path };
  try {
    for await (const child of childrenOf(item)) yield* filesIn(child, `${path}/${child.name}`);
  } catch {
    yield { path: `${path}/` };
  }
}

const fileOf = (item) => (item.kind ? item.getFile() : new Promise((resolve, reject) => item.file(resolve, reject)));

async function* childrenOf(folder) {
  if (folder.kind) return yield* folder.values();
  const reader = folder.createReader();
  for (;;) {
    // Each call returns only some of them.
    const some = await new Promise((resolve, reject) => reader.readEntries(resolve, reject));
    if (!some.length) return;
    yield* some;
  }
}

export const chosenFiles = (files) => [...files].map((file) => ({ path: file.webkitRelativePath || file.name, file }));
