// Which counties there are among dropped files, as the tools find them in folders, and how their parts are read.
import assert from "node:assert/strict";
import { File } from "node:buffer";
import { test } from "node:test";
import { gzipSync } from "node:zlib";
import { example, take } from "./scripts.mjs";

const { countyIn, doublesAmong, endingsOf, packedSize, sortedOut } = await take("counties");
const { sizeText } = await take("dom");
const { chosenFiles, droppedFiles, TooManyFiles } = await take("dropping");
const { beginningOf, beginsWithRecord, firstLine, isRecord } = await take("first_line");
const { partsOf } = await take("sets");
const { byBytes, canonicalName, endingOf, keyOf, plainName } = await take("names");
const { Unreadable } = await take("unreadable");
const { LARGEST } = await take("zips");

const record = Buffer.from(example("autauga/all.txt")).toString("latin1").split("\n")[0];
const given = (path, text = "1") => ({ path, file: new File([text], path.split("/").at(-1)) });
const none = () => {};

// The counties among files, each by its stem with its kinds or its trouble, and what else is there.
async function found(...files) {
  const { counties, manifests, skipped } = await sortedOut(files.map((file) => (typeof file === "string" ? given(file) : file)));
  const told = counties.map(({ stem, files: singles, zip, whole, trouble }) => [stem, trouble ?? (singles ? Object.keys(singles).join("") : zip ? "zip" : whole && "whole")]);
  return { counties: Object.fromEntries(told), manifests: manifests.map(({ path }) => path), skipped: skipped.map(({ path }) => path) };
}

test("single files of one stem are a county, in any case of their names", async () => {
  const { counties } = await found("in/TGR01001.RT1", "in/tgr01001.rt2", "in/TGR01003.RT1", "TGR01001.RTP", "other/TGR01001.rti");
  assert.deepEqual(counties, { TGR01001: "P", "in/TGR01001": "12", "in/TGR01003": "1", "other/TGR01001": "I" });
  assert.deepEqual(Object.keys(counties), ["TGR01001", "in/TGR01001", "in/TGR01003", "other/TGR01001"]);
});

test("a county with two files of a type, or two zips, has a trouble that names them", async () => {
  assert.deepEqual((await found("A.RT1", "A.RT2", "a.rt1")).counties, { A: "there are 2 files of type 1: A.RT1, a.rt1" });
  assert.deepEqual((await found("a.zip", "A.ZIP", "A.Zip")).counties, { A: "there are 3 zips: A.ZIP, A.Zip, a.zip" });
});

test("single files go before a zip, and a note says so", async () => {
  const { counties } = await sortedOut([given("A.ZIP"), given("A.RT1"), given("a.zip")]);
  assert.deepEqual([counties.length, Object.keys(counties[0].files), counties[0].notes], [1, ["1"], ["its single files are read, and not A.ZIP, a.zip"]]);
  assert.deepEqual((await found("in/A.ZIP")).counties, { "in/A": "zip" });
});

const packed = gzipSync(`${record}\r\n`);

test("in folders a file is a county if its first line is a record", async () => {
  const others = [given("in/all.RT1.gz", packed), given("in/notes.tar.gz", gzipSync("nothing")), given("in/empty.gz", gzipSync("")), ...["in/read.me", "in/b.me", "in/TGR01001.RT3", "in/none"].map((path) => given(path))];
  const { counties, skipped } = await found(given("in/all.txt", `${record}\n`), given("in/all.txt.gz", packed), given("in/plain.gz", record), ...others);
  assert.deepEqual(counties, { "in/all.txt": "whole", "in/all.txt.gz": "whole", "in/plain.gz": "whole" });
  assert.deepEqual(skipped, others.map(({ path }) => path));
  assert.equal(endingsOf(others), "2 .gz, 2 .me, 1 .tar.gz, 1 .RT3, 1 without an ending");
});

test("in folders a file with a county's name is one, however it begins, unless its ending is another's", async () => {
  const { counties, skipped } = await found("in/TGR01001", "in/tgr01003.txt", "in/TGR01005.met", "in/TGR01007.csv", "in/TGR01009.GeoJSON", "in/TGR01011.html", "in/TGR01013.csv.gz", "in/TGR010155", "in/XTGR01017");
  assert.deepEqual(counties, { "in/TGR01001": "whole", "in/tgr01003.txt": "whole" });
  assert.equal(skipped.length, 7);
});

test("in folders what can't be unpacked is a county that fails, and so is a single file that gzip packed", async () => {
  const { counties, skipped } = await found(
    given("in/a.gz", packed.subarray(0, 40)), given("in/b.txt", packed.subarray(0, 9)), given("in/c.GZ", "nothing"), given("in/TGR01001.RT1.gz", packed), given("in/TGR01001.RT3.gz", packed),
  );
  assert.deepEqual(counties, {
    "in/a.gz": "it can't be unpacked", "in/b.txt": "it can't be unpacked", "in/c.GZ": "it can't be unpacked: it isn't a file of gzip, as its name says",
    "in/TGR01001.RT1.gz": "it is one file of several, packed by gzip: unpack it first",
  });
  assert.deepEqual(skipped, ["in/TGR01001.RT3.gz"]);
});

test("a file that a manifest lists is a county, unless its ending is another's", async () => {
  const listed = async (path) => (await countyIn(given(path, "nothing"), true)) ?? "none";
  const { whole, ...rest } = await listed("in/read.me");
  assert.deepEqual([whole.name, rest], ["read.me", { stem: "in/read.me", notes: [] }]);
  assert.deepEqual([await listed("in/a.RT3"), await listed("in/a.csv")], ["none", "none"]);
  assert.equal((await listed("in/a.RT1.gz")).trouble, "it is one file of several, packed by gzip: unpack it first");
});

test("a file that the user named is a county, whatever is in it", async () => {
  assert.deepEqual(await found("read.me", "TGR01001.RT3"), { counties: { "read.me": "whole" }, manifests: [], skipped: ["TGR01001.RT3"] });
});

test("a county whose name has a line break in it fails", async () => {
  assert.deepEqual((await found("a\nb.RT1")).counties, { "a\nb": "its name has a line break in it" });
});

test("files with all records whose names differ only in case are one county, which fails", async () => {
  const { counties } = await found(given("in/a.txt", record), given("in/A.txt", record), given("in/b.txt", record), given("other/a.txt", record));
  assert.deepEqual(counties, { "in/A.txt": "there are 2 files with all records: A.txt, a.txt", "in/b.txt": "whole", "other/a.txt": "whole" });
});

test("of single files or a zip and a file of the same name without an ending the former are read, and a note says so", async () => {
  const { counties } = await sortedOut([given("in/A", record), given("in/A.ZIP")]);
  assert.deepEqual(counties.map(({ stem, zip, notes }) => [stem, zip.name, notes]), [["in/A", "A.ZIP", ["the file A beside it isn't read"]]]);
});

test("files with all records beside a zip or single files of the same name", async () => {
  const { counties } = await sortedOut([given("in/A.ZIP"), given("in/a.txt", record), given("b.txt"), given("B.RT1"), given("other/A.txt", record)]);
  assert.deepEqual([...doublesAmong(counties)].map((pair) => pair.map((county) => county?.stem)), [["b.txt", "B"], ["in/a.txt", "in/A"], ["other/A.txt", undefined]]);
});

test("what a Mac leaves, hidden folders and lost+found are left out", async () => {
  const files = ["in/._TGR01001.RT1", "in/__MACOSX/TGR01001.RT1", "__MACOSX/A.ZIP", ".DS_Store", "in/.DS_Store", "in/.git/A.RT1", "._A.ZIP", "in/lost+found/A.ZIP"];
  assert.deepEqual(await found(...files), { counties: {}, manifests: [], skipped: [] });
  assert.deepEqual((await found(".in/A.RT1")).counties, { ".in/A": "1" });
});

test("manifests are found by their beginning, in folders too", async () => {
  const line = `${"0".repeat(64)}  in/TGR01001\n`;
  const { manifests, counties } = await found(
    given("m", `# tigercanon form 1\n${line}`), given("in/n", line), given("o", `# --no-sources\n${line}`), given("p", line.replace("  ", " ")),
    given("q", line.replaceAll("0", "A")), given("r", "# notes\n"),
  );
  assert.deepEqual(manifests, ["m", "in/n", "o", "q"]);
  assert.deepEqual(counties, { p: "whole", r: "whole" });
});

test("a file that can't be read is a county with a trouble", async () => {
  const file = { slice: () => { throw new Error("gone"); }, size: 3, name: "a" };
  assert.deepEqual((await found({ path: "in/a", file })).counties, { "in/a": "it can't be read: it was moved, changed or is locked" });
});

test("a record is known by its type and by what that type requires", async () => {
  assert.ok(isRecord(record) && isRecord(record.replace("+32464118", " 32464118")));
  const numbered = (tlid) => `${record.slice(0, 5)}${tlid}${record.slice(15)}`;
  assert.ok(isRecord(numbered("1         ")) && isRecord(numbered("         1")));
  for (const line of [numbered("x        1"), numbered("1        x"), "", "1", `3${record.slice(1)}`, record.slice(0, 209), `${record.slice(0, 5)}          ${record.slice(15)}`, record.replace("-86477532", "x86477532")]) {
    assert.equal(isRecord(line), false, line);
  }
  const begins = async (file) => beginsWithRecord(file, await beginningOf(file));
  assert.ok(await begins(new File([`${record}\r\nmore`], "a")));
  assert.equal(await begins(new File([`${record}x`], "a")), true);
  assert.equal(await begins(new File([`\n${record}`], "a")), false);
});

test("of a stream no more is read than its first line, or than the length of a record", async () => {
  const stream = (...pieces) => new ReadableStream({
    pull(controller) {
      if (pieces.length) controller.enqueue(Buffer.from(pieces.shift()));
      else controller.error(new Error("more was read"));
    },
  });
  assert.equal(await firstLine(stream("ab", "c\r\nd")), "abc");
  assert.equal(await firstLine(stream("1".repeat(200), "2".repeat(200))), "1".repeat(200) + "2".repeat(40));
});

test("names for files to save, keys and endings", () => {
  assert.deepEqual(["in/a.txt", "b", "…/"].map(plainName), ["a", "b", "county"]);
  assert.deepEqual(["in/a.txt", "b"].map(canonicalName), ["a-canonical.txt", "b.txt"]);
  assert.deepEqual(["x/tgr01001", "TGR01001.txt", "tgr01001.txt.gz", ".b", "a.b.c", "St. Clair"].map(keyOf), ["TGR01001", "TGR01001", "TGR01001", ".B", "A.B", "ST. CLAIR"]);
  assert.deepEqual(["a.TAR.GZ", "a.b.c", ".b", "in.x/b", "b."].map(endingOf), [".tar.gz", ".c", "without an ending", "without an ending", "."]);
  assert.deepEqual(["b", "a\u{10000}", "a\uffff", "a", "B"].sort(byBytes), ["B", "a", "a\uffff", "a\u{10000}", "b"]);
});

test("sizes in words", () => {
  const texts = ["999 bytes", "1.0 KB", "9.9 KB", "10 KB", "1000 KB", "1.0 MB", "12 MB", "1.0 GB"];
  assert.deepEqual([999, 1000, 9900, 10_000, 999_999, 1_000_000, 12_000_000, 1_000_000_000].map(sizeText), texts);
});

test("the nine parts in their order, with their names and what is missing", async () => {
  const { counties } = await sortedOut([given("A.RT2", "22"), given("A.RT1", ""), given("A.RTP", "333")]);
  const stages = [];
  const { parts, names, notes } = await partsOf(counties[0], (stage) => stages.push(stage));
  assert.deepEqual(parts.map(({ length }) => length), [0, 2, 0, 0, 0, 0, 0, 0, 3]);
  assert.deepEqual(names, ["A.RT1", "A.RT2", ".RT4", ".RT5", ".RT6", ".RT7", ".RT8", ".RTI", "A.RTP"]);
  assert.deepEqual(notes, ["no .RT4 .RT5 .RT6 .RT7 .RT8 .RTI", "empty .RT1"]);
  assert.deepEqual([stages[0], stages.at(-1)], [{ stage: "reading", done: 0, total: 5 }, { stage: "reading", done: 5, total: 5 }]);
  assert.equal(packedSize(counties[0]), 5);
  await assert.rejects(partsOf({ trouble: "there are 2 zips: a, b" }, none), new Unreadable("there are 2 zips: a, b"));
  const empty = new Unreadable("it is empty, so it has no records");
  for (const path of ["A.RT1", "all.txt"]) await assert.rejects(partsOf((await sortedOut([given(path, "")])).counties[0], none), empty);
});

// A file of this size whose stream has other bytes.
const changing = (size, pieces, name = "a.txt") => ({ name, size, slice: () => new File([""], "a"), stream: () => new Blob(pieces).stream() });

test("a file that changes while it is read isn't judged", async () => {
  for (const pieces of [["1"], ["12", "34"], []]) {
    await assert.rejects(partsOf({ whole: changing(3, pieces), notes: [] }, none), new Unreadable("a file changed while it was read: a.txt"));
    await assert.rejects(partsOf({ files: { 1: changing(3, pieces) }, notes: [] }, none), new Unreadable("a file changed while it was read: a.txt"));
  }
});

test("no county of more bytes than the page takes is read", async () => {
  const files = (last) => ({ 1: changing(LARGEST - 1, [], "A.RT1"), 2: changing(last, [], "A.RT2") });
  const tooLarge = new Unreadable("the files have 1,000,000,001 bytes, and this page takes at most 1,000,000,000: use the program");
  await assert.rejects(partsOf({ files: files(2), notes: [] }, none), tooLarge);
  await assert.rejects(partsOf({ files: files(1), notes: [] }, none), (error) => error.message !== tooLarge.message);
  const whole = new Unreadable("the file has 1,000,000,001 bytes, and this page takes at most 1,000,000,000: use the program");
  await assert.rejects(partsOf({ whole: changing(LARGEST + 1, []), notes: [] }, none), whole);
});

// What a browser gives for a drop: handles, as Chromium has them, or entries, as others have.
const handleOf = (name, children) => (children ? { kind: "directory", name, async *values() { yield* children; } } : { kind: "file", name, getFile: async () => new File([name], name) });

function entryOf(name, children) {
  if (!children) return { isFile: true, name, file: (resolve) => resolve(new File([name], name)) };
  const pieces = [children.slice(0, 1), children.slice(1), []];
  return { isFile: false, name, createReader: () => ({ readEntries: (resolve) => resolve(pieces.shift()) }) };
}

// The same folder, as one whose files a browser can't list.
const unlisted = (folder) => ({
  ...folder,
  async *values() { throw new Error("no permission"); },
  createReader: () => ({ readEntries: (_, reject) => reject(new Error("no permission")) }),
});

for (const [what, make, itemOf] of [
  ["handles", handleOf, (dropped) => ({ kind: "file", getAsFileSystemHandle: async () => dropped, webkitGetAsEntry: () => assert.fail("an entry") })],
  ["entries", entryOf, (dropped) => ({ kind: "file", webkitGetAsEntry: () => dropped })],
]) {
  test(`dropped files and folders, by ${what}`, async () => {
    const dropped = [make("a", [make("b"), make("c", [make("d")])]), make("e")];
    const files = await droppedFiles({ items: [{ kind: "string" }, ...dropped.map(itemOf)], files: [] });
    assert.deepEqual(files.map(({ path, file }) => [path, file.name]), [["a/b", "b"], ["a/c/d", "d"], ["e", "e"]]);
  });
  test(`a dropped folder that can't be listed, by ${what}`, async () => {
    const dropped = make("a", [make("b"), unlisted(make("c", [])), make("d", [unlisted(make("e", []))])]);
    const files = await droppedFiles({ items: [itemOf(dropped)], files: [] });
    assert.deepEqual(files.map(({ path, file }) => [path, file?.name]), [["a/b", "b"], ["a/c/", undefined], ["a/d/e/", undefined]]);
  });
  test(`too many dropped files, by ${what}`, async () => {
    const file = make("b");
    const drop = (count) => droppedFiles({ items: [itemOf(make("a", new Array(count).fill(file)))], files: [] }, 3);
    await assert.rejects(drop(4), new TooManyFiles("There are more than 3 files. Drop fewer at once, or use tigercanon-tools."));
    assert.equal((await drop(3)).length, 3);
  });
}

test("a folder that can't be listed is in the place of its counties", async () => {
  const { counties, skipped } = await found({ path: "in/TGR01001/" }, { path: "in/.git/" }, "in/TGR01001.RT1", "in/TGR01001.x/a.zip", { path: "in/a\nb/" });
  assert.deepEqual([counties, skipped], [{
    "in/TGR01001": "1", "in/TGR01001.x/a": "zip", "in/TGR01001/": "can't be listed: it was moved or is locked", "in/a\nb/": "its name has a line break in it",
  }, []]);
});

test("files that a browser gives without items, and chosen folders", async () => {
  const file = new File([""], "a");
  assert.deepEqual(await droppedFiles({ items: [], files: [file] }), [{ path: "a", file }]);
  const inside = Object.assign(new File([""], "a"), { webkitRelativePath: "in/a" });
  assert.deepEqual(chosenFiles([inside]), [{ path: "in/a", file: inside }]);
});
