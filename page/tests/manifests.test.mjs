// Manifests, and many counties that are judged several at a time.
import assert from "node:assert/strict";
import { test } from "node:test";
import { take } from "./scripts.mjs";

const { flagsOf, manifestOf, readManifest, verified } = await take("manifests");
const { Queue, weightOf } = await take("queue");

const [NO_FLAGS, BOTH] = [{ sources: false, reserved: false }, { sources: true, reserved: true }];
const print = (digit) => digit.repeat(64);
const line = (digit, stem) => `${print(digit)}  ${stem}\n`;
const HEAD = "# tigercanon form 1\n";

test("a manifest has its form, its flags, and the counties in the order of their names", () => {
  const counties = [["b", "1"], ["a", "3"], ["a", "2"], ["B", "4"]].map(([stem, digit]) => ({ stem, fingerprint: print(digit) }));
  const lines = line("4", "B") + line("2", "a") + line("3", "a") + line("1", "b");
  const head = manifestOf([], NO_FLAGS);
  assert.ok([HEAD, "# tigercanon form 1 unproved\n"].includes(head));
  assert.equal(manifestOf(counties, NO_FLAGS), head + lines);
  assert.equal(manifestOf([], BOTH), head.replace("\n", " --no-sources --no-reserved\n"));
  assert.deepEqual(flagsOf({ sources: false, reserved: true }), ["--no-reserved"]);
});

test("a county without a fingerprint has a comment with the reason", () => {
  const counties = [
    { stem: "b", fingerprint: print("1") }, { stem: "c", reason: "refused 4 BadNumber 1 4 6" },
    { stem: "a", reason: "failed: the zip is  cut\noff" }, { stem: "d", reason: "failed: not checked yet" },
  ];
  const head = manifestOf([], NO_FLAGS);
  const comments = ["failed: the zip is cut off  a", "refused 4 BadNumber 1 4 6  c", "failed: not checked yet  d"].map((text) => `# ? -  ${text}\n`);
  const text = manifestOf(counties, NO_FLAGS);
  assert.equal(text, head + comments[0] + line("1", "b") + comments[1] + comments[2]);
  assert.deepEqual(readManifest(text).counties.map(({ stem, fingerprint }) => [stem, fingerprint]), [["a", ""], ["b", print("1")], ["c", ""], ["d", ""]]);
});

test("the flags of a manifest, also of earlier tools", () => {
  const heads = {
    [HEAD]: [false, false], "# tigercanon form 1 --no-sources\n": [true, false], "# tigercanon form 1 unproved --no-reserved\n": [false, true],
    "# --no-sources --no-reserved\n": [true, true], "": [false, false],
  };
  for (const [head, masks] of Object.entries(heads)) {
    const { masks: found, counties } = readManifest(head + line("1", "a"));
    assert.deepEqual([found.sources, found.reserved, counties], [...masks, [{ fingerprint: print("1"), stem: "a" }]], head);
  }
});

test("of several lines for a county the last one counts, and a later refusal takes its fingerprint", () => {
  const refused = "# 5 2026-11-29T22:20:40Z  refused 4 BadNumber 1 4 6  b\n";
  const text = `${HEAD}${line("1", "a")}${line("A", "b")}# 12 2026-11-29T22:20:40.7Z, 3 ?  a\r\n${line("2", "a")}${refused}${line("3", "c d")}`;
  const { counties } = readManifest(text.replaceAll("\r\n", "\n").replaceAll("\n", "\r\n"));
  const fingerprints = Object.fromEntries(counties.map(({ stem, fingerprint }) => [stem, fingerprint]));
  assert.deepEqual(fingerprints, { a: print("2"), b: "", "c d": print("3") });
  assert.deepEqual(readManifest(HEAD + refused + line("A", "b")).counties, [{ fingerprint: print("a"), stem: "b" }]);
  assert.deepEqual(readManifest(HEAD + refused.replace("  b", "  b  c")).counties.map(({ stem }) => stem), ["b  c"]);
});

test("what isn't a manifest", () => {
  const sentences = {
    [HEAD]: "the manifest is empty",
    [`${HEAD}${line("1", "a").trimEnd()}`]: "its last line has no line ending, so it may be cut off",
    ["# tigercanon form 2\n"]: 'its first line is "# tigercanon form 2", and this page knows "# tigercanon form 1" with its own flags alone',
    [`${HEAD}${line("1", "a")}nothing\n`]: "not a manifest: line 3 isn't a fingerprint and a name",
    [`${line("1", "a")}# notes\n`]: "not a manifest: line 2 isn't a fingerprint and a name",
    [`${line("1", "a")}${HEAD}`]: "not a manifest: line 2 isn't a fingerprint and a name",
    [line("1", "in/A.RT1")]: "not a manifest but a list of other hashes: line 1 is of the file in/A.RT1",
  };
  for (const [text, message] of Object.entries(sentences)) assert.throws(() => readManifest(text), { message });
});

test("how counties compare with a manifest: by their names, and a county without a fingerprint has failed", () => {
  const manifest = { counties: [["a", "1"], ["b", "2"], ["c", "3"], ["gone", "4"]].map(([stem, digit]) => ({ stem, fingerprint: print(digit) })) };
  const counties = [{ stem: "a", fingerprint: print("1") }, { stem: "b", fingerprint: print("9") }, { stem: "c" }, { stem: "in/a", fingerprint: print("1") }];
  assert.deepEqual(verified(manifest, counties), {
    isByName: true,
    lines: [
      { stem: "a", state: "OK" }, { stem: "b", state: "FAILED", wanted: print("2"), isOtherMap: true },
      { stem: "c", state: "FAILED", wanted: print("3"), isOtherMap: false }, { stem: "gone", state: "MISSING" }, { stem: "in/a", state: "NEW" },
    ],
  });
});

test("a county that a manifest lists as refused is still refused, accepted now, or can't be judged", () => {
  const manifest = { counties: ["a", "b", "c", "d"].map((stem) => ({ stem, fingerprint: "" })) };
  const { lines } = verified(manifest, [{ stem: "a", fingerprint: print("1") }, { stem: "b", isRefused: true }, { stem: "c" }]);
  assert.deepEqual(lines.map(({ state }) => state), ["ACCEPTED", "REFUSED", "FAILED", "MISSING"]);
});

// What comes of a manifest with these lines, each a name and a digit of its fingerprint, beside such counties.
const compared = (lines, counties) => {
  const each = ([stem, digit, more]) => ({ stem, fingerprint: digit && print(digit), ...more });
  const judged = counties.map(each);
  for (const county of judged) county.double = judged.find(({ stem }) => stem === county.double);
  const { lines: found, isByName } = verified({ counties: lines.map(each) }, judged);
  return [isByName, ...found.map(({ stem, state }) => `${stem} ${state}`)];
};

test("counties may have been packed, unpacked or joined since", () => {
  const [lines, counties] = [[["in/A", "1"], ["in/b.txt.gz", "2"], ["c/A", "3"]], [["in/a.txt", "1"], ["in/B", "2"], ["d/A", "3"]]];
  assert.deepEqual(compared(lines, counties), [true, "in/a.txt OK", "in/B OK", "c/A MISSING", "d/A NEW"]);
});

test("a name that several counties have stands for none of them", () => {
  assert.deepEqual(compared([["a/A", "1"]], [["b/A", "1"], ["c/A", "2"]]), [false, "a/A MISSING", "b/A NEW", "c/A NEW"]);
  assert.deepEqual(compared([["a/A", "1"], ["b/A", "2"]], [["c/A", "1"]]), [false, "a/A MISSING", "b/A MISSING", "c/A NEW"]);
  assert.deepEqual(compared([["A", "1"], ["a", "2"]], [["A", "1"], ["a", "2"]]), [true, "A OK", "a OK"]);
});

test("a file with the map of the zip beside it is OK if that is, unless the manifest lists it", () => {
  const both = [["A", "1"], ["A.txt", "1", { double: "A" }]];
  assert.deepEqual(compared([["a", "1"]], both), [true, "A OK", "A.txt OK"]);
  assert.deepEqual(compared([["a", "2"]], both), [true, "A FAILED", "A.txt NEW"]);
  assert.deepEqual(compared([["B", "2"]], both), [false, "B MISSING", "A NEW", "A.txt NEW"]);
  assert.deepEqual(compared([["A", "1"], ["A.txt", "2"]], both), [true, "A OK", "A.txt FAILED"]);
});

test("a county that can't be read has failed, although the manifest doesn't have it", () => {
  assert.deepEqual(compared([["A", "1"]], [["A", "1"], ["B", "", { isUnread: true }], ["C", ""]]), [true, "A OK", "B FAILED", "C NEW"]);
});

test("a folder that couldn't be listed is accepted if there are counties of it, has failed if it still can't be listed, or is missing", () => {
  const lines = [["in/A", "1"], ["in/a.b/", ""], ["in/c/", ""], ["in/d/", ""]];
  const counties = [["in/A", "1"], ["in/a.b/A", "2"], ["in/c/", "", { isUnread: true }], ["in/e/", "", { isUnread: true }]];
  assert.deepEqual(compared(lines, counties), [true, "in/A OK", "in/a.b/ ACCEPTED", "in/c/ FAILED", "in/d/ MISSING", "in/a.b/A NEW", "in/e/ FAILED"]);
  assert.deepEqual(compared([["a/x.y/", ""], ["a/B", "1"]], [["X", "1"], ["b", "1"], ["x.y/", ""]]), [false, "a/x.y/ MISSING", "b OK", "X NEW", "x.y/ NEW"]);
  const text = manifestOf([{ stem: "in/A", fingerprint: print("1") }, { stem: "in/c/", reason: "failed: can't be listed: it was moved or is locked" }], NO_FLAGS);
  assert.ok(text.endsWith(`${line("1", "in/A")}# ? -  failed: can't be listed: it was moved or is locked  in/c/\n`));
  assert.deepEqual(readManifest(text).counties.map(({ stem }) => stem), ["in/A", "in/c/"]);
});

test("if a manifest names none of the counties they are matched without folder, case and ending", () => {
  const manifest = { counties: [{ stem: "tiger/TGR01001", fingerprint: print("1") }, { stem: "tiger/TGR01003.txt", fingerprint: print("3") }] };
  const { isByName, lines } = verified(manifest, [{ stem: "tgr01001", fingerprint: print("1") }, { stem: "x/y", fingerprint: print("2") }]);
  assert.equal(isByName, false);
  assert.deepEqual(lines, [{ stem: "tgr01001", state: "OK" }, { stem: "tiger/TGR01003.txt", state: "MISSING" }, { stem: "x/y", state: "NEW" }]);
});

const county = (stem, size = 1, isZip = false) => ({ stem, notes: [], [isZip ? "zip" : "whole"]: { size } });

// Judges counties by promises that the test settles, and notes which are under way.
function judging(counties, masks, most) {
  const under = new Map();
  const queue = new Queue(counties, masks, (task) => new Promise((resolve, reject) => under.set(task.county.stem, { resolve, reject, task })), most);
  const ended = [];
  const done = (async () => {
    for await (const task of queue.ended()) ended.push(`${task.county.stem} ${task.result ?? task.trouble}`);
  })();
  const settle = async (stem, how = "resolve", value = `of ${stem}`) => {
    under.get(stem)[how](value);
    under.delete(stem);
    await new Promise((resolve) => setTimeout(resolve));
  };
  return { queue, under, ended, done, settle };
}

const soon = () => new Promise((resolve) => setTimeout(resolve));

test("as many counties are judged at a time as there are processors, at most four", async () => {
  const counties = ["a", "b", "c", "d", "e", "f"].map((stem) => county(stem));
  const { under, ended, done, settle } = judging(counties, NO_FLAGS, 16);
  await soon();
  assert.deepEqual([...under.keys()], ["a", "b", "c", "d"]);
  await settle("c");
  assert.deepEqual([[...under.keys()], ended], [["a", "b", "d", "e"], ["c of c"]]);
  await settle("a", "reject", new Error("broken"));
  for (const stem of ["b", "d", "e", "f"]) await settle(stem);
  await done;
  assert.deepEqual(ended, ["c of c", "a broken", "b of b", "d of d", "e of e", "f of f"]);
  const { under: one } = judging(counties.map((each) => ({ ...each })), NO_FLAGS, 1);
  await soon();
  assert.deepEqual([...one.keys()], ["a"]);
});

test("large counties wait until others have ended, and a zip counts for what it unpacks to", async () => {
  assert.deepEqual([weightOf(county("a", 10)), weightOf(county("a", 10, true))], [10, 60]);
  const counties = [county("a", 100_000_000), county("b", 50_000_000), county("c"), county("d", 500_000_000), county("e", 25_000_000, true)];
  const { under, done, settle } = judging(counties, NO_FLAGS, 4);
  await soon();
  assert.deepEqual([...under.keys()], ["a", "b"]);
  await settle("b");
  assert.deepEqual([...under.keys()], ["a", "c"]);
  await settle("a");
  assert.deepEqual([...under.keys()], ["c"]);
  await settle("c");
  assert.deepEqual([...under.keys()], ["d"]);
  await settle("d");
  await settle("e");
  await done;
});

test("a county keeps its result for the masks that it was judged with, and a county with a trouble is judged again", async () => {
  const counties = ["a", "b"].map((stem) => county(stem));
  const first = judging(counties, NO_FLAGS, 4);
  await soon();
  await first.settle("a");
  await first.settle("b", "reject", new Error("broken"));
  await first.done;
  const again = judging([county("c"), ...counties], NO_FLAGS, 4);
  await soon();
  assert.deepEqual([[...again.under.keys()], again.ended], [["c", "b"], ["a of a"]]);
  const masked = judging(counties, BOTH, 4);
  await soon();
  assert.deepEqual([...masked.under.keys()], ["a", "b"]);
  await masked.settle("a", "resolve", "masked");
  const both = judging(counties.slice(0, 1), BOTH, 4);
  await both.done;
  assert.deepEqual(both.ended, ["a masked"]);
  const plain = judging(counties.slice(0, 1), NO_FLAGS, 4);
  await plain.done;
  assert.deepEqual(plain.ended, ["a of a"]);
});

test("after a stop what is under way is ended, and the rest isn't begun", async () => {
  const { queue, under, ended, done } = judging(["a", "b", "c"].map((stem) => county(stem)), NO_FLAGS, 2);
  await soon();
  for (const { task, reject } of under.values()) task.assistant = { end: () => reject(new Error("ended")) };
  queue.stop();
  await done;
  assert.deepEqual([ended.sort(), under.size], [["a ended", "b ended", "c This was stopped."], 2]);
});
