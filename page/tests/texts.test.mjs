// Large texts: they are decoded in pieces, and what is too large for a list is said to be.
import assert from "node:assert/strict";
import { Blob } from "node:buffer";
import { test } from "node:test";
import { engineBytes, example, take } from "./scripts.mjs";

const { NotCanonical } = await take("columns");
const { normalise } = await take("engine");
const { compareCounties } = await take("matching");
const { eachPoint, position } = await take("points");
const { County } = await take("records");
const { shapesOf } = await take("shapes");
const { JOBS } = await take("worker");

globalThis.postMessage = () => {};
const module = new WebAssembly.Module(engineBytes());
const masks = { sources: false, reserved: false };
const texts = ["first", "second"].map((name) => normalise(module, [example(`two-maps/${name}.txt`)], masks).text);
const lines = Buffer.from(texts[0]).toString("latin1").split("\n").slice(0, -1);

test("a text whose last line has no ending, or with a line that isn't a record, isn't a canonical one", () => {
  assert.throws(() => new County(texts[0].subarray(0, texts[0].length - 1)), NotCanonical);
  assert.throws(() => new County(new TextEncoder().encode("12006\n")), NotCanonical);
  assert.throws(() => new County(new TextEncoder().encode("X2006\n")), NotCanonical);
});

// The lines of the text as another reader has them: those of a type.
const linesOfType = (type) => lines.filter((line) => line[0] === type);

test("each chain has its records, whatever their order is", () => {
  const told = (text) => new Map(new County(text).chains.map(({ key, points, body, ranges, names, topologyBody }) => [key, { points, body, ranges, names: names.map(({ body }) => body), topologyBody }]));
  const upsideDown = Buffer.from(`${lines.toReversed().join("\n")}\n`, "latin1");
  assert.deepEqual(told(new Uint8Array(upsideDown)), told(texts[0]));
});

test("a chain has its node, side and office of either end, and the other ones when it is turned", () => {
  const { chains } = new County(texts[0]);
  const sideOf = (key) => (key.slice(5).trim() ? key : undefined);
  const seen = (chain) => [0, 1].map((which) => [chain.node(which), chain.side(which)?.key, chain.office(which)]);
  linesOfType("I").forEach((line, place) => {
    const ends = [[20, 40], [30, 55]].map(([node, side]) => [Number(line.slice(node, node + 10)), sideOf(line.slice(side, side + 15)), line.slice(side, side + 5)]);
    assert.deepEqual(seen(chains[place]), ends);
    assert.deepEqual(seen(chains[place].turned), ends.toReversed());
  });
});

test("each chain of a map has its points and its name", () => {
  const { titles, counts, chains } = shapesOf(texts[0]);
  const points = new County(texts[0]).chains.map((chain) => eachPoint(chain.points).flatMap(position));
  assert.deepEqual(points, points.map((_, chain) => [...chains.places.subarray(2 * chains.starts[chain], 2 * chains.starts[chain + 1])]));
  const names = lines.filter((line) => line[0] === "1").map((line) => line.slice(17, 55).trim().replace(/ +/g, " "));
  const found = [...titles.ofChains].map((title) => titles.all[title].replace(/ \(.*\)$/, ""));
  assert.equal(counts["1"], names.length);
  assert.deepEqual(found, names.map((name) => name || "unnamed"));
});

test("of chains with the same points the nearest are one that changed, and what is left is in one map alone", () => {
  const chain = linesOfType("1").find((line) => line.slice(190, 209) !== line.slice(209) && !linesOfType("6").some((range) => range.slice(5, 15) === line.slice(5, 15)));
  const [range] = linesOfType("6");
  // The chain with so many ranges, under a number.
  const spelled = ([number, ranges]) => {
    const own = lines.filter((line) => "124".includes(line[0]) && line.slice(5, 15) === chain.slice(5, 15)).map((line) => line.slice(0, 5) + number.padStart(10) + line.slice(15));
    const topology = linesOfType("I").find((line) => line.slice(10, 20) === chain.slice(5, 15));
    const more = Array.from({ length: ranges }, (_, at) => range.slice(0, 5) + number.padStart(10) + String(at + 1).padStart(3) + range.slice(18));
    return [...own, `${topology.slice(0, 10)}${number.padStart(10)}${topology.slice(20)}`, ...more];
  };
  const others = lines.filter((line) => "578P".includes(line[0]));
  const both = [[["1", 0], ["2", 2], ["3", 1]], [["4", 3]]].map((chains) => new County(Buffer.from(`${[...chains.flatMap(spelled), ...others].join("\n")}\n`, "latin1")));
  const keys = (each) => each.map(({ key }) => key.trim().slice(-1));
  const found = ([one, two]) => {
    const { first, second, changed, alike } = compareCounties(one, two).chains;
    return [keys(first), keys(second), changed.map(keys), alike.length];
  };
  assert.deepEqual(found(both), [["1", "3"], [], [["2", "4"]], 0]);
  assert.deepEqual(found(both.reverse()), [[], ["1", "3"], [["4", "2"]], 0]);
});

test("two texts that are too large for a list are compared, and the page says so", async () => {
  const blobs = texts.map((text) => new Blob([text]));
  const size = texts[0].length + texts[1].length;
  const { areOneMap, tooLarge, shapes } = await JOBS.compareTexts({ texts: blobs, most: size - 1 });
  assert.deepEqual({ areOneMap, shapes }, { areOneMap: false, shapes: undefined });
  assert.match(tooLarge, /^They are too large for a list of the differences here: .* bytes, and the list takes at most .*\. tigercanon-tools diff lists them\.$/);
  assert.equal((await JOBS.compareTexts({ texts: [blobs[0], blobs[0]], most: 0 })).areOneMap, true);
  const listed = await JOBS.compareTexts({ texts: blobs, most: size });
  assert.equal(listed.areOneMap, false);
  assert.ok(listed.shapes && listed.total > 0);
});
