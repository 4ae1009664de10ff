// What is said and listed of two maps, and how two files of one map differ.
import { engineBytes, equal, example, take } from "./scripts.mjs";

const engine = await take("engine");
const { LANDMARK } = await take("contents");
const { fileDifferences } = await take("file_differences");
const { Findings } = await take("findings");
const { ALIKE, CHANGED, FIRST, keyOfKind, SECOND } = await take("kinds");
const { isShownAtFirst } = await take("kinds_table");
const { leftOut } = await take("manifests");
const { compareCounties, ownNumbers } = await take("matching");
const { shownName } = await take("names");
const { POINT_WIDTH } = await take("points");
const { County } = await take("records");
const { tiedPoint } = await take("ties");
const { sentenceOf } = await take("two");

equal("what is shown at first", [true, true, false, true, false, true, false], [["chain", ALIKE, 1e6], ["landmark", ALIKE, 500], ["landmark", ALIKE, 501], ["polygon", CHANGED, 5000], ["polygon", CHANGED, 5001], ["chain", FIRST, 9e9], ["polygon", ALIKE, 1]].map((each) => isShownAtFirst(...each)));
equal("what masks leave out", ["", "sources", "reserved fields", "sources and reserved fields"], [{}, { sources: true }, { reserved: true }, { sources: true, reserved: true }].map(leftOut));
equal("names without marks that turn lines round", "abcdefgh", shownName("a\u200fb\u200ec\u061cd\u202ee\u2066f\u2069g\u202ah"));

const subjects = ["chain", "landmark", "polygon", "feature name"];
const sentence = (chain, landmark, polygon, name, ties = 0, verdict = "") =>
  sentenceOf({ subjects, ties, verdict, counts: { chain, landmark, polygon, "feature name": name } });
equal("several things differ", "1,004 chains, 1 landmark and 2 names differ.", sentence([1, 3, 1000, 9], [0, 0, 1, 5], [0, 0, 0, 7], [1, 1, 0, 0]));
equal("one thing differs", "1 polygon differs.", sentence([0, 0, 0, 9], [0, 0, 0, 5], [1, 0, 0, 7], [0, 0, 0, 0]));
equal("11 things differ", "11 chains differ, 2 joined differently.", sentence([11, 0, 0, 9], [0, 0, 0, 0], [0, 0, 0, 0], [0, 0, 0, 0], 2));
equal("only ties differ", "All are alike. 1 joined differently.", sentence([0, 0, 0, 9], [0, 0, 0, 0], [0, 0, 0, 0], [0, 0, 0, 0], 1, "All are alike."));

// Two files of one map. examples/README.md has the counts.
const module = new WebAssembly.Module(engineBytes());
const masks = { sources: false, reserved: false };
const partsOf = (name) => [example(name)];
const respelled = (name) => ({ parts: partsOf(name), text: engine.respell(module, partsOf(name)).text });
const canonical = (name) => new County(engine.normalise(module, partsOf(name), masks).text);
const ways = (first, second) => Object.fromEntries(fileDifferences([respelled(first), respelled(second)], canonical(first), masks).map(({ label, text }) => [label, text]));
const renumbered = ways("autauga/all.txt", "autauga-renumbered/all.txt");
equal("other numbers", "other numbers for 7 of 7 chains (TLID), 2 of 2 names (FEAT), 3 of 3 landmarks (LAND), 3 of 3 polygons (POLYID)", renumbered.Numbers);
equal("other directions", "4 of 7 chains run the other way", renumbered.Direction);
equal("other records", "the shape points or names of 6 of 7 chains are divided differently among records", renumbered.Division);
equal("line endings of both kinds", "lines end in LF in the first and in LF and CR LF in the second", renumbered.Spelling.split(";")[0]);
equal("a file and itself", { Numbers: "the same", Order: "the same", Direction: "the same", Division: "the same" }, (({ Spelling, ...rest }) => rest)(ways("autauga/all.txt", "autauga/all.txt")));
const canonicalText = respelled("autauga/all.txt").text;
const respelt = { parts: [canonicalText], text: canonicalText };
const cut = Buffer.from(canonicalText).toString("latin1").split("\n").slice(0, -1).map((line, place) => (place % 10 === 3 ? line.replace(/^(.)2006/, "$1  06") : line));
const other = { parts: [cut.slice(0, 9), cut.slice(9)].map((each) => new Uint8Array(Buffer.from(`${each.join("\r\n")}\r\n`, "latin1"))), text: canonicalText };
const respeltCounty = canonical("autauga/all.txt");
const spelling = (...files) => fileDifferences(files, respeltCounty, masks).find(({ label }) => label === "Spelling").text;
equal("lines that aren't in canonical spelling", "lines end in CR LF in the first and in LF in the second; 3 of 33 lines of the first aren't in canonical spelling", spelling(other, respelt));
equal("lines that are", "the same", spelling(respelt, respelt));
const upsideDown = new Uint8Array(Buffer.from(Buffer.from(canonicalText).toString("latin1").trimEnd().split("\n").reverse().map((line) => `${line}\n`).join(""), "latin1"));
equal("records of types 2 and 4 in another order aren't divided differently", "the same", fileDifferences([respelt, { parts: [upsideDown], text: upsideDown }], respeltCounty, masks).find(({ label }) => label === "Division").text);
const spelled = ways("types-1-and-I.txt", "other-spelling.txt");
equal("another spelling", ["the same", "the same", "the same", "the same"], [spelled.Numbers, spelled.Order, spelled.Direction, spelled.Division]);
equal("its line endings", "lines end in LF in the first and in CR LF in the second", spelled.Spelling.split(";")[0]);
equal("one street", ["1 of 1 chains run the other way", "other numbers for 1 of 1 chains (TLID), 1 of 1 names (FEAT), 1 of 1 polygons (POLYID)"], (({ Direction, Numbers }) => [Direction, Numbers])(ways("one-street/first.txt", "one-street/second.txt")));

// The list of two maps of a town, as the tools print it (docs/commands.md and examples/two-maps).
const town = ["two-maps/first.txt", "two-maps/second.txt"];
const counties = town.map(canonical);
const findings = new Findings(compareCounties(...counties), counties);
const summary = findings.summary();
equal("the counts", { chain: [4, 4, 11, 207], landmark: [1, 1, 1, 9], polygon: [0, 0, 2, 78], "feature name": [0, 1, 0, 2] }, summary.counts);
equal("how many there are", [25, false], [summary.total, summary.areOneMap]);
equal("the chains of the map, those that differ last", [207, 226, ALIKE, FIRST, CHANGED], [summary.shapes.firstEntry, summary.shapes.chains.classes.length, summary.shapes.chains.classes[206], summary.shapes.chains.classes[207], summary.shapes.chains.classes[225]]);
equal("the points of the map, those that are alike first", [ALIKE, ALIKE, FIRST], [0, 1, summary.shapes.points.findIndex(({ kind }) => kind !== ALIKE)].map((at) => summary.shapes.points[at].kind));
equal("points that differ lead to their entries", true, summary.shapes.points.filter(({ kind }) => kind !== ALIKE).every(({ entry, kind, subject }) => findings.entries[entry].kind === kind && findings.entries[entry].what === subject));
equal("polygons that are alike", ["polygon", true], (({ subject, title }) => [subject, /^polygon at 32\.4\d+° N, 86\.4\d+° W$/.test(title)])(findings.alikePolygons()[0]));
equal("how many they are", 78, findings.alikePolygons().length);

const list = (text, hidden = [], from = 0, most = undefined) => findings.list({ text, hidden, from, most });
equal("all words must be there", [1, 2, 0, 25], [list("hickory 998"), list("Hickory Toaddr"), list("hickory maple"), list("  ")].map(({ count }) => count));
equal("of what changed only the fields that differ are sought", 0, list("maple 36067 fename").count);
equal("hidden ones", [14, 24], [[keyOfKind("chain", CHANGED)], [keyOfKind("feature name", SECOND)]].map((hidden) => list("", hidden).count));
equal("a piece of the list", [25, [3, 4, 5]], (({ count, piece }) => [count, piece.map(({ number }) => number)])(list("", [], 3, 3)));
const abouts = (word) => list(word).piece.map(({ about }) => about);
equal("where a chain is", "4 points, from 32.460317° N, 86.477954° W to 32.460467° N, 86.476508° W", abouts("jackson")[0]);
equal("where a landmark is", "at 32.457196° N, 86.469284° W", abouts("madison oak")[0]);
equal("whose number a polygon has", ["CENID 06001", "CENID 06001"], abouts("polygon changed cenid").slice(-2));
equal("what a name is of", true, /^FILE 01001, a further name of \d+ chains?$/.test(abouts("name only in the second").at(-1)));
const harrison = list("harrison").piece[0];
equal("three of the fields that changed", [["range 1", "FRADDL of range 1", "TOADDL of range 1"], 4, "no", "yes"], [harrison.changes.map(({ label }) => label), harrison.more, harrison.changes[0].first, harrison.changes[0].second]);
equal("without numbers at first", ["", 0], [harrison.numbers, list("TLID 1977").count]);
const own = town.map((name, side) => ownNumbers(new County(engine.respell(module, partsOf(name)).text), counties[side], masks));
findings.takeNumbers(own);
equal("numbers of both files", ["TLID 50 and 898", 1], [list("harrison").piece[0].numbers, list("tlid 1977").count]);
equal("a number of one file", "TLID 40", list("TLID 40 jackson").piece[0].numbers);
equal("the keys whose numbers are wanted", [19, 19], summary.wanted.map((keys) => keys.length));
const details = findings.details(harrison.number);
equal("all fields of an entry", [7, true, "changed"], [details.rows.filter(({ differs }) => differs).length, details.rows.length > 20, summary.kinds[details.kind]]);
equal("a chain that is alike", [ALIKE, "chain", false], (({ kind, what, rows }) => [kind, what, rows.some(({ differs }) => differs)])(findings.detailsOfAlike(0)));

// Where nodes are joined differently, the places are listed.
const joined = (first, second) => {
  const both = [first, second].map((text) => new County(text));
  return new Findings(compareCounties(...both), both);
};
const text = engine.normalise(module, partsOf("autauga/all.txt"), masks).text;
const lines = new TextDecoder("windows-1252").decode(text).split("\n");
// The text with another value in these columns of the first line of a type.
const changed = (type, from, value) => {
  const row = lines.findIndex((line) => line[0] === type);
  const line = `${lines[row].slice(0, from)}${value}${lines[row].slice(from + value.length)}`;
  return new Uint8Array(Buffer.from(lines.with(row, line).join("\n"), "latin1"));
};
const tied = joined(text, changed("I", 20, "999".padStart(10)));
equal("a node that is two in the second map", [1, 1, "tie", true], [tied.summary().ties, tied.entries.length, tied.entries[0].what, tied.details(0).groups.length === 2]);
equal("what differs is how they are joined", "All chains, landmarks, polygons and feature names are alike", tied.summary().verdict.split(".")[0]);
equal("found by where it is", [1, 0], [tied.list({ text: "one node in the first", hidden: [], from: 0 }).count, tied.list({ text: "polygon", hidden: [], from: 0 }).count]);
// What a single field changes: [type, columns from, value, fields that differ].
for (const [type, from, value, fields] of [
  ["I", 20, " ".repeat(10), ["start node"]],
  ["I", 30, " ".repeat(10), ["end node"]],
  ["1", 55, "A99", ["CFCC"]],
]) {
  const piece = joined(text, changed(type, from, value)).list({ text: "", hidden: [], from: 0 }).piece.filter(({ what }) => what === "chain");
  equal(`a chain with another ${fields}`, [fields], piece.map(({ changes }) => changes.map(({ label }) => label)));
}
equal("one map has no ties", [0, 0], (({ ties, total }) => [ties, total])(joined(text, text).summary()));

// A landmark's place is its own point, in its first record; a chain's is the end that is meant, or else its middle.
const pointed = counties[0].landmarks.filter(({ bodies: [body] }) => LANDMARK.value(body, "LALONG, LALAT").trim());
const two = pointed.slice(0, 2).map(({ bodies }) => bodies[0]);
equal("the place of a landmark", LANDMARK.value(two[0], "LALONG, LALAT"), tiedPoint({ landmark: { bodies: two } }));
const chain = counties[0].chains.find(({ points }) => points.length === 5 * POINT_WIDTH);
const places = ["start", "end", "left side"].map((place) => tiedPoint({ chain, place }));
equal("the places of a chain", [0, 4, 2].map((at) => chain.points.slice(at * POINT_WIDTH, (at + 1) * POINT_WIDTH)), places);
