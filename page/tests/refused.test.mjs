// What is shown of a refused set: the faulty line with its field, or the records that the refusal is about. The lines are those of
// docs/refusals.md, the sets those of examples/refused, and the columns those of docs/format.md.
import assert from "node:assert/strict";
import { File } from "node:buffer";
import { test } from "node:test";
import { engineBytes, example, take } from "./scripts.mjs";

const { linesOf } = await take("faulty");
const { JOBS } = await take("worker");

globalThis.postMessage = () => {};
const module = new WebAssembly.Module(engineBytes());
const masks = { sources: false, reserved: false };
const bytesOf = (text) => new Uint8Array(Buffer.from(text, "latin1"));

// What is shown of a set: the refusal, each line with its number, its marked columns, what is in them and its label, and the advice.
async function shown(bytes, name = "a") {
  const { line, lines, right, hint } = await JOBS.judge({ module, county: { whole: new File([bytes], name), notes: [] }, masks });
  const told = lines.map(({ file, line: number, text, mark: [first, last], label }) => [file, number, first, last, text.slice(first - 1, last), label]);
  return [line, told, right ?? null, hint || null];
}

const record = Buffer.from(example("autauga/all.txt")).toString("latin1").split("\n")[0];
const polygon = "P200601001000010000000012 -86468600+32424900 x";
const NUMBER = { example: "       500", means: "digits, with blanks or zeros around them" };
const TYPES = { means: "one of 1 2 4 5 6 7 8 I P" };
const PRINTABLE = { means: "a printable character: 0x20 to 0x7E, or 0xA0 to 0xFF for letters with accents" };
const CONTROL_Z = "the file ends with a Control-Z, the end mark of an old system: remove it";
const longest = (found) => ({ means: `a line of type P has at most 45 bytes; this one has ${found}` });

for (const [what, text, line, told, right, hint = null] of [
  ["an unknown type", "A         1", "1 UnknownType 1 1", [1, 1, 1, "A", "the record type"], TYPES],
  ["a blank line at the end", `${record}\n\n`, "1 UnknownType 1 2", [2, 1, 1, "", "the record type"], TYPES],
  ["a Control-Z on the last line", `${record}\n\x1a`, "1 UnknownType 1 2", [2, 1, 1, "\x1a", "the record type"], TYPES, CONTROL_Z],
  ["a Control-Z on the last line, which ends", `${record}\r\n\x1a\r\n`, "1 UnknownType 1 2", [2, 1, 1, "\x1a", "the record type"], TYPES, CONTROL_Z],
  ["a fault before a Control-Z", `A\n${record}\n\x1a`, "1 UnknownType 1 1", [1, 1, 1, "A", "the record type"], TYPES],
  ["a byte order mark", `\xef\xbb\xbf${record}`, "1 UnknownType 1 1", [1, 1, 1, "\xef", "the record type"], TYPES, "the file begins with a byte order mark: remove its first three bytes"],
  ["a fault after a byte order mark", `${record}\n\xef\xbb\xbf${record}`, "1 UnknownType 1 2", [2, 1, 1, "\xef", "the record type"], TYPES],
  ["one byte too many", polygon, "2 LineTooLong 1 1", [1, 46, 46, "x", "what is beyond column 45"], longest(46)],
  ["more bytes too many", `${polygon}yz`, "2 LineTooLong 1 1", [1, 46, 48, "xyz", "what is beyond column 45"], longest(48)],
  ["a tab", "I         1\ttab", "3 BadByte 1 1 12", [1, 12, 12, "\t", "the byte 0x09, a tab, in TLID"], PRINTABLE],
  ["another byte", "I         1\x7f", "3 BadByte 1 1 12", [1, 12, 12, "\x7f", "the byte 0x7F in TLID"], PRINTABLE],
  ["a torn number", "1         12 4", "4 BadNumber 1 1 6", [1, 6, 15, "     12 4", "TLID, columns 6 to 15: the chain's number"], NUMBER],
  ["half a point", `${"7200601001        30AD43Barn".padEnd(54)} -86468600`, "5 BadPoint 1 1 55", [1, 55, 64, " -86468600", "LALONG, columns 55 to 64: its position, if the landmark is a point"], { example: "-086468669", means: "for 86.468669° W" }],
  ["a torn latitude", "P200601001000010000000012 -86468600+3242x900", "5 BadPoint 1 1 36", [1, 36, 44, "+3242x900", "POLYLAT, columns 36 to 44: a point inside it"], { example: "+32424914", means: "for 32.424914° N" }],
  ["a gap", "42006         1  1               8", "6 GapInRecord 1 1 27", [1, 27, 34, "       8", "FEAT2, columns 27 to 34: five slots for FEAT numbers of names, which type 5 spells out"], { means: "the places of type 4 are used from the left, without a blank one between" }],
]) test(`the field at fault: ${what}`, async () => assert.deepEqual(await shown(bytesOf(text)), [`refused ${line}`, [["a", ...told]], right, hint]));

const TLID = [6, 15];
for (const [name, line, [first, last], marked, label, numbers] of [
  ["chain-twice", "11 ChainTwice 2845007", TLID, "   2845007", "TLID, columns 6 to 15", [1, 2]],
  ["no-chain", "12 NoChain 6 2845001", TLID, "   2845001", "TLID, columns 6 to 15", [3]],
  ["sequence-broken", "13 SequenceBroken 2 2845100", [16, 18], "  1", "RTSQ, columns 16 to 18", [2, 3]],
  ["link-missing", "14 LinkMissing 2845007", TLID, "   2845007", "TLID, columns 6 to 15", [1]],
  ["link-twice", "15 LinkTwice 2845007", [11, 20], "   2845007", "TLID, columns 11 to 20", [2, 3]],
  ["name-twice", "16 NameTwice 4", [11, 18], "       4", "FEAT, columns 11 to 18", [3, 4]],
  ["name-unknown", "17 NameUnknown 2845020 9", [19, 26], "       9", "FEAT1, columns 19 to 26", [2]],
  ["polygon-twice", "18 PolygonTwice 3036303031 1", [11, 25], "06001         1", "CENID, columns 11 to 15; POLYID, columns 16 to 25", [3, 4]],
  ["landmark-unknown", "19 LandUnknown 34", [26, 35], "        34", "LAND, columns 26 to 35", [4]],
  ["polygon-unknown", "20 PolygonUnknown 3036303031 2", [11, 25], "06001         2", "CENID, columns 11 to 15; POLYID, columns 16 to 25", [4]],
  ["polygon-without-chain", "23 PolygonWithoutChain 3036303031 2", [11, 25], "06001         2", "CENID, columns 11 to 15; POLYID, columns 16 to 25", [4]],
  ["too-symmetric", "24 TooSymmetric", [191, 228], " -86477532+32464118 -86477480+32460872", "the ends of 8 chains", [1, 2, 3, 4]],
]) test(`the records of a refusal: ${name}`, async () => {
  const told = numbers.map((number) => [`${name}.txt`, number, first, last, marked, label]);
  assert.deepEqual(await shown(example(`refused/${name}.txt`), `${name}.txt`), [`refused ${line}`, told, null, null]);
});

test("a long line is cut", async () => {
  const judged = async (length) => JOBS.judge({ module, county: { whole: new File([bytesOf(polygon.padEnd(length, "x"))], "a"), notes: [] }, masks });
  assert.deepEqual((await judged(400)).lines.map(({ text, isCut }) => [text.length, isCut]), [[400, false]]);
  assert.deepEqual((await judged(401)).lines.map(({ text, isCut }) => [text.length, isCut]), [[400, true]]);
});

test("the lines of a part, and how they end", () => {
  const lines = (text) => [...linesOf(bytesOf(text))].map(({ number, bytes, ending }) => [number, Buffer.from(bytes).toString(), ending]);
  assert.deepEqual(lines("a\r\nb\n\r\n\nc"), [[1, "a", "CR LF"], [2, "b", "LF"], [3, "", "CR LF"], [4, "", "LF"], [5, "c", ""]]);
  assert.deepEqual([lines(""), lines("a\r"), lines("\r")], [[], [[1, "a", "CR"]], [[1, "", "CR"]]]);
});
