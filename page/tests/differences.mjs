// Where pairs of sets differ, as the page saves it: a line of JSON on standard input has two files and the flags, and a line of JSON on
// standard output the differences.
import { readFileSync } from "node:fs";
import { webcrypto } from "node:crypto";
import { createInterface } from "node:readline";
import { engineBytes, take } from "./scripts.mjs";

const engine = await take("engine");
const { compareCounties, ownNumbers } = await take("matching");
const { County } = await take("records");
const { geojson } = await take("geojson");
const module = new WebAssembly.Module(engineBytes());

async function differences({ files, flags }) {
  const masks = { sources: flags.includes("--no-sources"), reserved: flags.includes("--no-reserved") };
  const parts = files.map((name) => [new Uint8Array(readFileSync(name))]);
  const texts = parts.map((part) => engine.normalise(module, part, masks).text);
  const hash = async (text) => engine.hexadecimal(new Uint8Array(await webcrypto.subtle.digest("SHA-256", text)));
  const sets = await Promise.all(files.map(async (name, place) => ({ name, fingerprint: await hash(texts[place]) })));
  const counties = texts.map((text) => new County(text));
  const own = parts.map((part, place) => ownNumbers(new County(engine.respell(module, part).text), counties[place], masks));
  const areOneMap = sets[0].fingerprint === sets[1].fingerprint;
  const leftOut = flags.filter((flag) => flag.startsWith("--no-")).join(" ");
  return JSON.parse([...geojson(compareCounties(...counties), sets, areOneMap, leftOut, own, flags.includes("--all"))].join(""));
}

for await (const line of createInterface({ input: process.stdin })) process.stdout.write(`${JSON.stringify(await differences(JSON.parse(line)))}\n`);
