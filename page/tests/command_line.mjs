// The engine in WebAssembly, with the command line of the program: its commands, and its flags in the order of the program's pages.
// Usage messages, and faults of files and devices, aren't the engine's: a command line about them has the status CANNOT.
import { readFileSync } from "node:fs";
import { resolve } from "node:path";

export const CANNOT = 70;
const SETS = { check: 1, respell: 1, normalise: 1, fingerprint: 1, compare: 2 };

// The answers by the engine in a folder that scripts/build-page fills.
export async function loaded(folder) {
  const scripts = resolve(folder, "scripts");
  const engine = await import(`${scripts}/engine.js`);
  const { lineOf } = await import(`${scripts}/refusals.js`);
  const { TYPES } = await import(`${scripts}/tables.js`);
  const module = new WebAssembly.Module(readFileSync(resolve(folder, "engine.wasm")));

  // The status and the texts of a command line. `read` returns the bytes of a file, or undefined if it isn't there.
  return function answer([command, ...rest], read) {
    const cut = rest.includes("--") ? rest.indexOf("--") : rest.length;
    const flags = rest.slice(0, cut).filter((word) => word.startsWith("--"));
    const names = rest.filter((word, at) => at > cut || (at < cut && !word.startsWith("--")));
    const masks = { sources: flags.includes("--no-sources"), reserved: flags.includes("--no-reserved") };
    if (names.length !== SETS[command]) return { status: CANNOT, out: "", err: "not a command line of the engine\n" };
    const part = (name, isOptional) => read(name) ?? (isOptional ? new Uint8Array(0) : undefined);
    const stem = (name) => [...TYPES].map((type, at) => part(`${name}.RT${type}`, at > 0));
    const sets = names.map((name) => (flags.includes("--stem") ? stem(name) : [part(name)]));
    if (sets.flat().includes(undefined)) return { status: CANNOT, out: "", err: "a file can't be read\n" };
    const takesMasks = ["normalise", "fingerprint", "compare"].includes(command);
    const { status, fault, text, fingerprint } = engine[command](module, ...sets, ...(takesMasks ? [masks] : []));
    if (fault) return { status, out: "", err: `${lineOf(fault)}\n` };
    const words = { check: "accepted\n", compare: status ? "different\n" : "same\n", fingerprint: `${fingerprint}\n` };
    return { status, out: words[command] ?? text, err: "" };
  };
}
