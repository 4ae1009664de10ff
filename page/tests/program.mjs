// The engine in WebAssembly as a program with the command line of tigercanon, for one call:
//
//     node page/tests/program.mjs out/page COMMAND [FLAGS] SET..
//
// out/page is the folder that scripts/build-page fills.
import { readFileSync, writeSync } from "node:fs";
import { loaded } from "./command_line.mjs";

const [folder, ...words] = process.argv.slice(2);

function read(name) {
  try {
    return new Uint8Array(readFileSync(name === "/dev/stdin" ? 0 : name));
  } catch {
    return undefined;
  }
}

function write(stream, text) {
  const bytes = Buffer.from(text);
  for (let at = 0; at < bytes.length; ) at += writeSync(stream, bytes, at);
}

const { status, out, err } = (await loaded(folder))(words, read);
write(1, out);
write(2, err);
process.exit(status);
