// The engine in WebAssembly, for many calls: a line of JSON on standard input has the words of a command line and its files in base64,
// and a line on standard output has the status and both texts. page/tests/vectors runs it.
import { createInterface } from "node:readline";
import { loaded } from "./command_line.mjs";

const answer = await loaded(process.argv[2]);
const packed = (text) => Buffer.from(text).toString("base64");

for await (const line of createInterface({ input: process.stdin })) {
  const { words, files } = JSON.parse(line);
  const read = (name) => (name in files ? new Uint8Array(Buffer.from(files[name], "base64")) : undefined);
  const { status, out, err } = answer(words, read);
  process.stdout.write(`${JSON.stringify({ status, out: packed(out), err: packed(err) })}\n`);
}
