// Whether a file begins with a record, as a file with all records of a county does.
import { REQUIRED } from "./tables.js";
import { Unreadable } from "./unreadable.js";

const LONGEST_LINE = 240;
const LINE_END = 10;
const PACKED_HEAD = 65536; // bytes of a packed file that have its first line in them
const FILLED = { false: /^ *[0-9]+ *$/, true: /^ *[+-]?[0-9]+ *$/ };

// The type of a file that is packed by gzip, whatever its name is.
export const GZIP = "application/gzip";

export const unzippedStream = (blob) => blob.stream().pipeThrough(new DecompressionStream("gzip"));

// As many bytes as the longest record has.
export const beginningOf = async (blob) => new Uint8Array(await blob.slice(0, LONGEST_LINE).arrayBuffer());

export const isPacked = ([first, second]) => first === 0x1f && second === 0x8b;

// Whether a file with this beginning, which may be packed by gzip, begins with a record.
export async function beginsWithRecord(file, beginning) {
  if (isPacked(beginning)) {
    return isRecord(await firstLine(unzippedStream(file.slice(0, PACKED_HEAD))).catch(() => {
      throw new Unreadable("it can't be unpacked");
    }));
  }
  const isSo = isRecord(lineIn(beginning));
  if (!isSo && /\.gz$/i.test(file.name)) throw new Unreadable("it can't be unpacked: it isn't a file of gzip, as its name says");
  return isSo;
}

const lineIn = (bytes) => String.fromCharCode(...bytes.slice(0, LONGEST_LINE)).split("\n")[0].replace(/\r+$/, "");

// The first line of a stream, without its line ending: at most so many bytes of it as the longest record has.
export async function firstLine(stream) {
  const reader = stream.getReader();
  const bytes = [];
  try {
    while (bytes.length < LONGEST_LINE && !bytes.includes(LINE_END)) {
      const { done, value } = await reader.read();
      if (done) break;
      bytes.push(...value.subarray(0, LONGEST_LINE));
    }
  } finally {
    reader.cancel().catch(() => {});
  }
  return lineIn(bytes);
}

// Whether a line has the form of a record: a record type, and what that type requires in its numbers and coordinates.
export function isRecord(line) {
  const required = REQUIRED[line[0]] ?? [];
  return required.length > 0 && required.every(([first, last, isPoint]) => FILLED[isPoint].test(line.slice(first - 1, last)));
}
