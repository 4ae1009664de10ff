// The content of records: the columns that say something about a map, without the numbers that differ from file to file. A record's
// content is one string of them.
import { CONTENTS } from "./tables.js";

const FILE_WIDTH = 5;

export const isBlank = (text) => text.trim() === "";

// Whether two texts have the same bytes behind these places, from a distance to another.
export function areAlike(bytes, at, others, other, from, to) {
  for (let away = from; away < to; away += 1) if (bytes[at + away] !== others[other + away]) return false;
  return true;
}

class Content {
  constructor({ hasFile, columns }) {
    this.hasFile = hasFile;
    this.columns = columns.map(([name, first, last, holds, partner]) => ({ name, first, last, holds, partner }));
    const rest = hasFile ? this.columns.slice(1) : this.columns;
    this.begin = rest[0].first - 1;
    this.end = rest[rest.length - 1].last;
    let at = 0;
    this.places = new Map();
    for (const column of this.columns) {
      const width = column.last - column.first + 1;
      this.places.set(column.name, [at, at + width]);
      at += width;
    }
  }

  of(line) {
    const rest = line.slice(this.begin, this.end);
    return this.hasFile ? line.slice(FILE_WIDTH, 2 * FILE_WIDTH) + rest : rest;
  }

  // Whether the records that begin at these places of two texts have the same content.
  isSame(bytes, at, others, other) {
    return (!this.hasFile || areAlike(bytes, at, others, other, FILE_WIDTH, 2 * FILE_WIDTH)) && areAlike(bytes, at, others, other, this.begin, this.end);
  }

  value(content, name) {
    return content.slice(...this.places.get(name));
  }

  blanked(content, name) {
    const [first, last] = this.places.get(name);
    return content.slice(0, first) + " ".repeat(last - first) + content.slice(last);
  }

  // The content as seen from the chain's other end.
  turned(content) {
    return this.columns.map((column) => this.value(content, column.partner || column.name)).join("");
  }
}

export const CHAIN = new Content(CONTENTS.CHAIN);
export const NAME = new Content(CONTENTS.NAME);
export const RANGE = new Content(CONTENTS.RANGE);
export const LANDMARK = new Content(CONTENTS.LANDMARK);
export const TOPOLOGY = new Content(CONTENTS.TOPOLOGY);
export const POLYGON = new Content(CONTENTS.POLYGON);
