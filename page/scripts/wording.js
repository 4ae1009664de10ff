// The words for differences, which the tools have too. {} stands for a number, a name or a place.
import { FIELDS, PHRASES } from "./tables.js";

function withValues(words, values) {
  const left = [...values];
  return words.replace(/\{\}/g, () => left.shift());
}

export const phrase = (name, ...values) => withValues(PHRASES[name], values);

// The label of a field that isn't a column, and what it holds: of the number or side that it is of, on a side.
export const fieldWords = (name, of = "", on = "") => [withValues(FIELDS[name][0], [of]), withValues(FIELDS[name][1], [on])];
