// Refusals: the program's line for a fault, and what its places mean. The table comes from the headings of docs/refusals.md.
import { REFUSALS } from "./tables.js";

export const refusalOf = (fault) => REFUSALS[fault.number];

// The words of a fault's places, in the order of the line, each with its meaning: PART, LINE, COLUMN, TYPE, TLID and so on.
export function placesOf(fault) {
  const numbers = fault.numbers.map(String);
  const cenid = fault.cenid.map((byte) => byte.toString(16).padStart(2, "0")).join("");
  const word = { TYPE: () => fault.type, CENID: () => cenid };
  return refusalOf(fault).places.map((meaning) => ({ meaning, word: word[meaning] ? word[meaning]() : numbers.shift() }));
}

// The line by which the program reports a fault.
export function lineOf(fault) {
  const places = placesOf(fault).map((place) => ` ${place.word}`);
  return `refused ${fault.number} ${refusalOf(fault).name}${places.join("")}${fault.set ? ` in set ${fault.set}` : ""}`;
}

// A place by its meaning, as a number if it is one.
export function placeOf(fault, meaning) {
  const found = placesOf(fault).find((place) => place.meaning === meaning);
  return found && (/^[0-9]+$/.test(found.word) && meaning !== "CENID" && meaning !== "TYPE" ? Number(found.word) : found.word);
}

// The CENID of a fault as it is in the file.
export const cenidText = (fault) => String.fromCharCode(...fault.cenid);
