// The lines of chains, by their points as numbers.
import { Numbering, stirred } from "./numbering.js";

// Which end comes first: negative if it is the one that the records begin with, and 0 if a chain is its own reverse. A canonical text
// has no chain from the end that comes later.
export function orderOfEnds({ county: { columns: { starts, places } }, place }) {
  for (let [one, other] = [starts[place], starts[place + 1] - 1]; one < other; one += 1, other -= 1) {
    const order = places[2 * one] - places[2 * other] || places[2 * one + 1] - places[2 * other + 1];
    if (order) return order;
  }
  return 0;
}

export const isOwnReverse = (chain) => orderOfEnds(chain) === 0;

function hashOf(chain) {
  const { places } = chain.county.columns;
  let hash = 0;
  for (let number = 0; number < chain.size; number += 1) {
    const at = 2 * chain.pointAt(number);
    hash = stirred(stirred(hash, places[at]), places[at + 1]);
  }
  return hash;
}

export function haveSamePoints(one, other) {
  const [places, others] = [one.county.columns.places, other.county.columns.places];
  for (let number = 0; number < one.size; number += 1) {
    const [at, twin] = [2 * one.pointAt(number), 2 * other.pointAt(number)];
    if (places[at] !== others[twin] || places[at + 1] !== others[twin + 1]) return false;
  }
  return one.size === other.size;
}

// The chains of both counties in groups with the same points. Nearly every group is a pair of a chain of each, or one chain alone.
export class Groups {
  constructor(first, second) {
    Object.assign(this, { pairs: [], further: new Map() });
    const numbers = new Numbering(first.length + second.length, hashOf, haveSamePoints);
    [first, second].forEach((chains, side) => {
      for (const chain of chains) this.add(numbers.of(chain), side, chain);
    });
  }

  add(number, side, chain) {
    const pair = (this.pairs[number] ??= [undefined, undefined]);
    if (!pair[side]) {
      pair[side] = chain;
      return;
    }
    if (!this.further.has(pair)) this.further.set(pair, [[], []]);
    this.further.get(pair)[side].push(chain);
  }

  isSingle(pair) {
    return pair[0] && pair[1] && !this.further.has(pair);
  }

  // The chains of a group in the first county, and in the second.
  listsOf(pair) {
    const further = this.further.get(pair) ?? [[], []];
    return pair.map((chain, side) => (chain ? [chain, ...further[side]] : []));
  }
}
