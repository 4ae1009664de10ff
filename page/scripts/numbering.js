// Numbers things from 0, in the order in which they first come. Equal things have one number.
export class Numbering {
  // Space for so many things. `hash` makes a number of 32 bits of a thing, the same of equal ones.
  constructor(most, hash, areEqual) {
    let slots = 16;
    while (slots < 2 * most) slots *= 2;
    Object.assign(this, { hash, areEqual, things: [], slots: new Int32Array(slots) });
  }

  // Numbers texts of so many bytes by where they begin.
  static ofBytes(bytes, width, most) {
    const hash = (from) => {
      let value = 0;
      for (let at = from; at < from + width; at += 1) value = stirred(value, bytes[at]);
      return value;
    };
    const areEqual = (one, other) => {
      for (let at = 0; at < width; at += 1) if (bytes[one + at] !== bytes[other + at]) return false;
      return true;
    };
    return new Numbering(most, hash, areEqual);
  }

  // The slot of a thing, or the empty one that it would have.
  slotOf(thing) {
    const hash = this.hash(thing);
    let slot = (hash ^ (hash >>> 15)) & (this.slots.length - 1);
    while (this.slots[slot] && !this.areEqual(this.things[this.slots[slot] - 1], thing)) slot = (slot + 1) & (this.slots.length - 1);
    return slot;
  }

  // The number of a thing, which is added if it is new.
  of(thing) {
    const slot = this.slotOf(thing);
    if (!this.slots[slot]) this.slots[slot] = this.things.push(thing);
    return this.slots[slot] - 1;
  }

  // The number of a thing, or -1 if nothing is equal to it.
  find(thing) {
    return this.slots[this.slotOf(thing)] - 1;
  }
}

// A hash with one more number in it.
export function stirred(hash, value) {
  const mixed = Math.imul(hash ^ value, 0x9e3779b1);
  return mixed ^ (mixed >>> 13);
}
