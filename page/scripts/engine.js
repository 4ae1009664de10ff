// The calls of the engine: the library for C, compiled to WebAssembly. include/tigercanon.h describes them, and what a caller must
// ensure. Each call has an instance of its own, so that its memory is given back and nothing of it is left for the next one.

export const DONE = 0;
export const DIFFERENT = 1;
export const NO_MEMORY = 5;

const OUT_OF_MEMORY = 9;
const FAULT_BYTES = 32;
const PART_BYTES = 16;
const NOT_NULL = 16;

// An instance of the engine, and what is put into its memory before a call.
class Instance {
  constructor(module) {
    this.exports = new WebAssembly.Instance(module).exports;
  }

  // The memory as it is now: each growth makes a new buffer.
  bytes() {
    return new Uint8Array(this.exports.memory.buffer);
  }

  words() {
    return new DataView(this.exports.memory.buffer);
  }

  // An address of so many new bytes. It is never null, even for none.
  take(length) {
    if (length === 0) return NOT_NULL;
    const address = Number(BigInt.asUintN(32, BigInt(this.exports.malloc(BigInt(length)))));
    if (address === 0) throw new OutOfMemory();
    return address;
  }

  // Puts the parts into memory, and returns the address of their array.
  put(parts) {
    const array = this.take(parts.length * PART_BYTES);
    const places = parts.map((part) => {
      const address = this.take(part.length);
      this.bytes().set(part, address);
      return address;
    });
    const words = this.words();
    places.forEach((address, number) => {
      words.setBigUint64(array + number * PART_BYTES, BigInt(address), true);
      words.setBigUint64(array + number * PART_BYTES + 8, BigInt(parts[number].length), true);
    });
    return array;
  }

  fault(address) {
    const words = this.words();
    const cenid = [...this.bytes().subarray(address + 3, address + 8)];
    return {
      number: words.getUint8(address),
      set: words.getUint8(address + 1),
      type: words.getUint8(address + 2) ? String.fromCharCode(words.getUint8(address + 2)) : "",
      cenid: cenid[0] ? cenid : [],
      numbers: [8, 16, 24].map((at) => words.getBigUint64(address + at, true)),
    };
  }
}

class OutOfMemory extends Error {}

const memoryFault = () => ({ number: OUT_OF_MEMORY, set: 0, type: "", cenid: [], numbers: [0n, 0n, 0n] });

// The status is a byte: what the other bits of the result are isn't said.
const statusOf = (result) => result & 0xff;

// Makes one call in an instance of its own: `use` gets the instance, and the addresses of the sets and of the fault. Memory that is
// full before the call is reported as the engine reports it.
function calling(module, sets, use) {
  try {
    const instance = new Instance(module);
    const fault = instance.take(FAULT_BYTES);
    const given = sets.flatMap((parts) => [BigInt(instance.put(parts)), BigInt(parts.length)]);
    return use(instance, given, fault);
  } catch (error) {
    if (error instanceof OutOfMemory || error instanceof RangeError) return { status: NO_MEMORY, fault: memoryFault() };
    throw error;
  }
}

const flags = (masks) => [masks.sources ? 1 : 0, masks.reserved ? 1 : 0];

function answered(instance, status, fault, answer) {
  return status === DONE || status === DIFFERENT ? { status, ...answer() } : { status, fault: instance.fault(fault) };
}

// A call that returns a text.
function callForText(module, name, parts, masks) {
  return calling(module, [parts], (instance, given, fault) => {
    const text = instance.take(PART_BYTES);
    instance.words().setBigUint64(text, BigInt(NOT_NULL), true);
    instance.words().setBigUint64(text + 8, 0n, true);
    const status = statusOf(instance.exports[name](...given, ...masks, BigInt(text), BigInt(fault)));
    return answered(instance, status, fault, () => {
      const [address, length] = [text, text + 8].map((at) => Number(instance.words().getBigUint64(at, true)));
      return { text: instance.bytes().slice(address, address + length) };
    });
  });
}

export const respell = (module, parts) => callForText(module, "tigercanon_respell", parts, []);
export const normalise = (module, parts, masks) => callForText(module, "tigercanon_normalise", parts, flags(masks));

export function check(module, parts) {
  return calling(module, [parts], (instance, given, fault) => {
    const status = statusOf(instance.exports.tigercanon_check(...given, BigInt(fault)));
    return answered(instance, status, fault, () => ({}));
  });
}

export function fingerprint(module, parts, masks) {
  return calling(module, [parts], (instance, given, fault) => {
    const hash = instance.take(32);
    const status = statusOf(instance.exports.tigercanon_fingerprint(...given, ...flags(masks), BigInt(hash), BigInt(fault)));
    return answered(instance, status, fault, () => ({ fingerprint: hexadecimal(instance.bytes().subarray(hash, hash + 32)) }));
  });
}

export function compare(module, first, second, masks) {
  return calling(module, [first, second], (instance, given, fault) => {
    const status = statusOf(instance.exports.tigercanon_compare(...given, ...flags(masks), BigInt(fault)));
    return answered(instance, status, fault, () => ({}));
  });
}

export const hexadecimal = (bytes) => Array.from(bytes, (byte) => byte.toString(16).padStart(2, "0")).join("");
