// Workers: each job has one of its own, so that its memory is given back when it ends. Jobs of many small counties share some.
import { unzippedStream } from "./first_line.js";
import { STOPPED } from "./queue.js";

const MOST_SHARED = 20_000_000; // bytes that a worker reads before it is replaced

let scriptAddress;
let moduleReady;

function element(id) {
  return document.getElementById(id).textContent.trim();
}

export function bytesOfBase64(text) {
  const letters = atob(text);
  const bytes = new Uint8Array(letters.length);
  for (let at = 0; at < letters.length; at += 1) bytes[at] = letters.charCodeAt(at);
  return bytes;
}

export function unpackedBase64(text) {
  return new Response(unzippedStream(new Blob([bytesOfBase64(text)]))).arrayBuffer();
}

// The engine, compiled once for all workers.
export function engineModule() {
  moduleReady ??= unpackedBase64(element("engine")).then((bytes) => WebAssembly.compile(bytes));
  return moduleReady;
}

// A worker that answers questions until it is ended.
export class Assistant {
  constructor(onstage = () => {}) {
    scriptAddress ??= URL.createObjectURL(new Blob([element("worker")], { type: "text/javascript" }));
    this.worker = new Worker(scriptAddress);
    this.waiting = new Map();
    this.tickets = 0;
    this.worker.onmessage = ({ data }) => (data.stage ? onstage(data.stage) : this.settle(data));
    this.worker.onerror = (event) => {
      event.preventDefault();
      this.fail("The browser ended the work on this, most likely since there wasn't enough memory.");
    };
  }

  ask(job, question = {}, transfer = []) {
    if (this.failure) return Promise.reject(new Trouble(this.failure));
    this.tickets += 1;
    const ticket = this.tickets;
    return new Promise((resolve, reject) => {
      this.waiting.set(ticket, { resolve, reject });
      this.worker.postMessage({ ...question, job, ticket }, transfer);
    });
  }

  settle({ ticket, answer, trouble }) {
    const { resolve, reject } = this.waiting.get(ticket) ?? {};
    this.waiting.delete(ticket);
    if (trouble) reject?.(new Trouble(trouble));
    else resolve?.(answer);
  }

  // Nothing that was asked, or will be, has an answer.
  fail(sentence) {
    this.failure = sentence;
    for (const { reject } of this.waiting.values()) reject(new Trouble(sentence));
    this.waiting.clear();
  }

  end() {
    this.worker.terminate();
    this.fail(STOPPED);
  }
}

// Why a job has no answer, as a sentence.
export class Trouble extends Error {}

// One job in a worker of its own. `stopped` is told how to stop it.
export async function job(name, question, onstage, begun = () => {}) {
  const assistant = new Assistant(onstage);
  begun(assistant);
  try {
    return await assistant.ask(name, { ...question, module: await engineModule() });
  } finally {
    assistant.end();
  }
}

// Workers for many jobs. Each does one after another.
export class Crew {
  constructor() {
    this.idle = [];
  }

  // One job that reads so many bytes. `begun` is called with what can stop it.
  async job(name, question, bytes, begun) {
    const { assistant, read } = this.idle.pop() ?? { assistant: new Assistant(), read: 0 };
    begun(assistant);
    let isKept = false;
    try {
      const answer = await assistant.ask(name, { ...question, module: await engineModule() });
      isKept = read + bytes < MOST_SHARED;
      return answer;
    } finally {
      if (isKept) this.idle.push({ assistant, read: read + bytes });
      else assistant.end();
    }
  }

  end() {
    for (const { assistant } of this.idle) assistant.end();
    this.idle = [];
  }
}
