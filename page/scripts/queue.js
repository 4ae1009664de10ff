// Judges many counties, several at a time: as many as there are processors for, and as fit into memory together.
import { packedSize } from "./counties.js";
import { flagsOf } from "./manifests.js";

const MOST_AT_ONCE = 4;
const MOST_BYTES = 150_000_000; // of packed files at a time, unless a county alone has more
const UNPACKED = 6; // a zip is taken to unpack to so many times its bytes

export const STOPPED = "This was stopped.";

// The results that counties already have, by their masks. A county is the same as long as its files are.
const results = new WeakMap();

// The bytes that a county is taken to have, unpacked.
export const weightOf = (county) => packedSize(county) * (county.zip ? UNPACKED : 1);

// Each task is a county, and then its result or the trouble with it. `judge` is called with a task and the masks.
export class Queue {
  constructor(counties, masks, judge, mostAtOnce = globalThis.navigator?.hardwareConcurrency || 2) {
    this.tasks = counties.map((county) => ({ county }));
    Object.assign(this, { masks, judge, running: new Map(), mostAtOnce: Math.min(MOST_AT_ONCE, mostAtOnce) });
  }

  // Yields each task as soon as it has ended. Those that were judged before come first.
  async *ended() {
    const key = flagsOf(this.masks).join(" ");
    for (const task of this.tasks) task.result = results.get(task.county)?.get(key);
    yield* this.tasks.filter(({ result }) => result);
    for (const task of this.tasks.filter(({ result }) => !result)) {
      while (this.isFull(task)) yield await this.next();
      this.running.set(task, this.run(task, key));
    }
    while (this.running.size) yield await this.next();
  }

  isFull(task) {
    const bytes = [...this.running.keys(), task].reduce((sum, each) => sum + weightOf(each.county), 0);
    return this.running.size >= this.mostAtOnce || (this.running.size > 0 && bytes > MOST_BYTES);
  }

  // The next task that ends.
  async next() {
    const task = await Promise.race(this.running.values());
    this.running.delete(task);
    return task;
  }

  async run(task, key) {
    try {
      if (this.isStopped) throw new Error(STOPPED);
      task.result = await this.judge(task, this.masks);
      results.set(task.county, new Map(results.get(task.county)).set(key, task.result));
    } catch (error) {
      task.trouble = error.message;
    }
    return task;
  }

  // Ends what is under way. What wasn't begun isn't judged any more.
  stop() {
    this.isStopped = true;
    for (const { assistant } of this.running.keys()) assistant?.end();
  }
}
