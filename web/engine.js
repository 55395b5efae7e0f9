// The machine as the page sees it. Questions go one after another to a worker, which can be stopped.

/** What each status means, by its number. */
export const STATUSES = [
  "done", "the arguments aren't a command", "the job has a fault", "a deck has a fault", "the text has more bytes than the command reads", "reading failed",
  "the text is longer than the page has room for", "there was no memory", "the snapshot has a fault",
];

/** A question was given up before its answer came. */
export class Stopped extends Error {}

/** The smallest module with a memory whose addresses have 64 bits. A browser that accepts it runs the machine as it is. */
const MEMORY_OF_64_BITS = new Uint8Array([0, 97, 115, 109, 1, 0, 0, 0, 5, 3, 1, 4, 1]);

/** Whether this browser can run the machine. */
export const canRun = () => typeof WebAssembly === "object";

/** Whether memories of this browser can have 64-bit addresses. */
export const hasLongAddresses = () => WebAssembly.validate(MEMORY_OF_64_BITS);

/** The bytes that a text in base64 stands for. */
export function bytesOf(base64) {
  return Uint8Array.from(atob(base64), (character) => character.charCodeAt(0));
}

/** Unpacks bytes. It fails if they are damaged. */
export async function unpacked(bytes) {
  return new Uint8Array(await new Response(new Blob([bytes]).stream().pipeThrough(new DecompressionStream("gzip"))).arrayBuffer());
}

/** Reads the bytes of an answer as UTF-8. */
const decoder = new TextDecoder();

/** The proved machine in a worker. */
export class Engine {
  constructor(module, workerSource) {
    this.module = module;
    this.source = URL.createObjectURL(new Blob([workerSource], { type: "text/javascript" }));
    this.waiting = new Map();
    this.last = 0;
    this.start();
  }

  start() {
    this.worker = new Worker(this.source);
    this.worker.onmessage = ({ data }) => {
      const asked = this.waiting.get(data.number);
      this.waiting.delete(data.number);
      if (data.error) asked.reject(new Error(data.error));
      else asked.resolve({ ...data, text: decoder.decode(data.text) });
    };
    this.worker.onerror = (event) => this.giveUp(new Error(event.message || "the worker failed"));
  }

  /** The answer to the words of a command for a job, which is a text or bytes: the status, the text, the milliseconds that it took, and the bytes of memory. If
   * `isTold`, the text is that of the facts. */
  ask(words, job, isTold = false) {
    const number = ++this.last;
    const bytes = typeof job === "string" ? new TextEncoder().encode(job) : job;
    return new Promise((resolve, reject) => {
      this.waiting.set(number, { resolve, reject });
      this.worker.postMessage({ number, module: this.module, words, job: bytes, isTold });
    });
  }

  /** Gives up all questions, and starts a new worker. */
  stop() {
    this.giveUp(new Stopped("stopped"));
  }

  giveUp(why) {
    this.worker.terminate();
    const waiting = [...this.waiting.values()];
    this.waiting.clear();
    this.start();
    for (const { reject } of waiting) reject(why);
  }

  get isBusy() {
    return this.waiting.size > 0;
  }
}
