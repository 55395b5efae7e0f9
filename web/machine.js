// The machine for JavaScript, in a page and in Node. This file has everything between the proved code and a script: the heap, and how texts are handed in and out.
// Each question gets a fresh instance of the module, so that no run sees another's memory.

const PAGE = 65536;
const SMALLEST = 16; // bytes in the smallest block
const TEXT_TOO_LONG = 6; // the status of a text that the room is too small for

// The bytes of the room for a text: as many as it may have, so that its call is made once. Only where there is no memory for so many there are few, and a call that
// wants more is made again. What isn't written to takes no memory of the computer.
const ROOM = 1 << 28;
const SMALL_ROOM = 1 << 20;

/** Makes a memory larger by so many pages. The number has the type of an address, but for the first engines that had such memories. */
function grow(memory, pages) {
  try {
    memory.grow(BigInt(pages));
  } catch (error) {
    if (!(error instanceof TypeError)) throw error;
    memory.grow(pages);
  }
}

/** The heap that the proved code asks for memory. Its blocks have 16, 32, 64 .. bytes, and a block that was given back is used again. */
export class Heap {
  constructor(memory, base) {
    this.memory = memory;
    this.top = Math.ceil(base / SMALLEST) * SMALLEST;
    this.sizes = new Map();
    this.free = new Map();
  }

  /** The address of a block of at least this many bytes, or 0 if there is no memory. */
  take(bytes) {
    let size = SMALLEST;
    while (size < bytes) size *= 2;
    const again = this.free.get(size)?.pop();
    const at = again ?? this.grow(size);
    if (at) this.sizes.set(at, size);
    return at;
  }

  /** The address of a new block. The memory grows if it has to. */
  grow(size) {
    const end = this.top + size;
    const missing = Math.ceil((end - this.memory.buffer.byteLength) / PAGE);
    try {
      if (missing > 0) grow(this.memory, missing);
    } catch {
      return 0;
    }
    const at = this.top;
    this.top = end;
    return at;
  }

  giveBack(at) {
    const size = this.sizes.get(at);
    if (size === undefined) return;
    this.sizes.delete(at);
    if (!this.free.has(size)) this.free.set(size, []);
    this.free.get(size).push(at);
  }

  /** The block itself if it has this many bytes; otherwise a larger one, with the bytes that are kept. */
  change(at, kept, bytes) {
    if (bytes <= this.sizes.get(at)) return at;
    const to = this.take(bytes);
    if (!to) return 0;
    new Uint8Array(this.memory.buffer).copyWithin(to, at, at + kept);
    this.giveBack(at);
    return to;
  }
}

/** What the proved code imports: the heap. */
export function imports(machine) {
  // If there is no block, the first word says so, and the address in the second is never used.
  const writeBlock = (at, block) => {
    const view = new DataView(machine.memory.buffer);
    view.setBigUint64(Number(at), block ? 1n : 0n, true);
    view.setBigUint64(Number(at) + 8, BigInt(block || SMALLEST), true);
  };
  return {
    rattle_alloc: (out, bytes, alignment) => writeBlock(out, machine.heap.take(Number(bytes || alignment))),
    rattle_realloc: (out, at, kept, bytes, alignment) => writeBlock(out, machine.heap.change(Number(at), Number(kept), Number(bytes || alignment))),
    rattle_dealloc: (at) => machine.heap.giveBack(Number(at)),
  };
}

/** The words of a command as the proved code takes them: each on a line of its own. */
function linesOf(words) {
  if (words.some((word) => /[\r\n]/.test(word))) throw new TypeError("a word of a command has no end of a line in it");
  return new TextEncoder().encode(words.map((word) => `${word}\n`).join(""));
}

/** The answer of a call to the words of a command for a job, with a text of at most `most` bytes, or of fewer if there is no memory for that room. */
function answerWithin(call, module, words, job, most) {
  const machine = {};
  const { exports } = new WebAssembly.Instance(module, { env: imports(machine) });
  machine.memory = exports.memory;
  machine.heap = new Heap(exports.memory, Number(exports.__heap_base.value));
  const place = (bytes) => {
    const at = machine.heap.take(bytes);
    if (!at) throw new RangeError("there is no memory");
    return at;
  };
  const handIn = (bytes) => {
    const at = place(bytes.length);
    new Uint8Array(machine.memory.buffer).set(bytes, at);
    return [BigInt(at), BigInt(bytes.length)];
  };
  const found = machine.heap.take(most), room = found ? most : SMALL_ROOM, text = found || place(room), wanted = place(8);
  const slices = [...handIn(linesOf(words)), ...handIn(job)];
  const began = performance.now();
  const status = exports[call](...slices, BigInt(text), BigInt(room), BigInt(wanted));
  const milliseconds = performance.now() - began;
  const size = Number(new DataView(machine.memory.buffer).getBigUint64(wanted, true));
  const written = new Uint8Array(machine.memory.buffer).slice(text, text + (size <= room ? size : 0));
  return { status, text: written, size, milliseconds, memory: machine.memory.buffer.byteLength - room + written.length };
}

/** The answer of a call, with room for its whole text, unless that is too long. */
function whole(call, module, words, job) {
  const given = answerWithin(call, module, words, job, ROOM);
  return given.status === TEXT_TOO_LONG && given.size <= ROOM ? answerWithin(call, module, words, job, given.size) : given;
}

/** The proved code, from the bytes of its module. */
export function compiled(bytes) {
  return WebAssembly.compile(bytes);
}

/**
 * What the proved code answers to the words of a command for a job, which is bytes: the number of the status, the text as bytes, how many bytes it has, the
 * milliseconds that it took, and the bytes of memory that it used. A text of more than 256 MiB is left out, with status 6.
 */
export function answer(module, words, job) {
  return whole("kdf9_run", module, words, job);
}

/**
 * What the proved code tells of a job, which is bytes: as `answer`, and the text is that of the facts that the words of a command ask for.
 */
export function textOfFacts(module, words, job) {
  return whole("kdf9_facts", module, words, job);
}

/**
 * What the proved code tells of a job, which is bytes: the facts that the words of a command ask for, with the fields of docs/schema/facts.json, or null if they
 * have more than 256 MiB or there was no memory; and the number of the status, the bytes of the facts, the milliseconds and the bytes of memory.
 */
export function facts(module, words, job) {
  const { text, ...rest } = textOfFacts(module, words, job);
  return { facts: text.length ? JSON.parse(new TextDecoder().decode(text)) : null, ...rest };
}
