// The module with 32-bit addresses, for browsers whose memories have no others. It is the same code; only where it uses its memory, an address is cut to 32 bits. The
// memory has at most 4 GiB, so no address of it has more. All other instructions, and so all arithmetic, stay byte for byte.

const TYPES = 1, FUNCTIONS = 3, MEMORIES = 5, CODE = 10, DATA = 11;
const I32 = 0x7f, I64 = 0x7e, F32 = 0x7d, F64 = 0x7c, IS_64 = 4;
const LAST = 0x0b, GET = 0x20, SET = 0x21, I32_CONST = 0x41, I64_CONST = 0x42, WRAP = 0xa7, EXTEND = 0xac, MORE = 0xfc, COPY = 10, FILL = 11;
const FIRST_LOAD = 0x28, FIRST_STORE = 0x36, LAST_STORE = 0x3e, SIZE = 0x3f, GROW = 0x40;

/** The type of the value that each instruction stores, from the first of them on. */
const STORED = [I32, I64, F32, F64, I32, I32, I64, I64, I64];

/** How many bytes follow the instruction of a floating constant. */
const BYTES = { 0x43: 4, 0x44: 8 };

/** How many numbers follow an instruction that isn't named above. A block has its type, and a jump, a call or a variable has an index. */
const INDICES = { 0x02: 1, 0x03: 1, 0x04: 1, 0x0c: 1, 0x0d: 1, 0x10: 1, 0x22: 1, 0x23: 1, 0x24: 1, [GET]: 1, [SET]: 1, [I32_CONST]: 1, [I64_CONST]: 1 };
const BR_TABLE = 0x0e, FIRST_PLAIN = 0x45, LAST_PLAIN = 0xc4, PLAIN = [0x00, 0x01, 0x05, LAST, 0x0f, 0x1a, 0x1b];

/** The module isn't one that is known here. */
export class OtherModule extends Error {}

/** A whole number as the format writes it. */
function written(number) {
  const bytes = [];
  let rest = number;
  for (; rest > 127; rest = Math.floor(rest / 128)) bytes.push((rest % 128) | 128);
  return [...bytes, rest];
}

/** Bytes that are read from first to last, and partly taken over into others. */
class Reading {
  constructor(bytes, at = 0, end = bytes.length) {
    Object.assign(this, { bytes, at, end, out: [] });
  }

  /** The next whole number, with no sign. */
  number() {
    let value = 0, byte = 128;
    for (let scale = 1; byte & 128; scale *= 128) {
      byte = this.bytes[this.at++];
      value += (byte & 127) * scale;
    }
    return value;
  }

  /** Takes over so many bytes, or numbers. */
  copy(count) {
    for (let left = count; left > 0; left -= 1) this.out.push(this.bytes[this.at++]);
  }

  copyNumbers(count) {
    for (let left = count; left > 0; left -= 1) {
      while (this.bytes[this.at] & 128) this.copy(1);
      this.copy(1);
    }
  }

  put(...bytes) {
    for (const byte of bytes) this.out.push(byte);
  }
}

/** How many parameters the function types of a section have. */
function parametersOf(section) {
  const found = [];
  for (let left = section.number(); left > 0; left -= 1) {
    section.at += 1;
    const parameters = section.number();
    section.at += parameters;
    const results = section.number();
    section.at += results;
    found.push(parameters);
  }
  return found;
}

/** The types of the functions of a section, by their indices. */
const typesOf = (section) => Array.from({ length: section.number() }, () => section.number());

/** A function whose memory has 32-bit addresses. It gets some more variables, for what is above an address on the stack. */
function narrowFunction(bytes, at, end, parameters) {
  const code = new Reading(bytes, at, end), groups = code.number();
  let count = parameters;
  code.put(...written(groups + 4));
  for (let left = groups; left > 0; left -= 1) {
    const length = code.number();
    count += length;
    code.put(...written(length));
    code.copy(1);
  }
  code.put(2, I32, 1, I64, 1, F32, 1, F64);
  const spare = { [I32]: written(count), other: written(count + 1), [I64]: written(count + 2), [F32]: written(count + 3), [F64]: written(count + 4) };
  while (code.at < end) narrowInstruction(code, spare);
  return [...written(code.out.length), ...code.out];
}

function narrowInstruction(code, spare) {
  const kind = code.bytes[code.at];
  if (kind >= FIRST_LOAD && kind < FIRST_STORE) code.put(WRAP);
  else if (kind >= FIRST_STORE && kind <= LAST_STORE) {
    const value = spare[STORED[kind - FIRST_STORE]];
    code.put(SET, ...value, WRAP, GET, ...value);
  } else if (kind === GROW) code.put(WRAP);
  else if (kind === MORE) return narrowBulk(code, spare[I32], spare.other);
  code.copy(1);
  if (kind >= FIRST_LOAD && kind <= LAST_STORE) {
    code.copyNumbers(1);
    code.put(...written(code.number()));
  } else if (kind === SIZE || kind === GROW) {
    code.copy(1);
    code.put(EXTEND);
  } else if (kind === BR_TABLE) {
    const targets = code.number();
    code.put(...written(targets));
    code.copyNumbers(targets + 1);
  } else if (kind in BYTES) code.copy(BYTES[kind]);
  else if (kind in INDICES) code.copyNumbers(INDICES[kind]);
  else if (!PLAIN.includes(kind) && !(kind >= FIRST_PLAIN && kind <= LAST_PLAIN)) throw new OtherModule(`it has the instruction ${kind}`);
  return undefined;
}

/** A copy of memory, which has two addresses and a length on the stack; or a filling, which has a value in place of the second address. */
function narrowBulk(code, one, other) {
  const at = code.at, [, kind] = code.bytes.subarray(at, at + 2);
  if (kind !== COPY && kind !== FILL) throw new OtherModule(`it has the instruction ${MORE} ${kind}`);
  code.put(WRAP, SET, ...one, ...(kind === COPY ? [WRAP] : []), SET, ...other, WRAP, GET, ...other, GET, ...one);
  code.copy(kind === COPY ? 4 : 3);
}

/** The sections of a module, each with its number and where it begins and ends. */
function* sectionsOf(bytes) {
  const reading = new Reading(bytes, 8);
  while (reading.at < bytes.length) {
    const kind = bytes[reading.at++], length = reading.number();
    yield { kind, start: reading.at, end: reading.at + length };
    reading.at += length;
  }
}

/** The code of a module, with 32-bit addresses. */
function narrowCode(bytes, { start, end }, parameters) {
  const code = new Reading(bytes, start, end), count = code.number(), out = written(count);
  for (let at = 0; at < count; at += 1) {
    const length = code.number(), first = code.at;
    for (const byte of narrowFunction(bytes, first, first + length, parameters[at])) out.push(byte);
    code.at = first + length;
  }
  return out;
}

/** The first bytes of the memory, each piece with the address at which it begins. */
function narrowData(bytes, { start, end }) {
  const data = new Reading(bytes, start, end), count = data.number();
  data.put(...written(count));
  for (let left = count; left > 0; left -= 1) {
    if (bytes[data.at] !== 0 || bytes[data.at + 1] !== I64_CONST) throw new OtherModule("its data have no addresses");
    data.copy(1);
    data.at += 1;
    data.put(I32_CONST);
    data.copyNumbers(1);
    data.copy(1);
    const length = data.number();
    data.put(...written(length));
    data.copy(length);
  }
  return data.out;
}

/** The bytes of a module whose memory has 32-bit addresses, from those of one whose memory has 64-bit addresses. */
export function narrowed(bytes) {
  const sections = [...sectionsOf(bytes)], sectionOf = (kind) => sections.find((section) => section.kind === kind), reading = ({ start, end }) => new Reading(bytes, start, end);
  const parameters = parametersOf(reading(sectionOf(TYPES))), own = typesOf(reading(sectionOf(FUNCTIONS))).map((type) => parameters[type]);
  const parts = [bytes.subarray(0, 8)];
  for (const section of sections) {
    const plain = bytes.subarray(section.start, section.end);
    const made = section.kind === CODE ? narrowCode(bytes, section, own) : section.kind === DATA ? narrowData(bytes, section)
      : section.kind === MEMORIES ? plain.map((byte, at) => (at === 1 ? byte & ~IS_64 : byte)) : plain;
    parts.push(Uint8Array.from([section.kind, ...written(made.length)]), Uint8Array.from(made));
  }
  const whole = new Uint8Array(parts.reduce((sum, part) => sum + part.length, 0));
  parts.reduce((at, part) => { whole.set(part, at); return at + part.length; }, 0);
  return whole;
}
