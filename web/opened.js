// What a teacher's word opens (tools/web/sealed.py seals it).

import { bytesOf } from "./engine.js";

const MIXED = 64, SEAL = 16;

/** The first bits of the fractions of the roots of the first primes, as SHA-256 has them. */
function bitsOfRoots(count, root) {
  const found = [];
  for (let number = 2; found.length < count; number += 1) {
    if (isPrime(number)) found.push(Math.floor((number ** root % 1) * 2 ** 32) >>> 0);
  }
  return found;
}

function isPrime(number) {
  for (let factor = 2; factor * factor <= number; factor += 1) {
    if (number % factor === 0) return false;
  }
  return true;
}

const [START, ROUNDS] = [bitsOfRoots(8, 1 / 2), bitsOfRoots(64, 1 / 3)];

const turned = (word, by) => (word >>> by) | (word << (32 - by));

/** The SHA-256 of some bytes. A page that comes from a server without a certificate has no other. */
export function hashOf(bytes) {
  const length = MIXED * Math.ceil((bytes.length + 9) / MIXED), data = new DataView(new ArrayBuffer(length)), state = [...START];
  bytes.forEach((byte, at) => data.setUint8(at, byte));
  data.setUint8(bytes.length, 0x80);
  data.setUint32(length - 4, 8 * bytes.length);
  for (let at = 0; at < length; at += MIXED) mix(state, data, at);
  const hash = new DataView(new ArrayBuffer(32));
  state.forEach((word, at) => hash.setUint32(4 * at, word));
  return new Uint8Array(hash.buffer);
}

/** Mixes a block into the state. */
function mix(state, data, start) {
  const words = Array.from({ length: 16 }, (_, at) => data.getUint32(start + 4 * at));
  for (let at = 16; at < 64; at += 1) {
    const [early, late] = [words[at - 15], words[at - 2]];
    words.push((words[at - 16] + (turned(early, 7) ^ turned(early, 18) ^ (early >>> 3)) + words[at - 7] + (turned(late, 17) ^ turned(late, 19) ^ (late >>> 10))) >>> 0);
  }
  let [a, b, c, d, e, f, g, h] = state;
  for (let at = 0; at < 64; at += 1) {
    const first = (h + (turned(e, 6) ^ turned(e, 11) ^ turned(e, 25)) + ((e & f) ^ (~e & g)) + ROUNDS[at] + words[at]) >>> 0;
    const second = ((turned(a, 2) ^ turned(a, 13) ^ turned(a, 22)) + ((a & b) ^ (a & c) ^ (b & c))) >>> 0;
    [a, b, c, d, e, f, g, h] = [(first + second) >>> 0, a, b, c, (d + first) >>> 0, e, f, g];
  }
  [a, b, c, d, e, f, g, h].forEach((word, at) => { state[at] = (state[at] + word) >>> 0; });
}

const bytesOfText = (text) => new TextEncoder().encode(text);

/** The hash of a word, in hexadecimal digits. */
export const keyOf = (word) => [...hashOf(bytesOfText(word))].map((byte) => byte.toString(16).padStart(2, "0")).join("");

/** What was sealed with a key, or null if it is another key. */
export function opened(sealed, key) {
  const bytes = bytesOf(sealed);
  for (let at = 0; at < bytes.length; at += 32) {
    hashOf(bytesOfText(`${key} ${at / 32}`)).forEach((byte, offset) => { if (at + offset < bytes.length) bytes[at + offset] ^= byte; });
  }
  const data = bytes.slice(SEAL), check = hashOf(data);
  return bytes.slice(0, SEAL).every((byte, at) => byte === check[at]) ? JSON.parse(new TextDecoder().decode(data)) : null;
}
