// How jobs come and go: in a link, which has the packed text after its #, and as files.

import { make } from "./dom.js";
import { bytesOf, unpacked } from "./engine.js";

const PREFIX = "#job=";

/** The text of a job, packed as the end of a link. */
export const packedJob = (text) => packedText(PREFIX, text);

/** The job that the end of a link has, or null if it is damaged. */
export const jobOfLink = (hash) => unpackedText(hash.slice(PREFIX.length));

/** A text, packed as the end of a link that begins so. */
export async function packedText(prefix, text) {
  const stream = new Blob([text]).stream().pipeThrough(new CompressionStream("gzip"));
  const bytes = new Uint8Array(await new Response(stream).arrayBuffer());
  let characters = "";
  for (const byte of bytes) characters += String.fromCharCode(byte);
  return prefix + btoa(characters).replaceAll("+", "-").replaceAll("/", "_").replace(/=+$/, "");
}

/** Whether the end of a link has a job. */
export const hasJob = (hash) => hash.startsWith(PREFIX);

/** The text that was packed so, or null if it is damaged. */
export async function unpackedText(characters) {
  try {
    const bytes = bytesOf(characters.replaceAll("-", "+").replaceAll("_", "/"));
    return new TextDecoder("utf-8", { fatal: true }).decode(await unpacked(bytes));
  } catch {
    return null;
  }
}

/** Offers a text or bytes as a file of this name. */
export function saveFile(name, content, type = "text/plain") {
  const address = URL.createObjectURL(new Blob([content], { type }));
  make("a", { href: address, download: name }).click();
  setTimeout(() => URL.revokeObjectURL(address), 60000);
}
