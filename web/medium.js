// What is on a device, and how far it has come.

import { linesOfBlocks } from "./report.js";

// How many characters of a paper tape, and how many cards or blocks, are shown at most on each side of the place.
const CHARACTERS_AROUND = 300, LINES_AROUND = 30;
const PLACE = "▸", MORE = "…";

/** What is on a device, as lines. A sign is before what comes next: the next character of a paper tape, the next card, or the next block of a magnetic tape. What a
 * reader reads stands in the job, as `media`; the blocks of the others are in the report. */
export function mediumOf({ kind, place, blocks }, media) {
  const at = Number(place);
  if (kind === "TR") return [tape(media.map((line) => line.slice(1)).join(""), at)];
  if (kind === "CR") return around(media.map((line) => line.slice(1)), at);
  const lines = linesOfBlocks(blocks);
  return kind === "MT" ? around(lines, at) : lines;
}

/** The characters of a paper tape around a place. */
function tape(text, at) {
  const first = Math.max(0, at - CHARACTERS_AROUND), last = at + CHARACTERS_AROUND;
  return `${first ? MORE : ""}${text.slice(first, at)}${PLACE}${text.slice(at, last)}${last < text.length ? MORE : ""}`;
}

/** The lines around a place, which is after the last of them if there are no more. */
function around(lines, at) {
  const first = Math.max(0, at - LINES_AROUND), last = at + LINES_AROUND;
  const shown = [...lines, ""].slice(first, last + 1).map((line, index) => `${first + index === at ? PLACE : " "} ${line}`.trimEnd());
  return [...(first ? [MORE] : []), ...(shown.at(-1) === "" ? shown.slice(0, -1) : shown), ...(last < lines.length ? [MORE] : [])];
}
