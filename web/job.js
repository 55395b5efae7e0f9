// The text of a job, and the same job by parts: its programs with their stores, decks and devices, whether the installation's service answers them, and the words
// to be shown; its pool; and its schedule.

import { JOB } from "./tables.js";

export const HEADER = JOB.header;
export const KINDS = Object.fromEntries(JOB.kinds.map(({ kind, name }) => [kind, name]));

/** The kinds of devices that a pool may have. */
export const KINDS_OF_POOL = JOB.kinds.filter(({ pooled }) => pooled).map(({ kind }) => kind);

/** What stands for the pool where a slot of the job is named by its index. */
export const POOL = "pool";

export const EMPTY_JOB = `${HEADER}
SLOT 0
STORE 32
DECK
PROGRAM;
  ZERO; OUT;
FINISH;
ENDDECK
SCHEDULE
ORDERS 100000
ENDJOB
`;

/** The lines of a text. What follows the last line end counts as a line only if it isn't empty. */
export function linesOf(text) {
  const lines = text.split("\n");
  if (lines.at(-1) === "") lines.pop();
  return lines;
}

/** These lines as a text in which each has its line end. */
export const textOf = (lines) => lines.map((line) => `${line}\n`).join("");

/** A device that a line of a job names. */
function readDevice(line) {
  const [number, kind, ...label] = line.slice(7).split(" ");
  return { number, kind: kind ?? "", label: label.join(" "), media: [] };
}

function lineOfDevice({ number, kind, label }) {
  return ["DEVICE", number, kind, ...(label === "" ? [] : [label])].join(" ");
}

/** Reads the lines of a job one after another. */
class Reader {
  constructor(text) {
    this.lines = linesOf(text);
    this.at = 0;
  }

  /** The rest of the next line, if it has this beginning; otherwise null. */
  take(beginning) {
    const line = this.lines[this.at];
    if (line === undefined || !line.startsWith(beginning)) return null;
    this.at += 1;
    return line.slice(beginning.length);
  }

  /** The lines up to this one, which is taken too; null if it doesn't come. */
  until(end) {
    const found = this.lines.indexOf(end, this.at);
    if (found < 0) return null;
    const lines = this.lines.slice(this.at, found);
    this.at = found + 1;
    return lines;
  }

  slot() {
    const number = this.take("SLOT "), store = this.take("STORE ");
    const deck = this.take("DECK") === "" ? this.until("ENDDECK") : null;
    if (number === null || store === null || deck === null) return null;
    const slot = { number, store, deck: textOf(deck), isServed: this.take("SERVICE") === "", devices: this.devices(), shows: [] };
    for (let show = this.take("SHOW "); show !== null; show = this.take("SHOW ")) slot.shows.push(show);
    return slot;
  }

  /** The pool, or null if the job has none. */
  pool() {
    if (this.lines[this.at] !== "POOL") return null;
    this.at += 1;
    return { devices: this.devices() };
  }

  devices() {
    const devices = [];
    for (let device = this.take("DEVICE "); device !== null; device = this.take("DEVICE ")) {
      devices.push(this.media(readDevice(`DEVICE ${device}`)));
    }
    return devices;
  }

  media(device) {
    while (/^[+=]/.test(this.lines[this.at] ?? "")) device.media.push(this.lines[this.at++]);
    return device;
  }
}

/** The parts of a job, or null if the text can't be shown by parts. `writeJob` writes exactly the text that was read. */
export function readJob(text) {
  const reader = new Reader(text);
  if (reader.take(HEADER) !== "") return null;
  const slots = [];
  while (reader.lines[reader.at]?.startsWith("SLOT ")) {
    const slot = reader.slot();
    if (slot === null) return null;
    slots.push(slot);
  }
  const pool = reader.pool();
  if (reader.take("SCHEDULE") !== "") return null;
  const end = reader.lines.length - 1;
  if (reader.lines.indexOf("ENDJOB", reader.at) !== end) return null;
  const job = { slots, pool, schedule: textOf(reader.lines.slice(reader.at, end)), lacksLastEnd: !text.endsWith("\n") };
  return writeJob(job) === text ? job : null;
}

/** The job at the front of a text, up to the ENDJOB of its schedule: a snapshot or a report may stand after it. */
export function frontOf(text) {
  const lines = linesOf(text);
  let at = 0;
  while (at < lines.length && lines[at] !== "SCHEDULE") at = lines[at] === "DECK" && lines.includes("ENDDECK", at) ? lines.indexOf("ENDDECK", at) : at + 1;
  const end = lines.indexOf("ENDJOB", at);
  return end < 0 || end === lines.length - 1 ? text : textOf(lines.slice(0, end + 1));
}

/** The lines of a job by parts, each with the part that it belongs to: the name of the part, the indices of its slot and of its device, and the
 * number of the line in the part, counted from 0. The pool has POOL instead of the index of a slot. */
export function placedLines(job) {
  const placed = [{ text: HEADER, part: "header" }];
  const add = (slot, part, lines, device) => lines.forEach((text, line) => placed.push({ text, part, slot, device, line }));
  const addDevices = (slot, devices) => devices.forEach((device, index) => {
    add(slot, "device", [lineOfDevice(device)], index);
    add(slot, "media", device.media, index);
  });
  job.slots.forEach((slot, at) => {
    add(at, "number", [`SLOT ${slot.number}`]);
    add(at, "store", [`STORE ${slot.store}`]);
    add(at, "deck", ["DECK"]);
    add(at, "deck", linesOf(slot.deck));
    add(at, "deck", ["ENDDECK"]);
    if (slot.isServed) add(at, "service", ["SERVICE"]);
    addDevices(at, slot.devices);
    add(at, "shows", slot.shows.map((show) => `SHOW ${show}`));
  });
  if (job.pool) {
    add(POOL, "pool", ["POOL"]);
    addDevices(POOL, job.pool.devices);
  }
  placed.push({ text: "SCHEDULE", part: "schedule", line: 0 });
  linesOf(job.schedule).forEach((text, line) => placed.push({ text, part: "schedule", line }));
  placed.push({ text: "ENDJOB", part: "schedule", line: linesOf(job.schedule).length });
  return placed;
}

/** A text with another line in the place of the one of this number. */
export const withLine = (text, number, line) => text.split("\n").with(number - 1, line).join("\n");

/** A slot of a job that shows its whole store. */
export const withStore = (slot) => ({ ...slot, shows: [`0 ${slot.store - 1}`] });

/** The text of a job that has nothing but the deck of a slot. */
export const jobOfDeck = (slot) => writeJob({ slots: [{ ...slot, devices: [], shows: [] }], pool: null, schedule: "" });

/** The text of a job with a store of another size for the program of a slot. */
export function withSize(text, slot, size) {
  const job = readJob(text);
  return writeJob({ ...job, slots: job.slots.map((each) => (each.number === `${slot}` ? { ...each, store: `${size}` } : each)) });
}

/** The text of a job by parts. Its last line has no end if it had none when it was read. */
export function writeJob(job) {
  const text = textOf(placedLines(job).map((line) => line.text));
  return job.lacksLastEnd ? text.slice(0, -1) : text;
}

/** The lines of a medium as they are edited: those of a tape unchanged, since they begin with + or =, and all others without their +. */
export function editedMedia({ kind, media }) {
  const lines = kind === "MT" ? media : media.map((line) => line.slice(1));
  return lines.join("\n") + (lines.at(-1) === "" ? "\n" : "");
}

/** The lines of a medium, from the text that was edited. */
export function readMedia(kind, text) {
  const lines = linesOf(text);
  return kind === "MT" ? lines.map((line) => (/^[+=]/.test(line) ? line : `+${line}`)) : lines.map((line) => `+${line}`);
}

/** The ranges of words that are shown, as they are edited: `3 3, 32 40`. */
export const editedShows = (shows) => shows.join(", ");
export const readShows = (text) => text.split(",").map((show) => show.trim()).filter((show) => show !== "");
