// A schedule that writes itself: each transfer ends a given number of calls after it began, or one that goes by its words. When transfers begin, and how many words they
// have, the machine tells. If a schedule is right up to some call, its run is right up to that call, so each run shows more of what to write than the one before.

import { byId, make, table } from "./dom.js";
import { factsFor } from "./facts.js";
import { linesOf, readJob, textOf, writeJob } from "./job.js";
import { many } from "./report.js";
import { JOB, LINES, SPEEDS } from "./tables.js";

const MOST_LINES = JOB.most.lines_of_schedule, [[, MOST_CALLS]] = LINES.ORDERS.numbers;
const USUAL_WINDOW = 64;

/** Why the schedule can't be written. */
export class NoSchedule extends Error {}

/** The devices of a job, those of the pool too, by their numbers. */
function devicesOf(text) {
  const job = readJob(text), owners = [...job?.slots ?? [], ...(job?.pool ? [job.pool] : [])];
  return owners.flatMap(({ devices }) => devices).filter(({ number }) => /^\d{1,2}$/.test(number)).sort((one, other) => one.number - other.number);
}

/** Offers the sets of speeds by their names. */
export function listSpeeds() {
  byId("speeds").append(...Object.entries(SPEEDS).map(([name, { says }]) => new Option(`${name}: ${says}`, name)));
}

/** The speed of devices of a kind in the chosen set; undefined if none is chosen, or it hasn't the kind. */
const speedOf = (kind) => SPEEDS[byId("speeds").value]?.kinds[kind];

/** Offers for each device of a job a number of calls, and one more for each word. What is typed for a device stays as long as the job has it. */
export function drawDelays(text) {
  const devices = devicesOf(text).map(({ number, kind }) => ({ number, kind, speed: speedOf(kind) })), shown = JSON.stringify(devices);
  if (byId("delays").dataset.shown === shown) return;
  const typed = new Map([...byId("delays").querySelectorAll("input")].map((control) => [control.getAttribute("aria-label"), control.value]));
  const field = ({ number, kind }, name, what, placeholder) => {
    const control = make("input", { type: "text", size: "8", inputmode: "numeric", [`data-${name}`]: number, placeholder, "aria-label": `${what}, device ${number} ${kind}` });
    control.value = typed.get(control.getAttribute("aria-label")) ?? "";
    return control;
  };
  const rows = devices.map((device) => [`Device ${device.number} ${device.kind}`, field(device, "device", "Calls until a transfer ends", device.speed?.calls ?? "as above"),
    field(device, "word", "And for each of its words", device.speed?.calls_a_word ?? "none")]);
  byId("delays").dataset.shown = shown;
  byId("delays").replaceChildren(...(rows.length ? [table("Devices of another speed", ["", "calls until a transfer ends", "and for each of its words"], rows)] : []));
}

/** How long transfers take, as it is typed: the calls of a transfer, the calls until a word moves, and the devices with numbers or speeds of their own. Null if these
 * aren't numbers. A device has a speed if a number of calls for each word is typed, or if the chosen set has its kind and nothing is typed. */
export function readDelays(text) {
  const numbers = ["after", "every"].map((name) => byId(name).value.trim()), devices = new Map();
  const typed = (name, number) => byId("delays").querySelector(`[data-${name}="${number}"]`)?.value.trim() ?? "";
  for (const { number, kind } of devicesOf(text)) {
    const calls = typed("device", number), word = typed("word", number), speed = speedOf(kind);
    numbers.push(calls, word);
    if (word !== "") devices.set(number, { calls: Number(calls), word: Number(word), isSpeed: true });
    else if (calls !== "") devices.set(number, { calls: Number(calls), word: 0, isSpeed: false });
    else if (speed) devices.set(number, { calls: speed.calls, word: speed.calls_a_word, isSpeed: true });
  }
  if (!numbers.every((number) => /^\d{0,8}$/.test(number) && Number(number) <= MOST_CALLS)) return null;
  return { after: Number(numbers[0] || JOB.usual_delay), every: Number(numbers[1]), devices };
}

/** The number of calls of a schedule, and its events from first to last: for each its line, and the number of calls before it. */
export function readSchedule(text) {
  const events = [];
  let calls = 0;
  for (const line of linesOf(text)) {
    if (line.startsWith("ORDERS ")) calls += Number(line.slice(7));
    else events.push({ calls, line });
  }
  return { calls, events };
}

export function writeSchedule({ calls, events }) {
  const lines = [];
  let before = 0;
  for (const event of events) {
    if (event.calls > before) lines.push(`ORDERS ${event.calls - before}`);
    before = Math.max(before, event.calls);
    lines.push(event.line);
  }
  if (calls > before) lines.push(`ORDERS ${calls - before}`);
  return textOf(lines);
}

/** What a schedule is, in a sentence: its calls, and how many lines of each kind it has. */
export function saidOfSchedule(text) {
  const { calls, events } = readSchedule(text), kinds = ["MOVE", "END", "CLOCK", "SWAP"].map((kind) => [kind, events.filter(({ line }) => line.startsWith(`${kind} `)).length]);
  const lines = kinds.filter(([, number]) => number).map(([kind, number]) => `${number.toLocaleString("en")} ${kind}`);
  return `${many(calls || 0, "call")}, ${many(linesOf(text).length, "line")}${lines.length ? `, of them ${lines.join(", ")}` : ""}`;
}

/** The transfers of the run of a job, each with its device, its words, the number of transfers that the device had had before, and how many calls had been made when it
 * had begun; and the number of calls of the whole run. The machine tells them. */
export async function transfersOf(ask, text) {
  const facts = await factsFor(ask, ["run"], text), had = new Map();
  if (facts.kind === "fault") throw new NoSchedule(`${facts.name}, line ${facts.line}`);
  const next = (device) => had.set(device, (had.get(device) ?? -1) + 1).get(device);
  return { begun: facts.transfers.map(({ began, device, words }) => ({ calls: began, device: `${device}`, words, index: next(device) })), calls: facts.made };
}

/** The events of a transfer. If its device has a speed, it takes a number of calls, and some for each word. Otherwise it takes as many steps as `devices` says for its
 * device, or else `after`. A step is one call; but if `every` isn't 0, it is that many calls, and a word is moved in each step. */
function eventsOf(transfer, { after, devices, every }) {
  const own = devices.get(transfer.device), end = (calls) => ({ calls: transfer.calls + calls, line: `END ${transfer.device}` });
  if (own?.isSpeed) return [end(own.calls + own.word * transfer.words)];
  const steps = own?.calls ?? after, length = every || 1;
  const moves = every ? Array.from({ length: steps }, (_, at) => ({ calls: transfer.calls + (at + 1) * length, line: `MOVE ${transfer.device} 1` })) : [];
  return [...moves, end(steps * length)];
}

/** The text of a job with a schedule in which each transfer ends as `delays` says. Its own MOVE and END lines are replaced. */
export const scheduled = (ask, text, delays) => withTransfers(ask, text, (transfer) => eventsOf(transfer, delays));

/** The text of a job with a schedule in which each transfer has the events that `eventsFor` gives for it, from first to last, and always the same. */
export async function withTransfers(ask, text, eventsFor) {
  const job = readJob(text);
  const { calls: total, events } = readSchedule(job.schedule);
  const kept = events.filter(({ line }) => !/^(MOVE|END) /.test(line));
  const found = [];
  const withEnds = (calls) => {
    const all = [...kept, ...found.flatMap(eventsFor)].filter((event) => event.calls < calls);
    if (all.length > MOST_LINES) throw new NoSchedule(`the schedule would have more than ${MOST_LINES.toLocaleString("en")} lines`);
    return writeSchedule({ calls, events: all.sort((one, other) => one.calls - other.calls) });
  };
  let known = 0, window = USUAL_WINDOW;
  while (known < total) {
    const until = Math.min(total, known + window);
    const run = await transfersOf(ask, writeJob({ ...job, slots: job.slots.map((slot) => ({ ...slot, shows: [] })), schedule: withEnds(until) }));
    const next = run.begun.filter(({ calls }) => calls > known);
    const right = Math.min(until, ...next.map((transfer) => eventsFor(transfer)[0].calls));
    found.push(...next.filter(({ calls }) => calls <= right));
    window = next.length ? USUAL_WINDOW : 2 * window;
    known = right;
    if (run.calls < right) break;
  }
  return writeJob({ ...job, schedule: withEnds(total) });
}
