// Another schedule of a job, at random: transfers end and move at other calls, the clock shows its times at other calls, and programs exchange their priorities.
// Or other decks of its programs. A seed gives the same each time.

import { readJob, writeJob } from "./job.js";
import { layoutsOf } from "./results.js";
import { readSchedule, transfersOf, withTransfers, writeSchedule } from "./schedule.js";
import { LINES } from "./tables.js";

export const MOST_SEED = 999999;

const [[, MOST_CALLS]] = LINES.ORDERS.numbers;
const LONGEST_TRANSFER = 60, MOST_MOVES = 3, MOST_WORDS = 9, MOST_SWAPS = 6, MOST_DUMMIES = 9;

/** A number from 0 up to below `end`, which depends on nothing but the other numbers. */
function chance(end, ...numbers) {
  let mixed = 0x9e3779b9;
  for (const number of numbers) {
    mixed = Math.imul(mixed ^ number, 0x85ebca6b);
    mixed = Math.imul(mixed ^ (mixed >>> 13), 0xc2b2ae35);
    mixed ^= mixed >>> 16;
  }
  return (mixed >>> 0) % end;
}

/** The lines for a transfer: it ends some calls after it began, and some words may move before. */
function eventsOf({ calls, device }, seed) {
  const given = (end, ...which) => chance(end, seed, calls, Number(device), ...which);
  const length = given(LONGEST_TRANSFER + 1, 0), moves = Math.max(0, given(2 * MOST_MOVES + 1, 1) - MOST_MOVES);
  const places = Array.from({ length: moves }, (_, at) => given(length + 1, 2, at)).sort((one, other) => one - other);
  return [
    ...places.map((place, at) => ({ calls: calls + place, line: `MOVE ${device} ${1 + given(MOST_WORDS, 3, at)}` })),
    { calls: calls + length, line: `END ${device}` },
  ];
}

/** The exchanges of priorities, and the times of the clock in their sequence, each at one of the calls of the run. */
function others(job, calls, seed) {
  const slots = job.slots.map(({ number }) => number);
  const swaps = Array.from({ length: slots.length > 1 ? 1 + chance(MOST_SWAPS, seed, 4) : 0 }, (_, at) => {
    const first = chance(slots.length, seed, 5, at), second = (first + 1 + chance(slots.length - 1, seed, 6, at)) % slots.length;
    return { calls: chance(calls + 1, seed, 7, at), line: `SWAP ${slots[first]} ${slots[second]}` };
  });
  const times = readSchedule(job.schedule).events.filter(({ line }) => line.startsWith("CLOCK "));
  const places = times.map((_, at) => chance(calls + 1, seed, 8, at)).sort((one, other) => one - other);
  return [...swaps, ...times.map(({ line }, at) => ({ calls: places[at], line }))].sort((one, other) => one.calls - other.calls);
}

/** The text of a job with another schedule. It has more calls than the job's own, so that a program comes as far if its transfers take longer. */
export async function shuffled(ask, text, seed) {
  const job = readJob(text);
  const { begun, calls: made } = await transfersOf(ask, text), calls = Math.min(MOST_CALLS, readSchedule(job.schedule).calls + LONGEST_TRANSFER * begun.length);
  const schedule = writeSchedule({ calls, events: others(job, made, seed) });
  return withTransfers(ask, writeJob({ ...job, schedule }), (transfer) => eventsOf(transfer, seed));
}

/** The text of a job in which the main part of each program but this one begins with some more orders, which do nothing; null if one of these decks then has a fault. */
export async function withOtherNeighbours(ask, text, kept, seed) {
  const job = readJob(text), layouts = await layoutsOf(ask, text);
  const slots = job.slots.map((slot) => {
    const first = slot.number === kept ? undefined : layouts.get(Number(slot.number))?.first;
    const more = "DUMMY; ".repeat(1 + chance(MOST_DUMMIES, seed, 9, Number(slot.number)));
    return first ? { ...slot, deck: slot.deck.slice(0, first.start) + more + slot.deck.slice(first.start) } : slot;
  });
  const changed = writeJob({ ...job, slots });
  return (await ask(["asm", "0"], changed)).status === 0 ? changed : null;
}
