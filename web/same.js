// Whether a program comes to the same in two worlds: in two runs, or in a run and alone. Its states are the machine's own reports, with the whole store shown.

import { factsOfRun } from "./facts.js";
import { readJob, withStore, writeJob } from "./job.js";
import { callsOfOrders } from "./journal.js";
import { count, listed } from "./report.js";
import { readSchedule, writeSchedule } from "./schedule.js";

/** What a program was answered, by the number of the order that asked. The device that it took from the pool is an answer. */
const answersOf = ({ asks }, number) => new Map(asks.filter(({ slot }) => slot === number).map(({ order, answer }) => [order, answer]));

/** What the same orders would be answered alone, if all before were answered so: 0, or the least device of the pool that the program hasn't got. */
function loneAnswers({ asks, loans, devices }, number) {
  const kinds = new Map(devices.filter(({ slot }) => slot === null).map(({ device, kind }) => [device, kind])), got = new Map();
  const own = loans.filter(({ slot }) => slot === number).values();
  let next = own.next().value;
  return new Map(asks.filter(({ slot }) => slot === number).map(({ order, call }) => {
    for (const [device, given] of got) if (given !== null && given < call) got.delete(device);
    if (next?.taken !== call) return [order, 0];
    const { device: taken, given } = next, free = [...kinds].filter(([device, kind]) => kind === kinds.get(taken) && !got.has(device)).map(([device]) => device);
    got.set(taken, given);
    next = own.next().value;
    return [order, Math.min(...free)];
  }));
}

/** The devices that have a transfer for this slot after so many calls. */
const flyingAfter = ({ transfers }, number, calls) => transfers.filter(({ slot, began, ended }) => slot === number && began <= calls && (ended === null || ended >= calls))
  .map(({ device }) => device);

/** The first words of the lines of which a section has several. */
const NUMBERED = ["Q", "WORD", "DEVICE", "POOL"];

/** The lines of each section of a report by slot, and in it by register, word or device. A device has its blocks, and one of the pool has them of each time that
 * the program took it. */
export function linesOfSections(text) {
  const sections = new Map();
  let lines = null, key = "";
  for (const line of text.split("\n")) {
    const [word, first] = line.split(" ", 2);
    if (word === "ENDREPORT") break;
    if (word === "SLOT") {
      sections.set(Number(first), lines = new Map());
    } else if (lines) {
      if (word !== "BLOCK" && word !== "LAST") key = NUMBERED.includes(word) ? `${word} ${first}` : word;
      lines.set(key, lines.has(key) ? `${lines.get(key)}\n${line}` : line);
    }
  }
  return sections;
}

/** What a program has from its job, but for the number of its slot. */
const lifeOf = (job, { store, deck, isServed, devices }) => JSON.stringify([store, deck, isServed, devices, job.pool?.devices ?? []]);

/** The run of a job in which the report shows all stores. */
export class Whole {
  /** The run of the job of this text. `name` says where a program was. */
  static async of(ask, job, name) {
    const whole = new Whole();
    Object.assign(whole, { ask, name, job: readJob(job) });
    whole.schedule = readSchedule(whole.job.schedule);
    whole.text = await whole.run(whole.schedule);
    whole.facts = await factsOfRun(ask, job);
    return whole;
  }

  run(schedule) {
    return this.report(["run"], this.job.slots, schedule);
  }

  /** The report of a job of these slots, with their whole stores. */
  async report(words, slots, schedule) {
    const { status, text } = await this.ask(words, writeJob({ ...this.job, slots: slots.map(withStore), schedule: writeSchedule(schedule) }));
    if (status) throw new Error(text.trim());
    return text;
  }

  /** The report of the run up to this call. */
  runTo(calls) {
    return this.run({ calls, events: this.schedule.events.filter((event) => event.calls < calls) });
  }

  slot(number) {
    return this.job.slots.find((slot) => Number(slot.number) === number);
  }

  /** The number of a slot with the same program as this one of another run, or undefined. */
  like(other, number) {
    const due = lifeOf(other.job, other.slot(number));
    const found = this.job.slots.filter((slot) => lifeOf(this.job, slot) === due).map((slot) => Number(slot.number));
    return found.includes(number) ? number : found[0];
  }
}

/** A program in a run: how many orders it obeyed, what it was answered, and its state after any of them. */
export class Shared {
  constructor(whole, number) {
    const { orders, state } = whole.facts.programs.find(({ slot }) => slot === number);
    Object.assign(this, { whole, number, name: whole.name, orders, isOver: state !== "LIVE" });
    this.answers = answersOf(whole.facts, number);
  }

  async state(orders) {
    const { whole, number } = this, isPart = orders < this.orders, calls = isPart ? callsOfOrders(whole.facts, number, [orders])[0] : whole.facts.made;
    const text = isPart ? await whole.runTo(calls) : whole.text, flying = flyingAfter(whole.facts, number, isPart ? calls : Infinity);
    return { lines: linesOfSections(text).get(number), flying };
  }
}

/** A program by itself: it obeys as many orders as it is asked to. */
export class Alone {
  constructor({ whole, number, orders, isOver }) {
    Object.assign(this, { whole, number, name: "alone", orders, isOver });
    this.answers = loneAnswers(whole.facts, number);
  }

  async state(orders) {
    const text = await this.whole.report(["alone", `${this.number}`], [this.whole.slot(this.number)], { calls: orders, events: [] });
    return { lines: linesOfSections(text).get(this.number), flying: [] };
  }
}

/** The first order that was answered differently in the two worlds, or undefined. */
function firstParting(one, other) {
  return [...one.answers].find(([order, answer]) => other.answers.has(order) && other.answers.get(order) !== answer)?.[0];
}

/** Whether a line may differ while these devices have transfers. */
function isOfTransfer(key, flying) {
  return flying.length > 0 && (key.startsWith("WORD ") || flying.some((device) => key === `DEVICE ${device}` || key === `POOL ${device}`));
}

/** A program in two worlds: after how many orders it is compared, its lines in both, the keys of those that differ, what is said, and whether the theorem holds. */
export async function compare(one, other) {
  const parted = firstParting(one, other);
  const orders = Math.min(one.orders, other.orders, parted === undefined ? Infinity : parted - 1);
  const states = [await one.state(orders), await other.state(orders)];
  const flying = [...new Set(states.flatMap((state) => state.flying))].sort((a, b) => a - b);
  const keys = [...new Set(states.flatMap(({ lines }) => [...lines.keys()]))];
  const differing = keys.filter((key) => states[0].lines.get(key) !== states[1].lines.get(key));
  const strange = differing.filter((key) => !isOfTransfer(key, flying));
  const found = { orders, keys, differing, names: [one.name, other.name], lines: states.map(({ lines }) => lines), isDue: strange.length === 0 };
  if (strange.length) return { ...found, said: `NOT the same after ${count(orders, "order")}: ${strange[0]}` };
  const isPart = orders < Math.max(one.orders, other.orders) || !one.isOver || !other.isOver;
  const except = differing.length ? `, except for the transfer in flight of device ${listed(flying)}` : "";
  const answers = `; order ${parted} asked, and was answered ${one.answers.get(parted)} ${one.name} and ${other.answers.get(parted)} ${other.name}`;
  return { ...found, said: `the same${isPart ? ` after ${count(orders, "order")}` : ""}${except}${orders + 1 === parted ? answers : ""}` };
}
