// A run as a search takes it: what each program has obeyed, was answered and waits for after each call, and whose turn each call was. All of it is read from the
// machine's reports. What a search goes by is said in docs/STUDY.md; the tool explore has the same in tools/outcomes/moments.py, and tests/page compares the two.

import { exchangedIn } from "./journal.js";

const HOLDING = ["LOV", "BUSY", "WAIT"];

/** What a journal tells up to some call: of each slot its orders, its answers, how it came to its end and what held it up last; the slots that have transfers and
 * devices of the pool, by device; the time, and the priorities. */
export class Instant {
  constructor(slots) {
    Object.assign(this, { orders: new Map(slots.map((slot) => [slot, 0])), answers: new Map(slots.map((slot) => [slot, []])) });
    Object.assign(this, { over: new Map(), holds: new Map(), flying: new Map(), lent: new Map(), time: 0, order: [0, 1, 2, 3] });
  }

  copy() {
    const copied = Object.entries(this).map(([name, value]) => [name, value instanceof Map ? new Map(value) : value]);
    return Object.assign(Object.create(Instant.prototype), Object.fromEntries(copied));
  }

  /** Takes a line of the schedule. */
  schedule(kind, ...numbers) {
    if (kind === "END") this.flying.delete(numbers[0]);
    else if (kind === "CLOCK") [this.time] = numbers;
    else if (kind === "SWAP") this.order = exchangedIn(this.order, ...numbers);
  }

  /** The instant after a line of the schedule. */
  after(line) {
    const next = this.copy(), [kind, ...numbers] = line.split(" ");
    next.schedule(kind, ...numbers.map(Number));
    return next;
  }

  get live() {
    return [...this.orders.keys()].filter((slot) => !this.over.has(slot));
  }

  /** The devices on which a program has a transfer. */
  flights(slot) {
    return [...this.flying].filter(([, owner]) => owner === slot).map(([device]) => device).sort((one, other) => one - other);
  }

  /** The devices of the pool that a program has. */
  lentTo(slot) {
    return [...this.lent].filter(([, holder]) => holder === slot).map(([device]) => device).sort((one, other) => one - other);
  }

  /** Whether what held a program up last may still do so. A journal doesn't tell which transfer locks out a group, so any of the program's may. */
  mayBeHeld(slot, pool) {
    const [kind, which] = this.holds.get(slot) ?? [];
    if (kind === "WAIT") return [...pool].every(([device, its]) => its !== which || this.lent.has(device));
    return kind === "BUSY" ? this.flying.has(which) : kind === "LOV" && [...this.flying.values()].includes(slot);
  }

  /** All that decides how the run can go on: two instants with equal keys have equal futures. */
  key(pool) {
    const holds = [...this.holds].filter(([slot]) => this.mayBeHeld(slot, pool)).sort(([one], [other]) => one - other);
    const over = [...this.over].sort(([one], [other]) => one - other), flying = [...this.flying.keys()].sort((one, other) => one - other);
    return JSON.stringify([[...this.orders.values()], [...this.answers.values()], over, holds, flying, this.time, this.order]);
  }

  /** The programs that wait for good, since each device that one of them waits for has one of them as its holder: of each its slot, the kind of a device that it waits
   * for, and the devices that it has. */
  circle(pool) {
    const waiting = new Map([...this.holds].filter(([, [kind]]) => kind === "WAIT").map(([slot, [, which]]) => [slot, which]));
    for (;;) {
      const hopeful = [...waiting].filter(([, kind]) => [...pool].some(([device, its]) => its === kind && !waiting.has(this.lent.get(device))));
      if (!hopeful.length) return [...waiting].sort(([one], [other]) => one - other).map(([slot, kind]) => [slot, kind, this.lentTo(slot)]);
      hopeful.forEach(([slot]) => waiting.delete(slot));
    }
  }
}

/** A run under a schedule with these events: `instants[n]` is what there is after n calls and the events that follow them, `turns[n]` is the call after that, and
 * `begun` has the calls before each transfer had begun, and its device. A turn has its slot, or null for an idle call; the answer, if the order asked; whether it changed
 * the pool; and what held it up. */
export class Course {
  constructor(report, slots, events) {
    Object.assign(this, { events, instants: [new Instant(slots)], turns: [], begun: [], sections: sectionsIn(report) });
    for (const [kind, ...fields] of entriesIn(report)) this.take(kind, fields);
  }

  /** The number of calls before the last event. */
  get start() {
    return this.events.at(-1)?.calls ?? 0;
  }

  get last() {
    return this.instants.at(-1);
  }

  take(kind, [first, second]) {
    if (kind === "RAN") {
      for (let at = 0; at < second; at += 1) this.ran(first);
    } else if (HOLDING.includes(kind)) {
      this.call({ slot: first, hold: [kind, second] }).holds.set(first, [kind, second]);
    } else if (kind === "IDLE") {
      for (let at = 0; at < first; at += 1) this.call({ slot: null });
    } else if (kind === "START") {
      this.last.flying.set(second, first);
      this.begun.push({ calls: this.turns.length, device: second });
    } else if (["ANSWER", "TAKE", "GIVE", "FAIL", "ENDED"].includes(kind)) {
      this.note(this.last, this.turns.at(-1), kind, first, second);
    } else {
      this.last.schedule(kind, first, second);
    }
  }

  ran(slot) {
    const now = this.call({ slot });
    now.orders.set(slot, now.orders.get(slot) + 1);
    now.holds.delete(slot);
  }

  /** One more call; what there is after it. */
  call(turn) {
    this.turns.push({ answer: null, isOfPool: false, hold: null, ...turn });
    this.instants.push(this.last.copy());
    return this.last;
  }

  /** Takes what is noted of the order that was obeyed by the last call. */
  note(now, turn, kind, slot, what) {
    if (kind === "ANSWER" || kind === "TAKE") {
      now.answers.set(slot, [...now.answers.get(slot), what]);
      Object.assign(turn, { answer: what, isOfPool: kind === "TAKE" });
    }
    if (kind === "TAKE") {
      now.lent.set(what, slot);
    } else if (kind === "GIVE") {
      now.lent.delete(what);
      turn.isOfPool = true;
    } else if (kind === "FAIL" || kind === "ENDED") {
      now.over.set(slot, kind === "FAIL" ? `FAILED ${what}` : kind);
      turn.isOfPool = now.lentTo(slot).length > 0;
      now.lentTo(slot).forEach((device) => now.lent.delete(device));
    }
  }
}

/** The entries of a report: the words of each, of which those that are numbers are read. */
function entriesIn(report) {
  const [, ...lines] = report.slice(0, report.search(/^SLOT /m)).trimEnd().split("\n");
  return lines.map((line) => line.split(" ").map((word) => (/^\d+$/.test(word) ? Number(word) : word)));
}

/** The lines of each section of a report by its slot, without its first. */
function sectionsIn(report) {
  const sections = new Map(), lines = report.split("\n"), end = lines.indexOf("ENDREPORT");
  let mine = null;
  for (const line of lines.slice(0, end)) {
    if (line.startsWith("SLOT ")) sections.set(Number(line.slice(5)), mine = []);
    else mine?.push(line);
  }
  return sections;
}
