// A run over time, as its facts tell it: what each program did, which transfers each device had, and to whom the pool lent its devices. Time is counted in calls of
// the machine.

import { exchangedIn } from "./journal.js";
import { many } from "./report.js";
import { PICTURE, worded } from "./tables.js";

/** What goes on from one call to another. It is open if it goes on when the run stops: its end, which is null then, is that of the run. */
const spanOf = (made, start, end, rest) => ({ start, end: end ?? made, isOpen: end === null, ...rest });

/** The values by their key. */
function grouped(values, keyOf, keys) {
  const groups = new Map(keys.map((key) => [key, []]));
  for (const value of values) groups.get(keyOf(value))?.push(value);
  return groups;
}

/** The index of the first of these spans that ends after a call. */
export function firstAfter(spans, call) {
  let [low, high] = [0, spans.length];
  while (low < high) {
    const middle = (low + high) >> 1;
    if (spans[middle].end > call) high = middle;
    else low = middle + 1;
  }
  return low;
}

/** The spans in which all of the pool's devices of a kind were lent. */
function spansLent({ devices, loans, made }, pool) {
  const all = new Set(devices.filter(({ slot, kind }) => slot === null && kind === pool).map(({ device }) => device)), lent = loans.filter(({ device }) => all.has(device));
  const changes = [...lent.map(({ taken }) => [taken, 1]), ...lent.filter(({ given }) => given !== null).map(({ given }) => [given, -1])].sort((one, other) => one[0] - other[0]);
  const found = [];
  let count = 0, start = 0;
  for (const [call, by] of changes) {
    count += by;
    if (count === all.size) start = call;
    else if (by < 0 && count === all.size - 1) found.push(spanOf(made, start, call));
  }
  return all.size && count === all.size ? [...found, spanOf(made, start, null)] : found;
}

/** The spans that are within some calls, each as far as it is; `end` is null for the end of the run. */
function spansWithin(made, spans, start, end, rest) {
  const found = [];
  for (let at = firstAfter(spans, start); at < spans.length && spans[at].start < (end ?? made); at += 1) {
    found.push(spanOf(made, Math.max(start, spans[at].start), spans[at].isOpen ? end : firstOf(spans[at].end, end), rest));
  }
  return found;
}

/** The first of some numbers of calls, of which those that are null or absent never come; null if none does. */
const firstOf = (...calls) => calls.reduce((first, call) => (call === null || call === undefined || (first !== null && first < call) ? first : call), null);

/** The spans in which a program was held up, each with its hold. While it waits for the pool, it is held up only where all devices of the kind are lent. */
function holdSpans(facts, holds, over, lent) {
  return holds.flatMap((hold, at) => {
    const end = firstOf(facts.transfers[hold.transfer]?.ended, hold.resumed, holds[at + 1]?.call, over);
    return hold.by === "pool" ? spansWithin(facts.made, lent[hold.pool], hold.call, end, { what: "waits", hold }) : [spanOf(facts.made, hold.call, end, { what: "held", hold })];
  });
}

/** Spans in their sequence, with those between them, in which a program could go on, up to the end of the program, which is null if it goes on. */
function withReady(made, spans, over) {
  const found = [];
  let call = 0;
  for (const each of spans.filter(({ start, end }) => start < end).sort((one, other) => one.start - other.start)) {
    if (call < each.start) found.push(spanOf(made, call, each.start, { what: "ready" }));
    found.push(each);
    call = each.end;
  }
  return call < (over ?? made) ? [...found, spanOf(made, call, over, { what: "ready" })] : found;
}

/** A run over time. Each slot and each device has its spans, each with the number of calls before its beginning and before its end. The devices of the pool also have
 * the spans for which they were lent. There are also the calls after which something happened (`events`), those that found a program held up (`holds`), and what is drawn
 * besides: idle calls, the ends of programs, words that were moved, the clock, and exchanges of priorities. */
export class Timeline {
  constructor(facts) {
    const { made, entries, programs, devices, transfers, loans, holds } = facts, of = (...names) => entries.filter(({ entry }) => names.includes(entry));
    const lentEver = new Set(loans.map(({ device }) => device)), ofPool = devices.filter(({ slot, device }) => slot === null && lentEver.has(device));
    const used = [...devices.filter(({ slot }) => slot !== null), ...ofPool.sort((one, other) => one.device - other.device)];
    const slots = programs.map(({ slot }) => slot), numbers = used.map(({ device }) => device);
    Object.assign(this, { facts, total: made, transfers: transfers.length, used });
    this.kinds = new Map(used.map(({ device, kind }) => [device, kind]));
    this.pool = new Map(ofPool.map(({ device, kind }) => [device, kind]));
    this.states = new Map(programs.map(({ slot, state, failure, orders }) => [slot, { state: failure ? `${state} ${failure}` : state, orders }]));
    this.ends = grouped(of("FAIL", "ENDED").map(({ slot, call, kind }) => ({ slot, call, failure: kind })), ({ slot }) => slot, slots);
    this.devices = grouped(transfers.map(({ device, slot, began, ended }) => spanOf(made, began, ended, { device, slot })), ({ device }) => device, numbers);
    this.lendings = grouped(loans.map(({ device, slot, taken, given }) => spanOf(made, taken, given, { device, slot })), ({ device }) => device, [...this.pool.keys()]);
    this.moves = grouped(this.movesOf(entries), ({ device }) => device, numbers);
    this.idle = of("IDLE").map(({ call, calls }) => ({ start: call, end: call + calls }));
    this.clock = of("CLOCK");
    this.swaps = this.swapsOf(of("SWAP"), slots);
    this.events = entries.flatMap(({ entry }, at) => (entry === "RAN" || entry === "IDLE" ? [] : [entries[at + 1]?.call ?? made]));
    this.holds = holds.map(({ call }) => call + 1);
    this.slots = this.spansOfSlots(slots);
  }

  spansOfSlots(slots) {
    const { facts, total } = this, lent = { TP: spansLent(facts, "TP"), LP: spansLent(facts, "LP") }, ofSlot = ({ slot }) => slot;
    const ran = grouped(facts.entries.filter(({ entry }) => entry === "RAN"), ofSlot, slots), holds = grouped(facts.holds, ofSlot, slots);
    return new Map(slots.map((slot) => {
      const over = this.ends.get(slot)[0]?.call ?? null, runs = ran.get(slot).map(({ call, orders }) => spanOf(total, call, call + orders, { what: "ran" }));
      return [slot, withReady(total, [...runs, ...holdSpans(facts, holds.get(slot), over, lent)], over)];
    }));
  }

  /** The lines MOVE, each with its call. One changes nothing if its device has no transfer. */
  movesOf(entries) {
    const flying = new Set();
    return entries.filter(({ entry, device }) => {
      if (entry === "START") flying.add(device);
      else if (entry === "END") flying.delete(device);
      return entry === "MOVE" && flying.has(device);
    });
  }

  /** The exchanges of priorities, each with those that the slots of the run have after it. */
  swapsOf(entries, slots) {
    let priorities = [0, 1, 2, 3];
    return entries.map(({ call, slot, other }) => {
      priorities = exchangedIn(priorities, slot, other);
      return { call, slots: [slot, other], after: priorities.filter((each) => slots.includes(each)) };
    });
  }

  /** What became of a program in all, in words. */
  saidOfSums(slot) {
    const { ready, held: { device, group, pool } } = this.facts.calls.find((each) => each.slot === slot).calls;
    return worded(PICTURE.says.sums, { orders: many(this.states.get(slot).orders, "order"), held: many(device + group + pool, "call"), ready });
  }

  /** How many transfers a device had, how many lines MOVE moved words of them, and how often the pool lent it, in words. */
  saidOfDevice(device) {
    const transfers = this.devices.get(device).length, lent = this.lendings.get(device)?.length, moves = this.moves.get(device).length;
    return [many(transfers, "transfer"), ...(moves ? [many(moves, "MOVE")] : []), ...(lent ? [`lent ${many(lent, "time")}`] : [])].join(", ");
  }

  get saidOfExchanges() {
    return `${many(this.swaps.length, "exchange")}, at the end ${this.swaps.at(-1).after.join(", ")}`;
  }

  /** The span that goes on after a call, or undefined. */
  spanAfter(spans, call) {
    return spans?.find(({ start, end, isOpen }) => start <= call && (call < end || isOpen));
  }

  /** The transfer that a device has after a call, or undefined. */
  flightAfter(device, call) {
    return this.spanAfter(this.devices.get(device), call);
  }

  /** To whom the pool lends a device after a call, or undefined. */
  lendingAfter(device, call) {
    return this.spanAfter(this.lendings.get(device), call);
  }

  /** The hold in which a program is after a call, or null. */
  holdAfter(slot, call) {
    const hold = this.spanAfter(this.slots.get(slot), call)?.hold;
    return hold && hold.call < call ? hold : null;
  }

  /** The next call in which a program obeys an order, or the last call if there is none. */
  nextOrder(slot, call) {
    const found = this.slots.get(slot)?.find(({ what, end }) => what === "ran" && end > call);
    return found ? Math.max(found.start, call) + 1 : this.total;
  }

  /** The call before this one in which a program obeyed an order; null if there is none. */
  orderBefore(slot, call) {
    const found = this.slots.get(slot)?.findLast(({ what, start }) => what === "ran" && start + 1 < call);
    return found ? Math.min(found.end, call - 1) : null;
  }

  /** The first of these calls, which are in ascending sequence, that is after `call`; the last call of the run if there is none. */
  next(calls, call) {
    return calls.find((each) => each > call) ?? this.total;
  }

  /** The last of these calls that is before `call`; the beginning of the run if there is none. */
  previous(calls, call) {
    return calls.findLast((each) => each < call) ?? 0;
  }
}
