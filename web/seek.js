// Finding a call of a run: at which a program comes to a statement, and at which a word got the value that it has. All is read from the machine's own reports.

import { SYLLABLES } from "./deck.js";
import { factsFor } from "./facts.js";
import { callsOfOrders } from "./journal.js";

/** How many orders a statement is looked for that doesn't begin a word, and over how many calls a change is looked for one by one. */
const FARTHEST = 2000, NEAR = 100;

/** The breakpoints of the decks by their slots: where each statement begins, with its text. */
export class Breaks {
  constructor() {
    this.bySlot = new Map();
  }

  of(slot) {
    return [...this.bySlot.get(`${slot}`)?.keys() ?? []];
  }

  /** Sets a breakpoint, or takes it away. */
  toggle(slot, { start, text }) {
    const own = this.bySlot.get(`${slot}`) ?? new Map();
    if (!own.delete(start)) own.set(start, text);
    this.bySlot.set(`${slot}`, own);
  }

  /** Keeps those whose statements are still where they were. */
  keep(slot, statements) {
    const own = this.bySlot.get(`${slot}`), texts = new Map(own && statements.map(({ start, text }) => [start, text]));
    for (const [start, text] of own ?? []) {
      if (texts.get(start) !== text) own.delete(start);
    }
  }
}

/** What finds calls of a run. `report` gives the sections after a call, with the stores if asked. */
export class Seeker {
  constructor({ ask, text, timeline, layouts, report }) {
    Object.assign(this, { ask, text, timeline, layouts, report, watched: new Map() });
  }

  /** The place of a statement that begins at this offset of a deck, as a word and a syllable; null if it wrote no order. */
  placeOf(slot, start) {
    const found = [...this.layouts.get(slot)?.orders ?? []].find(([, statement]) => statement?.start === start);
    return found ? [Math.floor(found[0] / SYLLABLES), found[0] % SYLLABLES] : null;
  }

  /** The calls at which a program came to syllable 0 of a word: a watch says them all. */
  async callsAt(slot, word) {
    const key = `${slot} ${word}`;
    if (!this.watched.has(key)) {
      const { stops } = await factsFor(this.ask, ["watch", `${slot}`, `${word}`], this.text);
      this.watched.set(key, callsOfOrders(this.timeline.facts, slot, stops));
    }
    return this.watched.get(key);
  }

  /** The next call, or the one before if `by` is -1, after which the next order of a program is that of a statement; null if there is none, or too far. */
  async comesTo(slot, start, from, by = 1) {
    const place = this.placeOf(slot, start);
    if (place === null) return null;
    const [word, syllable] = place;
    if (syllable === 0) {
      const calls = await this.callsAt(slot, word);
      return (by > 0 ? calls.find((call) => call > from) : calls.findLast((call) => call < from)) ?? null;
    }
    for (let call = from, orders = 0; orders < FARTHEST; orders += 1) {
      call = by > 0 ? this.timeline.nextOrder(slot, call) : this.timeline.orderBefore(slot, call);
      if (call === null || (await this.at(slot, call)).join() === place.join()) return call;
      if (call >= this.timeline.total) return null;
    }
    return null;
  }

  /** Where the next order of a program is after a call. */
  async at(slot, call) {
    const section = (await this.report(call, false)).find((each) => each.slot === slot);
    return section.state === "LIVE" ? section.at : [];
  }

  /** The next breakpoint after a call, or the one before; null if there is none. */
  async nextBreak(breaks, call, by) {
    const found = [];
    for (const slot of this.layouts.keys()) {
      for (const start of breaks.of(slot)) found.push(await this.comesTo(slot, start, call, by));
    }
    const calls = found.filter((each) => each !== null);
    return calls.length ? Math[by > 0 ? "min" : "max"](...calls) : null;
  }

  async valueOf(slot, address, call) {
    return (await this.report(call, true)).find((each) => each.slot === slot)?.words.find((word) => word.address === address)?.octal;
  }

  /** The call with which a word got the value that it has after a call; null if it had it from the beginning. The last calls are looked at one by one, and those before by halves. */
  async became(slot, address, call) {
    const value = await this.valueOf(slot, address, call), differs = async (at) => await this.valueOf(slot, address, at) !== value;
    let at = call;
    for (; at > 0 && call - at < NEAR; at -= 1) {
      if (await differs(at - 1)) return at;
    }
    if (at === 0 || !await differs(0)) return null;
    let low = 0;
    while (at - low > 1) {
      const middle = (low + at) >> 1;
      if (await differs(middle)) low = middle;
      else at = middle;
    }
    return at;
  }
}
