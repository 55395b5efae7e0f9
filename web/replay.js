// A run, shown call by call. What is shown of a call is the machine's own report of the same job, cut after that call, with the whole store shown. So it is
// the run itself, and nothing is computed here.

import { button, choice, labelled, make, scrolled, table } from "./dom.js";
import { readJob, withStore, writeJob } from "./job.js";
import { saidOf, wordsOfGroup } from "./journal.js";
import { mediumOf } from "./medium.js";
import { NAMES_OF_POOL, numberOf, readReport, stateOfStint } from "./report.js";
import { readSchedule, writeSchedule } from "./schedule.js";
import { Seeker } from "./seek.js";
import { WHOLE } from "./picture.js";
import { Pictured } from "./pictured.js";

// How many entries of the journal are shown on each side of the call, and at most how many words of a program.
const ENTRIES_AROUND = 6, MOST_WORDS = 40;
const CHANGED = "• ";

// What is said if a key leads to no call.
const NOT_FOUND = {
  N: "No program comes to a breakpoint after this call. F9 in a deck sets one.", B: "No program came to a breakpoint before this call. F9 in a deck sets one.",
  c: "The program doesn't come to the statement at the caret after this call, or the caret isn't in a deck of this run.",
};

/** The job cut after a call, with the events between that call and the next, and with the whole store of each program shown, or what `shown` makes of a slot. */
export function cutJob(text, calls, shown = withStore) {
  const job = readJob(text);
  const schedule = readSchedule(job.schedule);
  const events = schedule.events.filter((event) => event.calls <= calls);
  return writeJob({ ...job, slots: job.slots.map(shown), schedule: writeSchedule({ calls: Math.min(calls, schedule.calls), events }) });
}

export class Replay {
  /** The part of the page that shows runs. `breaks` has the breakpoints, and `caret` gives the slot and the beginning of the statement at the caret of a deck, or null. */
  constructor(element, { ask, say, failed, breaks, caret }) {
    Object.assign(this, { element, ask, say, failed, breaks, caret });
    this.element.addEventListener("keydown", (event) => this.press(event));
  }

  /** Shows a run after a call, by its job, its timeline, the layouts of its decks, and the stops of a watch, or null. What is open already isn't drawn again. */
  open(run, call) {
    if (run !== this.run) {
      const { text, timeline, layouts, stops } = run;
      Object.assign(this, { run, text, timeline, layouts, stops, job: readJob(text), wanted: null, isAsking: false, last: null });
      this.seeker = new Seeker({ ask: this.ask, text, timeline: this.timeline, layouts, report: (at, hasStores) => (hasStores ? this.sections(at) : this.sectionsOf(at, (slot) => ({ ...slot, shows: [] }))) });
      this.draw();
      this.element.hidden = false;
    }
    return this.show(call);
  }

  /** The call at which a run is shown; 0 if it isn't. */
  callShown(run) {
    return this.run === run ? this.call : 0;
  }

  close() {
    this.element.hidden = true;
    this.element.replaceChildren();
    this.run = this.timeline = null;
  }

  draw() {
    const { timeline, stops } = this;
    this.slider = make("input", { type: "range", min: "0", max: `${timeline.total}`, value: "0", oninput: () => this.show(Number(this.slider.value)) });
    this.slot = choice([...timeline.slots.keys()].map((slot) => [`${slot}`, `program ${slot}`]), `${stops?.slot}`, () => {});
    this.where = make("output", {});
    this.picture = new Pictured(timeline, { name: "The run over time", choose: (call) => this.show(call), stops, size: WHOLE }).withButtons();
    this.word = make("input", { type: "text", size: "8", placeholder: "YA3" });
    const go = (name, key) => button(name, () => this.go(key), { title: `Key ${key}` });
    const bar = make("div", { class: "bar", role: "group", "aria-label": "Where in the run" },
      labelled("After call", this.slider), this.where,
      go("A call back", "b"), go("A call on", "f"), go("Next event", "e"), go("Next hold", "h"),
      ...(stops ? [go("Previous stop", "p"), go("Next stop", "n")] : []), go("Next order of", "o"), labelled("Program", this.slot),
      go("Breakpoint before", "B"), go("Next breakpoint", "N"), go("To the caret", "c"), go("Back to the last change of", "w"), labelled("Word", this.word));
    this.shown = make("div", { class: "moment" });
    this.element.replaceChildren(make("h2", {}, "The run, call by call"), this.picture.element, bar, this.shown);
  }

  /** The call to which a key leads, or undefined. */
  callOf(key) {
    const { timeline, call, stops } = this;
    const to = {
      b: () => call - 1, f: () => call + 1, e: () => timeline.next(timeline.events, call), h: () => timeline.next(timeline.holds, call),
      o: () => timeline.nextOrder(Number(this.slot.value), call),
      n: () => stops && timeline.next(stops.calls, call), p: () => stops && timeline.previous(stops.calls, call),
    };
    return to[key]?.() ?? undefined;
  }

  /** The calls that have to be looked for, by the key that leads to them. */
  get sought() {
    const { seeker, call, breaks } = this;
    return {
      N: () => seeker.nextBreak(breaks, call, 1), B: () => seeker.nextBreak(breaks, call, -1),
      c: () => { const at = this.caret(); return at ? seeker.comesTo(at.slot, at.start, call) : null; },
      w: () => this.lastChange(),
    };
  }

  /** Does what the button of the pressed key does. */
  press(event) {
    if (!this.timeline || event.ctrlKey || event.altKey || event.metaKey || event.target === this.word) return;
    if (this.callOf(event.key) === undefined && !(event.key in this.sought)) return;
    event.preventDefault();
    this.go(event.key);
  }

  /** Goes to the call to which a key leads, or says that there is none. */
  async go(key) {
    const { timeline } = this, to = this.callOf(key);
    if (to !== undefined) return this.show(to);
    try {
      const found = await this.sought[key]();
      if (timeline !== this.timeline) return undefined;
      if (typeof found === "number") return await this.show(found);
      this.say(found ?? NOT_FOUND[key], true);
    } catch (error) {
      this.failed(error);
    }
    return undefined;
  }

  /** Goes to the call with which a word of a slot got the value that it has. */
  goToWord(slot, name) {
    [this.slot.value, this.word.value] = [`${slot}`, name];
    return this.go("w");
  }

  /** The call with which the word that is typed got the value that it has, or why there is none. */
  async lastChange() {
    const slot = Number(this.slot.value), layout = this.layouts.get(slot), name = this.word.value.trim().toUpperCase(), number = /^E?(\d+)$/.exec(name)?.[1];
    const address = number === undefined ? layout?.addressOf({ text: name, part: 0 }) : Number(number), { store } = this.slotOf(slot);
    if (address === undefined || address >= Number(store)) return `Program ${slot} has no word ${name || "without a name"}. One is typed by its name or its address: YA3, V0P2 or 40.`;
    return await this.seeker.became(slot, address, this.call) ?? `${name} has had its value from the beginning on.`;
  }

  /** Shows the machine after a call. While a question to the machine is open, only the call that was asked for last is kept. */
  async show(call) {
    this.wanted = this.call = Math.max(0, Math.min(call, this.timeline.total));
    this.slider.value = `${this.call}`;
    if (this.isAsking) return;
    this.isAsking = true;
    const { timeline } = this;
    try {
      while (this.wanted !== null && timeline === this.timeline) {
        const at = this.wanted;
        this.wanted = null;
        const before = await this.sections(Math.max(0, at - 1)), now = await this.sections(at);
        if (timeline === this.timeline) this.drawMoment(at, now, before);
      }
    } catch (error) {
      this.failed(error);
    }
    this.isAsking = false;
  }

  /** The sections after a call, with the whole stores or what else is shown of them. */
  async sectionsOf(call, shown) {
    const { status, text } = await this.ask(["run"], cutJob(this.text, call, shown));
    if (status) throw new Error(text.trim());
    return readReport(text).sections;
  }

  async sections(call) {
    if (this.last?.call !== call || this.last.text !== this.text) this.last = { call, text: this.text, sections: await this.sectionsOf(call) };
    return this.last.sections;
  }

  drawMoment(call, now, before) {
    this.where.textContent = `${call.toLocaleString("en")} of ${this.timeline.total.toLocaleString("en")}`;
    this.picture.mark(call);
    const programs = now.map((section, at) => this.drawProgram(call, section, before[at]));
    const said = `After call ${call}: ${now.map((section, at) => this.sentence(call, section, before[at])).join("; ")}.`;
    this.shown.replaceChildren(make("p", { class: "said" }, said), make("div", { class: "programs" }, ...programs), ...this.drawPool(call), this.drawJournal(call));
    this.say(said);
  }

  /** What a program did in the call, in words. */
  sentence(call, section, before) {
    const name = `program ${section.slot}`, layout = this.layouts.get(section.slot);
    if (section.orders > before.orders) {
      const obeyed = layout?.statementOf(...before.at)?.written ?? "an order that no statement wrote";
      const words = changedWords(section, before).slice(0, 3).map(({ address, octal }) => `, ${layout?.nameOf(address) ?? `E${address}`} is ${numberOf(octal)}`);
      if (section.state.startsWith("FAILED")) return `${name} failed at ${obeyed}: ${section.state.split(" ")[1]}`;
      return `${name} obeyed ${obeyed}${words.join("")}${this.exchangeOf(section.slot, call)}`;
    }
    const state = section.state.split(" ")[0];
    if (state !== "LIVE") return `${name} ${state === "ENDED" ? "has ended" : "has failed"}`;
    const hold = this.timeline.holdAfter(section.slot, call);
    return hold ? `${name} has been ${this.saidOfHold(hold, call)}` : `${name} can go on`;
  }

  /** What the order of a program did with a device of the pool in the call, in words. */
  exchangeOf(slot, call) {
    const { loans } = this.timeline.facts, taken = loans.find((loan) => loan.slot === slot && loan.taken === call), given = loans.find((loan) => loan.slot === slot && loan.given === call);
    return taken ? ` and took device ${taken.device} from the pool` : given ? ` and gave device ${given.device} back to the pool` : "";
  }

  /** Why a program is held up, and since when, in words. */
  saidOfHold({ slot, by, group, device, pool, transfer, call: begun }, call) {
    const held = `held up since call ${begun + 1}`, of = this.timeline.facts.transfers[transfer]?.device;
    if (by === "device") return `${held} by device ${device}, which has a transfer`;
    if (by === "pool") return `${held}: it waits for a ${NAMES_OF_POOL[pool]} of the pool, and ${this.holdersOf(pool, slot, call).join(", and ")}`;
    return `${held} by group ${group}, ${wordsOfGroup(group)}${of === undefined ? "" : `, by the transfer of device ${of}`}`;
  }

  /** Who has had each of the pool's devices of a kind, and since when, in words. The program in `slot` waits for one more, and may have some of them itself. */
  holdersOf(kind, slot, call) {
    const devices = [...this.timeline.pool.keys()].filter((device) => this.timeline.pool.get(device) === kind);
    return devices.map((device) => {
      const lending = this.timeline.lendingAfter(device, call);
      return `${lending.slot === slot ? "it has itself" : `program ${lending.slot} has`} had device ${device} since call ${lending.start}`;
    });
  }

  drawProgram(call, section, before) {
    const layout = this.layouts.get(section.slot), hold = this.timeline.holdAfter(section.slot, call);
    const next = layout?.statementOf(...section.at);
    const state = section.state === "LIVE" ? (hold ? this.saidOfHold(hold, call) : "can go on") : section.state.toLowerCase();
    return make("section", { class: `slot ${hold ? "held" : ""}`, "aria-label": `Program ${section.slot}` },
      make("h3", {}, `Program ${section.slot}: ${state}`),
      make("p", {}, `After ${section.orders} order${section.orders === 1 ? "" : "s"}. Next: ${nextOf(section, next)}.`),
      this.drawDeck(section, next), this.drawRegisters(section, before), this.drawWords(section, before, layout),
      ...section.devices.map((device, at) => this.drawOwnDevice(call, device, before.devices[at], section.slot)),
      ...section.stints.map((_, at) => this.drawStint(call, section, before, at)));
  }

  /** The deck with the next statement marked. */
  drawDeck(section, next) {
    const { deck } = this.slotOf(section.slot);
    if (!next || section.state === "ENDED") return scrolled("deck", "Deck", deck);
    const mark = make("mark", {}, deck.slice(next.start, next.end));
    setTimeout(() => { mark.parentElement.scrollTop = mark.offsetTop - mark.parentElement.offsetTop - 60; });
    return scrolled("deck", "Deck, with the next statement marked", deck.slice(0, next.start), mark, deck.slice(next.end));
  }

  drawRegisters(section, before) {
    const row = (name, value, old) => [value === old ? name : `${CHANGED}${name}`, value];
    const nest = ({ nest: words }) => words.map((octal) => `${numberOf(octal)}`).join("  ") || "empty";
    const parts = ({ qStores }) => new Map(qStores.map(({ number, parts: three }) => [number, three.join("/")]));
    const [qStores, old] = [parts(section), parts(before)];
    const numbers = [...new Set([...qStores.keys(), ...old.keys()])].sort((one, other) => one - other);
    return table("Registers", ["", "• changed with this call"], [
      row("Nest, the top first", nest(section), nest(before)),
      row("Links, the top first", section.links.join("  ") || "empty", before.links.join("  ") || "empty"),
      row("V, TR", section.flags.join(", "), before.flags.join(", ")),
      ...numbers.map((number) => row(`Q${number}`, qStores.get(number) ?? "0/0/0", old.get(number) ?? "0/0/0")),
    ]);
  }

  /** The words that changed in the call, and those that the job shows. */
  drawWords(section, before, layout) {
    const slot = this.slotOf(section.slot);
    const changed = new Set(changedWords(section, before).map(({ address }) => address));
    const ranges = slot.shows.map((show) => show.split(" ").map(Number));
    const isShown = (address) => changed.has(address) || ranges.some(([first, last]) => first <= address && address <= last);
    const words = section.words.filter(({ address }) => isShown(address)).slice(0, MOST_WORDS);
    if (words.length === 0) return make("p", {}, "No word changed with this call.");
    return table("Words", ["", "octal", "decimal"], words.map(({ address, octal }) => [
      `${changed.has(address) ? CHANGED : ""}${layout?.nameOf(address) ?? `E${address}`}`, make("code", {}, octal), `${numberOf(octal)}`]));
  }

  drawOwnDevice(call, device, before, slot) {
    const isChanged = JSON.stringify(device) !== JSON.stringify(before), state = device.isClaimed ? "claimed" : "not claimed";
    const { media } = this.slotOf(slot).devices.find(({ number }) => number === `${device.number}`);
    return this.drawDevice(call, device, { isChanged, name: `device ${device.number}`, state, media, flight: this.timeline.flightAfter(device.number, call) });
  }

  /** The slot of this number, as the job has it. */
  slotOf(slot) {
    return this.job.slots.find(({ number }) => number === `${slot}`);
  }

  /** What the program has done in a stint with a device of the pool. The device's transfer belongs to its holder. */
  drawStint(call, section, before, at) {
    const stint = section.stints[at], old = before.stints[at], state = stateOfStint(stint, section);
    const isChanged = !old || JSON.stringify(stint) !== JSON.stringify(old) || state !== stateOfStint(old, before);
    const flight = this.timeline.flightAfter(stint.number, call), own = stint.isClaimed && flight?.slot === section.slot ? flight : undefined;
    return this.drawDevice(call, stint, { isChanged, name: `pool device ${stint.number}`, state, flight: own });
  }

  drawDevice(call, device, { isChanged, name, state, flight, media = [] }) {
    const { number, kind, place } = device;
    const moved = (this.timeline.moves.get(number) ?? []).reduce((sum, move) => sum + (flight?.start <= move.call && move.call <= call ? move.words : 0), 0);
    const said = `${isChanged ? CHANGED : ""}${name[0].toUpperCase()}${name.slice(1)}, ${kind}: ${state}, place ${place}`;
    const transfer = flight ? `; a transfer since call ${flight.start}, ${moved} words moved by MOVE` : "";
    const lines = mediumOf(device, media);
    return make("div", {}, make("p", {}, `${said}${transfer}.`), ...(lines.length ? [scrolled("blocks", `What is on ${name}`, lines.join("\n"))] : []));
  }

  /** Who has each device of the pool after the call, and who waits for one; nothing if the pool has no devices. */
  drawPool(call) {
    if (!this.job.pool?.devices.length) return [];
    const holderOf = (device, after) => this.timeline.lendingAfter(device, after);
    const devices = this.job.pool.devices.map(({ number, kind }) => {
      const holder = holderOf(Number(number), call), isChanged = call > 0 && holder !== holderOf(Number(number), call - 1);
      const had = holder ? `program ${holder.slot} has had it since call ${holder.start}` : "nobody has it";
      return `${isChanged ? CHANGED : ""}Device ${number}, ${kind}: ${had}.`;
    });
    const waits = [...this.timeline.slots.keys()].map((slot) => this.timeline.holdAfter(slot, call)).filter((hold) => hold?.by === "pool")
      .map(({ slot, pool, call: begun }) => `Program ${slot} has waited for a ${NAMES_OF_POOL[pool]} since call ${begun + 1}.`);
    const items = [...devices, ...waits].map((line) => make("li", {}, line));
    return [make("section", { class: "slot", "aria-label": "Pool" }, make("h3", {}, "Pool"), make("ul", { class: "journal" }, ...items))];
  }

  /** The entries of the journal before and after the call. The entry for the call is marked. */
  drawJournal(call) {
    const { total, facts: { entries } } = this.timeline, after = (index) => entries[index + 1]?.call ?? total;
    const at = entries.findLastIndex((entry, index) => entry.call < call || (entry.call === call && after(index) === call));
    const first = Math.max(0, at - ENTRIES_AROUND);
    const rows = entries.slice(first, at + ENTRIES_AROUND + 1).map((entry, index) => {
      const isNow = first + index === at;
      return make("li", isNow ? { "aria-current": "step" } : {}, `${isNow ? "▸ " : ""}after call ${entry.call}: ${saidOf(entry)}`);
    });
    return make("section", { class: "slot", "aria-label": "Journal" }, make("h3", {}, "Journal"), make("ol", { class: "journal" }, ...rows));
  }
}

/** The words of a section whose values have changed. */
function changedWords(section, before) {
  return section.words.filter(({ octal }, at) => octal !== before.words[at].octal);
}

/** The next statement of a program, in words. */
function nextOf({ state, orders }, next) {
  if (next) return next.written;
  if (state === "ENDED") return "none";
  return orders ? "an order that no statement wrote" : "the jump to the main part";
}
