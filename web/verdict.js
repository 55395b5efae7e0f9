// What came of each program of a run, in a sentence: whether it has ended, why it failed, what it waits for, or that no calls are left; what the machine tells of the
// causes; and the changes of the job that let it go on.

import { lineAndColumn } from "./deck.js";
import { button, make } from "./dom.js";
import { readJob, writeJob } from "./job.js";
import { wordsOfGroup } from "./journal.js";
import { NAMES_OF_POOL, many, asSentence } from "./report.js";
import { readSchedule, writeSchedule } from "./schedule.js";
import { JOB, LINES } from "./tables.js";

/** The sign of each kind of verdict. */
const SIGNS = { ended: "✓", failed: "✗", held: "‖", deadlock: "↻", cut: "…" };

/** The kinds of verdicts on programs that aren't live. */
const KINDS_OF_STATES = { ENDED: "ended", FAILED: "failed" };

/** A word of the nest as a number with a sign. */
const signed = (word) => BigInt.asIntN(48, BigInt(word));

/** What each kind of verdict says in short of one program, and of several. */
const IN_SHORT = {
  failed: ["failed", "failed"], deadlock: ["is in a deadlock", "are in a deadlock"], held: ["is held up", "are held up"], cut: ["isn't over", "aren't over"],
  ended: ["has ended", "have ended"],
};

/** How many calls come after the end of a transfer if there are none, and how many times as many calls a run gets that had too few. */
const MORE_CALLS = 100, TIMES_MORE = 10;
const [[, MOST_CALLS]] = LINES.ORDERS.numbers;

/** The job with a line END for a transfer of this device that began after so many calls. */
export function withEnd(text, device, begun) {
  const job = readJob(text), { calls, events } = readSchedule(job.schedule), at = Math.min(calls, begun + JOB.usual_delay);
  const sorted = [...events, { calls: at, line: `END ${device}` }].sort((one, other) => one.calls - other.calls);
  return writeJob({ ...job, schedule: writeSchedule({ calls: at < calls ? calls : calls + MORE_CALLS, events: sorted }) });
}

/** How many calls the schedule of a job may have at most, if it gets more. */
const moreCalls = (calls) => Math.min(MOST_CALLS, calls * TIMES_MORE);

/** The job with more calls at the end of its schedule. */
export function withMoreCalls(text) {
  const job = readJob(text), { calls, events } = readSchedule(job.schedule);
  return writeJob({ ...job, schedule: writeSchedule({ calls: moreCalls(calls), events }) });
}

/** What the machine tells of causes that the sentence on a program says already, by the kind of the verdict. */
const SAID_ALREADY = { held: ["state", "group", "transfer"], deadlock: ["state", "loan", "deadlock"], cut: ["state", "transfer", "calls", "no turn"], failed: [], ended: [] };

/** What came of the programs of a run, or of one alone, from its facts. `failures` has what the documents say of each kind of failure. */
export class Verdicts {
  constructor(facts, { layouts, failures, text }) {
    Object.assign(this, { facts, layouts, failures, job: readJob(text) });
    this.calls = this.job ? readSchedule(this.job.schedule).calls : 0;
    const programs = facts.programs ?? (facts.program ? [{ slot: facts.slot, ...facts.program }] : []);
    this.all = programs.map((program) => this.verdictOn(program));
  }

  /** Whether every program has ended. */
  get isGood() {
    return this.all.every(({ kind }) => kind === "ended");
  }

  /** All verdicts in a few words, those that aren't good first. */
  get summary() {
    return Object.entries(IN_SHORT).map(([kind, [one, several]]) => {
      const slots = this.all.filter((verdict) => verdict.kind === kind).map(({ slot }) => slot);
      return slots.length === 1 ? `Program ${slots[0]} ${one}.` : slots.length ? `Programs ${slots.join(" and ")} ${several}.` : "";
    }).filter((said) => said !== "").join(" ");
  }

  /** What holds a program up at the end of the run, or undefined. */
  holdOf({ hold }) {
    return this.facts.holds?.[hold];
  }

  /** What came of the first program with this kind of verdict, in a few words; of a deadlock, who waits for whom. */
  inShort(kind) {
    const { slot, program } = this.all.find((verdict) => verdict.kind === kind), hold = this.holdOf(program);
    if (kind === "deadlock") return this.circleFrom(slot);
    if (kind === "failed") return `program ${slot}: ${program.failure}`;
    if (kind === "held") return `program ${slot} by ${hold.by === "pool" ? "the pool, of kind" : hold.by} ${hold[hold.by]}`;
    return `program ${slot}`;
  }

  /** Who waits for which device and who has it, from a program on, until one comes again. */
  circleFrom(slot) {
    const seen = [], parts = [];
    for (let at = slot; !seen.includes(at);) {
      seen.push(at);
      const { program } = this.all.find((verdict) => verdict.slot === at), [{ device, slot: holder }] = program.lacks.holders;
      parts.push(`waits for ${NAMES_OF_POOL[this.holdOf(program).pool]} ${device}, held by ${holder}`);
      at = holder;
    }
    return `program ${slot} ${parts.join(", which ")}`;
  }

  verdictOn(program) {
    const { slot, state, lacks, at } = program, kind = KINDS_OF_STATES[state] ?? (lacks?.deadlock ? "deadlock" : (lacks?.what ?? "calls") === "calls" ? "cut" : "held");
    const statement = kind === "ended" ? undefined : this.layouts.get(slot)?.statementOf(...at), about = { offers: [], ...this[kind](program, this.placeOf(slot, statement)) };
    return { slot, program, kind, statement, ...about, causes: this.causesOf(program, kind) };
  }

  /** What the machine tells of why a program failed or is live, besides what is said of it. A place in its deck is told by its line in the job. */
  causesOf({ slot, why }, kind) {
    const before = this.layouts.get(slot)?.linesBefore ?? 0, isNew = ({ what, own }) => own || !SAID_ALREADY[kind].includes(what);
    return (why ?? []).slice(kind === "failed" ? 1 : 0).filter(isNew).map(({ sentence, line, column }) => {
      const said = sentence.replace(`${line}:${column}`, `line ${line - before}, column ${column} of its deck`);
      return asSentence(`${said[0].toUpperCase()}${said.slice(1)}`);
    });
  }

  /** Where a program is: at which statement of its deck. */
  placeOf(slot, statement) {
    const deck = this.job?.slots.find(({ number }) => number === `${slot}`)?.deck;
    return statement && deck !== undefined ? `at ${statement.written}, line ${lineAndColumn(deck, statement.start).line} of its deck` : "";
  }

  ended({ slot, orders }) {
    return { said: `Program ${slot} has ended, after ${many(orders, "order")}.` };
  }

  failed(program, place) {
    const { slot, failure, at, why } = program, where = place || `at word ${at[0]}, syllable ${at[1]}, where no statement wrote an order`;
    return { said: `Program ${slot} failed ${where}. ${failure}: ${this.failures[failure]}. ${asSentence(`Here ${why?.[0]?.sentence ?? this.operandsOf(program)}`)}` };
  }

  /** The registers that the statement at which a program failed has to do with. It is what is said where the machine doesn't tell why. */
  operandsOf({ slot, nest, q, at }) {
    const named = [...new Set([...this.layouts.get(slot)?.statementOf(...at)?.text.matchAll(/[QMCI](\d+)/g) ?? []].map(([, number]) => number))];
    const top = nest.length ? `, and N1 is ${signed(nest[0]).toLocaleString("en")}` : "";
    const store = this.job?.slots.find(({ number }) => number === `${slot}`)?.store;
    return [...named.map((number) => `Q${number} is ${q[number].join("/")}`), `the nest has ${many(nest.length, "word")}${top}`,
      ...(store ? [`the store has words 0 to ${store - 1}`] : [])].join("; ");
  }

  /** What a program waits for in the pool, and who has it. */
  saidOfWait({ slot, lacks, hold }) {
    const { pool, call } = this.facts.holds[hold], holders = lacks.holders.map(({ device, slot: holder }) => {
      const { taken } = this.facts.loans.find((loan) => loan.device === device && loan.given === null);
      return `${holder === slot ? "it has itself" : `program ${holder} has`} had device ${device} since call ${taken}`;
    });
    return `Program ${slot} has waited since call ${call + 1} for a ${NAMES_OF_POOL[pool]} of the pool, and ${holders.join(", and ")}`;
  }

  deadlock(program) {
    const others = this.facts.programs.filter(({ slot, lacks }) => lacks?.deadlock && slot !== program.slot).map(({ slot }) => `program ${slot}`);
    const circle = others.length ? `it and ${others.join(" and ")} wait for each other's devices` : "it waits for itself";
    return { said: `${this.saidOfWait(program)}. This is a deadlock: ${circle}, so no schedule lets it go on from here.` };
  }

  /** What holds a program up, with the line END that is missing. */
  held(program, place) {
    if (program.lacks.what === "pool") return { said: `${this.saidOfWait(program)}.` };
    const { slot, lacks: { device } } = program, { by, group, call, transfer } = this.holdOf(program), { began } = this.facts.transfers[transfer];
    const cause = by === "device" ? `device ${device}, which has a transfer` : `${wordsOfGroup(group)}, which a transfer has locked out`;
    const missing = `The schedule has no END ${device} after call ${began}, when the transfer began.`;
    const offers = this.job ? [{ name: `Write END ${device}`, change: (text) => withEnd(text, device, began) }] : [];
    return { said: `Program ${slot} is held up ${place ? `${place}, ` : ""}since call ${call + 1} by ${cause}. ${missing}`, offers };
  }

  /** A program that could go on if there were more calls. */
  cut({ slot, orders }, place) {
    const { made = 0 } = this.facts, isAt = place ? ` It is ${place}.` : "";
    if (made === 0) return { said: `Program ${slot} isn't over, after ${many(orders, "order")}.${isAt}` };
    const came = orders ? `it obeyed ${many(orders, "order")}` : "it never had a turn, since others were always before it";
    const offer = { name: `Give the run ${moreCalls(this.calls).toLocaleString("en")} calls`, change: withMoreCalls };
    const offers = this.job && moreCalls(this.calls) > this.calls ? [offer] : [];
    return { said: `Program ${slot} isn't over: the ${made.toLocaleString("en")} calls of the schedule are used up, in which ${came}.${isAt}`, offers };
  }
}

/** The verdicts as a list, and how many calls were made if the schedule has more. `go` goes to the statement of a verdict in the job, and `change` changes the job and runs it again; neither is offered if it is null. */
export function drawVerdicts({ all, facts, calls }, { go, change }) {
  const items = all.map((verdict) => {
    const { kind, said, statement, offers, causes } = verdict;
    const show = statement && go ? [" ", button("Go to it", () => go(verdict))] : [];
    const changes = change ? offers.flatMap((offer) => [" ", button(offer.name, () => change(offer))]) : [];
    return make("li", { class: kind }, make("span", { class: "sign", "aria-hidden": "true" }, SIGNS[kind]), make("span", {}, said, ...show, ...changes, ...causes.map((cause) => make("span", { class: "cause" }, cause))));
  });
  const used = facts.made ?? 0, isFew = calls > used;
  const list = make("ul", { class: "verdicts", "aria-label": "What came of each program" }, ...items);
  const said = `The run made ${used.toLocaleString("en")} of the ${calls.toLocaleString("en")} calls of its schedule.`;
  return [list, ...(used && isFew ? [make("p", { class: "used" }, said)] : [])];
}
