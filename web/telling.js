// What is told of all that can come of a job: the lines of the tool explore, each with the job that shows it. The sentences stand in tables/outcomes.json. Each schedule
// is run once more before it is told, its report is checked, and what comes of it is compared with what was found (tools/outcomes/witness.py, said.py).

import { Course } from "./instants.js";
import { count, listed } from "./report.js";
import { Contradiction, FOR_GOOD, compareResults, endOf } from "./search.js";
import { OUTCOMES, worded } from "./tables.js";

const { says, most_told: MOST, most_lines: MOST_OF_SECTION, most_events: MOST_OF_SCHEDULE, most_answers: MOST_OF_ANSWERS } = OUTCOMES;
const IN_OTHER_WORDS = /^(STATE|ORDERS) /;

const mark = (told, most) => (told.length > most ? says.cut : "");
const saidOfAnswers = ({ answers }) => (answers.length ? worded(says.answers, { answers: answers.slice(0, MOST_OF_ANSWERS).join(" ") + mark(answers, MOST_OF_ANSWERS) }) : "");

/** The events of a schedule, in words. */
function saidOfEvents({ events }) {
  const said = events.slice(0, MOST_OF_SCHEDULE).map((event) => worded(says.event, event));
  return said.length ? worded(says.events, { events: said.join(", ") + mark(events, MOST_OF_SCHEDULE) }) : "";
}

/** The end of a program in a joint outcome. */
const saidOfEnd = (slot, result) => worded(says.end, { slot, state: result.state === FOR_GOOD ? says.waits : result.state, answers: saidOfAnswers(result) });

export class Telling {
  /** The story of what was found for a job within limits. `asunder` has the searches of its programs, if each could be searched by itself. `onrun` is called after each
   * run that shows something. */
  constructor(found, limits, asunder, onrun) {
    Object.assign(this, { found, tried: found.tried, limits, asunder, onrun, again: new Map() });
  }

  /** All that is told: parts, each with a line that it is under, the lines of it, and those that show something with the text of a job. */
  async parts() {
    const { tried } = this, parts = [];
    for (const slot of tried.slots) parts.push(await this.ofSlot(slot));
    parts.push(...await this.ofDeadlocks(), ...await this.ofStarved());
    if (tried.slots.length > 1) parts.push(await this.ofJoint());
    return [...parts, ...this.howWhole().map((head) => ({ head, lines: [] }))];
  }

  /** The results of a program, and how their sections differ. */
  async ofSlot(slot) {
    const { found, asunder } = this, results = found.results.get(slot).sorted(compareResults), asks = !asunder || asunder.lone.get(slot).asks;
    if (!results.length) return { head: worded(says.no_end, { slot }), lines: [] };
    const sections = results.map(({ what }) => found.sectionOf(slot, what)), isCommon = (line) => sections.every((section) => section.includes(line)), lines = [];
    for (const [at, { what, schedule }] of results.slice(0, MOST).entries()) {
      const own = sections[at].filter((line) => !isCommon(line) && !IN_OTHER_WORDS.test(line)), orders = sections[at].find((line) => line.startsWith("ORDERS ")).slice(7);
      const differing = [...own.slice(0, MOST_OF_SECTION), ...(own.length > MOST_OF_SECTION ? [says.cut.trim()] : [])].map((line) => worded(says.differs, { line })).join("");
      const said = worded(says.result, { state: what.state, orders: count(Number(orders), "order"), answers: saidOfAnswers(what), differing });
      lines.push({ said, job: await this.shown(schedule, ({ last }) => isSame(endOf(last, slot), what)) });
    }
    return { head: worded(says[asks ? "several" : "one"], { slot, results: count(results.length, "result") }), lines: [...lines, ...more(results.length)] };
  }

  /** The deadlocks, the shortest first. */
  async ofDeadlocks() {
    const { found, tried: { pool } } = this, deadlocks = found.deadlocks.sorted(), parts = [];
    for (const { what, schedule } of deadlocks.slice(0, MOST)) {
      const circle = what.map(([slot, kind, devices]) => worded(says.waiting, { slot, devices: this.devices(devices), kind: `${kind === "LP" ? "an" : "a"} ${kind}` })).join("; ");
      const head = worded(says.deadlock, { calls: count(schedule.calls, "call"), events: saidOfEvents(schedule), circle });
      parts.push({ head, lines: [], job: await this.shown(schedule, ({ last }) => isSame(last.circle(pool), what)) });
    }
    const which = found.left ? "no_deadlock_found" : found.isCut ? "no_deadlock_within" : "no_deadlock";
    if (pool.size && !deadlocks.length) parts.push({ head: worded(says[which], this.limits), lines: [] });
    return [...parts, ...more(deadlocks.length).map(({ said: head }) => ({ head, lines: [] }))];
  }

  devices(numbers) {
    return numbers.length ? `device${numbers.length === 1 ? "" : "s"} ${listed(numbers.map((number) => `${number} ${this.tried.pool.get(number)}`))}` : "nothing";
  }

  async ofStarved() {
    const parts = [];
    for (const { what: slot, schedule } of [...this.found.starved.all.values()].sort((one, other) => one.what - other.what)) {
      const isSo = ({ last, turns }) => last.live.includes(slot) && !turns.some((turn) => turn.slot === slot || turn.slot === null);
      parts.push({ head: worded(says.starves, { slot, calls: count(schedule.calls, "call"), events: saidOfEvents(schedule) }), lines: [], job: await this.shown(schedule, isSo) });
    }
    return parts;
  }

  /** The joint outcomes of several programs. */
  async ofJoint() {
    const { found, tried: { pool, slots } } = this, number = found.jointCount ?? found.joint.size, lines = [];
    const compareEnds = (one, other) => one.map((each, at) => compareResults(each, other[at])).find(Boolean) ?? 0;
    for (const { what, schedule } of found.joint.sorted(compareEnds).slice(0, MOST)) {
      const isSo = ({ last }) => isSame(slots.map((slot) => endOf(last, slot, last.circle(pool).map(([each]) => each))), what);
      lines.push({ said: `  ${slots.map((slot, at) => saidOfEnd(slot, what[at])).join("; ")}`, job: await this.shown(schedule, isSo) });
    }
    return { head: worded(says.joint, { number }), lines: [...lines, ...more(number)] };
  }

  /** What was searched, and what was left out. */
  howWhole() {
    const { found, limits, asunder, again, tried } = this, each = worded(says[asunder ? "each_alone" : "each"], limits), left = count(found.left, "schedule");
    const runs = worded(says.runs, { runs: count(found.runs, "run"), lines: listed(["END", ...(tried.times.length ? ["CLOCK"] : [])]), each, shown: count(again.size, "schedule") });
    return [runs, worded(says[found.isStopped ? "stopped" : found.left ? "not_whole" : found.isCut ? "whole_within" : "whole"], { left, each })];
  }

  /** The text of the job with this schedule. It is run once more if that wasn't done yet: its report has to be that of its job, and what comes of it as it was found. */
  async shown(schedule, isSo) {
    const { tried, found, again, onrun } = this, key = JSON.stringify(schedule), text = tried.text(schedule.events, schedule.calls);
    if (!again.has(key)) {
      const report = await tried.report(schedule.events, schedule.calls), course = new Course(report, tried.slots, schedule.events);
      if ((await tried.ask(["check"], text + report)).text.split("\n")[1] !== "YES") throw new Contradiction("not_checked");
      for (const [slot, state] of course.last.over) found.keepSection(slot, { state, answers: course.last.answers.get(slot) }, course.sections.get(slot));
      again.set(key, course);
      onrun();
    }
    if (!isSo(again.get(key))) throw new Contradiction("no_witness", schedule);
    return text;
  }
}

const isSame = (one, other) => JSON.stringify(one) === JSON.stringify(other);

/** Says that there are more than are told. */
const more = (number) => (number > MOST ? [{ said: worded(says.more, { number: number - MOST }), job: null }] : []);
