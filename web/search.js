// A search through the schedules of a job: what can come of it wherever transfers end, and whenever the clock shows the times that the job has. A node is a schedule;
// its children have one event more, later or at the same moment. The rules are those of the tool explore (tools/outcomes/search.py): docs/STUDY.md says why so few runs
// are enough, and which theorem each step rests on. The numbers stand in tables/outcomes.json, and tests/page compares what the two find.

import { Stopped } from "./engine.js";
import { Course, Instant } from "./instants.js";
import { readJob, writeJob } from "./job.js";
import { readSchedule, writeSchedule } from "./schedule.js";
import { OUTCOMES } from "./tables.js";

const { batch: IN_A_BATCH, waiting: NEARER_BY_A_WAIT } = OUTCOMES;

/** How a program that waits for good is told in a joint outcome. */
export const FOR_GOOD = "WAITS";

/** A job of which schedules are tried: of its own schedule, it keeps the exchanges before the first call, and the times of the clock. */
export class ExploredJob {
  constructor(ask, job) {
    const { events } = readSchedule(job.schedule), numbers = (line) => Number(line.split(" ")[1]);
    Object.assign(this, { ask, job, slots: job.slots.map(({ number }) => Number(number)).sort((one, other) => one - other) });
    this.pool = new Map((job.pool?.devices ?? []).map(({ number, kind }) => [Number(number), kind]));
    this.times = [...new Set(events.filter(({ line }) => line.startsWith("CLOCK ")).map(({ line }) => numbers(line)))].filter(Boolean).sort((one, other) => one - other);
    this.swaps = events.filter(({ calls, line }) => calls === 0 && line.startsWith("SWAP "));
  }

  /** The job of a text, or null if it has no parts. */
  static of(ask, text) {
    const job = readJob(text);
    return job && new ExploredJob(ask, job);
  }

  /** The job of the program of one slot, without a pool and a schedule. */
  alone(slot) {
    return new ExploredJob(this.ask, { slots: this.job.slots.filter(({ number }) => Number(number) === slot), pool: null, schedule: "" });
  }

  /** The text of the job with these events in this number of calls, behind its own exchanges. */
  text(events, calls) {
    return writeJob({ ...this.job, lacksLastEnd: false, schedule: writeSchedule({ calls, events: [...this.swaps, ...events] }) });
  }

  async report(events, calls) {
    const { status, text } = await this.ask(["run"], this.text(events, calls));
    if (status) throw new Error(text.trim());
    return text;
  }

  async run(events, calls) {
    return new Course(await this.report(events, calls), this.slots, events);
  }
}

/** Which of two lists comes first, by their members. */
function compareLists(one, other, compareMembers) {
  for (let at = 0; at < Math.min(one.length, other.length); at += 1) {
    const compared = compareMembers(one[at], other[at]);
    if (compared) return compared;
  }
  return one.length - other.length;
}

const compareTexts = (one, other) => (one < other ? -1 : Number(one > other));

/** Which of two schedules comes first: that with fewer calls, and then by their events. */
export const compareSchedules = (one, other) => one.calls - other.calls
  || compareLists(one.events, other.events, (mine, its) => mine.calls - its.calls || compareTexts(mine.line, its.line));

/** Which of two results of a program comes first. */
export const compareResults = (one, other) => compareTexts(one.state, other.state) || compareLists(one.answers, other.answers, (mine, its) => mine - its);

/** What was found, each with the first schedule that comes to it. */
export class Firsts {
  constructor() {
    this.all = new Map();
  }

  /** Keeps the schedule of something, if it comes before the one that is kept. */
  keep(what, schedule) {
    const key = JSON.stringify(what), known = this.all.get(key);
    if (!known || compareSchedules(schedule, known.schedule) < 0) this.all.set(key, { what, schedule });
  }

  get size() {
    return this.all.size;
  }

  /** All of them with their schedules, sorted by these. Where they are equal, `compareWhat` says which comes first. */
  sorted(compareWhat = () => 0) {
    return [...this.all.values()].sort((one, other) => compareSchedules(one.schedule, other.schedule) || compareWhat(one.what, other.what));
  }
}

/** What came of the runs of a job so far: the results of each slot, the ends of all programs together, deadlocks, and who starves. */
export class Harvest {
  constructor(tried) {
    Object.assign(this, { tried, results: new Map(tried.slots.map((slot) => [slot, new Firsts()])), joint: new Firsts(), deadlocks: new Firsts(), starved: new Firsts() });
    Object.assign(this, { sections: new Map(), runs: 0, left: 0, isCut: false, isStopped: false, jointCount: null });
  }

  /** Keeps what a run came to since its last event. */
  keep(course) {
    const { last, turns, events } = course;
    for (const [slot, state] of last.over) this.keepSection(slot, { state, answers: last.answers.get(slot) }, course.sections.get(slot));
    for (let calls = course.start; calls < course.instants.length; calls += 1) this.look(course.instants[calls], { calls, events });
    const had = new Set(turns.map(({ slot }) => slot));
    if (had.has(null)) return;
    for (const slot of last.live.filter((each) => !had.has(each))) this.starved.keep(slot, { calls: turns.length, events });
  }

  /** Keeps the section of a program that is over, which depends on nothing but its answers. */
  keepSection(slot, result, section) {
    const key = JSON.stringify([slot, result]), known = this.sections.get(key);
    if (!known) this.sections.set(key, section);
    else if (`${known}` !== `${section}`) throw new Contradiction("two_sections", { slot, answers: result.answers.join(" ") || "nothing" });
  }

  sectionOf(slot, result) {
    return this.sections.get(JSON.stringify([slot, result]));
  }

  look(instant, schedule) {
    for (const [slot, state] of instant.over) this.results.get(slot).keep({ state, answers: instant.answers.get(slot) }, schedule);
    const circle = instant.circle(this.tried.pool), waiting = circle.map(([slot]) => slot);
    if (circle.length) this.deadlocks.keep(circle, schedule);
    if (instant.live.every((slot) => waiting.includes(slot))) this.joint.keep(this.tried.slots.map((slot) => endOf(instant, slot, waiting)), schedule);
  }
}

/** What a program has come to at an instant; also that it waits for good, as these slots do. */
export const endOf = ({ over, answers }, slot, waiting = []) => ({ state: over.get(slot) ?? (waiting.includes(slot) ? FOR_GOOD : "LIVE"), answers: answers.get(slot) });

/** The machine contradicts what the search takes for granted, so nothing is told. */
export class Contradiction extends Error {
  constructor(name, values = {}) {
    super(name);
    Object.assign(this, { sentence: OUTCOMES.says[name], values });
  }
}

/** The schedules that are still to be run. Those come first whose last event comes after the fewest calls; but where there is a pool, every second one is the one that
 * is nearest to a deadlock, because the most devices are lent and the most programs wait. */
class Waiting {
  constructor(hasPool) {
    Object.assign(this, { hasPool, left: [], pushed: 0 });
  }

  push(events, { holds, lent }) {
    const near = -lent.size - NEARER_BY_A_WAIT * [...holds.values()].filter(([kind]) => kind === "WAIT").length;
    this.left.push({ events, near, start: events.at(-1)?.calls ?? 0, number: this.pushed += 1 });
  }

  /** Takes out the next schedules, at most so many. */
  pop(most) {
    return Array.from({ length: Math.min(most, this.left.length) }, (_, at) => {
      const isFirst = this.hasPool && at % 2 ? (one, other) => one.near - other.near || one.start - other.start || one.number - other.number : (one, other) => one.start - other.start || one.number - other.number;
      const found = this.left.reduce((best, each, index) => (isFirst(each, this.left[best]) < 0 ? index : best), 0);
      return this.left.splice(found, 1)[0].events;
    });
  }
}

/** A search through the schedules of a job. `limits` are its calls and its runs, and `onrun` is called after each run. */
export class Exploration {
  constructor(tried, limits, onrun) {
    Object.assign(this, { tried, limits, onrun, known: new Map(), waiting: new Waiting(tried.pool.size > 0), found: new Harvest(tried) });
  }

  /** What comes of all schedules within the limits. If the search is stopped, what it has found so far. */
  async all() {
    const { waiting, limits, found } = this;
    let next = [];
    waiting.push([], new Instant(this.tried.slots));
    try {
      while (waiting.left.length && found.runs < limits.runs) {
        next = waiting.pop(Math.min(IN_A_BATCH, limits.runs - found.runs));
        while (next.length) {
          const course = await this.run(next[0]);
          next.shift();
          this.seen(course);
          this.branch(course);
        }
      }
    } catch (error) {
      if (!(error instanceof Stopped)) throw error;
      found.isStopped = true;
    }
    found.left = waiting.left.length + next.length;
    return found;
  }

  async run(events) {
    const course = await this.tried.run(events, this.limits.calls);
    this.found.runs += 1;
    this.onrun();
    return course;
  }

  seen(course) {
    this.found.keep(course);
  }

  /** Adds the children of a run, up to an instant from which an earlier run has shown everything. */
  branch(course) {
    for (let calls = course.start; calls < course.turns.length; calls += 1) {
      if ((calls > course.start || !course.events.length) && this.isKnown(course.instants[calls], calls)) return;
      for (const line of this.lines(course, calls)) {
        const instant = course.instants[calls].after(line);
        if (!this.isKnown(instant, calls)) this.waiting.push([...course.events, { calls, line }], instant);
      }
    }
    this.found.isCut ||= !this.isSettled(course);
  }

  /** Whether an equal instant came up after as few calls; if not, this one is known from now on. */
  isKnown(instant, calls) {
    const key = instant.key(this.tried.pool);
    if ((this.known.get(key) ?? calls + 1) <= calls) return true;
    this.known.set(key, calls);
    return false;
  }

  /** Whether more calls would show nothing new: no program is live, or all wait for good, or for events. */
  isSettled({ last, turns }) {
    const waiting = last.circle(this.tried.pool).map(([slot]) => slot);
    return last.live.every((slot) => waiting.includes(slot)) || turns.at(-1)?.slot === null;
  }

  /** The lines by which a schedule may branch off after this number of calls: those that somebody can tell from the same lines a call later. */
  lines({ instants, turns }, calls) {
    const instant = instants[calls], turn = turns[calls], before = turns[calls - 1], lines = [], { times } = this.tried;
    if (turn.answer !== null && !turn.isOfPool) {
      lines.push(...endsOf(instant.flights(turn.slot)));
      if (turn.answer === instant.time) lines.push(...times.filter((time) => time > instant.time).map((time) => `CLOCK ${time}`));
    } else if (turn.hold && turn.hold[0] !== "WAIT") {
      lines.push(...endsOf(holdersUp(instant, turn.slot, turn.hold)));
    }
    if (before && (before.isOfPool || (times.length && before.answer !== null))) {
      for (const [slot, hold] of instant.holds) {
        if (slot !== before.slot && hold[0] !== "WAIT") lines.push(...endsOf(holdersUp(instant, slot, hold)));
      }
    }
    return lines;
  }
}

const endsOf = (devices) => devices.map((device) => `END ${device}`);

/** The devices whose transfers hold a program up: the one that the journal names, or, of a group, any of the program's. */
const holdersUp = (instant, slot, [kind, which]) => instant.flights(slot).filter((device) => kind !== "BUSY" || device === which);
