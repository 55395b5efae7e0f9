// A job without a pool and a clock: what each program is answered depends on no other, so each is searched by itself, and the schedules of the whole job are put together
// from theirs. The tool explore has the same in tools/outcomes/apart.py.

import { exchangedIn } from "./journal.js";
import { Firsts, Harvest, Exploration, compareResults, compareSchedules } from "./search.js";
import { JOB, OUTCOMES } from "./tables.js";

const NUMBER_OF_DEVICES = 16;

/** The search of a job of one program. `way` is the shortest run after which others may have their turns, because the program is held up or over; `endless` is a run in
 * which it has all turns; and `asks` says whether it was answered anything. */
class Lone extends Exploration {
  constructor(...how) {
    super(...how);
    Object.assign(this, { way: null, endless: null, asks: true });
  }

  /** What comes of the program. If it asks nothing, a run in which each transfer ends at once tells all. */
  async all() {
    const course = await this.atOnce();
    if (!course || [...course.last.answers.values()].some((answers) => answers.length)) {
      this.found.runs = 0;
      return super.all();
    }
    this.asks = false;
    this.seen(course);
    this.found.isCut = !this.isSettled(course);
    if (course.events.length) this.seen(await this.run([]));
    return this.found;
  }

  /** The run in which each transfer ends at once; null if its schedule would be too long. */
  async atOnce() {
    const { calls } = this.limits;
    if (calls * (NUMBER_OF_DEVICES + 1) > JOB.most.lines_of_schedule) return null;
    const everywhere = Array.from({ length: (calls - 1) * NUMBER_OF_DEVICES }, (_, at) => ({ calls: 1 + Math.floor(at / NUMBER_OF_DEVICES), line: `END ${at % NUMBER_OF_DEVICES}` }));
    const course = await this.run(everywhere);
    course.events = course.begun.map(({ calls: began, device }) => ({ calls: began, line: `END ${device}` }));
    return course;
  }

  /** Keeps what a run shows, also of the turns that the program leaves to others. */
  seen(course) {
    this.found.keep(course);
    const { instants, turns, events } = course, at = instants.findIndex(({ over }, calls) => over.size || (calls && turns[calls - 1].hold));
    if (at < 0) {
      this.endless ??= { calls: turns.length, events };
      return;
    }
    const way = { calls: at, events: events.filter(({ calls }) => calls < at) };
    if (!this.way || compareSchedules(way, this.way) < 0) this.way = way;
  }
}

/** A schedule, and then another as if the calls began anew. */
const inSequence = (first, then) => ({ calls: first.calls + then.calls, events: [...first.events, ...then.events.map(({ calls, line }) => ({ calls: calls + first.calls, line }))] });

const NOTHING = { calls: 0, events: [] };

/** The searches of all programs of a job, by slot, and what comes of them together. */
export class Asunder {
  constructor(tried, limits, onrun) {
    Object.assign(this, { tried, limits, lone: new Map(tried.slots.map((slot) => [slot, new Lone(tried.alone(slot), limits, onrun)])) });
    const order = tried.swaps.reduce((before, { line }) => exchangedIn(before, ...line.split(" ").slice(1).map(Number)), [0, 1, 2, 3]);
    this.order = order.filter((slot) => tried.slots.includes(slot));
  }

  async all() {
    const found = new Harvest(this.tried);
    for (const search of this.lone.values()) {
      const mine = await search.all();
      Object.assign(found, { runs: found.runs + mine.runs, left: found.left + mine.left, isCut: found.isCut || mine.isCut, isStopped: mine.isStopped });
      for (const [slot, firsts] of mine.results) for (const { what } of firsts.all.values()) found.keepSection(slot, what, mine.sectionOf(slot, what));
      if (mine.isStopped) break;
    }
    for (const slot of this.order) this.combine(found, slot);
    this.join(found);
    return found;
  }

  /** Adds the results of a program, behind the shortest runs of those that have to make way for it, and whether it starves. */
  combine(found, slot) {
    const before = this.before(slot), firsts = this.lone.get(slot).found.results.get(slot);
    if (before) for (const { what, schedule } of firsts.all.values()) found.results.get(slot).keep(what, inSequence(before, schedule));
    const endless = this.order.slice(0, this.order.indexOf(slot)).find((other) => this.lone.get(other).endless), start = endless !== undefined && this.before(endless);
    if (start) found.starved.keep(slot, inSequence(start, this.lone.get(endless).endless));
  }

  /** The shortest beginning of a schedule that gives a program its turn; null if there is none. */
  before(slot) {
    return this.order.slice(0, this.order.indexOf(slot)).reduce((before, other) => (before && this.lone.get(other).way ? inSequence(before, this.lone.get(other).way) : null), NOTHING);
  }

  /** Counts the joint outcomes, which are all combinations, and lists the first of them. */
  join(found) {
    const mine = this.order.map((slot) => [...this.lone.get(slot).found.results.get(slot).all.values()].sort((one, other) => compareResults(one.what, other.what)));
    found.jointCount = mine.reduce((product, all) => product * all.length, 1);
    found.joint = new Firsts();
    for (const combination of first(OUTCOMES.most_joint, product(mine))) {
      const schedule = combination.reduce((before, { schedule: own }) => inSequence(before, own), NOTHING);
      found.joint.keep(this.tried.slots.map((slot) => combination[this.order.indexOf(slot)].what), schedule);
    }
  }
}

/** All combinations of a member of each list, those with the first members first. */
function* product([list, ...rest]) {
  if (list === undefined) yield [];
  else for (const each of list) for (const others of product(rest)) yield [each, ...others];
}

function* first(most, all) {
  let taken = 0;
  for (const each of all) {
    if (taken >= most) return;
    taken += 1;
    yield each;
  }
}
