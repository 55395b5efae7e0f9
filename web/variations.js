// Changes of the job at random that leave each program what it is: another schedule, or other neighbours.

import { byId } from "./dom.js";
import { readJob } from "./job.js";
import { MOST_SEED, shuffled, withOtherNeighbours } from "./shuffle.js";

/** The seed that is typed, or one at random; null if what is typed is none. */
function readSeed() {
  const typed = byId("seed").value.trim(), seed = typed === "" ? Math.floor(Math.random() * (MOST_SEED + 1)) : Number(typed);
  return /^\d*$/.test(typed) && seed <= MOST_SEED ? seed : null;
}

export class Variations {
  /** The variations of the job of a page, which gives what it can do: `work` does some work, `replace` puts another job in the place of the one that is shown, `run` runs
   * it, and `lastRun` gives the last run. */
  constructor(page) {
    this.page = page;
    // The job with the schedule that was shuffled last, and the job that it was made from. So a seed gives the same schedule however often it was shuffled before.
    this.mixed = { text: null, from: null };
  }

  /** Runs the job as `change` makes it from a seed, and compares the run with the one before, which is of the job as it was. `change` gives the other job, and what is
   * said of it; or nothing if it has said why there is none. */
  async compare(doing, change) {
    const { say, work, run, view, theorem, replace, lastRun } = this.page, seed = readSeed();
    if (seed === null) return say(`A seed is a number from 0 to ${MOST_SEED}.`, true);
    return work(doing, async () => {
      if (lastRun()?.text !== view.text) await run();
      const other = lastRun() && await change(seed);
      if (!other) return;
      const said = `${other.said} with seed ${seed}.`;
      replace(other.text, said);
      await run();
      if (lastRun()) await theorem.withBefore(`${said} Here is this run beside the run before.`);
    });
  }

  /** The job whose schedule is shuffled: the one that is shown, or the one that it was made from. */
  from() {
    const { mixed, page: { view } } = this;
    if (view.text !== mixed.text) mixed.from = view.text;
    return mixed.from;
  }

  /** The job with the schedule of a seed. */
  async mix(seed) {
    this.mixed.text = await shuffled(this.page.ask, this.from(), seed);
    return this.mixed.text;
  }

  /** Shows the schedule of a seed of a job, and runs it. */
  open(seed, from) {
    const { say, work, run, replace } = this.page;
    if (this.from() !== from) return say("The job has been changed since these schedules were tried. Try them again.", true);
    return work(`Running with seed ${seed}.`, async () => {
      replace(await this.mix(seed), `The schedule is that of seed ${seed}.`);
      await run();
    });
  }

  shuffle() {
    return this.compare("Shuffling the schedule.", async (seed) => {
      const text = await this.mix(seed);
      if (text !== this.mixed.from) return { text, said: "The schedule was shuffled" };
      return this.page.say("There is nothing to shuffle: this job has one program and no transfers.", true);
    });
  }

  changeNeighbours() {
    const { ask, say, view } = this.page;
    return this.compare("Changing the neighbours.", async (seed) => {
      const kept = byId("kept").value, numbers = readJob(view.text).slots.map(({ number }) => number);
      if (!numbers.includes(kept) || numbers.length < 2) return say(`There is no program in slot ${kept} with a neighbour.`, true);
      const text = await withOtherNeighbours(ask, view.text, kept, seed);
      if (text === null) return say("There is no room in a neighbour's store, or its deck can't begin with other orders.", true);
      return { text, said: `The neighbours of program ${kept} begin with more orders now, chosen` };
    });
  }
}
