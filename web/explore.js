// All that can come of a job: a search through its schedules, which runs it in the page's worker, and the outcomes, each of which opens.

import { button, byId, make } from "./dom.js";
import { Asunder } from "./lone.js";
import { typedNumber } from "./many.js";
import { Contradiction, Exploration, ExploredJob } from "./search.js";
import { Telling } from "./telling.js";
import { OUTCOMES, worded } from "./tables.js";

/** How many calls a schedule may have here, and how many runs a search. */
const LONGEST = 1000, MOST_RUNS_HERE = 20000;

export class Exploring {
  /** What the page can do: `text` gives the job, and `open` puts another schedule of it in its place and runs that. */
  constructor(page) {
    Object.assign(this, { page, from: null, opened: null });
    byId("explored-calls").value = OUTCOMES.usual_calls;
    byId("explored-runs").value = OUTCOMES.usual_runs;
  }

  /** Searches for all that can come of the job. If it is stopped, what was found so far is told. */
  async all() {
    const { say, work, text, ask, isSound } = this.page, calls = typedNumber("explored-calls", 1, LONGEST), runs = typedNumber("explored-runs", 1, MOST_RUNS_HERE);
    if (calls === null || runs === null) return say(`A schedule can have 1 to ${LONGEST} calls here, and a search 1 to ${MOST_RUNS_HERE} runs; the tool explore goes further.`, true);
    return work("Looking for all that can come of the job.", async () => {
      const from = text() === this.opened ? this.from : text(), tried = ExploredJob.of(ask, from);
      byId("explored").replaceChildren();
      if (!await isSound(from)) return;
      if (!tried) {
        say("This job can't be shown by parts, so the page can't explore it. The tool explore does.", true);
        return;
      }
      Object.assign(byId("exploring-runs"), { hidden: false, value: 0, max: runs });
      try {
        const parts = await this.search(tried, { calls, runs });
        this.from = from;
        byId("explored").replaceChildren(...parts.map((part) => this.draw(part)));
        say(`Explored. ${parts.at(-2).head}. ${parts.at(-1).head}.`);
      } catch (error) {
        if (!(error instanceof Contradiction)) throw error;
        say(`${worded(error.sentence, error.values)}.`, true);
      } finally {
        byId("exploring-runs").hidden = true;
      }
    });
  }

  /** What is told of a job. Where there is neither a pool nor a clock, each program is searched by itself. */
  async search(tried, limits) {
    const onrun = () => { byId("exploring-runs").value += 1; };
    const asunder = tried.pool.size || tried.times.length ? null : new Asunder(tried, limits, onrun);
    const found = await (asunder ?? new Exploration(tried, limits, onrun)).all();
    return new Telling(found, limits, asunder, onrun).parts();
  }

  /** A part of what is told: its line, and those under it. Each that shows something opens. */
  draw({ head, lines, job }) {
    const opens = (said, text) => (text ? [" ", button("Open", () => this.open(text), { "aria-label": `Open: ${said.trim()}` })] : []);
    if (!lines.length) return make("p", { class: job ? "found" : "told" }, make("span", { class: "line" }, head), ...opens(head, job));
    const list = lines.map(({ said, job: text }) => make("li", {}, make("span", { class: "line" }, said), ...opens(said, text)));
    return make("details", { open: true }, make("summary", {}, make("span", { class: "line" }, head)), make("ul", { class: "journal" }, ...list));
  }

  /** Puts a schedule that shows an outcome into the job, and runs it. */
  open(text) {
    const { say, open } = this.page, shown = this.page.text();
    if (shown !== this.from && shown !== this.opened) return say("The job has been changed since it was explored. Explore it again.", true);
    this.opened = text;
    return open(text, "a schedule that shows this outcome");
  }
}
