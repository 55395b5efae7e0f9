// Many schedules of a job, each by its seed: what comes of them, and which seeds come to what.

import { button, byId, make } from "./dom.js";
import { Stopped } from "./engine.js";
import { factsOfRun } from "./facts.js";
import { many } from "./report.js";
import { MOST_SEED, shuffled } from "./shuffle.js";
import { Verdicts } from "./verdict.js";

/** How many schedules are tried at most at once. */
const MOST_TRIED = 1000;

/** What comes of a run, the worst first: the kind of verdict, and how it is said of some runs. */
const OUTCOMES = { failed: "failed", deadlock: "deadlock", held: "held up", cut: "not over", ended: "ended" };

/** What came of the run of a job: the worst kind of verdict on its programs, and what is said of it. */
async function outcomeOf(ask, text, failures) {
  const verdicts = new Verdicts(await factsOfRun(ask, text), { layouts: new Map(), failures, text });
  const kind = Object.keys(OUTCOMES).find((each) => verdicts.all.some((verdict) => verdict.kind === each));
  return { kind, said: verdicts.inShort(kind) };
}

/** The runs that came to each outcome, the worst first. */
const byOutcome = (found) => Object.keys(OUTCOMES).map((kind) => [kind, found.filter((each) => each.kind === kind)]).filter(([, all]) => all.length);

/** All outcomes in a sentence: how many runs came to each, and of those that didn't end the first seed, with what came of it. */
export function saidOfOutcomes(found) {
  return `${byOutcome(found).toReversed().map(([kind, all]) => `${all.length} ${OUTCOMES[kind]}${kind === "ended" ? "" : ` (seed ${all[0].seed}: ${all[0].said})`}`).join("; ")}.`;
}

/** A whole number that is typed into a control, or null if it isn't from `least` to `most`. */
export function typedNumber(name, least, most) {
  const typed = byId(name).value.trim(), number = Number(typed);
  return /^\d+$/.test(typed) && number >= least && number <= most ? number : null;
}

export class Many {
  /** What the page can do: `from` gives the job whose schedules are tried, `open` shows the one of a seed, and `failures` what the documents say of failures. */
  constructor(page) {
    this.page = page;
  }

  /** Tries as many schedules as are asked for. If it is stopped, what was found so far stays. */
  async tryAll() {
    const { ask, say, work, isSound, from, failures } = this.page, count = typedNumber("schedules", 1, MOST_TRIED), first = typedNumber("first-seed", 0, MOST_SEED - MOST_TRIED);
    if (count === null || first === null) return say(`There can be 1 to ${MOST_TRIED} schedules, from seed 0 to ${MOST_SEED - MOST_TRIED} on.`, true);
    return work(`Trying ${many(count, "schedule")}.`, async () => {
      const text = from(), found = [];
      if (!await isSound(text)) return;
      this.begin(count);
      try {
        for (let seed = first; seed < first + count; seed += 1) {
          found.push({ seed, ...await outcomeOf(ask, await shuffled(ask, text, seed), failures()) });
          byId("tried").value = found.length;
        }
      } catch (error) {
        if (!(error instanceof Stopped) || !found.length) throw error;
      } finally {
        byId("tried").hidden = true;
        this.draw(found, count, text);
      }
      say(`${found.length < count ? `Stopped after ${many(found.length, "schedule")}. ` : ""}${saidOfOutcomes(found)}`, found.some(({ kind }) => kind !== "ended"));
    });
  }

  begin(count) {
    Object.assign(byId("tried"), { hidden: false, value: 0, max: count });
    byId("outcomes").replaceChildren();
  }

  /** Shows what was found: a sentence, and a list of the seeds of each outcome, each of which opens its schedule. */
  draw(found, count, text) {
    if (!found.length) return;
    const list = (kind, all) => make("details", { open: kind !== "ended" }, make("summary", {}, `${OUTCOMES[kind]}: ${many(all.length, "seed")}`),
      make("ul", { class: "stops" }, ...all.map(({ seed, said }) => make("li", {}, button(`${seed}`, () => this.page.open(seed, text), { title: said, "aria-label": `Open seed ${seed}` })))));
    byId("outcomes").replaceChildren(make("p", { class: "said" }, `Of ${many(found.length, "schedule")}: ${saidOfOutcomes(found)}`), ...byOutcome(found).map((each) => list(...each)));
  }
}
