// What a command came to: the text that the machine wrote, what it tells, and the part of the page that shows both.

import { byId, make } from "./dom.js";
import { NOUGHT } from "./deck.js";
import { STATUSES } from "./engine.js";
import { Untold, factsFor } from "./facts.js";
import { Pictured, tableOfSums } from "./pictured.js";
import { readReport, asSentence } from "./report.js";
import { isReadable, layoutsOf, resultsOf, shownText } from "./results.js";
import { Timeline } from "./timeline.js";
import { Verdicts, drawVerdicts } from "./verdict.js";
import { drawStops, stopsOf } from "./watch.js";

const DONE = 0, SNAPSHOT_HAS_FAULT = 8, MEBIBYTE = 2 ** 20;

// If a run ends with idle calls that are more than half of it, this many of them are drawn at most.
const IDLE_DRAWN = 40;

/** Whether decks of a job have names for words. */
const haveNames = (layouts) => [...layouts.values()].some(({ addresses }) => addresses.length);

/** What is told of a run, and what is in the stores, if that was asked. */
function factsIn(asked) {
  if (asked.kind !== "snapshot") return { facts: asked, watch: null };
  const stores = new Map(asked.words.map(([slot, address, octal]) => [`${slot} ${address}`, octal]));
  return { facts: asked.run, watch: null, wordsIn: (slot) => (address) => stores.get(`${slot} ${address}`) ?? NOUGHT };
}

/** The words of the command whose facts are those of a run: with what is in the stores, if that has names. */
const wordsOfRun = (layouts) => [haveNames(layouts) ? "save" : "run"];

/** What is told of a command whose text is there already: the facts of the run or of the lone run, those of the watch, and what is in the stores. */
async function factsAfter(ask, words, text, layouts) {
  const isRun = ["run", "watch"].includes(words[0]), asked = await factsFor(ask, isRun ? wordsOfRun(layouts) : words, text);
  return { ...factsIn(asked), watch: words[0] === "watch" ? await factsFor(ask, words, text) : null };
}

/** The run of a job with what is told of it, which is asked at once: one run gives both. Null if the job has a fault, or if
 * all of that is too long to be told at once, or there is no memory for it. */
export async function toldRun(ask, job) {
  try {
    const layouts = await layoutsOf(ask, job), { text, ...answer } = await ask(wordsOfRun(layouts), job, true);
    if (answer.status !== DONE || text === "") return null;
    const told = factsIn(JSON.parse(text));
    return told.facts.text === null ? null : { answer: { ...answer, text: told.facts.text }, layouts, told };
  } catch (error) {
    if (!(error instanceof Untold)) throw error;
    return null;
  }
}

/** What an answer of the machine to the words of a command for a text says. The decks of its job are listed for the names of their words. `run` has what is told of it,
 * if it was asked with it. */
export async function outcomeOf(ask, words, text, answer, { job, failures, run = null }) {
  const { status, text: report } = answer;
  if (status !== DONE || !isReadable(report)) return { text: report };
  try {
    const layouts = run?.layouts ?? await layoutsOf(ask, job), { facts, watch, wordsIn } = run?.told ?? await factsAfter(ask, words, text, layouts);
    const timeline = facts.kind === "run" ? new Timeline(facts) : null, stops = watch && stopsOf(watch, facts);
    return { text: report, facts, ...readReport(report), layouts, wordsIn, timeline, stops, verdicts: new Verdicts(facts, { layouts, failures, text: job }) };
  } catch (error) {
    if (!(error instanceof Untold)) throw error;
    return { text: report, notice: `There is only the text: ${error.message}.` };
  }
}

/** What a text says that was recorded of a job. */
export const outcomeOfRecord = (text) => (isReadable(text) ? { text, ...readReport(text), layouts: new Map() } : { text });

/** Up to which call a run is drawn: not to its end if it only waits there. */
function callsDrawn({ idle, total }) {
  const { start, end } = idle.at(-1) ?? {};
  return end === total && start < total / 2 ? Math.min(total, start + IDLE_DRAWN) : total;
}

/** The picture of a run, and to what its calls went. A click in the picture calls `look`. */
function pictureOf({ timeline, stops }, look, say) {
  const shown = callsDrawn(timeline), rest = timeline.total - shown;
  const { element } = new Pictured(timeline, { name: "The run at a glance", choose: look, shown, stops }).withButtons();
  return [element, ...(rest ? [make("p", {}, `The ${rest.toLocaleString("en")} calls after these are idle.`)] : []), tableOfSums(timeline, { say })];
}

/** Shows what a command came to, or nothing if it is null. `look` shows a run call by call, `go` goes to a statement, and `change` changes the job; those that are null
 * aren't offered. `say` says something. */
export function showOutcome(outcome, { look, go, change, say } = {}) {
  const { text = "", notice = "", sections, layouts, timeline, stops, verdicts } = outcome ?? {}, shown = shownText(text);
  byId("verdicts").replaceChildren(...(verdicts ? drawVerdicts(verdicts, { go, change }) : []));
  byId("pictured").replaceChildren(...(timeline?.total ? pictureOf({ timeline, stops }, look, say) : []));
  byId("sections").replaceChildren(...(stops ? [drawStops(stops, layouts.get(stops.slot), look)] : []), ...resultsOf(outcome ?? {}));
  byId("text-details").open = text !== "" && !sections;
  byId("report").textContent = shown.text;
  byId("rest").textContent = `${notice} ${shown.rest}`.trim();
  byId("rest").hidden = byId("rest").textContent === "";
}

/** What an answer of the machine says in a line, and whether something is wrong: a fault, which is `where`, or a program that didn't end. */
export function saidOfAnswer({ status, milliseconds, memory }, { fault, where, verdicts }) {
  if (status !== DONE) {
    const hint = fault?.hint ? ` Hint: ${asSentence(fault.hint)}` : "", found = fault ? ` ${fault.name}, ${where ?? `line ${fault.line} of the ${status === SNAPSHOT_HAS_FAULT ? "text" : "job"}`}. ${fault.said}${hint}` : "";
    return { said: `Status ${status}: ${STATUSES[status]}.${found}`, isWrong: true };
  }
  const cost = `${Math.max(1, Math.round(milliseconds)).toLocaleString("en")} ms and ${(memory / MEBIBYTE).toFixed(1)} MiB`;
  if (!verdicts || verdicts.isGood) return { said: `Done, in ${cost}.`, isWrong: false };
  return { said: `${verdicts.summary} The run took ${cost}.`, isWrong: true };
}
