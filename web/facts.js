// What the machine tells of a job: the facts that the words of a command ask for, with the fields of docs/schema/facts.json. What the page says of runs, decks and
// faults is shown from them.

import { STATUSES } from "./engine.js";

/** There was no memory for facts, or no room. */
export class Untold extends Error {}

/** The facts that the words of a command ask for over a job. */
export async function factsFor(ask, words, job) {
  const { status, text } = await ask(words, job, true);
  if (text === "") throw new Untold(STATUSES[status]);
  return JSON.parse(text);
}

/** The facts of the run of a job without a fault. */
export async function factsOfRun(ask, job) {
  const facts = await factsFor(ask, ["run"], job);
  if (facts.kind === "fault") throw new Error(`${facts.name}, line ${facts.line}`);
  return facts;
}
