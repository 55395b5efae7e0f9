// What the machine tells of a fault of a job, a snapshot or a deck, as it is shown.

import { lineAndColumn, withoutComments } from "./deck.js";
import { factsFor } from "./facts.js";
import { frontOf, readJob } from "./job.js";
import { hint } from "./tables.js";

/** Where the documents have the sentence of a fault. */
const SOURCES = { job: () => "docs/JOB.md", snapshot: () => "docs/JOB.md", deck: ({ number }) => `docs/USERCODE.md, fault ${number}` };

/** What the documents say of a fault: its sentence, without the marks around code. */
function sentenceOf(facts) {
  const bare = facts.sentence.replaceAll("`", ""), said = facts.of === "deck" ? bare : `${bare[0].toUpperCase()}${bare.slice(1)}.`;
  return `${said} (${SOURCES[facts.of](facts)})`;
}

/** What stands where a fault is. */
function subjectOf({ of, name, text }) {
  if (text === null) return of === "job" ? "the job ends here" : "the text ends here";
  if (name === "BadByte") return `byte ${text.charCodeAt(0)}`;
  return of === "deck" ? withoutComments(text).trim().split(/\s+/).join(" ") : text;
}

/** The hint that is told of a fault, in words, or null. A place in a deck is told by its line in the job, and shown by its line in the deck. */
function hintTold({ hint: told, line, offset }, deck) {
  const [at, column] = told?.place?.split(":") ?? [], before = line - lineAndColumn(deck, offset ?? 0).line;
  return told && hint(told.name, { ...told, place: `line ${at - before}, column ${column}` });
}

/** The fault that a command finds in a text, or null: the facts of it, with what stands there as `subject`, the sentence as `said`, and the hint. */
export async function faultFound(ask, words, text) {
  const facts = await factsFor(ask, words, text);
  if (facts.kind !== "fault" || facts.of === "text") return null;
  const fault = { ...facts, subject: subjectOf(facts), said: sentenceOf(facts) };
  const deck = facts.of === "deck" ? readJob(frontOf(text))?.slots.find(({ number }) => number === `${facts.slot}`)?.deck ?? "" : "";
  return { ...fault, hint: hintTold(facts, deck) };
}
