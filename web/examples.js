// The list of jobs to begin with: those of the tour, the examples, an empty one, and the user's own.

import { byId, make } from "./dom.js";
import { EMPTY_JOB } from "./job.js";

const OWN = "own", EMPTY = "empty";

/** Fills the list. */
export function listJobs(jobs) {
  const groups = new Map();
  for (const [name, { group }] of Object.entries(jobs)) {
    if (!groups.has(group)) groups.set(group, make("optgroup", { label: group }));
    groups.get(group).append(new Option(name.split("/")[1], name));
  }
  byId("example").append(...groups.values(), new Option("(an empty job)", EMPTY), new Option("(a job of your own)", OWN));
}

/** The job that is chosen, with the words of its command; undefined if it is the user's own. */
export function chosenJob(jobs) {
  const { value } = byId("example");
  return value === EMPTY ? { job: EMPTY_JOB, args: ["run"] } : jobs[value];
}

/** The job is the user's own from now on. */
export function chooseOwn() {
  byId("example").value = OWN;
}

/** Chooses the first job of the list. */
export function chooseFirst() {
  byId("example").selectedIndex = 0;
}
