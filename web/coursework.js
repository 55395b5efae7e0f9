// What somebody did in a course: the job of each exercise, how many of its runs are right, and how many hints are open. The browser keeps it, and a link has it.

import { storageOf } from "./kept.js";
import { packedText, unpackedText } from "./link.js";

const PREFIX = "#work=";

const isWork = (it) => typeof it?.job === "string";

/** The work of a text that was kept or packed; null if it isn't of this course. */
function workIn(text, course) {
  try {
    const found = JSON.parse(text);
    if (found.course !== course) return null;
    const work = Object.entries(found.work).filter(([number, each]) => /^\d{1,3}$/.test(number) && isWork(each));
    return { at: Number(found.at) || 0, work: Object.fromEntries(work), tries: typeof found.tries === "object" ? found.tries : {} };
  } catch {
    return null;
  }
}

/** Whether the end of a link has work. */
export const hasWork = (hash) => hash.startsWith(PREFIX);

export class Coursework {
  constructor(course) {
    this.course = course;
    this.key = `kdf9.course.${course}`;
    Object.assign(this, { isKept: true, ...this.stored() ?? { at: 0, work: {}, tries: {} } });
  }

  /** What the browser has of this course, from any tab; null if it has nothing. */
  stored() {
    return workIn(storageOf("localStorage")?.getItem(this.key) ?? "", this.course);
  }

  /** Takes what another tab has kept since. What the browser had no room for stays. */
  refresh() {
    const kept = this.isKept ? this.stored() : null;
    if (!kept) return;
    this.work = kept.work;
    Object.assign(this.tries, { ...kept.tries, ...this.tries });
  }

  /** What was done in an exercise. */
  of({ number, job }) {
    return { job, right: 0, of: 0, hints: 0, ...this.work[number] };
  }

  /** Keeps something of an exercise. */
  set(exercise, more) {
    this.refresh();
    this.work[exercise.number] = { ...this.of(exercise), ...more };
    this.write();
  }

  /** Keeps which exercise is chosen, and the answers to questions. */
  keep() {
    this.refresh();
    this.write();
  }

  write() {
    try {
      storageOf("localStorage")?.setItem(this.key, this.text);
      this.isKept = true;
    } catch {
      this.isKept = false; // The browser has no room. The link still has everything.
    }
  }

  get text() {
    const { course, at, work, tries } = this;
    return JSON.stringify({ course, at, work, tries });
  }

  /** The end of a link that has all work. */
  packed() {
    return packedText(PREFIX, this.text);
  }

  /** Takes the work of a link. Returns the jobs that were there and are others now; null if the link is damaged or of another course. */
  async take(hash) {
    const text = await unpackedText(hash.slice(PREFIX.length)), found = text === null ? null : workIn(text, this.course);
    if (!found) return null;
    this.refresh();
    const replaced = Object.entries(found.work).filter(([number, { job }]) => this.work[number] && this.work[number].job !== job).map(([number]) => this.work[number].job);
    Object.assign(this, { at: found.at, work: { ...this.work, ...found.work }, tries: { ...this.tries, ...found.tries } });
    this.write();
    return replaced;
  }
}
