// The jobs that somebody wrote, kept in the browser. So another choice, a reload or a closed tab loses none of them.

import { linesOf, readJob } from "./job.js";
import { many } from "./report.js";

const LIST = "kdf9.jobs", TAB = "kdf9.tab";
const MOST_KEPT = 10, LONGEST_NAME = 50;

/** The browser's storage of this name, or null if the page may not use it. */
export function storageOf(name) {
  try {
    return globalThis[name];
  } catch {
    return null;
  }
}

/** Whether this page was opened by a reload of its tab. */
const isReload = () => performance.getEntriesByType("navigation")[0]?.type === "reload";

const isEntry = (entry) => typeof entry?.id === "string" && typeof entry.time === "number" && typeof entry.text === "string";

/** The last jobs that were written in any tab, the newest first. The job of this tab has one place in the list while it is written. */
export class Kept {
  constructor() {
    this.storage = storageOf("localStorage");
    this.tab = storageOf("sessionStorage");
    this.id = isReload() ? this.tab?.getItem(TAB) ?? null : null;
  }

  list() {
    try {
      const entries = JSON.parse(this.storage.getItem(LIST) ?? "[]");
      return Array.isArray(entries) ? entries.filter(isEntry) : [];
    } catch {
      return [];
    }
  }

  /** The job that was written in this tab before it was loaded again, with its time; null if there is none. */
  own() {
    return this.list().find(({ id }) => id === this.id) ?? null;
  }

  /** Keeps a text as the job of this tab. Returns whether the browser keeps it. */
  keep(text) {
    this.id ??= freshId();
    return this.write(this.id, text) && this.remember(this.id);
  }

  /** Keeps a text in a place of its own. */
  keepApart(text) {
    return this.write(freshId(), text);
  }

  /** What is written next gets a place of its own. */
  begin() {
    this.id = null;
    this.tab?.removeItem(TAB);
  }

  /** Puts a text first in the list. The oldest leave it if there are too many, or if the browser has no room for them. */
  write(id, text) {
    const others = this.list().filter((entry) => entry.id !== id && entry.text !== text);
    const entries = [{ id, time: Date.now(), text }, ...others].slice(0, MOST_KEPT);
    for (; entries.length; entries.pop()) {
      if (this.fits(JSON.stringify(entries))) return true;
    }
    return false;
  }

  /** Writes the list. Returns whether the browser has room for it. */
  fits(entries) {
    try {
      this.storage.setItem(LIST, entries);
      return true;
    } catch {
      return false;
    }
  }

  remember(id) {
    this.tab?.setItem(TAB, id);
    return true;
  }
}

const freshId = () => `${Date.now()}-${Math.random()}`;

/** When a job was kept, as it is shown. */
export const timeOf = ({ time }) => new Date(time).toLocaleString("en-GB", { dateStyle: "medium", timeStyle: "short" });

/** A job in a few words: how many programs and lines it has, and how its first deck begins. */
export function nameOf({ text }) {
  const slots = readJob(text)?.slots ?? [], lines = linesOf(text);
  const first = slots.length ? linesOf(slots[0].deck).find((line) => line.trim() !== "") ?? "" : lines[0] ?? "";
  const begins = first.length > LONGEST_NAME ? `${first.slice(0, LONGEST_NAME)}...` : first;
  return `${slots.length ? `${many(slots.length, "program")}, ` : ""}${many(lines.length, "line")}: ${begins.trim()}`;
}
