// What the page does so that nothing is lost: it keeps the job, offers what was there before, and asks before a tab with unsaved work is closed.

import { button, byId, make } from "./dom.js";
import { Kept, nameOf, timeOf } from "./kept.js";

/** How many milliseconds after the last change the job is kept. */
const PAUSE = 700;

/** A longer job leaves no room for others. */
const LONGEST_KEPT = 500000;

const NOT_KEPT = "This browser doesn't keep your job. Save it as a file before you close the page.";

export class Keeping {
  /** `text` gives the job that is shown, `bring` shows another one, and `undo` shows one in place of the job that a change made. */
  constructor({ text, bring, undo }) {
    Object.assign(this, { text, bring, undo, kept: new Kept(), hasWork: false, isSaved: true, pause: 0 });
    byId("last-jobs").ontoggle = () => this.draw();
    addEventListener("pagehide", () => this.keep());
    addEventListener("visibilitychange", () => this.keep());
    addEventListener("beforeunload", (event) => this.ask(event));
  }

  /** The user has changed the job. */
  changed() {
    this.hasWork = true;
    this.isSaved = false;
    clearTimeout(this.pause);
    this.pause = setTimeout(() => this.keep(), PAUSE);
  }

  /** The job is in a file, or in a link. */
  saved() {
    this.keep();
    this.isSaved = true;
  }

  /** Keeps the job if somebody wrote at it. */
  keep() {
    clearTimeout(this.pause);
    if (!this.hasWork) return;
    const text = this.text(), isKept = text.length <= LONGEST_KEPT && this.kept.keep(text);
    byId("not-kept").textContent = isKept ? "" : NOT_KEPT;
    byId("not-kept").hidden = isKept;
    this.draw();
  }

  ask(event) {
    this.keep();
    if (this.hasWork && !this.isSaved) event.preventDefault();
  }

  /** Another job will be shown. The one that is shown now is kept and offered, if somebody wrote at it. */
  putAway() {
    this.withdraw();
    byId("not-kept").hidden = true;
    if (this.hasWork) this.offerBack(this.text());
    this.keep();
    this.kept.begin();
    Object.assign(this, { hasWork: false, isSaved: true });
  }

  /** The job of this tab before it was loaded again; null if there is none. */
  own() {
    return this.kept.own();
  }

  /** The job that is shown is one that was kept. */
  resume() {
    Object.assign(this, { hasWork: true, isSaved: false });
  }

  offerBack(text) {
    this.offer("Your job was put away.", "Back to my job", () => this.bringBack(text));
  }

  /** Offers to undo a change, which has just been made and is told by `said`. The job as it was before is kept too. */
  offerUndo(said, before) {
    this.kept.keepApart(before);
    this.offer(said, "Undo", () => {
      this.withdraw();
      this.undo(before);
    });
    this.draw();
  }

  bringBack(text) {
    this.putAway();
    this.bring(text);
    this.resume();
  }

  /** Says something above the job, with a button. */
  offer(said, name, act) {
    byId("offer").replaceChildren(`${said} `, button(name, act));
    byId("offer").hidden = false;
  }

  withdraw() {
    byId("offer").hidden = true;
    byId("offer").replaceChildren();
  }

  /** Draws the list of the last jobs, if it is open. */
  draw() {
    if (!byId("last-jobs").open) return;
    const items = this.kept.list().map((entry) => make("li", {}, button(timeOf(entry), () => this.bringBack(entry.text)), ` ${nameOf(entry)}`));
    byId("last-jobs-list").replaceChildren(...(items.length ? items : [make("li", {}, "There is none yet. A job is kept a moment after you have changed it.")]));
  }
}
