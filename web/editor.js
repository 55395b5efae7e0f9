// An editor for a text. It numbers the lines, makes comments look different from orders, and marks a fault.

import { freshId, make } from "./dom.js";

const FEWEST_LINES = 3, MOST_LINES = 28;

// A longer text isn't painted, and a text with more lines has no line numbers: the browser would be slow after each key.
const LONGEST_PAINTED = 100000, MOST_NUMBERED = 20000;

export class Editor {
  /** An editor with this label. `paint` gives the pieces of a text that look different, and `onchange` is called after each change. */
  constructor({ label, text, paint, onchange }) {
    this.paint = paint;
    this.forget();
    this.textarea = make("textarea", {
      id: freshId("text"), spellcheck: "false", autocapitalize: "off", autocomplete: "off", wrap: "off",
      oninput: () => { this.forget(); this.draw(); onchange(this.text); },
      onscroll: () => this.scroll(),
    });
    this.numbers = make("pre", {});
    this.painted = make("pre", { class: "painted" });
    const gutter = make("div", { class: "gutter", "aria-hidden": "true" }, this.numbers);
    this.area = make("div", { class: "area" }, make("div", { class: "below", "aria-hidden": "true" }, this.painted), this.textarea);
    this.element = make("div", { class: "edited" }, make("label", { for: this.textarea.id }, label), make("div", { class: "editor" }, gutter, this.area));
    this.text = text;
  }

  get text() {
    return this.textarea.value;
  }

  set text(text) {
    this.forget();
    this.textarea.value = text;
    this.draw();
  }

  /** Nothing is marked. */
  forget() {
    this.fault = null;
    this.stops = [];
    this.uses = [];
    this.breaks = [];
  }

  /** Marks the statements that have breakpoints. */
  markBreaks(statements) {
    this.breaks = statements;
    this.draw();
  }

  /** Marks the statements that have to do with one place of a deck, if there is more than one. */
  markUses(uses) {
    const marks = uses.length > 1 ? uses.map(({ start, end }) => ({ kind: "use", start, end })) : [];
    if (JSON.stringify(marks) === JSON.stringify(this.uses)) return;
    this.uses = marks;
    this.draw();
  }

  /** Marks the statements at which programs stopped. Each has the kind of its verdict, and where it begins and ends. */
  markStops(stops) {
    this.stops = stops;
    this.draw();
  }

  /** Marks the text from `start` to `end` as wrong. */
  mark(start, end) {
    this.fault = { start, end: Math.max(end, start + 1) };
    this.draw();
  }

  unmark() {
    if (this.fault) {
      this.fault = null;
      this.draw();
    }
  }

  /** Puts the caret at an offset, and scrolls to it. */
  goTo(place) {
    const line = this.text.slice(0, place).split("\n").length;
    this.textarea.focus();
    this.textarea.setSelectionRange(place, place);
    const height = parseFloat(getComputedStyle(this.textarea).lineHeight);
    this.textarea.scrollTop = Math.max(0, (line - MOST_LINES / 2) * height);
  }

  select(start, end) {
    this.goTo(start);
    this.textarea.setSelectionRange(start, end);
  }

  /** Writes a text in place of another, as somebody does who types it, so that the browser can undo it. */
  replace(start, end, text) {
    this.textarea.focus();
    this.textarea.setSelectionRange(start, end);
    if (document.execCommand(text === "" ? "delete" : "insertText", false, text)) return;
    this.textarea.setRangeText(text, start, end, "end");
    this.textarea.dispatchEvent(new Event("input"));
  }

  /** The width and the height of a character, which are the same for all, and the place of the first in the text box. */
  get grid() {
    const probe = make("span", {}, "0".repeat(100)), style = getComputedStyle(this.textarea);
    this.numbers.append(probe);
    const width = probe.getBoundingClientRect().width / 100;
    probe.remove();
    return { width, height: parseFloat(style.lineHeight), left: parseFloat(style.paddingLeft), top: parseFloat(style.paddingTop) };
  }

  /** The offset of the character at a point of the window, or null if there is none. */
  placeAt(x, y) {
    const { width, height, left, top } = this.grid, box = this.textarea.getBoundingClientRect(), lines = this.text.split("\n");
    const line = Math.floor((y - box.top - top + this.textarea.scrollTop) / height), column = Math.floor((x - box.left - left + this.textarea.scrollLeft) / width);
    if (line < 0 || column < 0 || column >= (lines[line]?.length ?? 0)) return null;
    return lines.slice(0, line).reduce((sum, text) => sum + text.length + 1, column);
  }

  /** The point below the character at an offset, within the area of the text. */
  pointOf(place) {
    const { width, height, left, top } = this.grid, before = this.text.slice(0, place).split("\n");
    return { left: left + width * before.at(-1).length - this.textarea.scrollLeft, top: top + height * before.length - this.textarea.scrollTop };
  }

  draw() {
    const { text } = this, lines = text.split("\n");
    this.textarea.rows = Math.min(Math.max(lines.length, FEWEST_LINES), MOST_LINES);
    const isPainted = text.length <= LONGEST_PAINTED;
    this.element.classList.toggle("plain", !isPainted);
    this.painted.replaceChildren(...(isPainted ? this.pieces(text) : []));
    this.drawNumbers(lines.length <= MOST_NUMBERED ? lines.length : 0);
    this.scroll();
  }

  /** The text in pieces, each of which has one look. */
  pieces(text) {
    const stops = this.stops.map(({ kind, ...place }) => ({ ...place, kind: `stopped ${kind}` }));
    const parts = [...this.paint(text), ...this.uses, ...this.breaks.map(({ start, end }) => ({ kind: "break", start, end })), ...stops, ...(this.fault ? [{ kind: "wrong", ...this.fault }] : [])];
    const cuts = [...new Set([0, text.length, ...parts.flatMap(({ start, end }) => [start, Math.min(end, text.length)])])].sort((a, b) => a - b);
    const open = [];
    let next = 0;
    parts.sort((one, other) => one.start - other.start);
    return cuts.map((start, at) => {
      while (next < parts.length && parts[next].start <= start) open.push(parts[next++]);
      const kinds = open.filter(({ end }) => end > start).map(({ kind }) => kind);
      open.splice(0, open.length, ...open.filter(({ end }) => end > start));
      const piece = text.slice(start, cuts[at + 1] ?? text.length);
      return kinds.length ? make("span", { class: kinds.join(" ") }, piece || " ") : piece;
    });
  }

  drawNumbers(count) {
    const lineOf = (place) => this.text.slice(0, place).split("\n").length;
    const marked = new Map([...this.breaks.map(({ start }) => [lineOf(start), "break"]), ...this.stops.map(({ kind, start }) => [lineOf(start), kind]), ...(this.fault ? [[lineOf(this.fault.start), "wrong"]] : [])]);
    const shown = `${count} ${JSON.stringify([...marked])}`;
    if (shown === this.numbered) return;
    this.numbered = shown;
    const plain = (first, last) => Array.from({ length: last - first }, (_, at) => `${first + at + 1}\n`).join("");
    const lines = [...marked.keys()].filter((line) => line <= count).sort((one, other) => one - other);
    this.numbers.replaceChildren(
      ...lines.flatMap((line, at) => [plain(lines[at - 1] ?? 0, line - 1), make("span", { class: marked.get(line) }, `${marked.get(line) === "break" ? "●" : "▸"}${line}`), "\n"]), plain(lines.at(-1) ?? 0, count));
  }

  scroll() {
    const { scrollTop, scrollLeft } = this.textarea;
    this.numbers.style.transform = `translateY(${-scrollTop}px)`;
    this.painted.style.transform = `translate(${-scrollLeft}px, ${-scrollTop}px)`;
  }
}
