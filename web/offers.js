// The list that offers how a statement may go on.

import { freshId, make } from "./dom.js";

const MOST_OFFERED = 12;

/** The list at the caret of an editor. `namesFor` gives the names that go on as a text begins, which is that of the statement at an offset. */
export class Offers {
  constructor(editor, namesFor) {
    Object.assign(this, { editor, namesFor, names: [], chosen: 0 });
    this.element = make("ul", { class: "offers", role: "listbox", "aria-label": "How the statement may go on", id: freshId("offers"), hidden: true });
    const { textarea } = editor;
    textarea.setAttribute("aria-autocomplete", "list");
    textarea.setAttribute("aria-controls", this.element.id);
    textarea.addEventListener("keydown", (event) => this.press(event));
    textarea.addEventListener("input", () => (this.isOpen ? this.open() : null));
    textarea.addEventListener("blur", () => this.close());
    editor.area.append(this.element);
  }

  get isOpen() {
    return !this.element.hidden;
  }

  /** What is written of the statement before the caret, and where it begins. */
  get begun() {
    const { selectionEnd: caret } = this.editor.textarea, [text] = /[^;()\s]*$/.exec(this.editor.text.slice(0, caret));
    return { text, start: caret - text.length, caret };
  }

  open() {
    const { text, caret } = this.begun;
    this.names = this.namesFor(text, caret).filter((name) => name !== text).slice(0, MOST_OFFERED);
    this.chosen = 0;
    if (this.names.length === 0) return this.close();
    const { left, top } = this.editor.pointOf(caret);
    Object.assign(this.element.style, { left: `${left}px`, top: `${top}px` });
    this.element.hidden = false;
    return this.draw();
  }

  close() {
    this.element.hidden = true;
    this.editor.textarea.removeAttribute("aria-activedescendant");
  }

  draw() {
    const items = this.names.map((name, at) => make("li", {
      role: "option", id: freshId("offer"), "aria-selected": `${at === this.chosen}`, onpointerdown: (event) => { event.preventDefault(); this.take(at); },
    }, name));
    this.element.replaceChildren(...items);
    this.editor.textarea.setAttribute("aria-activedescendant", items[this.chosen].id);
  }

  /** Writes a name in place of what was begun. */
  take(at) {
    const { start, caret } = this.begun, name = this.names[at];
    this.close();
    this.editor.replace(start, caret, name);
  }

  press(event) {
    if (event.key === " " && event.ctrlKey) {
      event.preventDefault();
      this.open();
      return;
    }
    if (!this.isOpen) return;
    const step = { ArrowDown: 1, ArrowUp: -1 }[event.key];
    if (step) this.chosen = (this.chosen + step + this.names.length) % this.names.length;
    else if (event.key === "Enter" && !event.ctrlKey) this.take(this.chosen);
    else if (event.key === "Escape") this.close();
    else return;
    event.preventDefault();
    event.stopPropagation();
    if (step) this.draw();
  }
}
