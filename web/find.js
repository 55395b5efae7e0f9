// Finding and replacing in an editor.

import { button, labelled, make } from "./dom.js";

/** The line below an editor in which one finds and replaces. */
export class FindLine {
  constructor(editor) {
    this.editor = editor;
    this.sought = make("input", { type: "text", size: "12", spellcheck: "false", onkeydown: (event) => this.press(event) });
    this.other = make("input", { type: "text", size: "12", spellcheck: "false" });
    this.said = make("output", {});
    this.element = make("div", { class: "fields", role: "group", "aria-label": "Find and replace", hidden: true },
      labelled("Find", this.sought), button("Next", () => this.next()), labelled("Replace by", this.other),
      button("Replace", () => this.replace()), button("Replace all", () => this.replaceAll()), button("Close", () => this.close()), this.said);
  }

  /** Opens the line, with what is selected in the editor. */
  open() {
    const { textarea } = this.editor, selected = this.editor.text.slice(textarea.selectionStart, textarea.selectionEnd);
    if (selected && !selected.includes("\n")) this.sought.value = selected;
    this.element.hidden = false;
    this.sought.focus();
    this.sought.select();
  }

  close() {
    this.element.hidden = true;
    this.editor.textarea.focus();
  }

  press(event) {
    if (event.key !== "Enter" || event.ctrlKey) return;
    event.preventDefault();
    this.next();
  }

  /** The offsets at which the text stands that is sought. */
  get found() {
    const { text } = this.editor, sought = this.sought.value, found = [];
    for (let at = sought ? text.indexOf(sought) : -1; at >= 0; at = text.indexOf(sought, at + sought.length)) found.push(at);
    return found;
  }

  /** Selects the next place after the caret, or the first. */
  next() {
    const { found } = this, at = found.find((place) => place >= this.editor.textarea.selectionEnd) ?? found[0];
    this.said.textContent = found.length ? `${found.indexOf(at) + 1} of ${found.length}` : "It isn't there.";
    if (at !== undefined) this.editor.select(at, at + this.sought.value.length);
  }

  /** Replaces what is selected, if it is what is sought, and goes to the next. */
  replace() {
    const { textarea } = this.editor, { selectionStart: start, selectionEnd: end } = textarea;
    if (this.sought.value && this.editor.text.slice(start, end) === this.sought.value) this.editor.replace(start, end, this.other.value);
    this.next();
  }

  replaceAll() {
    const { found } = this, sought = this.sought.value;
    if (found.length) this.editor.replace(0, this.editor.text.length, this.editor.text.replaceAll(sought, () => this.other.value));
    this.said.textContent = found.length ? `${found.length} replaced.` : "It isn't there.";
  }
}
