// Help at the caret of a deck: what its statement is, where its jumps lead, how a statement may go on, and find and replace.

import { lineAndColumn } from "./deck.js";
import { button, make, table } from "./dom.js";
import { FindLine } from "./find.js";
import { Offers } from "./offers.js";
import { entryOf, ordersFrom } from "./orders.js";
import { nextUse, placesOf, referencesOf, statementNear, storesOfDeck, usesOf } from "./places.js";

// How many stores of a group are offered at most, and the longest deck whose statement is looked for at the pointer and whose uses are marked.
const MOST_STORES = 10, LONGEST_READ = 100000;

export class Assist {
  /** Help for an editor with a deck. `help` is what the documents say, `addressOf` gives the address of a store by its name and part, if it is known, `breaks` has
   * the breakpoints of all decks, of which this one is that of `slot`, `runTo` runs to a statement, and `caretAt` is called with the statement at the caret. */
  constructor(editor, help, addressOf, { breaks, slot, runTo, caretAt }) {
    Object.assign(this, { editor, help, addressOf, breaks, slot, runTo, caretAt });
    this.panel = make("div", { class: "help", role: "region", "aria-label": "What this statement is", "aria-live": "polite", hidden: true });
    this.findLine = new FindLine(editor);
    this.offers = new Offers(editor, (text, caret) => this.namesFor(text, caret));
    const tools = make("div", { class: "bar", role: "group", "aria-label": "Help with the deck" },
      button("What is this?", () => this.toggle(), { title: "F1" }), button("Go to reference", () => this.follow(), { title: "F2" }),
      button("Offer names", () => this.offer(), { title: "Ctrl Space" }),
      button("Find", () => this.findLine.open(), { title: "Ctrl Alt F" }),
      button("Breakpoint", () => this.toggleBreak(), { title: "F9" }), button("Run to here", () => this.runHere(), { title: "F8" }));
    this.element = make("div", {}, tools, this.findLine.element, this.panel);
    const { textarea } = editor;
    textarea.addEventListener("keydown", (event) => this.press(event));
    textarea.addEventListener("pointermove", (event) => this.hover(event));
    textarea.addEventListener("input", () => this.keepBreaks());
    this.keepBreaks();
    for (const name of ["keyup", "pointerup", "input", "focus"]) textarea.addEventListener(name, () => this.caretMoved());
  }

  get statements() {
    return placesOf(this.editor.text);
  }

  statementAt(offset) {
    return statementNear(this.statements, this.editor.text, offset);
  }

  get statement() {
    return this.statementAt(this.editor.textarea.selectionStart);
  }

  press(event) {
    const isFind = event.key === "f" && event.ctrlKey && event.altKey;
    if (event.key === "F1") this.toggle();
    else if (event.key === "F2") this.follow();
    else if (event.key === "F8") this.runHere();
    else if (event.key === "F9") this.toggleBreak();
    else if (isFind) this.findLine.open();
    else return;
    event.preventDefault();
  }

  /** Sets a breakpoint at the statement at the caret, or takes it away. */
  toggleBreak() {
    const { statement } = this;
    this.editor.textarea.focus();
    if (!statement) return;
    this.breaks.toggle(this.slot, statement);
    this.keepBreaks();
  }

  /** Shows the breakpoints whose statements are still there. */
  keepBreaks() {
    if (!this.breaks.of(this.slot).length && !this.editor.breaks.length) return;
    const { statements } = this;
    this.breaks.keep(this.slot, statements);
    const starts = new Set(this.breaks.of(this.slot));
    this.editor.markBreaks(statements.filter(({ start }) => starts.has(start)));
  }

  runHere() {
    const { statement } = this;
    if (statement) this.runTo(this.slot, statement);
  }

  toggle() {
    this.panel.hidden = !this.panel.hidden;
    if (!this.panel.hidden) this.draw();
  }

  offer() {
    this.editor.textarea.focus();
    this.offers.open();
  }

  caretMoved() {
    if (this.editor.text.length > LONGEST_READ) return;
    this.caretAt(this.slot, this.statement);
    this.editor.markUses(usesOf(this.statements, this.statement));
    if (!this.panel.hidden) this.draw();
  }

  /** Goes from a jump to its place, or from a place to the next jump to it. */
  follow() {
    const found = nextUse(this.statements, this.statement);
    if (found) this.editor.goTo(found.start);
    else this.editor.textarea.focus();
    this.caretMoved();
  }

  /** The names that go on as a text begins: orders, and the stores that the deck declares. */
  namesFor(text, caret) {
    const { statements } = this, part = statements.findLast(({ start }) => start <= caret)?.part ?? null;
    const storesOf = ([group, last]) => Array.from({ length: Math.min(last + 1, MOST_STORES) }, (_, at) => `${group}${at}`);
    const stores = [...storesOfDeck(statements, part)].flatMap(storesOf);
    const named = stores.flatMap((store) => [store, `=${store}`]).filter((store) => text !== "" && store.startsWith(text));
    return [...new Set([...named, ...ordersFrom(this.help, text, referencesOf(statements, part))])];
  }

  /** Says in a few words what the statement at the pointer is. */
  hover(event) {
    if (this.editor.text.length > LONGEST_READ || event.buttons) return;
    const place = this.editor.placeAt(event.clientX, event.clientY);
    const found = place === null ? undefined : this.statements.find(({ start, end }) => start <= place && place < end);
    const entry = found && entryOf(this.help, found), title = entry ? `${found.written}: ${entry.said[0]}` : "";
    if (this.editor.textarea.title !== title) this.editor.textarea.title = title;
  }

  draw() {
    const { statement } = this, entry = statement && entryOf(this.help, statement);
    const close = button("Close", () => { this.panel.hidden = true; this.editor.textarea.focus(); });
    if (!entry) {
      this.panel.replaceChildren(make("p", {}, statement ? `The documents have no order ${statement.written}.` : "There is no statement at the caret."), close);
      return;
    }
    this.panel.replaceChildren(make("h4", {}, statement.written), ...this.about(statement).map((said) => make("p", {}, said)),
      ...entry.said.map((said) => make("p", {}, said)), ...(entry.rows.length ? [table(entry.caption, entry.heads, entry.rows)] : []), close);
  }

  /** What this deck says of a statement: the address of its store, and the lines of the place that it has or to which it jumps. */
  about(statement) {
    const address = this.addressOf(statement);
    const stored = address === undefined ? [] : [`In this deck it is the word at address ${address}.`];
    return statement.place === null ? stored : [...stored, statement.isJump ? this.saidOfJump(statement) : this.saidOfPlace(statement)];
  }

  lineOf({ start }) {
    return lineAndColumn(this.editor.text, start).line;
  }

  saidOfJump(jump) {
    const place = usesOf(this.statements, jump).find(({ isJump }) => !isJump);
    return place ? `It jumps to line ${this.lineOf(place)}.` : `This deck has no place ${jump.place}.`;
  }

  saidOfPlace(place) {
    const lines = new Set(usesOf(this.statements, place).filter(({ isJump }) => isJump).map((jump) => this.lineOf(jump)));
    if (lines.size === 0) return "No jump of this deck leads here.";
    return lines.size === 1 ? `The jumps in line ${[...lines][0]} lead here.` : `The jumps in lines ${[...lines].join(", ")} lead here.`;
  }
}
