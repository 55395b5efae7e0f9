// A job as it is edited: by parts, or as its whole text. A change in one is a change in the other.

import { button, choice, freshId, labelled, make } from "./dom.js";
import { Editor } from "./editor.js";
import { lineAndColumn, painted } from "./deck.js";
import { haveNames } from "./shows.js";
import { HEADER, KINDS, KINDS_OF_POOL, POOL, editedMedia, editedShows, linesOf, placedLines, readJob, readMedia, readShows, writeJob } from "./job.js";
import { asSentence } from "./report.js";
import { saidOfSchedule } from "./schedule.js";

const NO_PARTS = "This text can't be shown by parts: it is more than a job, or one of its lines isn't allowed where it is. Here is the whole text.";
const SERVED = "OUT 64 asks the installation's service";
const TOO_LONG = "This job is too long to be edited here. It can be run and saved as it is.";

// A browser is slow with a longer text in an editor.
const LONGEST_EDITED = 300000;
const MOST_SLOTS = 4, MOST_DEVICES = 16;
const NEW_DECK = "PROGRAM;\n  ZERO; OUT;\nFINISH;\n";

/** What looks different in the text of a job: the comments and references of its decks. */
function paintedJob(text) {
  const parts = [];
  let place = 0, isDeck = false, start = 0;
  for (const line of linesOf(text)) {
    if (!isDeck && line === "DECK") {
      isDeck = true;
      start = place + line.length + 1;
    } else if (isDeck && line === "ENDDECK") {
      isDeck = false;
      parts.push(...painted(text.slice(start, place)).map((part) => ({ ...part, start: part.start + start, end: part.end + start })));
    }
    place += line.length + 1;
  }
  return parts;
}

export class JobView {
  /** The view of a job in an element of the page. `onchange` is called after each change that the user makes, and then `onremove` if something was removed, with
   * what it was and the text of the job before. `onfault` is told whether a fault is shown, and `onlong` is called if a text is pasted with which the job is too long. `assist` gives the element with the help for the editor of a deck, whose slot has this number, and `addresses`
   * the ranges of a slot that are shown, with addresses in the places of names. */
  constructor(element, { onchange, onremove, onfault, onlong, assist, addresses }) {
    Object.assign(this, { onchange, onremove, onfault, onlong, assist, addresses });
    this.isWhole = false;
    this.isScheduleOpen = false;
    this.stops = [];
    this.controls = new Map();
    this.said = make("p", { class: "fault", id: freshId("fault") });
    this.notice = make("p", { class: "notice", hidden: true });
    this.parts = make("div", { class: "parts" });
    this.whole = new Editor({ label: "The whole job", text: "", paint: paintedJob, onchange: (text) => this.changed(text) });
    element.append(this.notice, this.parts, this.whole.element);
    element.addEventListener("paste", (event) => this.refuseLong(event));
    this.show(`${HEADER}\n`);
  }

  /** Shows another job. The lines of its schedule are folded. */
  show(text) {
    this.text = text;
    this.stops = [];
    this.isScheduleOpen = false;
    this.draw();
  }

  /** Shows the job as its whole text, or by parts. */
  showWhole(isWhole) {
    this.isWhole = isWhole;
    this.draw();
  }

  get isByParts() {
    return this.job !== null && !this.isWhole;
  }

  get isTooLong() {
    return this.text.length > LONGEST_EDITED;
  }

  /** Refuses what is pasted if the job is too long with it: the browser would stand still over it. */
  refuseLong(event) {
    if (this.text.length + (event.clipboardData?.getData("text/plain").length ?? 0) <= LONGEST_EDITED) return;
    event.preventDefault();
    this.onlong();
  }

  changed(text) {
    this.text = text;
    this.forgetFault();
    this.forgetStops();
    this.onchange();
  }

  partChanged() {
    this.changed(writeJob(this.job));
  }

  draw() {
    this.forgetFault();
    this.controls.clear();
    this.job = this.isTooLong ? null : readJob(this.text);
    this.notice.textContent = this.isTooLong ? TOO_LONG : NO_PARTS;
    this.notice.hidden = !this.isTooLong && (this.isWhole || this.job !== null);
    this.parts.hidden = !this.isByParts;
    this.whole.element.hidden = this.isByParts || this.isTooLong;
    this.parts.replaceChildren(...(this.isByParts ? this.drawParts() : []));
    this.whole.text = this.whole.element.hidden ? "" : this.text;
    this.markStops();
  }

  forgetStops() {
    if (!this.stops.length) return;
    this.stops = [];
    for (const control of [...this.controls.values(), this.whole]) {
      if (control instanceof Editor) control.markStops([]);
    }
  }

  drawParts() {
    const free = ["0", "1", "2", "3"].find((number) => this.job.slots.every((slot) => slot.number < number));
    const add = button("Add a program", () => this.addSlot(free), { disabled: this.job.slots.length >= MOST_SLOTS || free === undefined });
    this.controls.set("add", add);
    return [...this.job.slots.map((slot, at) => this.drawSlot(slot, at)), add, this.drawPool(), this.drawSchedule()];
  }

  addSlot(number) {
    this.job.slots.push({ number, store: "32", deck: NEW_DECK, isServed: false, devices: [], shows: [] });
    this.redraw(`deck ${this.job.slots.length - 1}`);
  }

  /** Draws the parts again, after one was added or removed. The control of this name gets the focus. */
  redraw(name) {
    this.partChanged();
    this.draw();
    const control = this.controls.get(name);
    (control instanceof Editor ? control.textarea : control)?.focus();
  }

  /** Removes a part, which is called `what`, by `take`. The control of this name gets the focus. */
  remove(what, take, name) {
    const before = this.text;
    take();
    this.redraw(name);
    this.onremove(what, before);
  }

  drawSlot(slot, at) {
    const heading = make("h3", { id: freshId("slot"), tabindex: "-1" }, `Program in slot ${slot.number}`);
    const deck = new Editor({ label: "Deck", text: slot.deck, paint: painted, onchange: (text) => { slot.deck = text; this.partChanged(); } });
    this.controls.set(`deck ${at}`, deck);
    const fields = make("div", { class: "fields" },
      labelled("Store, in words", this.input(`store ${at}`, slot.store, (value) => { slot.store = value; }, { inputmode: "numeric", size: "6" })),
      this.drawShows(slot, at),
      this.box(`service ${at}`, SERVED, slot.isServed, (isServed) => { slot.isServed = isServed; }),
      button("Remove", () => this.remove(`the program in slot ${slot.number}`, () => this.job.slots.splice(at, 1), "add"),
        { "aria-label": `Remove the program in slot ${slot.number}` }));
    return make("section", { class: "slot", "aria-labelledby": heading.id }, heading, deck.element, this.assist(deck, slot), fields, this.drawDevices(slot, at, `slot ${slot.number}`));
  }

  /** A box that is ticked or not, before its label. */
  box(name, label, isTicked, take) {
    const control = make("input", { type: "checkbox", onchange: () => { take(control.checked); this.partChanged(); } });
    control.checked = isTicked;
    this.controls.set(name, control);
    return make("label", {}, control, ` ${label}`);
  }

  input(name, value, take, attributes) {
    const oninput = () => { take(control.value); this.partChanged(); };
    const control = make("input", { type: "text", spellcheck: "false", autocomplete: "off", ...attributes, oninput });
    control.value = value;
    this.controls.set(name, control);
    return control;
  }

  /** The words that the job shows. If names are typed, the job gets the addresses, and once the field is left it has them too. */
  drawShows(slot, at) {
    const said = make("output", {});
    const control = this.input(`shows ${at}`, editedShows(slot.shows), (typed) => this.takeShows(slot, readShows(typed), control, said),
      { size: "16", placeholder: "0 7, YA0 to YA60", onchange: () => { control.value = said.dataset.wrong ? control.value : editedShows(slot.shows); } });
    return make("span", { class: "field" }, labelled("Show the words from, to", control), said);
  }

  /** Takes the ranges that are typed into a control, and says by `said` which addresses they have. */
  async takeShows(slot, typed, control, said) {
    const asked = control.value;
    delete said.dataset.wrong;
    said.textContent = "";
    if (!haveNames(typed)) {
      slot.shows = typed;
      return;
    }
    said.dataset.wrong = "not yet";
    try {
      const shows = await this.addresses(slot, typed);
      if (control.value !== asked) return;
      delete said.dataset.wrong;
      slot.shows = shows;
      said.textContent = shows.map((show) => `SHOW ${show}`).join(", ");
      this.partChanged();
    } catch (error) {
      if (control.value === asked) said.textContent = `${error.message[0].toUpperCase()}${error.message.slice(1)}.`;
    }
  }

  /** The devices of a slot or of the pool, which is called `name`. */
  drawDevices(owner, at, name) {
    const free = this.freeNumber();
    const add = button("Add a device", () => this.addDevice(owner, at, free), { disabled: free === undefined, "aria-label": `Add a device to ${name}` });
    this.controls.set(`add ${at}`, add);
    return make("div", { class: "devices" }, ...owner.devices.map((device, index) => this.drawDevice(owner, at, device, index)), add);
  }

  /** The least number that no device of the job has, or undefined if there is none. */
  freeNumber() {
    const owners = [...this.job.slots, ...(this.job.pool ? [this.job.pool] : [])];
    const taken = new Set(owners.flatMap(({ devices }) => devices.map(({ number }) => number)));
    return Array.from({ length: MOST_DEVICES }, (_, number) => `${number}`).find((number) => !taken.has(number));
  }

  addDevice(owner, at, number) {
    owner.devices.push({ number, kind: at === POOL ? KINDS_OF_POOL[0] : "TR", label: "", media: [] });
    this.redraw(`device ${at} ${owner.devices.length - 1}`);
  }

  drawDevice(owner, at, device, index) {
    const kinds = new Set([...(at === POOL ? KINDS_OF_POOL : Object.keys(KINDS)), device.kind]);
    const kind = choice([...kinds].map((each) => [each, each in KINDS ? `${each}, ${KINDS[each]}` : each]), device.kind,
      () => this.changeKind(device, kind.value, `kind ${at} ${index}`));
    this.controls.set(`kind ${at} ${index}`, kind);
    const number = this.input(`device ${at} ${index}`, device.number, (value) => { device.number = value; }, { size: "3", inputmode: "numeric" });
    const named = this.input(`label ${at} ${index}`, device.label, (value) => { device.label = value; }, { size: "9" });
    const label = device.kind === "MT" || device.label ? [labelled("Label", named)] : [];
    const remove = button("Remove", () => this.remove(`device ${device.number}`, () => owner.devices.splice(index, 1), `add ${at}`),
      { "aria-label": `Remove device ${device.number}` });
    const fields = make("div", { class: "fields" }, labelled("Device", number), labelled("Kind", kind), ...label, remove);
    return make("fieldset", {}, make("legend", {}, `Device ${device.number}, ${device.kind}${device.label ? ` ${device.label}` : ""}`), fields, ...this.drawMedia(device, at, index));
  }

  /** Makes a device one of another kind. One that begins empty loses what is on it. */
  changeKind(device, kind, name) {
    const isEmptied = KINDS_OF_POOL.includes(kind);
    const isLoss = (isEmptied && device.media.length > 0) || (kind !== "MT" && (device.label !== "" || device.media.some((line) => line.startsWith("="))));
    const change = () => {
      device.kind = kind;
      device.label = kind === "MT" ? device.label || "TAPE" : "";
      device.media = isEmptied ? [] : readMedia(kind, device.media.map((line) => line.slice(1)).join("\n"));
    };
    if (isLoss) return this.remove(`what was on device ${device.number}`, change, name);
    change();
    return this.redraw(name);
  }

  /** What is on a device, unless it begins empty. */
  drawMedia(device, at, index) {
    if ((at === POOL || KINDS_OF_POOL.includes(device.kind)) && device.media.length === 0) return [];
    const what = { TR: "The characters on the tape", CR: "The cards, one to a line", MT: "The blocks, one to a line: + before each, or = if it has its mark" };
    const editor = new Editor({
      label: what[device.kind] ?? "What is on it", text: editedMedia(device), paint: () => [],
      onchange: (text) => { device.media = readMedia(device.kind, text); this.partChanged(); },
    });
    this.controls.set(`media ${at} ${index}`, editor);
    return [editor.element];
  }

  addPool(number) {
    this.job.pool = { devices: [] };
    this.addDevice(this.job.pool, POOL, number);
  }

  /** The pool, or the button that adds one. */
  drawPool() {
    const { pool } = this.job, free = this.freeNumber();
    const add = button("Add a pool", () => this.addPool(free), { disabled: free === undefined });
    const remove = button("Remove", () => this.remove("the pool", () => { this.job.pool = null; }, "add pool"), { "aria-label": "Remove the pool" });
    if (!pool) {
      this.controls.set("add pool", add);
      return add;
    }
    this.controls.set(POOL, remove);
    const heading = make("h3", { id: freshId("pool") }, "Pool");
    return make("section", { class: "slot", "aria-labelledby": heading.id }, heading, make("p", {}, "Punches and printers that all programs share."),
      make("div", { class: "fields" }, remove), this.drawDevices(pool, POOL, "the pool"));
  }

  /** The schedule, in a sentence; its lines are folded. */
  drawSchedule() {
    const heading = make("h3", { id: freshId("schedule") }, "Schedule"), said = make("summary", {}, saidOfSchedule(this.job.schedule));
    const editor = new Editor({ label: "The lines of the schedule", text: this.job.schedule, paint: () => [],
      onchange: (text) => { this.job.schedule = text; said.textContent = saidOfSchedule(text); this.partChanged(); } });
    this.controls.set("schedule", editor);
    const lines = make("details", { open: this.isScheduleOpen, ontoggle: () => { this.isScheduleOpen = lines.open; } }, said, editor.element);
    return make("section", { class: "slot schedule", "aria-labelledby": heading.id }, heading, lines);
  }

  /** Shows a fault where it is, with its sentence, a hint, a button that goes to it, and one that mends it if there is such a button. */
  showFault(fault, hint, mend) {
    this.forgetFault();
    if (this.isTooLong) return;
    const { control, place, line, column, end } = this.placeOf(fault);
    const where = line ? `Line ${line}, column ${column}: ` : "";
    const subject = fault.subject ? `: ${fault.subject.length > 60 ? `${fault.subject.slice(0, 57)}...` : fault.subject}` : "";
    const element = control instanceof Editor ? control.textarea : control;
    this.said.replaceChildren(`${where}${fault.name}${subject}. ${fault.said}${hint ? ` Hint: ${asSentence(hint)}` : ""} `,
      button("Go to it", () => this.goToFault()), ...(mend ? [" ", mend] : []));
    (control instanceof Editor ? control.element : control.closest(".fields")).after(this.said);
    const folded = this.said.closest("details");
    if (folded) folded.open = true;
    if (control instanceof Editor) control.mark(place, end);
    element.setAttribute("aria-invalid", "true");
    element.setAttribute("aria-describedby", this.said.id);
    this.faulty = { control, element, place };
    this.onfault(true);
  }

  /** Puts the caret at the fault that is shown. */
  goToFault() {
    const { control, place } = this.faulty;
    if (control instanceof Editor) control.goTo(place);
    else control.focus();
  }

  /** Where a fault is, by the line of the deck that is shown; undefined if the line of the text is shown. */
  whereIs({ of, slot, offset }) {
    const deck = of === "deck" && this.isByParts && this.job.slots.find(({ number }) => number === `${slot}`)?.deck;
    return deck ? `line ${lineAndColumn(deck, offset).line} of the deck in slot ${slot}` : undefined;
  }

  /** Marks the statements at which programs stopped, until the job is changed. */
  showStops(stops) {
    this.stops = stops.filter(({ kind, statement }) => statement && kind !== "ended");
    this.markStops();
  }

  markStops() {
    const marked = new Map();
    for (const { kind, slot, statement } of this.stops) {
      const found = this.placeOfStatement(slot, statement);
      if (found) marked.set(found.editor, [...marked.get(found.editor) ?? [], { kind, start: found.start, end: found.end }]);
    }
    for (const [editor, marks] of marked) editor.markStops(marks);
  }

  /** The editor that has a statement of the deck of a slot, and where it is in it; null if none has. */
  placeOfStatement(slot, { start, end }) {
    if (this.isTooLong) return null;
    if (this.isByParts) {
      const editor = this.controls.get(`deck ${this.job.slots.findIndex(({ number }) => number === `${slot}`)}`);
      return editor ? { editor, start, end } : null;
    }
    const job = readJob(this.text), at = job?.slots.findIndex(({ number }) => number === `${slot}`);
    if (!job || at < 0) return null;
    const placed = placedLines(job), first = placed.findIndex((line) => line.part === "deck" && line.slot === at) + 1;
    const before = placed.slice(0, first).reduce((sum, { text }) => sum + text.length + 1, 0);
    return { editor: this.whole, start: before + start, end: before + end };
  }

  /** Puts the caret at a statement at which a program stopped. Returns whether it is still marked. */
  goToStatement(slot, statement) {
    const found = this.stops.some((stop) => stop.slot === slot && stop.statement === statement) && this.placeOfStatement(slot, statement);
    if (found) found.editor.goTo(found.start);
    return Boolean(found);
  }

  /** The control that has a fault, and where the fault is in it. */
  placeOf(fault) {
    if (!this.isByParts) return this.placeInWhole(fault);
    if (fault.of === "deck") {
      const at = this.job.slots.findIndex(({ number }) => number === `${fault.slot}`), { deck } = this.job.slots[at], { offset } = fault;
      return { control: this.controls.get(`deck ${at}`), place: offset, ...lineAndColumn(deck, offset), end: endOfStatement(deck, offset) };
    }
    const { part, slot, device, line } = placedLines(this.job)[fault.line - 1] ?? { part: "schedule", line: linesOf(this.job.schedule).length };
    const field = /Label/.test(fault.name) ? "label" : fault.name === "PoolKind" ? "kind" : part;
    const names = [`${field} ${slot} ${device}`, `${part} ${slot} ${device}`, `${part} ${slot}`, part, `store ${slot}`, "schedule"];
    const control = this.controls.get(names.find((name) => this.controls.has(name)));
    if (!(control instanceof Editor)) return { control };
    const isShort = part === "media" && this.ownerAt(slot).devices[device].kind !== "MT";
    return this.placeInLine(control, line + 1, Math.max(1, fault.column - (isShort ? 1 : 0)));
  }

  /** The slot with this index, or the pool. */
  ownerAt(at) {
    return at === POOL ? this.job.pool : this.job.slots[at];
  }

  placeInWhole(fault) {
    const found = this.placeInLine(this.whole, fault.line, fault.column);
    return fault.of !== "deck" ? found : { ...found, end: endOfStatement(this.text, found.place) };
  }

  placeInLine(control, line, column) {
    const lines = control.text.split("\n");
    const place = lines.slice(0, line - 1).reduce((sum, text) => sum + text.length + 1, 0) + column - 1;
    const end = place + ((lines[line - 1] ?? "").slice(column - 1).split(" ")[0] ?? "").length;
    return { control, place, line, column, end };
  }

  forgetFault() {
    this.said.remove();
    this.onfault(false);
    if (!this.faulty) return;
    const { control, element } = this.faulty;
    if (control instanceof Editor) control.unmark();
    element.removeAttribute("aria-invalid");
    element.removeAttribute("aria-describedby");
    this.faulty = null;
  }
}

/** The end of the statement at an offset of a text, or of its line if that comes first. */
function endOfStatement(text, place) {
  const length = text.slice(place).search(/;|\n/);
  return length > 0 ? place + length : place;
}
