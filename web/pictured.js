// The picture of a run on the page: one zooms and pans in it, goes through it by keys, saves it, and finds beside it to what the calls of the run went.

import { button, make, table } from "./dom.js";
import { saveFile } from "./link.js";
import { HALF, View, drawn, fileOf } from "./picture.js";
import { toldMeasures } from "./spent.js";

/** How much closer a step is, the fewest calls that are shown, how much of the picture a step to a side is, and how far a pointer may move while it clicks. */
const CLOSER = 2, FEWEST_CALLS = 10, TO_A_SIDE = 0.25, STILL = 4;

/** How many times as large as the picture its PNG is. */
const SHARPNESS = 2;

/** What the keys of a picture do. */
const KEYS_OF_PICTURE = {
  "+": (it) => it.zoom(1 / CLOSER), "-": (it) => it.zoom(CLOSER), 0: (it) => it.show(0, it.calls),
  "[": (it) => it.pan(-TO_A_SIDE), "]": (it) => it.pan(TO_A_SIDE),
  ArrowRight: (it) => it.step(0, 1), ArrowLeft: (it) => it.step(0, -1), ArrowDown: (it) => it.step(1, 0), ArrowUp: (it) => it.step(-1, 0),
  Enter: (it) => it.goTo(),
};

/** A picture of a run. */
export class Pictured {
  /** The picture of a timeline of this name, with room for so many calls; at first it shows the first `shown` of them. `choose` is called with a call that is clicked. */
  constructor(timeline, { name, choose = null, calls = timeline.total, shown = calls, stops = null, size = HALF }) {
    Object.assign(this, { timeline, name, choose, stops, size, calls: Math.max(1, calls), marked: -1, row: 0, bar: -1 });
    this.frame = make("div", { tabindex: "0", role: "group", "aria-label": `Picture: ${name.toLowerCase()}`, onkeydown: (event) => this.press(event), onwheel: (event) => this.turn(event) });
    this.said = make("p", { class: "told", role: "status" });
    this.view = new View(0, Math.max(1, shown));
    this.attend();
    this.draw();
    this.element = make("div", { class: "timeline" }, this.frame);
  }

  /** The picture with buttons, and a line that says what is at the pointer or at the place that the keys have reached. */
  withButtons() {
    const go = (text, key, title) => button(text, () => KEYS_OF_PICTURE[key](this), { title });
    const bar = make("div", { class: "bar", role: "group", "aria-label": "What the picture shows" },
      go("Closer", "+", "Key +"), go("Further", "-", "Key -"), go("Back", "[", "Key ["), go("On", "]", "Key ]"), go("All calls", "0", "Key 0"),
      button("Save as SVG", () => this.saveSvg()), button("Save as PNG", () => this.savePng()));
    this.element.append(this.said, bar);
    return this;
  }

  draw() {
    const { element, line, sheet, width } = drawn(this.timeline, this.view, this.size, this.stops, this.name);
    Object.assign(this, { line, sheet, width });
    this.picture = element;
    this.frame.replaceChildren(element);
    this.mark(this.marked);
    Object.assign(this, { row: Math.min(this.row, sheet.rows.length - 1), bar: -1 });
  }

  /** Shows so many calls from a first one on, as far as there are as many. */
  show(first, calls) {
    const shown = Math.round(Math.min(this.calls, Math.max(Math.min(FEWEST_CALLS, this.calls), calls)));
    this.view = new View(Math.round(Math.max(0, Math.min(first, this.calls - shown))), shown);
    this.draw();
    const { first: before, end } = this.view;
    this.said.textContent = shown < this.calls ? `Calls ${(before + 1).toLocaleString("en")} to ${end.toLocaleString("en")} of ${this.calls.toLocaleString("en")}.` : "All calls.";
  }

  /** Shows so many times as many calls; the one at this share of the picture stays where it is. */
  zoom(times, at = this.placeOfMark()) {
    const { first, calls } = this.view, shown = Math.min(this.calls, Math.max(FEWEST_CALLS, calls * times));
    this.show(first + at * (calls - shown), shown);
  }

  /** Where the marked call is, as a share of the picture; the middle if it isn't seen. */
  placeOfMark() {
    const at = (this.marked - this.view.first) / this.view.calls;
    return at >= 0 && at <= 1 ? at : 0.5;
  }

  pan(share) {
    this.show(this.view.first + share * this.view.calls, this.view.calls);
  }

  /** Marks a call. If it isn't seen, the picture moves to it. */
  mark(call) {
    this.marked = call;
    if (call >= 0 && !this.view.has(call)) {
      const { calls } = this.view;
      this.view = new View(Math.max(0, Math.min(Math.round(call - calls / 2), this.calls - calls)), calls);
      this.draw();
      return;
    }
    this.line.classList.toggle("hidden", call < 0);
    const x = this.sheet.placeOf(Math.max(0, call));
    this.line.setAttribute("x1", x);
    this.line.setAttribute("x2", x);
  }

  /** The share of the picture at which a pointer is; below 0 if it is at the names. */
  shareAt(event) {
    const { left, width } = this.picture.getBoundingClientRect();
    return ((event.clientX - left) * this.width / width - this.size.left) / this.size.width;
  }

  /** The call at which a pointer is. */
  callAt(share) {
    const { sheet, view } = this, column = share * view.number, whole = Math.min(view.number - 1, Math.floor(column)), start = sheet.view.start(whole);
    return Math.round(Math.min(view.end, start + (column - whole) * (view.start(whole + 1) - start)));
  }

  attend() {
    let from = null, hasMoved = false;
    this.frame.addEventListener("pointerdown", (event) => { [from, hasMoved] = [{ x: event.clientX, first: this.view.first }, false]; });
    this.frame.addEventListener("pointermove", (event) => {
      if (!event.buttons) [from, this.said.textContent] = [null, event.target.closest?.(".bar")?.querySelector("title").textContent ?? this.said.textContent];
      if (!from || (!hasMoved && Math.abs(event.clientX - from.x) < STILL) || this.view.calls === this.calls) return;
      hasMoved = true;
      const { width } = this.picture.getBoundingClientRect();
      this.show(from.first - (event.clientX - from.x) * this.width / width / this.size.width * this.view.calls, this.view.calls);
    });
    this.frame.addEventListener("click", (event) => {
      const share = this.shareAt(event);
      if (share >= 0 && !hasMoved) this.choose?.(this.callAt(Math.min(1, share)));
      hasMoved = false;
    });
  }

  /** Zooms by the wheel with Ctrl, and pans by a wheel that turns to a side. */
  turn(event) {
    const isAside = Math.abs(event.deltaX) > Math.abs(event.deltaY);
    if (!event.ctrlKey && !isAside) return;
    event.preventDefault();
    if (isAside) this.pan(Math.sign(event.deltaX) * TO_A_SIDE / 4);
    else this.zoom(CLOSER ** (Math.sign(event.deltaY) / 2), Math.min(1, Math.max(0, this.shareAt(event))));
  }

  press(event) {
    const act = event.ctrlKey || event.altKey || event.metaKey ? undefined : KEYS_OF_PICTURE[event.key];
    if (!act) return;
    event.preventDefault();
    event.stopPropagation();
    act(this);
  }

  /** Goes to another row, or to another bar of the row, and says what is there. */
  step(rows, bars) {
    const { sheet } = this, call = sheet.rows[this.row].bars[this.bar]?.call ?? this.view.first;
    this.row = Math.max(0, Math.min(this.row + rows, sheet.rows.length - 1));
    const { name, after, bars: all } = sheet.rows[this.row];
    if (rows) this.bar = Math.max(0, all.findLastIndex((bar) => bar.call <= call));
    else this.bar = Math.max(0, Math.min(this.bar + bars, all.length - 1));
    for (const { element } of sheet.rows.flatMap((row) => row.bars)) element.classList.remove("at");
    all[this.bar]?.element.classList.add("at");
    this.said.textContent = all[this.bar]?.said ?? `${name}: ${after}. Nothing of it is shown here.`;
  }

  /** Goes to the call at which the bar begins that the keys have reached. */
  goTo() {
    const bar = this.sheet.rows[this.row].bars[this.bar];
    if (bar) this.choose?.(bar.call);
  }

  saveSvg() {
    saveFile("kdf9.svg", fileOf(this.timeline, this.view, this.stops).text, "image/svg+xml");
  }

  async savePng() {
    const { text, width, height } = fileOf(this.timeline, this.view, this.stops), image = new Image();
    image.src = `data:image/svg+xml,${encodeURIComponent(text)}`;
    await image.decode();
    const canvas = make("canvas", { width: SHARPNESS * width, height: SHARPNESS * height });
    canvas.getContext("2d").drawImage(image, 0, 0, canvas.width, canvas.height);
    canvas.toBlob((blob) => saveFile("kdf9.png", blob, "image/png"));
  }
}

const shareOf = (value, whole) => (whole === null ? "" : `${(100 * value / Math.max(1, whole)).toFixed(1)} %`);
const written = (value) => value.toLocaleString("en", { maximumFractionDigits: 4 });

/** The rows of measures: each with its text, its sentence, and its value with the whole of which it is a share. */
const rowsOfMeasures = (timeline) => new Map(toldMeasures(timeline).map(({ row, says, value, whole }) => [row, { says, value, whole }]));

/** The table of what the calls of a run went to, with a button that copies it as CSV. If there is another timeline, each row has both runs and what changed. */
export function tableOfSums(timeline, { other = null, say }) {
  const now = rowsOfMeasures(timeline), before = other && rowsOfMeasures(other), nothing = { value: 0, whole: null }, cells = ({ value, whole }) => [written(value), shareOf(value, whole)];
  const rows = [...new Set([...before?.keys() ?? [], ...now.keys()])].map((name) => {
    const mine = now.get(name) ?? nothing, its = before?.get(name) ?? nothing, change = mine.value - its.value, title = (mine.says ?? its.says).replaceAll("`", "");
    return [make("span", { title }, name), ...(other ? [...cells(its), ...cells(mine), `${change > 0 ? "+" : ""}${written(change)}`] : cells(mine))];
  });
  const heads = other ? ["", "before", "share", "now", "share", "change"] : ["", "number", "share"], texts = rows.map(([name, ...rest]) => [name.textContent, ...rest]);
  const csv = [heads, ...texts].map((line) => line.map((cell) => (/^[-+]?[\d,.]+$/.test(cell) ? cell.replaceAll(",", "") : `"${cell}"`)).join(",")).join("\n");
  const copy = button("Copy the table", () => copied(`${csv}\n`).then((isDone) => say(isDone ? "The table is copied, as CSV." : "The browser doesn't let the page copy.", !isDone)));
  return make("details", { class: "sums", open: true }, make("summary", {}, "To what the calls went"), table(other ? "The run before, and this run" : "This run", heads, rows), copy);
}

/** Copies a text. Returns whether the browser let it. */
async function copied(text) {
  try {
    await navigator.clipboard.writeText(text);
    return true;
  } catch {
    const area = make("textarea", { "aria-hidden": "true" });
    area.value = text;
    document.body.append(area);
    area.select();
    const isDone = document.execCommand("copy");
    area.remove();
    return isDone;
  }
}
