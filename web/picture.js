// The picture of a run over time, of all its calls or of some of them. What it looks like and says stands in tables/picture.json, as for the tool `picture`.

import { many } from "./report.js";
import { PICTURE, worded } from "./tables.js";
import { firstAfter } from "./timeline.js";

const NAMESPACE = "http://www.w3.org/2000/svg";
const { sizes: SIZES, slots: SLOTS, shades: SHADES, says: SAYS, legend: LEGEND, signs: SHAPES } = PICTURE;

/** The sizes of a picture that has half a window, of one that has a window, and of one that is saved. */
export const HALF = { left: 166, width: 444, right: 30, key: 300 };
export const WHOLE = { left: 166, width: 900, right: 14, key: 350 };
const SAVED = SIZES;

/** The least pixels between two numbers on the axis. */
const APART = 73;

/** An element of a picture. */
export function shape(name, attributes, ...children) {
  const element = document.createElementNS(NAMESPACE, name);
  for (const [key, value] of Object.entries(attributes)) element.setAttribute(key, value);
  element.append(...children);
  return element;
}

/** Some calls of a run, in columns of as many calls each; the last may have fewer. */
export class View {
  constructor(first, calls) {
    this.length = Math.max(1, Math.ceil(calls / SIZES.columns));
    this.number = Math.max(1, Math.ceil(calls / this.length));
    Object.assign(this, { first, calls, end: first + calls });
  }

  /** How many calls are before a column. */
  start(column) {
    return Math.min(this.end, this.first + column * this.length);
  }

  /** The column of what happens after so many calls. */
  at(call) {
    return Math.min(this.number - 1, Math.floor((call - this.first) / this.length));
  }

  /** Whether something after so many calls is to be seen. */
  has(call) {
    return this.first <= call && call <= this.end;
  }

  when(column, end) {
    const [first, last] = [this.start(column) + 1, this.start(end)];
    return worded(SAYS[first < last ? "several" : "one"], { first, last });
  }
}

/** What goes on in a row: for each column, how many of its calls went to what, and what happened in it. */
function columnsOf(view, spans, keyOf, events) {
  const columns = Array.from({ length: view.number }, () => ({ calls: new Map(), events: [] }));
  for (let at = firstAfter(spans, view.first); at < spans.length && spans[at].start < view.end; at += 1) {
    const key = keyOf(spans[at]), end = Math.min(spans[at].end, view.end);
    for (let from = Math.max(spans[at].start, view.first); from < end;) {
      const column = view.at(from), until = Math.min(end, view.start(column + 1)), { calls } = columns[column];
      calls.set(key, (calls.get(key) ?? 0) + until - from);
      from = until;
    }
  }
  for (const event of events) {
    if (view.has(event.call)) columns[view.at(event.call)].events.push(event);
  }
  return columns;
}

/** The stretches of a row in which something goes on, with neighbours that are alike put together; events are those of the first column. */
function stretchesOf(view, spans, keyOf, events = []) {
  const columns = columnsOf(view, spans, keyOf, events), named = columns.map(({ calls }) => [...calls].sort().join()), found = [];
  for (let first = 0, at = 1; at <= columns.length; at += 1) {
    if (at < columns.length && !columns[at].events.length && named[at] === named[first]) continue;
    const calls = new Map([...columns[first].calls].map(([key, number]) => [key, number * (at - first)]));
    if (calls.size || columns[first].events.length) found.push({ first, end: at, calls, events: columns[first].events });
    first = at;
  }
  return found;
}

/** The distance of the numbers of the axis: 1, 2 or 5 with zeros, so that there are at most so many. */
function distanceOf(calls, most) {
  for (let power = 1; ; power *= 10) {
    const found = [power, 2 * power, 5 * power].find((step) => calls <= most * step);
    if (found) return found;
  }
}

const keyOfProgram = ({ what, hold }) => (hold ? `${hold.by} ${hold[hold.by]}` : what);
const keyOfSlot = ({ slot }) => slot;
const sumOf = (numbers) => numbers.reduce((sum, number) => sum + number, 0);

/** A picture while it is drawn. */
class Sheet {
  constructor(timeline, view, size, stops) {
    Object.assign(this, { timeline, view, size, stops, y: 0, next: SIZES.top, scale: size.width / view.number, back: [], front: [], rows: [] });
    this.text(8, 20, this.title, { "font-size": 16 });
    for (const slot of timeline.slots.keys()) this.program(slot);
    for (const device of timeline.devices.keys()) this.device(device);
    this.idle();
    this.clock();
    this.exchanges();
    this.axis();
    this.legend();
  }

  get title() {
    const { total, facts, transfers } = this.timeline;
    return worded(SAYS.run, { calls: many(total, "call"), idle: facts.idle, transfers: many(transfers, "transfer") });
  }

  x(column) {
    return this.size.left + column * this.scale;
  }

  text(x, y, words, attributes = {}) {
    this.front.push(shape("text", { x, y, ...attributes }, words));
  }

  /** Begins a row, with the text before it, and the one after it if there is room. */
  row(height, before, after) {
    [this.y, this.next] = [this.next, this.next + height + SIZES.gap];
    this.rows.push({ name: before, after, bars: [] });
    this.text(8, this.y + height / 2 + 5, before);
    if (this.size.right > 100) this.text(this.size.left + this.size.width + 22, this.y + height / 2 + 5, after);
  }

  /** Shapes of a row that say what they are; they begin at a column. */
  bar(said, column, shapes) {
    const element = shape("g", { class: "bar" }, shape("title", {}, said), ...shapes);
    this.front.push(element);
    this.rows.at(-1).bars.push({ said, element, call: this.view.start(column), column });
  }

  /** Boxes one on the other from the bottom of the row, each as high as its share of the calls. */
  stack({ first, end }, height, parts) {
    const calls = this.view.start(end) - this.view.start(first), left = Math.round(this.x(first)), width = Math.max(1, Math.round(this.x(end)) - left);
    let bottom = this.y + height;
    return parts.filter(([number]) => number).map(([number, fill, name]) => {
      const part = Math.max(SIZES.least_part, height * number / calls);
      bottom = Math.max(this.y, bottom - part);
      return shape("rect", { x: left, y: bottom.toFixed(1), width, height: part.toFixed(1), fill, class: name });
    });
  }

  /** The digit of a slot in a bar, if there is room for it. */
  digit(slot, { first, end }, height, isTint = false) {
    if (this.x(end) - this.x(first) < SIZES.bar_of_digit) return [];
    const at = { x: ((this.x(first) + this.x(end)) / 2).toFixed(1), y: this.y + height / 2 + 5, "text-anchor": "middle" };
    return [shape("text", { ...at, fill: isTint ? "#000" : SLOTS[slot].ink, class: `digit of-${isTint ? "lent" : "slot"}` }, `${slot}`)];
  }

  sign(name, x, y) {
    const { path, other, ...look } = SHAPES[name];
    return shape("path", { d: `M${x.toFixed(1)} ${y}${path}`, ...look, class: `sign ${name}` });
  }

  program(slot) {
    const { timeline, view } = this, name = worded(SAYS.slot, { slot, state: timeline.states.get(slot).state });
    this.row(SIZES.slot, name, timeline.saidOfSums(slot));
    const ends = timeline.ends.get(slot), last = ends.map(({ call }) => ({ call: Math.max(0, call - 1) }));
    for (const stretch of stretchesOf(view, timeline.slots.get(slot), keyOfProgram, last)) {
      if (stretch.calls.size) this.programBar(slot, stretch);
    }
    for (const { call, failure } of ends) {
      if (view.has(call)) this.end(slot, call, failure);
    }
    if (this.stops?.slot === slot) this.triangles();
  }

  programBar(slot, stretch) {
    const { calls, first, end } = stretch, held = [...calls].filter(([what]) => !["ran", "ready"].includes(what)), ran = calls.get("ran") ?? 0;
    const waits = sumOf(held.filter(([key]) => key.startsWith("pool")).map(([, number]) => number));
    const parts = [[ran, SLOTS[slot].shade, `slot-${slot}`], [sumOf(held.map(([, number]) => number)) - waits, SHADES.held, "held"], [waits, SHADES.waits, "waits"]];
    const boxes = this.stack(stretch, SIZES.slot, parts), left = Math.round(this.x(first));
    const line = { x: left, y: this.y + SIZES.slot - SIZES.ready, width: Math.max(1, Math.round(this.x(end)) - left), height: SIZES.ready, fill: SHADES.ready, class: "ready" };
    const digit = 2 * ran > sumOf([...calls.values()]) ? this.digit(slot, stretch, SIZES.slot) : [];
    const said = [
      ...(ran ? [worded(SAYS.obeyed, { orders: many(ran, "order") })] : []), ...held.sort(([, one], [, other]) => other - one).map((each) => this.saidOfHold(...each)),
      ...(calls.has("ready") ? [worded(SAYS.ready, { calls: many(calls.get("ready"), "call") })] : []),
    ];
    this.bar(`slot ${slot}, ${this.view.when(first, end)}: ${said.join("; ")}`, first, [...(boxes.length ? boxes : [shape("rect", line)]), ...digit]);
  }

  saidOfHold(key, calls) {
    const [by, number] = key.split(" ");
    return worded(SAYS[`by_${by}`], { calls: many(calls, "call"), device: this.nameOf(Number(number)), group: number, kind: number });
  }

  /** A device by its number and its kind. */
  nameOf(device) {
    return worded(SAYS.device, { device, kind: this.timeline.kinds.get(device) });
  }

  end(slot, call, failure) {
    const column = this.view.at(Math.max(this.view.first, call - 1)), x = this.x(column + 1) + 2;
    const sign = failure ? this.sign("failed", x, this.y + 9) : shape("rect", { x, y: this.y + 10, width: 10, height: 10, fill: "#000", class: "sign ended" });
    this.bar(`slot ${slot} ${worded(SAYS[failure ? "failed" : "ended"], { call, failure })}`, column, [sign]);
  }

  /** Triangles for the stops of a watch. */
  triangles() {
    const places = new Set(this.stops.calls.filter((call) => this.view.has(call)).map((call) => Math.round(this.placeOf(call))));
    this.front.push(...[...places].map((x) => shape("path", { d: `M${x} ${this.y + SIZES.slot}l3.5 6h-7z`, class: "stop" })));
  }

  device(device) {
    const { timeline, view } = this, isPooled = timeline.pool.has(device), spans = timeline.devices.get(device), moves = timeline.moves.get(device) ?? [];
    const name = worded(SAYS[isPooled ? "pooled" : "device"], { device, kind: timeline.kinds.get(device) });
    this.row(SIZES.device, name, timeline.saidOfDevice(device));
    if (isPooled) this.lendings(name, timeline.lendings.get(device), spans);
    for (const stretch of stretchesOf(view, spans, keyOfSlot, spans.map(({ start, slot }) => ({ call: start, slot })))) {
      const { calls, events, first, end } = stretch, slots = [...calls.keys()].sort();
      const boxes = this.stack(stretch, SIZES.device, slots.map((slot) => [calls.get(slot), SLOTS[slot].shade, `slot-${slot}`]));
      const digit = slots.length === 1 ? this.digit(slots[0], stretch, SIZES.device) : [];
      const begins = events.length && (spans.length <= SIZES.most_signs || !boxes.length) ? [shape("path", { d: `M${this.x(first).toFixed(1)} ${this.y - 2}v${SIZES.device + 4}`, stroke: "#000", class: "sign" })] : [];
      const said = [...slots.map((slot) => worded(SAYS.transfer, { slot, calls: many(calls.get(slot), "call") })), ...(events.length ? [worded(SAYS.begun, { transfers: many(events.length, "transfer") })] : [])];
      this.bar(`${name}, ${view.when(first, calls.size ? end : first + 1)}: ${said.join("; ")}`, first, [...boxes, ...digit, ...begins]);
    }
    this.signs(moves, moves.length <= SIZES.most_signs ? ["move", -3, 0] : ["small_move", 0, 0],
      (events) => `${name}, ${worded(SAYS.moved, { words: many(sumOf(events.map(({ words }) => words)), "word"), moves: many(events.length, "MOVE") })}`);
  }

  /** To whom a device of the pool is lent, in a light shade below its transfers. */
  lendings(name, spans, flights) {
    for (const stretch of stretchesOf(this.view, spans, keyOfSlot)) {
      const { calls, first, end } = stretch, slots = [...calls.keys()].sort(), until = this.view.start(end), flight = flights[firstAfter(flights, this.view.start(first))];
      const boxes = this.stack(stretch, SIZES.device, slots.map((slot) => [calls.get(slot), SLOTS[slot].tint, `lent slot-${slot}`]));
      const digit = slots.length === 1 && !(flight?.start < until) ? this.digit(slots[0], stretch, SIZES.device, true) : [];
      this.bar(`${name}, ${this.view.when(first, end)}: ${slots.map((slot) => worded(SAYS.lent, { slot, calls: many(calls.get(slot), "call") })).join("; ")}`, first, [...boxes, ...digit]);
    }
  }

  /** A sign for each column in which some of these events happened. `saidOf` says what they are, after the name of their row and a comma. */
  signs(events, [name, left, top], saidOf) {
    for (const { first, events: here } of stretchesOf(this.view, [], keyOfSlot, events)) {
      const [row, said] = saidOf(here).split(/, (.*)/s), when = this.view.when(first, first + 1);
      this.bar(row ? `${row}, ${when}: ${said}` : `${when}: ${said}`, first, [this.sign(name, this.x(first) + left, this.y + top)]);
    }
  }

  idle() {
    const { timeline } = this;
    this.row(SIZES.device, "idle", many(timeline.facts.idle, "call"));
    for (const stretch of stretchesOf(this.view, timeline.idle, () => "idle")) {
      const calls = stretch.calls.get("idle");
      const said = `${this.view.when(stretch.first, stretch.end)}: ${worded(SAYS.idle, { calls: many(calls, "call") })}`;
      this.bar(said, stretch.first, this.stack(stretch, SIZES.device, [[calls, SHADES.idle, "idle"]]));
    }
  }

  clock() {
    const { clock } = this.timeline, span = (times) => (times.length > 1 ? `${times[0].time}, and then up to ${times.at(-1).time}` : `${times[0].time}`);
    if (!clock.length) return;
    this.row(SIZES.device, "clock", `set ${many(clock.length, "time")}`);
    this.signs(clock, ["clock", 0, 2], (times) => `, ${worded(SAYS.clock, { times: span(times) })}`);
  }

  exchanges() {
    const { swaps } = this.timeline, named = ({ slots: [one, other] }) => `SWAP ${one} ${other}`;
    if (!swaps.length) return;
    this.row(SIZES.device, "priorities", this.timeline.saidOfExchanges);
    this.signs(swaps, ["exchange", -4, 14], (here) => `, ${named(here[0])}${here.length > 1 ? ` to ${named(here.at(-1))}` : ""}; ${worded(SAYS.exchanged, { slots: here.at(-1).after.join(", ") })}`);
    for (const { element } of this.rows.at(-1).bars) {
      const path = element.querySelector("path"), [x] = /[-\d.]+/.exec(path.getAttribute("d"));
      element.append(shape("path", { d: `M${Number(x) + 8} ${this.y + 2}${SHAPES.exchange.other}`, fill: "none", stroke: "#000", class: "sign" }));
    }
  }

  placeOf(call) {
    const column = Math.min(this.view.number - 1, Math.floor((call - this.view.first) / this.view.length)), start = this.view.start(column);
    return this.x(column + (call - start) / Math.max(1, this.view.start(column + 1) - start));
  }

  /** The calls at the bottom, with lines through all rows in the background. */
  axis() {
    const { view } = this, step = distanceOf(view.calls, Math.floor(this.size.width / APART));
    this.y = this.next;
    for (let call = Math.ceil(view.first / step) * step; call <= view.end; call += step) {
      const x = this.placeOf(call).toFixed(1);
      this.back.push(shape("path", { d: `M${x} ${SIZES.top - 6}V${this.y + 4}`, stroke: SHADES.axis, class: "axis" }));
      this.text(x, this.y + 18, call.toLocaleString("en"), { "text-anchor": "middle" });
    }
    this.text(8, this.y + 18, "calls made");
    this.bottom = this.y + 4;
    this.y += 44;
  }

  /** What the shades and signs mean that are in the picture. */
  legend() {
    const { timeline } = this, box = (fill, name) => shape("rect", { width: 22, height: 12, fill, class: name });
    const holders = [...new Set([...timeline.lendings.values()].flat().map(({ slot }) => slot))].sort();
    const keys = [
      ...[...timeline.slots.keys()].map((slot) => [box(SLOTS[slot].shade, `slot-${slot}`), worded(LEGEND.slot, { slot })]),
      ...holders.map((slot) => [box(SLOTS[slot].tint, `lent slot-${slot}`), worded(LEGEND.lent, { slot })]),
      ...(timeline.pool.size ? [[box(SHADES.waits, "waits"), LEGEND.waits]] : []), [box(SHADES.held, "held"), LEGEND.held], [box(SHADES.idle, "idle"), LEGEND.idle],
      [shape("rect", { width: 22, height: SIZES.ready, y: 9, fill: SHADES.ready, class: "ready" }), LEGEND.ready],
      [shape("path", { d: "M11 0v13", stroke: "#000", class: "sign" }), LEGEND.begun], [this.sign("move", 8, 4), LEGEND.move],
      [shape("rect", { x: 6, y: 1, width: 10, height: 10, fill: "#000", class: "sign ended" }), LEGEND.ended], [this.sign("failed", 5, 0), LEGEND.failed], [this.sign("clock", 11, 0), LEGEND.clock],
      ...(timeline.swaps.length ? [[this.sign("exchange", 7, 12), LEGEND.exchange]] : []), ...(this.stops ? [[shape("path", { d: "M11 2l3.5 6h-7z", class: "key-of-stop" }), "a stop of the watch"]] : []),
    ];
    const inRow = Math.max(1, Math.floor((this.size.left + this.size.width + this.size.right) / this.size.key));
    keys.forEach(([drawn, words], at) => {
      const x = 8 + this.size.key * (at % inRow), y = this.y + SIZES.line * Math.floor(at / inRow);
      this.front.push(shape("g", { transform: `translate(${x} ${y})` }, drawn));
      this.text(x + 30, y + 11, words);
    });
    this.y += SIZES.line * Math.ceil(keys.length / inRow);
    if (this.view.length === 1) return;
    this.text(8, this.y + 12, worded(LEGEND.columns, { calls: this.view.length.toLocaleString("en") }));
    this.y += SIZES.line;
  }

  /** The whole picture in words, for those who can't see it. */
  get description() {
    return `${this.rows.map(({ name, after }) => `${name}: ${after}`).join("; ")}.`;
  }
}

/** A picture of some calls of a run: the element, and what is needed to find one's way in it: its rows with their bars, and the places of calls. */
export function drawn(timeline, view, size, stops = null, name = "") {
  const sheet = new Sheet(timeline, view, size, stops), [width, height] = [size.left + size.width + size.right, sheet.y + 10];
  const line = shape("line", { y1: SIZES.top - 6, y2: sheet.bottom, class: "now" });
  const element = shape("svg", { viewBox: `0 0 ${width} ${height}`, "font-family": "sans-serif", "font-size": 14, role: "img", "aria-label": `${name}${name && ": "}${sheet.title}. ${sheet.description}` },
    shape("rect", { width: "100%", height: "100%", fill: "#fff", class: "ground" }), ...sheet.back, ...sheet.front, line);
  return { element, line, sheet, width, height };
}

/** A picture of some calls of a run as the text of a file, with the size that it has there. */
export function fileOf(timeline, view, stops) {
  const { element, line, sheet, width, height } = drawn(timeline, view, SAVED, stops), parsed = new DOMParser();
  line.remove();
  for (const [key, value] of [["width", width], ["height", height]]) element.setAttribute(key, value);
  const patterns = Object.values(PICTURE.patterns).map((text) => parsed.parseFromString(text.replace("<pattern", `<pattern xmlns="${NAMESPACE}"`), "image/svg+xml").documentElement);
  element.prepend(shape("title", {}, sheet.title), shape("desc", {}, sheet.description), shape("defs", {}, ...patterns));
  return { text: new XMLSerializer().serializeToString(element), width, height };
}
