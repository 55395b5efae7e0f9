// The theorem, to see: each program of a run beside its lone run, or beside the run before. All that is shown is from the machine's own reports.

import { aligned } from "./aligned.js";
import { make, table } from "./dom.js";
import { linesOf } from "./job.js";
import { callsOfOrders, saidOf } from "./journal.js";
import { WHOLE } from "./picture.js";
import { Pictured } from "./pictured.js";
import { many, numberOf } from "./report.js";
import { Alone, Shared, Whole, compare } from "./same.js";
import { Timeline } from "./timeline.js";

const THIS_RUN = "in this run", RUN_BEFORE = "in the run before";
const NOT_BEFORE = "not in the run before, since its deck, its store, its devices, its line SERVICE or the pool is another";

// How many words of a program, and lines of a journal or a schedule, are shown at most.
const MOST_WORDS = 60, MOST_LINES = 300;
const DIFFERS = "≠ ";

export class Theorem {
  constructor(element, { ask, say }) {
    Object.assign(this, { element, ask, say, last: null, before: null });
  }

  /** The last run, with its job, its report and the layouts of its decks. The one that was the last is now the one before. */
  take(run) {
    this.before = this.last;
    this.last = run;
  }

  clear() {
    this.element.replaceChildren();
  }

  /** Shows each program of the last run beside its lone run. */
  async withAlone() {
    const whole = await Whole.of(this.ask, this.last.text, THIS_RUN);
    const found = [];
    for (const { slot } of whole.facts.programs) {
      const shared = new Shared(whole, slot);
      found.push({ slot, name: `Program ${slot}`, ...await compare(shared, new Alone(shared)) });
    }
    this.show("Here is each program of this run beside its lone run.", whole, found);
  }

  /** Shows the programs of the last run beside those of the run before. `said` is what is said of the two runs. */
  async withBefore(said = "Here is this run beside the run before.") {
    const [whole, other] = [await Whole.of(this.ask, this.last.text, THIS_RUN), await Whole.of(this.ask, this.before.text, RUN_BEFORE)];
    const found = [];
    for (const { slot } of whole.facts.programs) {
      const like = other.like(whole, slot);
      const name = like === undefined || like === slot ? `Program ${slot}` : `Program ${slot}, which was program ${like} in the run before`;
      const compared = like === undefined ? { said: NOT_BEFORE, isDue: true } : await compare(new Shared(whole, slot), new Shared(other, like));
      found.push({ slot, name, changes: like === undefined ? null : changesOf(whole, slot, other, like), ...compared, isTurned: true });
    }
    this.show(said, whole, found, ...drawRuns(whole, other));
  }

  /** Shows what is said of a run, then `more`, and then what was found of each of its programs. */
  show(said, whole, found, ...more) {
    const isDue = found.every((each) => each.isDue), verdicts = found.map((each) => `${each.name}: ${each.said}.`);
    const wrong = "This isn't as the theorem says: the machine or this page has a bug.";
    this.element.replaceChildren(make("p", { class: isDue ? "said" : "fault" }, isDue ? said : `▸ ${wrong}`), ...more,
      make("div", { class: "programs" }, ...found.map((each) => this.drawProgram(whole, each))));
    this.say([isDue ? said : wrong, ...verdicts].join(" "), !isDue);
  }

  drawProgram(whole, { slot, name, said, isDue, changes, ...found }) {
    const verdict = `${isDue ? "" : "▸ "}${said[0].toUpperCase()}${said.slice(1)}.`;
    const parts = found.lines ? this.drawSections(whole.slot(slot), { ...found, changes }) : [];
    return make("section", { class: `slot ${isDue ? "" : "fault"}`, "aria-label": name },
      make("h3", {}, name), make("p", { class: "verdict" }, make("strong", {}, verdict)), ...parts);
  }

  /** The sections of a program in two worlds, side by side. Of its words, those are shown that have names or that the job shows, and all that differ. */
  drawSections({ number, shows }, { orders, keys, differing, names, lines, isTurned, changes }) {
    const layout = this.last.layouts.get(Number(number)), ranges = shows.map((show) => show.split(" ").map(Number));
    const inTurn = (both) => (isTurned ? both.toReversed() : both), differ = new Set(differing), isWord = (key) => key.startsWith("WORD ");
    const isShown = (key) => {
      const address = Number(key.slice(5));
      return differ.has(key) || ranges.some(([first, last]) => first <= address && address <= last) || !/^E\d/.test(layout?.nameOf(address) ?? "E0");
    };
    const words = keys.filter(isWord), shown = new Set(words.filter(isShown).slice(0, MOST_WORDS));
    const rest = words.length - shown.size, unseen = differing.filter((key) => isWord(key) && !shown.has(key)).length;
    const rows = keys.filter((key) => !isWord(key) || shown.has(key)).map((key) => [
      `${differ.has(key) ? DIFFERS : ""}${nameOf(key, layout)}`, ...inTurn(lines).map((each) => cellOf(key, each.get(key)))]);
    const restIs = unseen ? many(unseen, "of them differs", "of them differ") : rest === 1 ? "it is the same" : "they are the same";
    const compared = `Compared after ${many(orders, "order")}: the registers, ${many(words.length, "word")} of the store, the devices and the texts. `;
    const marked = differing.length ? "What differs has ≠ before it; only a transfer in flight may differ." : "Nothing differs.";
    return [
      make("p", {}, compared + marked), ...(changes ? [make("p", {}, changes)] : []),
      make("details", { open: true }, make("summary", {}, "Side by side"),
        wide(`Program ${number}, side by side`, table(`After ${many(orders, "order")}`, ["", ...inTurn(names)], rows)),
        ...(rest ? [make("p", {}, `${many(rest, "more word")} of the store ${rest === 1 ? "was" : "were"} compared too: ${restIs}.`)] : [])),
    ];
  }
}

/** What two runs look like over time, where their journals part, and their schedules. */
function drawRuns(whole, other) {
  const runs = [["The run before", new Timeline(other.facts)], ["This run", new Timeline(whole.facts)]], calls = Math.max(...runs.map(([, { total }]) => total));
  const pictures = runs.map(([name, timeline]) => make("div", {}, make("h3", {}, `${name}: ${many(timeline.total, "call")}`),
    new Pictured(timeline, { name: `${name} over time`, calls, size: WHOLE }).element));
  const journals = sideBySide("Both journals", [other, whole].map(({ facts }) => facts.entries), saidOf);
  const schedules = sideBySide("Both schedules", [other, whole].map(({ job }) => linesOf(job.schedule)), (line) => line);
  return [...pictures, make("p", {}, saidOfJournals(other.facts, whole.facts)), journals, schedules];
}

/** How a run went for a program, and how the run before: in how many stretches it ran, until when, and how often it was held up. */
function changesOf(whole, slot, other, like) {
  const told = ([run, number]) => {
    const isOwn = ({ slot: owner }) => owner === number, { entries, programs } = run.facts, { orders } = programs.find(isOwn), holds = run.facts.holds.filter(isOwn).length;
    const stretches = entries.filter((each) => each.entry === "RAN" && isOwn(each)).length;
    const last = orders ? `, the last at call ${callsOfOrders(run.facts, number, [orders])[0].toLocaleString("en")}` : "";
    return `it obeyed ${many(orders, "order")} in ${many(stretches, "stretch", "stretches")}${last}, and was held up ${many(holds, "time")}`;
  };
  const [before, now] = [[other, like], [whole, slot]].map(told);
  return before === now ? `In both runs ${now}.` : `In the run before ${before}. In this run ${now}.`;
}

/** Where two journals part, in words. */
function saidOfJournals({ entries: before }, { entries: now, made }) {
  const textAt = (entries, at) => JSON.stringify(entries[at]);
  const at = Array.from({ length: Math.max(before.length, now.length) }).findIndex((_, index) => textAt(before, index) !== textAt(now, index));
  if (at < 0) return `The journal is the same: ${many(now.length, "entry", "entries")}.`;
  const said = (entries) => (entries[at] ? saidOf(entries[at]) : "nothing more happened");
  const calls = now[at]?.call ?? made;
  const alike = at ? `Up to call ${calls.toLocaleString("en")} it is the same. Then` : "At first";
  const lengths = `${many(before.length, "entry", "entries")} before, and ${now.length.toLocaleString("en")} now`;
  return `The journal differs: ${lengths}. ${alike}, in the run before, ${said(before)}; in this run, ${said(now)}.`;
}

/** The lines of the run before and of this run, side by side, with a mark before each that only one of them has. */
function sideBySide(name, lists, said) {
  const pairs = aligned(...lists.map((lines) => lines.slice(0, MOST_LINES).map(said)));
  const rows = pairs.map(([before, now], at) => [`${before === now ? "" : DIFFERS}${at + 1}`, before ?? "", now ?? ""]);
  const isCut = lists.some((lines) => lines.length > MOST_LINES);
  const rest = isCut ? [make("p", {}, `Only the first ${MOST_LINES} of each are shown.`)] : [];
  return make("details", {}, make("summary", {}, name), wide(name, table(name, ["", RUN_BEFORE, THIS_RUN], rows)), ...rest);
}

/** A table that may be wider than the window. */
function wide(name, rows) {
  return make("div", { class: "wide", tabindex: "0", role: "group", "aria-label": name }, rows);
}

/** What a line of a section is about: the name of the register, word or device. */
function nameOf(key, layout) {
  const [word, number] = key.split(" ");
  const names = { STATE: "State", ORDERS: "Orders", AT: "Next order at", FLAGS: "V, TR", NEST: "Nest, the top first", LINKS: "Links, the top first", SPOOL: "Spooled" };
  if (word === "WORD") return layout?.nameOf(Number(number)) ?? `E${number}`;
  return names[word] ?? `${{ Q: "Q", DEVICE: "Device ", POOL: "Pool device " }[word]}${number}`;
}

/** What a line of a section says: a word also as a number, and without the name of the line. */
function cellOf(key, line) {
  if (line === undefined) return key.startsWith("Q ") ? "0/0/0" : "";
  const [word, ...rest] = line.split(" ");
  if (word === "WORD") return make("span", {}, make("code", {}, rest[1]), ` ${numberOf(rest[1])}`);
  if (word === "NEST") return rest.slice(1).map((octal) => `${numberOf(octal)}`).join("  ") || "empty";
  if (word === "LINKS") return rest.slice(1).join("  ") || "empty";
  if (word === "AT") return `word ${rest[0]}, syllable ${rest[1]}`;
  if (word === "FLAGS") return rest.join(", ");
  if (word === "Q") return rest.slice(1).join("/");
  if (word === "DEVICE" || word === "POOL") return make("pre", {}, `\n${line}`.replaceAll(`\n${key} `, "\n").slice(1));
  return word === "SPOOL" ? make("pre", {}, line) : rest.join(" ");
}
