// What came of a run: each program in words and tables, the journal in words, and the text itself.

import { byId, make, scrolled, table } from "./dom.js";
import { layoutOf } from "./deck.js";
import { readJob } from "./job.js";
import { saidOf } from "./journal.js";
import { choiceOfView, tableOfArray, tableOfWords } from "./words.js";
import { LONGEST_READ, linesOfBlocks, many, numberOf, stateOfStint } from "./report.js";

const OUT_OF_SERVICE = 64n;
const FLAGS = ["V, the overflow flag", "TR, the test register"];

// How many characters of a text, entries of a journal and words of a program are shown at most. The saved file has all of them.
const MOST_SHOWN = 100000, MOST_ENTRIES = 1000, MOST_WORDS = 1000;

/** How many stores of one name are an array. */
const FEWEST_IN_ARRAY = 10;

/** Whether a text is that of a report, after a watch or by itself, or of a lone run; one that is too long isn't read. */
export const isReadable = (text) => text.length <= LONGEST_READ && /^KDF9 (REPORT|ALONE|WATCH) /.test(text);

/** The layouts of the decks of a job by their slots, for the names of words. A slot whose deck can't be listed has none. */
export async function layoutsOf(ask, text) {
  const layouts = new Map();
  for (const { number } of readJob(text)?.slots ?? []) {
    const layout = await layoutOf(ask, text, number);
    if (layout) layouts.set(Number(number), layout);
  }
  return layouts;
}

/** What may have led to a failure, in words, or nothing. OUT 64 fails as OUT only in a slot that isn't served. */
function hintOfOut({ state, nest }) {
  if (state !== "FAILED OUT" || numberOf(nest[0]) !== OUT_OF_SERVICE) return "";
  return " Hint: OUT 64 asks the installation's service, and this slot isn't served: tick its box by the deck, or write SERVICE after ENDDECK.";
}

const wordCells = (octal) => [make("code", {}, octal), numberOf(octal).toLocaleString("en")];

/** What became of a program, in a sentence. */
function storyOf(section, layout) {
  const { slot, state, orders, at } = section;
  const [life, kind] = state.split(" ");
  const next = layout?.statementOf(...at);
  const stands = `Its next order is at word ${at[0]}, syllable ${at[1]}${next ? `: ${next.written}` : ""}.`;
  const became = { LIVE: "is still running", ENDED: "has ended", FAILED: `failed (${kind})` }[life] ?? state;
  return `Program ${slot} ${became}, after ${many(orders, "order")}. ${life === "ENDED" ? "" : stands}${hintOfOut(section)}`;
}

/** The words of a program: those that the run changed come first, and then those that the job shows. The others that have names are folded, if `wordIn` tells what is in
 * the store. An array has a table of its own. */
function drawWords(section, layout, wordIn) {
  const shown = new Map(section.words.map(({ address, octal }) => [address, octal])), named = wordIn && layout ? layout.addresses : [];
  const isChanged = (address) => layout !== undefined && valueOf(address) !== layout.octalAt(address);
  const valueOf = (address) => shown.get(address) ?? wordIn(address);
  const wordAt = (address) => ({ name: layout?.nameOf(address) ?? `E${address}`, address, octal: valueOf(address), isChanged: isChanged(address) });
  const all = [...new Set([...shown.keys(), ...named])].sort((one, other) => one - other), there = new Set(all);
  const arrays = (layout?.groupsOf(FEWEST_IN_ARRAY) ?? []).filter((addresses) => addresses.every((address) => there.has(address)));
  const inArray = new Set(arrays.flat()), single = all.filter((address) => !inArray.has(address)), rest = single.filter((address) => !isChanged(address));
  const first = [...single.filter(isChanged), ...rest.filter((address) => shown.has(address))], folded = rest.filter((address) => !shown.has(address));
  const isFirst = (addresses) => addresses.some((address) => isChanged(address) || shown.has(address)), left = arrays.filter((each) => !isFirst(each));
  const summary = make("summary", {}, `${many(folded.length + left.flat().length, "word")} that the run left unchanged`);
  const unchanged = [...(folded.length ? drawTable("Unchanged words", folded.map(wordAt)) : []), ...left.flatMap((addresses) => drawArray(addresses.map(wordAt)))];
  return [
    ...(first.length ? drawTable("Words", first.map(wordAt)) : []), ...arrays.filter(isFirst).flatMap((addresses) => drawArray(addresses.map(wordAt))),
    ...(unchanged.length ? [make("details", {}, summary, ...unchanged)] : []),
  ];
}

function drawTable(caption, words) {
  const rest = words.length - MOST_WORDS;
  return [tableOfWords(caption, words.slice(0, MOST_WORDS)), ...(rest > 0 ? [make("p", {}, `${rest.toLocaleString("en")} more words aren't shown.`)] : [])];
}

/** The words of an array: ten to a row, and folded one to a line, with their addresses and in octal. */
function drawArray(words) {
  const [first, last] = [words[0], words.at(-1)], name = `${first.name} to ${last.name}`, changed = words.filter(({ isChanged }) => isChanged).length;
  const caption = `${name}: ${changed ? `the run changed ${many(changed, "word")}, which ${changed === 1 ? "has" : "have"} a dot` : "unchanged"}`;
  return [tableOfArray(caption, words.slice(0, MOST_WORDS)), make("details", {}, make("summary", {}, `${name}, one to a line`), ...drawTable(name, words))];
}

function drawSection(section, layout, wordIn) {
  const parts = [make("h3", {}, `Program ${section.slot}`), make("p", {}, storyOf(section, layout)), ...drawWords(section, layout, wordIn)];
  if (section.nest.length) parts.push(table("Nest, the top first", ["", "octal", "decimal"], section.nest.map((octal, at) => [`N${at + 1}`, ...wordCells(octal)])));
  if (section.qStores.length) {
    parts.push(table("Q-stores", ["", "counter", "increment", "modifier"], section.qStores.map(({ number, parts: [...cells] }) => [`Q${number}`, ...cells])));
  }
  const set = FLAGS.filter((_, at) => section.flags[at]);
  if (set.length) parts.push(make("p", {}, `Set: ${set.join("; ")}.`));
  if (section.links.length) parts.push(make("p", {}, `Links, the top first: ${section.links.join(", ")}.`));
  for (const spool of section.spools) parts.push(make("p", {}, "Spooled: ", make("code", {}, spool)));
  const devices = section.devices.map((device) => deviceOf(`device ${device.number}`, device, device.isClaimed ? "claimed" : "not claimed"));
  const stints = section.stints.map((stint) => deviceOf(`pool device ${stint.number}`, stint, stateOfStint(stint, section)));
  return make("section", {}, ...parts, ...devices, ...stints);
}

/** A device, or a stint with one of the pool, which is called `name`. */
function deviceOf(name, { kind, place, flag, blocks }, state) {
  const said = make("p", {}, `${name[0].toUpperCase()}${name.slice(1)}, ${kind}: ${state}, place ${place}, flag ${flag}`);
  return blocks.length ? make("div", {}, said, scrolled("blocks", `The blocks of ${name}`, linesOfBlocks(blocks).join("\n"))) : said;
}

/** The entries of a journal: how the report has them, what they mean, and how many calls were before them. */
function drawJournal({ entries }, text) {
  const lines = text.split("\n"), first = lines.findIndex((line) => line.startsWith("KDF9 REPORT ")) + 1;
  const rows = entries.slice(0, MOST_ENTRIES).map((entry, at) => [lines[first + at], saidOf(entry), `${entry.call}`]);
  const rest = entries.length > MOST_ENTRIES ? [make("p", {}, `${entries.length - MOST_ENTRIES} more entries are in the report.`)] : [];
  return make("details", {}, make("summary", {}, "The journal: what happened, in order"),
    table("Entries", ["entry", "what it says", "calls before it"], rows), ...rest);
}

/** What came of a run or of a lone run, as elements of the page; none if it wasn't read. `wordsIn` tells what is in the stores, if that is known. */
export function resultsOf({ text, facts, sections, layouts, wordsIn }) {
  if (!sections) return [];
  const drawn = sections.map((section) => drawSection(section, layouts.get(section.slot), wordsIn?.(section.slot)));
  const hasWords = drawn.some((section) => section.querySelector(".words, .array"));
  return [...(hasWords ? [choiceOfView(byId("sections"))] : []), ...drawn, ...(facts?.entries?.length ? [drawJournal(facts, text)] : [])];
}

/** The text as it is shown: all of it, or its beginning if it is long. */
export function shownText(text) {
  if (text.length <= MOST_SHOWN) return { text, rest: "" };
  const [shown, all] = [MOST_SHOWN, text.length].map((number) => number.toLocaleString("en"));
  return { text: text.slice(0, MOST_SHOWN), rest: `The first ${shown} of ${all} characters are shown; the saved file has all.` };
}
