// A watch: at which of its orders a program came to a word, and what the deck calls the words that can be watched.

import { button, make } from "./dom.js";
import { layoutOf } from "./deck.js";
import { callsOfOrders } from "./journal.js";
import { many } from "./report.js";

const MOST_STOPS = 300;

/** Why there is no word to be watched. */
export class NoPlace extends Error {}

/** The stops of a watch, from its facts and those of its run: its slot and word, the orders after which the program came there, the call of each, and whether the job
 * has that slot. */
export function stopsOf({ slot, address, stops }, run) {
  return { slot, word: address, orders: stops, calls: callsOfOrders(run, slot, stops), isThere: run.programs.some((program) => program.slot === slot) };
}

/** The targets in the deck of a slot that can be watched, each with its word. */
export async function watchable(ask, text, slot) {
  const layout = await layoutOf(ask, text, slot);
  return [...layout?.targets ?? []].filter(([, [, syllable]]) => syllable === 0).map(([name, [word]]) => [name, word]);
}

/** The word that is written as a number or as a target in the deck of a slot. If the job has a fault, it is any word, since the machine then says what is wrong. */
export async function wordOf(ask, text, slot, written) {
  if (/^\d*$/.test(written)) return written;
  const layout = await layoutOf(ask, text, slot), name = written.toUpperCase(), [word, syllable] = layout?.targets.get(name) ?? [];
  if (layout === null) return "0";
  if (word === undefined) throw new NoPlace(`the deck of slot ${slot} has no place ${name}; one is written as a jump names it, such as P2 or 1P0`);
  if (syllable) throw new NoPlace(`${name} is at word ${word}, syllable ${syllable}, and only syllable 0 of a word can be watched; * before it begins a word`);
  return `${word}`;
}

/** The stops of a watch as a part of the results. Each is a button with which `choose` is called, for the call of the stop. */
export function drawStops({ slot, word, orders, calls, isThere }, layout, choose) {
  const next = layout?.statementOf(word, 0), often = orders.length ? ` ${many(orders.length, "time")}` : "";
  const came = `Program ${slot} ${often ? "came" : "never came"} to word ${word}${next ? `, ${next.written}${often && ","}` : ""}${often}.`;
  const said = isThere ? came : `The job has no slot ${slot}.`;
  const stops = orders.slice(0, MOST_STOPS).map((order, at) => make("li", {},
    button(`after ${many(order, "order")}`, () => choose(calls[at]), { title: `Call ${calls[at]} of the run, call by call` })));
  const rest = orders.length - stops.length;
  return make("section", {}, make("h3", {}, "Stops of the watch"), make("p", {}, said), ...(stops.length ? [make("ol", { class: "stops" }, ...stops)] : []),
    ...(rest ? [make("p", {}, `${many(rest, "more stop is", "more stops are")} in the text.`)] : []));
}
