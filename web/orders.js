// What the documents say of a statement: the entry of an order, the sequence of a deck, or the forms of constants.

import { ENTRIES_OF_FORMS } from "./tables.js";

const CONSTANT = /^V\d+=/, OTHER = /^(?:PROGRAM(?:V\d+)?|P\d+(?:V\d+)?|FINISH|\*|\d+)$/;

/** The name of the entry of an order, or undefined. A store of any Y has the form of one of Y. */
const entryNameOf = (text) => ENTRIES_OF_FORMS[text.replace(/^(=?|SETA)Y[A-Z](?=\d)/, "$1Y").replace(/\d+/g, "0")];

/** What the documents say of a statement, which stands among the declarations if it has no part: paragraphs, and rows of a table with their heads; null if they say
 * nothing. */
export function entryOf(help, { text, part }) {
  if (CONSTANT.test(text)) return help.constants;
  if (part === null || OTHER.test(text)) return /^(?:\d+|\*)$/.test(text) ? help.places : help.sequence;
  const name = entryNameOf(text);
  return help.orders[name] ?? null;
}

/** The numbers of a statement, in their sequence. */
const numbersOf = (text) => text.match(/\d+/g) ?? [];

/** The orders whose names go on as a text begins. A number that isn't written yet is one of `references` for the target of a jump, and otherwise 1. */
export function ordersFrom(help, typed, references) {
  const [numbers, letters] = [numbersOf(typed), typed.replace(/\d+/g, "0")], found = [];
  for (const name of Object.keys(help.orders)) {
    if (!name.replace(/[a-z]/g, "0").startsWith(letters)) continue;
    const first = /^JS?r/.test(name) && numbers.length === 0 && references.length ? references : [numbers[0] ?? "1"];
    for (const number of first) {
      let at = 0;
      found.push(name.replace(/[a-z]/g, () => (at++ === 0 ? number : numbers[at - 1] ?? "1")));
    }
  }
  return found;
}
