// A deck as it is written, and next to what the machine tells of it: its statements, where they stand in the store, and the names of words.

import { factsFor } from "./facts.js";
import { readJob } from "./job.js";

export const SYLLABLES = 6; // in a word
export const NOUGHT = "0".repeat(16); // a word that is zero
const COMMENT = /\([^)]*\)?/g;
const STATEMENT = /\*(?:[* \n]*\*)?|[^*; \n][^;]*/g;
/** The opening of a part, with its number, which is absent for the main part, and the number of its last V-store. */
export const OPENING = /^(?:PROGRAM|P(\d+))(?:V(\d+))?$/;

/** The number of syllables before a syllable of a word. */
export const syllableNumber = ([word, syllable]) => SYLLABLES * word + syllable;

/** The deck with spaces instead of its comments, so that offsets stay the same. */
export const withoutComments = (deck) => deck.replace(COMMENT, (comment) => " ".repeat(comment.length));

/** The statements of a deck, from first to last: where each begins and ends, how it is written there, without comments and with single spaces, and its text
 * without any spaces. What comes after the last `;` is a statement too. A `*` before something else is a statement by itself, and several in a row count
 * as one. */
export function statementsOf(deck) {
  return [...withoutComments(deck).matchAll(STATEMENT)].map(({ 0: found, index }) => {
    if (found[0] === "*") return { start: index, end: index + found.length, written: "*", text: "*" };
    const words = found.trim().split(/[ \n]+/);
    return { start: index, end: index + found.trimEnd().length, written: words.join(" "), text: words.join("") };
  });
}

/** The line and the column of an offset in a text, both counted from 1. */
export function lineAndColumn(text, place) {
  const before = text.slice(0, place);
  return { line: before.split("\n").length, column: place - before.lastIndexOf("\n") };
}

/** The pieces of a deck that look different, which are comments and references: the kind of each, where it begins, and where it ends. */
export function painted(deck) {
  const comments = [...deck.matchAll(COMMENT)].map(({ 0: found, index }) => ({ kind: "comment", start: index, end: index + found.length }));
  const references = statementsOf(deck).filter(({ text }) => /^\d+$/.test(text)).map(({ start, end }) => ({ kind: "reference", start, end }));
  return [...comments, ...references].sort((one, other) => one.start - other.start);
}

/** The deck of a slot of a job next to what the machine tells of it; null if the job has a fault, or no such slot. */
export async function layoutOf(ask, text, slot) {
  const own = readJob(text)?.slots.find(({ number }) => number === `${slot}`), facts = own && await factsFor(ask, ["asm", `${slot}`], text);
  return facts?.kind === "listing" ? new Layout(own.deck, facts) : null;
}

/** A deck next to what the machine tells of it: where its orders, parts, references and stores are. */
export class Layout {
  constructor(deck, facts) {
    const written = new Map(statementsOf(deck).map((statement) => [statement.start, statement])), { statements, references, parts, words, stores } = facts;
    Object.assign(this, { words, stores });
    this.linesBefore = statements.length ? statements[0].line - lineAndColumn(deck, statements[0].offset).line : 0; // in the job
    this.orders = new Map(statements.filter(({ syllables }) => syllables).map(({ at, offset }) => [syllableNumber(at), written.get(offset)]));
    this.first = this.orders.get(syllableNumber(facts.start));
    this.targets = new Map([...parts.map(({ part, at }) => [`P${part}`, at]), ...references.map(({ part, reference, at }) => [`${reference}P${part}`, at])]);
  }

  /** The name of the word at an address: the one that the deck gives it, or else one made from the address. */
  nameOf(address) {
    const found = this.stores.find((store) => store.address <= address && address < store.address + store.count);
    return found ? `${found.name}${address - found.address}${found.part ? `P${found.part}` : ""}` : `E${address}`;
  }

  /** The stores of this name, of this part if they are V-stores; undefined if the deck has none. */
  storesNamed(name, part) {
    return this.stores.find((store) => store.name === name && (store.part ?? part) === part);
  }

  /** The address of the store that a statement of a part names; undefined if it names none of this deck. */
  addressOf({ text, part }) {
    const [, name, number, other] = /^=?(V|Y[A-Z]?)(\d+)(?:P(\d+))?(?:M\d+Q?)?$/.exec(text) ?? [];
    const found = this.storesNamed(name, Number(other ?? part ?? 0));
    return found && Number(number) < found.count ? found.address + Number(number) : undefined;
  }

  /** The addresses of the words that the deck gives names. */
  get addresses() {
    return this.groupsOf(1).flat();
  }

  /** The addresses of each group of stores of one name that has at least so many. */
  groupsOf(fewest) {
    return this.stores.filter(({ count }) => count >= fewest).map(({ address, count }) => Array.from({ length: count }, (_, at) => address + at));
  }

  /** The word at an address as it is when the program begins, in octal digits. */
  octalAt(address) {
    return this.words[address] ?? NOUGHT;
  }

  /** The statement of the order at a syllable of a word, or undefined where no statement wrote it. */
  statementOf(word, syllable) {
    return this.orders.get(syllableNumber([word, syllable]));
  }
}
