// Words as they are shown: in octal and in decimal, and on demand as characters, as a Q-store, or as two halves.

import { choice, labelled, make } from "./dom.js";
import { numberOf } from "./report.js";
import { JOB } from "./tables.js";

const BITS = { character: 6n, half: 24n, part: 16n };

/** The parts of a word, first to last, which have so many bits each. */
function partsOf(octal, bits) {
  const word = BigInt(`0o${octal}`), count = 48n / bits;
  return Array.from({ length: Number(count) }, (_, at) => (word >> (bits * (count - 1n - BigInt(at)))) & ((1n << bits) - 1n));
}

const charactersOf = (octal) => partsOf(octal, BITS.character).map((code) => JOB.characters[Number(code)]).join("");
const qStoreOf = (octal) => partsOf(octal, BITS.part).join("/");
const halvesOf = (octal) => partsOf(octal, BITS.half).map((half) => BigInt.asIntN(24, half).toLocaleString("en")).join(", ");

/** A word as a constant is written that begins with this character: octal digits, characters, a Q-store, or a number. */
export function asWritten(octal, first) {
  const forms = { B: () => BigInt(`0o${octal}`).toString(8), P: () => charactersOf(octal).trimEnd(), Q: () => qStoreOf(octal) };
  return forms[first] ? `${first}${forms[first]()}` : `${numberOf(octal)}`;
}

/** What a word can be shown as besides octal and decimal, by the name of the column. */
const VIEWS = { characters: charactersOf, "Q-store": qStoreOf, halves: halvesOf };

/** The list that says as what the words within an element are shown besides. */
export function choiceOfView(element) {
  const views = [["", "nothing else"], ...Object.keys(VIEWS).map((name) => [name, name])];
  const select = choice(views, element.dataset.view ?? "", () => { element.dataset.view = select.value; });
  return labelled("Words in octal, in decimal, and as", select);
}

/** A table of words, each with its name, its address and its value in octal. */
export function tableOfWords(caption, words) {
  const head = ["name", "address", "octal", "decimal"].map((name) => make("th", { scope: "col" }, name));
  const views = Object.keys(VIEWS).map((name) => make("th", { scope: "col", "data-view": name }, name));
  const rows = words.map(({ name, address, octal }) => make("tr", {},
    make("th", { scope: "row" }, name), make("td", {}, `${address}`), make("td", {}, make("code", {}, octal)),
    make("td", {}, numberOf(octal).toLocaleString("en")),
    ...Object.entries(VIEWS).map(([name, view]) => make("td", { "data-view": name }, make("code", {}, view(octal))))));
  return make("table", { class: "words" }, make("caption", {}, caption), make("thead", {}, make("tr", {}, ...head, ...views)), make("tbody", {}, ...rows));
}

const IN_A_ROW = 10;

/** A table of an array, ten words to a row: each in decimal, with a dot before it if the run changed it, and as what the list says besides. */
export function tableOfArray(caption, words) {
  const heads = ["", ...Array.from({ length: IN_A_ROW }, (_, at) => `+${at}`)].map((name) => make("th", { scope: "col" }, name));
  const cellOf = ({ octal, isChanged }) => make("td", {}, `${isChanged ? "• " : ""}${numberOf(octal).toLocaleString("en")}`,
    ...Object.entries(VIEWS).map(([name, view]) => make("code", { "data-view": name }, view(octal))));
  const rows = Array.from({ length: Math.ceil(words.length / IN_A_ROW) }, (_, at) => words.slice(IN_A_ROW * at, IN_A_ROW * at + IN_A_ROW));
  return make("table", { class: "array" }, make("caption", {}, caption), make("thead", {}, make("tr", {}, ...heads)),
    make("tbody", {}, ...rows.map((row) => make("tr", {}, make("th", { scope: "row" }, row[0].name), ...row.map(cellOf)))));
}
