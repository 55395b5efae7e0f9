// The sections of the texts that say what became of programs: the report of a run, and the text of a program that ran alone.

import { JOB } from "./tables.js";

/** How many characters of a text are read at most. */
export const LONGEST_READ = 20000000;

/** A device of a section, or a stint with one of the pool. */
function readDevice(rest) {
  const [number, kind, claim, , place, , flag] = rest.split(" ");
  return { number: Number(number), kind, isClaimed: claim === "HELD", place, flag, blocks: [] };
}

/** The device or the stint to which a block in the next line belongs. The stints of a section come last. */
const lastOf = ({ stints, devices }) => stints.at(-1) ?? devices.at(-1);

/** How each line of a section is read. */
const READERS = {
  STATE: (section, rest) => { section.state = rest; },
  ORDERS: (section, rest) => { section.orders = Number(rest); },
  AT: (section, rest) => { section.at = rest.split(" ").map(Number); },
  FLAGS: (section, rest) => { section.flags = rest.split(" ").map(Number); },
  NEST: (section, rest) => { section.nest = rest.split(" ").slice(1); },
  LINKS: (section, rest) => { section.links = rest.split(" ").slice(1); },
  Q: (section, rest) => {
    const [number, ...parts] = rest.split(" ");
    section.qStores.push({ number, parts });
  },
  WORD: (section, rest) => {
    const [address, octal] = rest.split(" ");
    section.words.push({ address: Number(address), octal });
  },
  SPOOL: (section, rest) => { section.spools.push(rest); },
  DEVICE: (section, rest) => section.devices.push(readDevice(rest)),
  POOL: (section, rest) => section.stints.push(readDevice(rest)),
  BLOCK: (section, rest) => lastOf(section).blocks.push({ text: rest, isLast: false }),
  LAST: (section, rest) => lastOf(section).blocks.push({ text: rest, isLast: true }),
};

const emptySection = (slot) => ({
  slot, state: "", orders: 0, at: [0, 0], flags: [0, 0], nest: [], links: [], qStores: [], words: [], spools: [], devices: [], stints: [],
});

/** The sections of a report, or of the text of a lone run. */
export function readReport(text) {
  const sections = [], lines = text.split("\n");
  for (const line of lines.slice(lines.findIndex((each, at) => at > 0 && /^(SLOT |ENDREPORT$)/.test(each)))) {
    if (line === "ENDREPORT") break;
    const [word] = line.split(" ", 1), rest = line.slice(word.length + 1);
    if (word === "SLOT") sections.push(emptySection(Number(rest)));
    else READERS[word](sections.at(-1), rest);
  }
  return { sections };
}

/** The value of a word of 16 octal digits, as a number with a sign. */
export function numberOf(octal) {
  return BigInt.asIntN(48, BigInt(`0o${octal}`));
}

/** What a device of the pool is called, by its kind. */
export const NAMES_OF_POOL = Object.fromEntries(JOB.kinds.map(({ kind, pooled }) => [kind, pooled]));

/** The blocks of a device as lines. */
export const linesOfBlocks = (blocks) => blocks.map(({ text, isLast }) => `${text}${isLast ? "   (last block mark)" : ""}`);

/** Whether a program has a device of the pool after a stint with it, in words. One that is over has none, also if it gave none back. */
export function stateOfStint({ isClaimed }, { state }) {
  if (!isClaimed) return "given back";
  return { ENDED: "held until the program ended", FAILED: "held until the program failed" }[state.split(" ")[0]] ?? "held";
}

/** A number of things as the tools tell it, and things in a row. */
export const count = (number, what) => `${number} ${what}${number === 1 ? "" : "s"}`;
export const listed = (words) => (words.length > 1 ? `${words.slice(0, -1).join(", ")} and ${words.at(-1)}` : words.join());

/** A number of things, in words: of one, or of all. */
export const many = (number, what, all = `${what}s`) => `${number.toLocaleString("en")} ${number === 1 ? what : all}`;

/** Words as a sentence with its full stop; a question has a sign of its own. */
export const asSentence = (said) => (said.endsWith("?") ? said : `${said}.`);
