// How a job does in an exercise. The table of the exercise says which runs are made, and what is due of each (tools/courses/paged.py makes it). Here decks are put into
// their places, the machine is asked, and texts are compared.

import { statementsOf, withoutComments } from "./deck.js";
import { factsFor } from "./facts.js";
import { readJob } from "./job.js";
import { many, readReport } from "./report.js";
import { readSchedule, scheduled } from "./schedule.js";
import { NoAddress, withAddresses } from "./shows.js";
import { worded } from "./tables.js";
import { asWritten } from "./words.js";

/** A job that isn't run: why, and by what a wrong solution that isn't run either is the same. */
class NotRun extends Error {
  constructor(said, is) {
    super(said);
    this.is = is;
  }
}

const refuseFor = (said) => { throw new NotRun(said, { why: said }); };

/** Refuses a hand-in for the fault that the machine tells. */
function refuseFault({ of, slot, name, text, sentence }) {
  const said = sentence.replaceAll("`", "").replace(/\.$/, "");
  throw new NotRun(`${of === "deck" ? `the deck of slot ${slot}` : "the job"} has a fault, ${name}: ${text}. ${said}`, { fault: [name, text] });
}

/** How many runs of an exercise the page makes. */
export const runsOf = ({ cases }) => cases.reduce((sum, { runs }) => sum + runs.length, 0);

/** The decks that a job hands in, by their slots, and its schedule. */
function handedIn({ slots, rules, takes_schedule: takesSchedule }, text) {
  const job = readJob(text), decks = new Map(), isOne = slots.length === 1 && job?.slots.length === 1;
  if (!job) refuseFor("this text isn't a job whose parts can be told");
  for (const slot of slots) {
    const found = job.slots.find(({ number }) => number === `${slot}`) ?? (isOne ? job.slots[0] : null);
    if (!found) refuseFor(rules.no_deck[slot]);
    decks.set(slot, found.deck);
  }
  if (takesSchedule && readSchedule(job.schedule).calls > rules.calls.most) refuseFor(rules.calls.said);
  return { decks, schedule: job.schedule };
}

/** A deck with a constant, as the patterns of its place say. No line moves. */
function withConstant(deck, { name, value, there, opening, said }) {
  const bare = withoutComments(deck), found = new RegExp(there).exec(bare);
  if (found) {
    const end = found[0].length, lines = deck.slice(found[1].length, end).split("\n").length - 1;
    return `${deck.slice(0, found[1].length)}${name}=${value}${"\n".repeat(lines)}${deck.slice(end)}`;
  }
  const opened = new RegExp(opening).exec(bare);
  if (!opened || Number(opened[2]) < Number(name.slice(1))) refuseFor(said);
  return `${deck.slice(0, opened[1].length)} ${name}=${value};${deck.slice(opened[1].length)}`;
}

/** The job of a case with the decks of a hand-in, with these addresses of words, and with the lines of a schedule. */
function withParts({ job, own, constants }, { decks }, addresses, schedule) {
  const ofCase = new Map(decks);
  if (decks.has(own)) ofCase.set(own, constants.reduce(withConstant, decks.get(own)));
  const shown = job.replace(/SHOW \{(\d \S+)\} .*\n/g, (_, name) => (addresses.has(name) ? `SHOW ${addresses.get(name)} ${addresses.get(name)}\n` : ""));
  return shown.replace("{schedule}\n", () => schedule).replace(/\{deck (\d)\}\n/g, (_, slot) => ofCase.get(Number(slot)));
}

/** Refuses a hand-in with a fault, or one that breaks a rule. */
async function refuseFaulty(ask, { cases: [first], rules }, handed) {
  const job = withParts(first, handed, new Map(), ""), told = await factsFor(ask, ["asm", "0"], job);
  if (told.kind === "fault") refuseFault(told);
  const used = [...handed.decks.values()].flatMap((deck) => statementsOf(deck).map(({ text }) => text));
  const isUsed = ({ pattern }) => used.some((text) => new RegExp(`^(?:${pattern})$`).test(text));
  const broken = rules.uses.find((rule) => !isUsed(rule)) ?? rules.avoids.find(isUsed);
  if (broken) refuseFor(broken.said);
  for (const slot of rules.words ? handed.decks.keys() : []) {
    const { words } = await factsFor(ask, ["asm", `${slot}`], job);
    if (words.length > rules.words.most) refuseFor(worded(rules.words.said, { words: words.length }));
  }
}

/** The addresses of the words that are due in a case, by slot and name; those that the deck doesn't have are left out. */
async function addressesOf(ask, each, handed) {
  const { slots } = readJob(withParts(each, handed, new Map(), "")), addresses = new Map();
  for (const { slot, subject } of each.dues.filter(({ kind }) => kind === "word")) {
    const program = slots.find(({ number }) => number === `${slot}`);
    try {
      const address = (await withAddresses(ask, program, [subject]))[0].split(" ")[0].replace("E", "");
      if (Number(address) < Number(program.store)) addresses.set(`${slot} ${subject}`, address);
    } catch (error) {
      if (!(error instanceof NoAddress)) throw error;
    }
  }
  return addresses;
}

const textsOfBlocks = (blocks) => blocks.map(({ text }) => text.trimEnd());

/** What came in the place of what was due, in the texts that the machine writes, by the kind of what was due; nothing of a word that the deck doesn't have. */
const TEXTS_OF = {
  word: ({ section, address }) => (address === undefined ? [] : [section.words.find((word) => word.address === Number(address)).octal]),
  q: ({ section, subject }) => [section.qStores.find(({ number }) => `Q${number}` === subject)?.parts.join("/") ?? "0/0/0"],
  nest: ({ section }) => section.nest,
  state: ({ section }) => [section.state],
  overflow: ({ section }) => [`${section.flags[0]}`],
  device: ({ sections, subject }) => textsOfBlocks(sections.flatMap(({ devices }) => devices).find(({ number }) => `${number}` === subject)?.blocks ?? []),
  pool: ({ section, subject }) => textsOfBlocks(section.stints.filter(({ kind }) => kind === subject).flatMap(({ blocks }) => blocks)),
  stream: ({ section, subject }) => section.spools.filter((spool) => spool.split(" ")[0] === subject).map((spool) => spool.slice(subject.length + 1).trimEnd()),
};

const COMPARED = { is: (value, due) => value === due, "at most": (value, due) => value <= due, "at least": (value, due) => value >= due };

/** The sum of the values at some paths of facts. */
const sumAt = (facts, paths) => paths.reduce((sum, path) => sum + path.reduce((value, step) => valueAt(value, step), facts), 0);

/** The member of this name, or the one of a list that a step says. */
function valueAt(value, step) {
  if (typeof step === "string") return value[step];
  const [[key, due]] = Object.entries(step);
  return value.find((each) => each[key] === due);
}

/** The first place at which texts differ from those that are due; -1 if there is none. */
function firstOther(came, due) {
  const at = due.findIndex((text, place) => came[place] !== text);
  return at < 0 && came.length > due.length ? due.length : at;
}

/** What a measure came to: its value, and whether that is right. */
const measured = (due, facts) => ({ value: sumAt(facts, due.paths), isRight: COMPARED[due.compare](sumAt(facts, due.paths), due.value) });

/** What came of something that was due: null if it is right, true for a measure, or the texts that came; with what is said of it. */
function cameOf(due, run) {
  if (due.kind === "measure") {
    const { value, isRight } = measured(due, run.facts);
    return isRight ? { came: null } : { came: true, said: [worded(due.said, { came: value }), due.due] };
  }
  const section = run.sections.find(({ slot }) => slot === due.slot);
  const came = TEXTS_OF[due.kind]({ section, sections: run.sections, subject: due.subject, address: run.addresses.get(`${due.slot} ${due.subject}`) });
  return firstOther(came, due.texts) < 0 ? { came: null } : { came, said: saidOfOther(due, came) };
}

/** What is said of texts that aren't those that were due: what came, and what was due. */
function saidOfOther(due, came) {
  if (due.states) return [due.states[came[0]], due.due];
  if (due.blocks) return saidOfBlocks(due, came);
  if (due.kind === "word" && !came.length) return due.lacks;
  const written = due.like ? came.map((octal, at) => asWritten(octal, due.like[at] ?? "0")) : came;
  return [worded(due.said, { came: written.join(" ") || "empty" }), due.due];
}

function saidOfBlocks({ texts, blocks, missing, other, more }, came) {
  const at = firstOther(came, texts), values = { count: many(came.length, "block"), at: at + 1, came: `'${came[at]}'` };
  if (at === came.length) return [worded(came.length ? blocks.fewer : blocks.none, values), missing[at]];
  if (at === texts.length) return [worded(blocks.more, values), more];
  return [worded(Math.max(came.length, texts.length) > 1 ? blocks.other : blocks.only, values), other[at]];
}

/** Whether the same came as of a wrong solution. Of blocks, the first one that differs counts, as it is what a remark is about. */
function isAlike(due, mine, theirs) {
  if (mine === null || theirs === null || mine === true || !due?.blocks) return JSON.stringify(mine) === JSON.stringify(theirs);
  const part = (came) => { const at = firstOther(came, due.texts); return [at, came[at] ?? null, at === due.texts.length ? came.length : 0]; };
  return `${part(mine)}` === `${part(theirs)}`;
}

/** What comes of one run of a case: what came of each that is due, and the first that isn't right, with the job that shows it. */
async function madeOf(ask, exercise, each, run, { handed, addresses }) {
  const text = withParts(each, handed, addresses, run.schedule ?? handed.schedule), { orders } = exercise.rules;
  const job = run.after === null ? text : await scheduled(ask, text, { after: run.after, every: 0, devices: new Map() });
  const { status, text: report } = await ask(["run"], job);
  if (status) refuseFault(await factsFor(ask, ["asm", "0"], job));
  const dues = run.dues.map((at) => each.dues[at]), facts = dues.some(({ kind }) => kind === "measure") ? await factsFor(ask, ["run"], job) : null;
  const { sections } = readReport(report), came = dues.map((due) => ({ due, ...cameOf(due, { sections, facts, addresses }) }));
  if (orders) came.push(cameOfOrders(exercise, sections));
  const first = came.find((one) => one.came !== null);
  const missed = first && { case: each.name, isShown: each.is_shown, plan: run.plan, came: first.said[0], due: first.said[1], about: first.due, job };
  return { came: came.map((one) => one.came), dues, missed };
}

/** Whether a program obeyed more orders than the exercise allows. */
function cameOfOrders({ slots, rules: { orders } }, sections) {
  const most = Math.max(0, ...sections.filter(({ slot }) => slots.includes(slot)).map((section) => section.orders));
  return most <= orders.most ? { came: null } : { came: true, said: [worded(orders.said, { came: most }), orders.due] };
}

/** The remark of the wrong solution that comes to the same in all runs, or null. */
const remarkOf = ({ wrong }, isSame) => wrong.find(isSame)?.remark ?? null;

/** How a job does in an exercise: how many of how many runs are right, what was missed first, and the teacher's remark if a wrong solution does so in all runs. `tell` is told how many
 * runs were made. */
export async function judged(ask, exercise, text, tell) {
  const of = runsOf(exercise), all = [];
  try {
    const handed = handedIn(exercise, text);
    await refuseFaulty(ask, exercise, handed);
    for (const each of exercise.cases) {
      const addresses = await addressesOf(ask, each, handed);
      for (const run of each.runs) {
        all.push(await madeOf(ask, exercise, each, run, { handed, addresses }));
        tell(all.length);
      }
    }
  } catch (error) {
    if (!(error instanceof NotRun)) throw error;
    const isSame = ({ why, fault }) => (error.is.why ? why === error.is.why : `${fault}` === `${error.is.fault}`);
    return { right: 0, of, missed: { case: "", plan: "", came: error.message, due: "", isShown: true }, remark: remarkOf(exercise, isSame) };
  }
  const right = all.filter(({ missed }) => !missed).length, missed = all.find((one) => one.missed)?.missed ?? null;
  const isSame = ({ came }) => came?.every((theirs, at) => theirs.every((each, place) => isAlike(all[at].dues[place], all[at].came[place], each)));
  return { right, of, missed, remark: missed && remarkOf(exercise, isSame) };
}
