// The page: what its buttons and keys do.

import { Assist } from "./assist.js";
import { button, byId } from "./dom.js";
import { Engine, Stopped, bytesOf, canRun, hasLongAddresses, unpacked } from "./engine.js";
import { chooseFirst, chooseOwn, chosenJob, listJobs } from "./examples.js";
import { Exploring } from "./explore.js";
import { faultFound } from "./fault.js";
import { EMPTY_JOB, frontOf, placedLines, readJob, withLine, withSize } from "./job.js";
import { JobView } from "./jobview.js";
import { Keeping } from "./keeping.js";
import { timeOf } from "./kept.js";
import { attendToKeys } from "./keys.js";
import { hasJob, jobOfLink, packedJob, saveFile } from "./link.js";
import { Many } from "./many.js";
import { narrowed } from "./narrow.js";
import { outcomeOf, outcomeOfRecord, saidOfAnswer, showOutcome, toldRun } from "./outcome.js";
import { Replay } from "./replay.js";
import { NoSchedule, drawDelays, listSpeeds, readDelays, scheduled } from "./schedule.js";
import { Breaks } from "./seek.js";
import { haveNames, withAddresses } from "./shows.js";
import { Theorem } from "./theorem.js";
import { Variations } from "./variations.js";
import { NoPlace, watchable, wordOf } from "./watch.js";
import { whatIf } from "./whatif.js";

/** The words of the command that finds the faults of a job without running it. */
const LISTS = ["asm", "0"];

/** The statuses of a fault of a job, a deck or a snapshot. */
const FAULTS = [2, 3, 8];

/** The commands that have a slot or a number, those that read a job with a snapshot or a report after it, and those whose run can be shown call by call. */
const WITH_VALUE = ["watch", "alone", "asm", "make"], READ_MORE = ["resume", "check"], RUN = ["run", "watch"];

const NO_LINK = "The link is damaged, or has no job in it. The job below is another one.";

const NOT_PASTED = "That is too long to be edited here, so nothing was pasted. Put it into a file and open that: it can be run so.";

const IS_CHANGED = "The job has been changed since this run. Run it again.";

/** How many milliseconds after the last key the page looks for a fault of the job. */
const PAUSE = 700;

/** After a run of more milliseconds its text is shown before the machine tells the facts of the run, for which it makes the run again. */
const SOON = 500;

/** A job of at most so many characters is read again after each key. */
const SHORT = 20000;

// What the page shows, and what the documents say of statements, once they are unpacked.
const texts = { jobs: {}, failures: {}, start: null }, help = { orders: {} };
const breaks = new Breaks();
let caret = null; // the slot and the beginning of the statement at which the caret was last
const view = new JobView(byId("editors"), {
  addresses: (slot, shows) => withAddresses(ask, slot, shows),
  onchange: changed, onremove: (what, before) => keeping.offerUndo(`Removed: ${what}.`, before),
  onfault: (isShown) => { byId("to-fault").hidden = !isShown; }, onlong: () => say(NOT_PASTED, true),
  assist: (editor, slot) => new Assist(editor, help, (statement) => lastRun?.layouts.get(Number(slot.number))?.addressOf(statement),
    { breaks, slot: slot.number, runTo, caretAt: (number, statement) => { caret = statement && { slot: Number(number), start: statement.start }; } }).element,
});
const keeping = new Keeping({ text: () => view.text, bring: bringBack, undo: takeBack });
let engine = null;
let lastText = "";
let lastRun = null; // what can be shown call by call: the job, its report, the layouts of its decks, and the stops of a watch if there was one
let pause = 0;

const ask = (words, job, isTold) => engine.ask(words, job, isTold);
const replay = new Replay(byId("replay"), { ask, say, failed: (error) => sayFailed(error), breaks, caret: () => (lastRun?.text === view.text ? caret : null) });
const theorem = new Theorem(byId("compared"), { ask, say });
const variations = new Variations({ ask, say, work, view, theorem, replace, run: runAgain, lastRun: () => lastRun });
const trials = new Many({ ask, say, work, isSound, from: () => variations.from(), open: (seed, from) => variations.open(seed, from), failures: () => texts.failures });
const exploring = new Exploring({ ask, say, work, isSound, text: () => view.text, open: replaceAndRun });

/** What the page can do for a course, and what a course does when something happens: when the page begins, was opened, shows a job, has a changed one, or is at work (course.js). */
export const page = {
  ask, say, work, begin, view, keeping, showOther, lookForFault, canRun: () => engine !== null,
  first: openFirst, opened: () => {}, shown: () => {}, changed: () => {}, busy: () => {},
};

/** Says what has happened, in the line of the page that is read aloud. */
function say(text, isWrong = false) {
  byId("state").textContent = isWrong ? `▸ ${text}` : text;
  byId("state").classList.toggle("wrong", isWrong);
  delete byId("state").dataset.status;
}

/** The user has changed the job. */
function changed() {
  keeping.changed();
  page.changed();
  chooseOwn();
  byId("link-said").hidden = true;
  byId("stale").hidden = lastText === "";
  if (byId("scheduling").open || view.text.length <= SHORT) drawDelays(view.text);
  clearTimeout(pause);
  pause = setTimeout(lookForFault, PAUSE);
}

/** Shows the fault of the job, if it has one, while the job is being written. Nothing is read aloud then. */
async function lookForFault() {
  if (!engine) return;
  if (engine.isBusy) {
    pause = setTimeout(lookForFault, PAUSE);
    return;
  }
  const { text } = view;
  try {
    const job = jobOf(byId("command").value, text), answer = await ask(LISTS, job);
    if (text === view.text) await showFault(answer, job);
  } catch (error) {
    if (!(error instanceof Stopped)) sayFailed(error);
  }
}

/** Says why there is no answer. */
function sayFailed(error) {
  if (error instanceof Stopped) say("Stopped.", true);
  else if (error instanceof NoSchedule) say(`There is no schedule: ${error.message}.`, true);
  else if (error instanceof NoPlace) say(`There is nothing to watch: ${error.message}.`, true);
  else say(`The machine stopped: ${error.message}`, true);
}

/** The job of a text that a command reads. */
const jobOf = (command, text) => (READ_MORE.includes(command) ? frontOf(text) : text);

/** Marks the fault that a command finds in a text, if its answer has the status of one, and returns it; otherwise null. */
async function showFault({ status }, text, words = LISTS) {
  const fault = FAULTS.includes(status) ? await faultFound(ask, words, text) : null;
  if (!fault) {
    view.forgetFault();
    return null;
  }
  const show = await lineShow(fault, text), { store, words: size } = fault, job = readJob(text);
  const mend = store && job ? mending(`STORE ${store}`, withSize(text, fault.slot, store)) : show && mending(show, withLine(text, fault.line, show));
  if (text === view.text) view.showFault(fault, store ? `the deck becomes ${size} words` : show ? "a line SHOW has addresses" : fault.hint, mend);
  return fault;
}

/** The line SHOW with the addresses of the stores that a faulty line names; null if it is no such line. */
async function lineShow({ name, subject, line }, text) {
  const shows = [subject?.slice("SHOW ".length) ?? ""], job = name === "BadNumber" && subject.startsWith("SHOW ") && haveNames(shows) ? readJob(text) : null;
  const slot = job?.slots[placedLines(job)[line - 1].slot];
  return slot ? withAddresses(ask, slot, shows).then(([show]) => `SHOW ${show}`, () => null) : null;
}

/** The button that writes a line, with which the job becomes this text. */
const mending = (line, text) => button(`Write ${line}`, () => replace(text, `Changed: ${line}.`));

/** Puts another job in the place of the one that is shown, which can be had back. `said` tells what was done. */
function replace(text, said) {
  const before = view.text;
  view.show(text);
  changed();
  keeping.offerUndo(said, before);
}

/** The words of the chosen command. A place that is watched may be written as a jump of the deck names it. */
async function words() {
  const command = byId("command").value, value = byId("value").value;
  if (command === "watch") return [command, value, await wordOf(ask, view.text, value, byId("place").value.trim())];
  return WITH_VALUE.includes(command) ? [command, value] : [command];
}

/** Offers the places that can be watched in the deck of the chosen slot. */
async function offerPlaces() {
  if (!engine) return;
  try {
    const places = await watchable(ask, view.text, byId("value").value);
    byId("places").replaceChildren(...places.map(([name, word]) => new Option(`word ${word}`, name)));
  } catch (error) {
    if (!(error instanceof Stopped)) sayFailed(error);
  }
}

/** Shows whether the machine is at work. */
function setBusy(isBusy) {
  for (const id of ["run", "schedule", "shuffle", "neighbours", "try", "explore"]) byId(id).disabled = isBusy || !engine;
  byId("compare-alone").disabled = isBusy || lastRun === null;
  byId("compare-before").disabled = isBusy || lastRun === null || theorem.before === null;
  byId("stop").disabled = !isBusy;
  page.busy(isBusy);
  byId("results").setAttribute("aria-busy", `${isBusy}`);
}

/** Does some work with the machine. Stop ends it. A button that is disabled loses the focus, and gets it back after the work. */
async function work(text, task) {
  const { activeElement } = document;
  clearTimeout(pause);
  setBusy(true);
  say(text);
  try {
    await task();
  } catch (error) {
    sayFailed(error);
  }
  setBusy(false);
  if (document.activeElement === document.body) activeElement?.focus({ preventScroll: true });
}

async function run() {
  if (!byId("run").disabled) await work("Running.", async () => runNow(await words()));
}

/** Runs the job by `run`, whatever the chosen command was. */
function runAgain() {
  byId("command").value = "run";
  chooseCommand();
  return runNow(["run"]);
}

/** What came of a text by the words of a command. `run` has what is told of it, if it was asked with it. */
const outcomeFor = (asked, text, answer, run) => outcomeOf(ask, asked, text, answer, { job: jobOf(asked[0], text), failures: texts.failures, run });

/** Shows what the machine answers to the words of a command for the job. */
async function runNow(asked) {
  const { text } = view, isRun = RUN.includes(asked[0]);
  showText(null);
  const made = asked[0] === "run" ? await toldRun(ask, text) : null, answer = made?.answer ?? await ask(asked, text);
  const fault = await showFault(answer, text, asked);
  if (!made && answer.milliseconds > SOON) {
    showText({ text: answer.text });
    say("The run is made. The machine now tells what there is to know of it.");
  }
  const outcome = await outcomeFor(asked, text, answer, made);
  showText(outcome, { look: isRun ? look : null, go: goToStop, change: isRun ? changeAndRun : null, say });
  lastRun = isRun && outcome.timeline ? { ...outcome, text } : null;
  if (lastRun) theorem.take(lastRun);
  if (text === view.text) view.showStops(outcome.verdicts?.all ?? []);
  byId("look").disabled = byId("see").disabled = lastRun === null;
  const asking = lastRun && whatIf(lastRun, { ask, say, work, take: takeSchedule });
  byId("what-if").replaceChildren(...(asking ? [asking] : []));
  byId("stale").hidden = text === view.text;
  sayAnswer(answer, fault, outcome.verdicts);
}

function sayAnswer(answer, fault, verdicts) {
  const { said, isWrong } = saidOfAnswer(answer, { fault, where: fault ? view.whereIs(fault) : undefined, verdicts });
  say(said, isWrong);
  byId("state").dataset.status = answer.status;
}

/** Whether a job has no fault; if it has one, the page shows it. */
async function isSound(text) {
  const answer = await ask(["asm", "0"], text), fault = await showFault(answer, text);
  if (fault) sayAnswer(answer, fault);
  return !fault;
}

/** Goes to the statement at which a program stopped, if the job is still the one that was run. */
function goToStop({ slot, statement }) {
  if (!view.goToStatement(slot, statement)) say(IS_CHANGED, true);
}

/** Changes the job as a verdict proposes, if it is still the one that was run, and runs it again. */
async function changeAndRun({ name, change }) {
  return view.text === lastRun?.text ? replaceAndRun(change(view.text), name) : say(IS_CHANGED, true);
}

/** Puts another job in the place of the one that is shown, and runs it. `what` says what is new. */
function replaceAndRun(text, what) {
  replace(text, `Changed: ${what}.`);
  return work("Running.", runAgain);
}

/** Puts a job with another schedule in the place of the one that was run, if that is still there, and runs it. `what` says what is new. */
function takeSchedule(text, what) {
  return changeAndRun({ name: what, change: () => text });
}

/** The fault of a job with its hint, as it is shown, or null if there is none. */
const explain = (job) => faultFound(ask, LISTS, job);

/** Shows the last run call by call, first after this call. */
function look(call) {
  replay.open(lastRun, call);
  goTo("replay");
}

/** Shows the run of a job that isn't in the editor: at its end, or at the call with which a word of a slot got its value. */
function showOther(text, at) {
  return work("Running.", async () => {
    const made = await toldRun(ask, text), answer = made?.answer ?? await ask(["run"], text);
    const outcome = await outcomeFor(["run"], text, answer, made);
    if (!outcome.timeline) return;
    await replay.open({ ...outcome, text }, outcome.timeline.total);
    goTo("replay");
    if (at) await replay.goToWord(at.slot, at.word);
  });
}

/** Shows the run at the next call at which a program comes to a statement. A job that was changed is run first. */
async function runTo(slot, { start }) {
  if (lastRun?.text !== view.text) await run();
  if (lastRun?.text !== view.text) return;
  caret = { slot: Number(slot), start };
  goTo("replay");
  await replay.open(lastRun, replay.callShown(lastRun));
  await replay.go("c");
}

/** Goes to the comparisons. If there is none yet, it is that with the lone runs. */
function see() {
  goTo("theorem");
  if (!byId("compared").childElementCount && !byId("compare-alone").disabled) compareWithAlone();
}

const compareWithAlone = () => work("Comparing each program with its lone run.", () => theorem.withAlone());

function goTo(part) {
  byId(part).focus();
  byId(part).scrollIntoView();
}

/** Shows what a command came to, or nothing if it is null. */
function showText(outcome, acts) {
  lastText = outcome?.text ?? "";
  lastRun = null;
  for (const id of ["look", "see", "compare-alone", "compare-before"]) byId(id).disabled = true;
  byId("stale").hidden = true;
  byId("save-report").disabled = lastText === "";
  replay.close();
  theorem.clear();
  byId("what-if").replaceChildren();
  showOutcome(outcome, acts);
}

function stop() {
  if (!byId("stop").disabled) engine.stop();
}

async function writeSchedule() {
  const delays = readDelays(view.text);
  if (delays === null) return say("These aren't numbers of calls.", true);
  return work("Writing the schedule.", async () => {
    const { text } = view;
    if (!await isSound(text)) return;
    replace(await scheduled(ask, text, delays), "The schedule was written anew.");
    say("The schedule is written. It can be changed like any other text.");
  });
}

/** Begins with another job, and with the words of its command. A run in progress is stopped, and the job that was there is kept. */
function begin(text, args) {
  keeping.putAway();
  show(text, args);
}

/** Shows another job. */
function show(text, args) {
  stop();
  view.show(text);
  page.shown(text);
  drawDelays(text);
  for (const id of ["outcomes", "explored"]) byId(id).replaceChildren();
  byId("link-said").hidden = true;
  [byId("command").value, byId("value").value, byId("place").value] = [args[0], args[1] ?? "0", args[2] ?? "0"];
  chooseCommand();
  showText(null);
}

/** Shows a job that was kept. */
function bringBack(text) {
  chooseOwn();
  show(text, ["run"]);
  byId("job").focus();
  lookForFault();
  say("Your job is here again.");
}

/** Shows a job as it was before its last change. */
function takeBack(text) {
  view.show(text);
  changed();
  byId("job").focus();
  say("The change is undone.");
}

function chooseCommand() {
  const command = byId("command").value;
  byId("value-field").hidden = !WITH_VALUE.includes(command);
  byId("place-field").hidden = command !== "watch";
  byId("value-label").textContent = command === "make" ? "Number" : "Slot";
}

function chooseExample() {
  const chosen = chosenJob(texts.jobs);
  if (!chosen) return;
  begin(chosen.job, chosen.args);
  if (engine) say("Ready.");
  else showRecorded(chosen);
}

/** Shows the report that was recorded of an example, if the machine can't run. */
function showRecorded({ report }) {
  if (report) showText(outcomeOfRecord(report), { say });
}

/** Begins with the text of a file. If it isn't a text, the job that is shown stays. */
async function openFile(file) {
  if (!file) return;
  byId("file").value = "";
  const text = await file.text(), plain = text.replace(/\r\n?/g, "\n");
  if (text.includes("\0")) return say(`${file.name} isn't a text, so the job stays as it is. Open a file whose first line is KDF9 JOB 1.`, true);
  chooseOwn();
  begin(plain, ["run"]);
  lookForFault();
  if (text === plain) say(`${file.name} is open.`);
  else say(`${file.name} is open; its line ends, those of another system, were changed.`, true);
  return undefined;
}

/** Opens a file that is dropped anywhere on the page. The browser would leave the page for it. */
function attendToDrops() {
  addEventListener("dragover", (event) => {
    if (event.dataTransfer?.types.includes("Files")) event.preventDefault();
  });
  addEventListener("drop", (event) => {
    if (!event.dataTransfer?.files.length) return;
    event.preventDefault();
    openFile(event.dataTransfer.files[0]);
  });
}

async function showLink() {
  const hash = await packedJob(view.text);
  keeping.saved();
  byId("address").value = location.href.split("#")[0] + hash;
  byId("link-said").hidden = false;
  history.replaceState(null, "", hash);
  byId("address").select();
  say("The link is below the buttons, and in the browser's address bar.");
}

/** Begins with the job of the link, if the link has one. Returns whether it has. The job that is shown stays if the link is damaged or has no job. */
async function openLink() {
  if (!hasJob(location.hash)) return false;
  const job = await jobOfLink(location.hash);
  if (job === null || job === view.text) {
    say(job === null ? NO_LINK : "This is the job of the link.", job === null);
    return job !== null;
  }
  chooseOwn();
  begin(job, ["run"]);
  await run();
  if (engine) say(`This is the job of the link. ${byId("state").textContent}`, byId("state").classList.contains("wrong"));
  return true;
}

/** Shows the page as it is read from afar, or as usual. */
function switchLecture() {
  const isOn = document.documentElement.classList.toggle("lecture");
  byId("lecture").setAttribute("aria-pressed", `${isOn}`);
}

/** What each button does. */
const BUTTONS = {
  run, stop, see, "to-fault": () => view.goToFault(), "to-results": () => goTo("results"), link: showLink, lecture: switchLecture, schedule: writeSchedule, look: () => look(0), try: () => trials.tryAll(), explore: () => exploring.all(),
  shuffle: () => variations.shuffle(), neighbours: () => variations.changeNeighbours(),
  "compare-alone": compareWithAlone, "compare-before": () => work("Comparing this run with the run before.", () => theorem.withBefore()),
  open: () => byId("file").click(), save: () => { saveFile("kdf9.job", view.text); keeping.saved(); }, "save-report": () => saveFile("kdf9.report", lastText),
};

function attend() {
  attendToKeys();
  attendToDrops();
  listSpeeds();
  for (const [id, act] of Object.entries(BUTTONS)) byId(id).onclick = () => act();
  byId("example").onchange = chooseExample;
  byId("command").onchange = () => {
    chooseCommand();
    clearTimeout(pause);
    pause = setTimeout(lookForFault, PAUSE);
  };
  byId("scheduling").ontoggle = byId("speeds").onchange = () => drawDelays(view.text);
  byId("place").onfocus = offerPlaces;
  byId("file").onchange = () => openFile(byId("file").files[0]);
  byId("address").onfocus = () => byId("address").select();
  for (const radio of document.querySelectorAll("input[name=view]")) radio.onchange = () => view.showWhole(radio.value === "whole");
  addEventListener("hashchange", openLink);
  addEventListener("keydown", (event) => {
    if (event.key === "Enter" && event.ctrlKey) run();
    else if (event.key === "Escape") stop();
  });
}

async function load() {
  for (const [name, value] of [["texts", texts], ["help", help]]) {
    Object.assign(value, JSON.parse(new TextDecoder().decode(await unpacked(bytesOf(byId(name).textContent)))));
  }
  listJobs(texts.jobs);
  if (!canRun()) throw new Error("it has no WebAssembly");
  const bytes = await unpacked(bytesOf(byId("module").textContent)), isLong = hasLongAddresses();
  byId("short-addresses").hidden = isLong;
  const module = await WebAssembly.compile(isLong ? bytes : narrowed(bytes));
  engine = new Engine(module, byId("worker").textContent);
}

/** Begins with the job of this tab before it was loaded again. The job that the page or its link has is offered. */
async function openOwn(own) {
  const given = texts.start ?? (hasJob(location.hash) ? await jobOfLink(location.hash) : null);
  bringBack(own.text);
  keeping.resume();
  if (given !== null && given !== own.text) keeping.offer("This page was opened with another job.", "Show that job", () => begin(given, ["run"]));
  say(`Here is your job as it was on ${timeOf(own)}.`);
}

/** Begins with the job with which the page was made, and shows its run call by call; or with the first of the list. */
async function openFirst() {
  const isMade = typeof texts.start === "string";
  if (isMade) chooseOwn();
  else chooseFirst();
  const first = isMade ? { job: texts.start, args: ["run"] } : chosenJob(texts.jobs) ?? { job: EMPTY_JOB, args: ["run"] };
  begin(first.job, first.args);
  if (!engine) return showRecorded(first);
  await run();
  if (isMade && lastRun) look(0);
}

async function open() {
  let lack = null;
  attend();
  try {
    await load();
  } catch (error) {
    lack = `This browser can't run the machine: ${error.message}. The examples are shown with the reports that were recorded of them.`;
  }
  setBusy(false);
  const own = keeping.own();
  if (own) await openOwn(own);
  else if (!await openLink()) {
    await page.first();
    if (hasJob(location.hash)) say(NO_LINK, true);
  }
  await page.opened();
  if (lack) say(lack, true);
}

// For use from the browser's console: the machine's answer to the words of a command for a job, the fault of a job, and the job and the text that are shown.
globalThis.kdf9 = { ask, explain, job: () => view.text, text: () => lastText };
open();
