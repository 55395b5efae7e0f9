// A course beside the editor: its exercises, the task, [Check] and what came of it, hints, questions, what is handed in, and a teacher's solutions.

import { Coursework, hasWork } from "./coursework.js";
import { button, byId, choice, labelled, make, table } from "./dom.js";
import { chooseOwn } from "./examples.js";
import { judged, runsOf } from "./exercise.js";
import { packedJob, saveFile } from "./link.js";
import { keyOf, opened } from "./opened.js";
import { nodesOf } from "./prose.js";
import { drawQuestion } from "./quiz.js";
import { many } from "./report.js";

const ELSEWHERE = "The editor has another job than that of this exercise.", DAMAGED = "The link is damaged, or has the work of another course.";

/** What is said in place of a remark if nothing was changed: a remark would be on a mistake that nobody made. */
const UNCHANGED = "This is still the starting job.";

/** How an exercise stands, in a few signs. */
const standOf = ({ right, of }) => (of === 0 ? "" : right === of ? " ✓" : ` (${right} of ${of})`);

export class CourseView {
  constructor(course, page) {
    Object.assign(this, { course, page, coursework: new Coursework(course.name), keys: new Map(), isOwn: true });
    this.at = Math.max(0, course.exercises.findIndex(({ number }) => number === this.coursework.at));
    this.draw();
    addEventListener("hashchange", () => this.follow());
    addEventListener("storage", () => { this.coursework.refresh(); this.drawProgress(); });
  }

  get exercise() {
    return this.course.exercises[this.at];
  }

  get work() {
    return this.coursework.of(this.exercise);
  }

  /** Draws the part of the page that a course has. */
  draw() {
    this.list = choice(this.course.exercises.map((_, at) => [`${at}`, ""]), `${this.at}`, () => this.go(Number(this.list.value)));
    Object.assign(this.list, { id: "exercise" });
    this.progress = make("p", { id: "progress" });
    this.away = make("p", { class: "notice", hidden: true }, `${ELSEWHERE} `, button("Back to the exercise", () => this.begin()));
    this.task = make("article", { id: "task", "aria-label": "The task" });
    this.checks = ["check", "check-here"].map((id) => button("Check", () => this.checkNow(), { id, class: "main", disabled: true }));
    this.found = make("div", { id: "judged", role: "group", "aria-label": "What came of the check" });
    this.made = make("progress", { "aria-label": "Runs of this check", hidden: true });
    this.hints = make("ol", { class: "hints" });
    this.more = button("Open a hint", () => this.openHint(), { id: "hint" });
    this.questions = make("details", { id: "questions" });
    this.solution = make("div", {});
    const again = button("Begin again", () => this.beginAgain());
    const section = make("section", { id: "course", "aria-labelledby": "course-heading", tabindex: "-1" }, make("h2", { id: "course-heading" }, `Course: ${this.course.title}`),
      make("div", { class: "bar", role: "group", "aria-label": "Exercises" }, labelled("Exercise", this.list), this.progress), this.away, this.task,
      make("div", { class: "bar", role: "group", "aria-label": "Checking" }, this.checks[0], again, this.more, this.made), this.found, this.hints, this.questions, this.drawHandIn(), this.drawTeacher());
    document.querySelector("main").prepend(section);
    byId("stop").after(this.checks[1]);
    document.body.classList.add("with-course");
    this.drawExercise();
  }

  /** Draws the exercise that is chosen. */
  drawExercise() {
    const { exercise } = this, { title, number, prose, limits, schedules, shown } = exercise, counts = limits.map((each) => make("li", {}, each));
    const meanings = schedules.map(([written, meaning]) => make("li", {}, make("code", {}, written), `: ${meaning}`));
    this.list.value = `${this.at}`;
    this.task.replaceChildren(make("h3", {}, `${number}. ${title}`), ...nodesOf(prose), make("h4", {}, "What counts"), make("ul", {}, ...counts),
      make("details", { id: "schedules-told" }, make("summary", {}, "What these schedules are"), make("ul", {}, ...meanings)),
      this.tableOfCases("Cases that you see", shown));
    this.found.replaceChildren();
    this.drawHints();
    this.questions.hidden = !exercise.questions.length;
    const keep = () => this.coursework.keep(), { page, coursework: { tries } } = this;
    this.questions.replaceChildren(make("summary", {}, `Questions: ${exercise.questions.length}`), ...exercise.questions.map((each) => drawQuestion(each, { page, tries, keep })));
    this.drawSolution();
    this.drawProgress();
  }

  tableOfCases(caption, cases) {
    const lines = (all) => make("span", {}, ...all.flatMap((each, at) => [...(at ? [make("br")] : []), make("code", {}, each)]));
    return make("div", { class: "wide" }, table(caption, ["case", "gives", "due"], cases.map(({ name, gives, dues }) => [name, lines(gives), lines(dues)])));
  }

  drawProgress() {
    const { exercises } = this.course, work = exercises.map((each) => this.coursework.of(each)), right = work.filter(({ right: mine, of }) => of && mine === of).length;
    exercises.forEach(({ number, title }, at) => { this.list.options[at].text = `${number} ${title}${standOf(work[at])}`; });
    this.progress.textContent = `${right} of ${many(exercises.length, "exercise")} right`;
  }

  drawHints() {
    const { hints } = this.exercise, open = this.work.hints;
    this.hints.replaceChildren(...hints.slice(0, open).map((hint) => make("li", {}, ...nodesOf(hint))));
    this.more.textContent = open < hints.length ? `Open a hint (${open} of ${hints.length} open)` : `All ${many(hints.length, "hint")} are open`;
    this.more.disabled = open >= hints.length;
  }

  openHint() {
    const { hints } = this.exercise, open = Math.min(hints.length, this.work.hints + 1);
    this.coursework.set(this.exercise, { hints: open });
    this.drawHints();
    this.page.say(`Hint ${open} of ${hints.length}: ${this.hints.lastChild.textContent}`);
    if (this.more.disabled) this.checks[0].focus();
  }

  /** Chooses another exercise. The work at the one that was there stays kept. */
  go(at) {
    this.at = at;
    this.coursework.at = this.exercise.number;
    this.coursework.keep();
    this.drawExercise();
    return this.begin();
  }

  /** Puts the job of the exercise into the editor, as it was when somebody worked at it last, or its starting job. */
  begin() {
    chooseOwn();
    this.page.begin(this.work.job, ["run"]);
    this.page.say(`Exercise ${this.exercise.number}: ${this.exercise.title}. The task is beside the editor; Check says how it does.`);
  }

  /** Puts the starting job into the editor. What was there is offered, as after every change. */
  beginAgain() {
    const { view, keeping } = this.page, before = view.text;
    this.coursework.set(this.exercise, { job: this.exercise.job });
    this.begin();
    if (before !== this.exercise.job) keeping.offerUndo("This is the starting job again.", before);
  }

  /** The page was opened. If its link has work, that is taken. */
  async opened() {
    this.busy(false);
    await this.follow();
    this.shown(this.page.view.text);
  }

  /** Takes the work that the link has. The jobs that it replaces are kept. */
  async follow() {
    if (!hasWork(location.hash)) return;
    const replaced = await this.coursework.take(location.hash);
    if (replaced === null) {
      this.page.say(DAMAGED, true);
      return;
    }
    for (const job of replaced) this.page.keeping.kept.keepApart(job);
    history.replaceState(null, "", location.href.split("#")[0]);
    this.go(Math.max(0, this.course.exercises.findIndex(({ number }) => number === this.coursework.at)));
    this.page.say(`This is the work of the link: ${this.progress.textContent}.`);
  }

  /** The page shows another job. It is that of the exercise, or another one, which then isn't kept as its work. */
  shown(text) {
    this.isOwn = text === this.work.job;
    this.away.hidden = this.isOwn;
  }

  /** Somebody changed the job. */
  changed() {
    if (this.isOwn) this.coursework.set(this.exercise, { job: this.page.view.text });
  }

  busy(isBusy) {
    for (const check of this.checks) check.disabled = isBusy || !this.page.canRun();
  }

  /** Makes the runs of the exercise, and says how many are right. */
  async checkNow() {
    const { page, exercise } = this, { view: { text } } = page, of = runsOf(exercise);
    await page.work(`Checking: ${many(of, "run")}.`, async () => {
      Object.assign(this.made, { max: of, value: 0, hidden: false });
      const result = await judged(page.ask, exercise, text, (made) => { this.made.value = made; }).finally(() => { this.made.hidden = true; });
      if (exercise !== this.exercise) return;
      this.coursework.set(exercise, { right: result.right, of, ...(this.isOwn ? {} : { job: text }) });
      this.shown(page.view.text);
      this.drawProgress();
      this.drawResult(text === exercise.job && result.missed ? { ...result, remark: UNCHANGED } : result);
    });
    await page.lookForFault();
  }

  /** What a check came to, in sentences. */
  said({ right, of, missed }) {
    if (!missed) return `✓ ${right} of ${many(of, "run")} right.`;
    const where = [missed.case, missed.plan].filter(Boolean).join(", ");
    const what = missed.isShown ? `${missed.came}${missed.due ? `; due: ${missed.due}` : ""}.` : "something else came than was due. You don't see this case.";
    return `✗ ${right} of ${many(of, "run")} right. ${where ? `On ${where}: ${what}` : `${what[0].toUpperCase()}${what.slice(1)}`}`;
  }

  drawResult(result) {
    const { missed, remark } = result, said = this.said(result), { alone } = this.exercise;
    const show = missed?.job && missed.isShown ? [button("Show this run", () => this.showRun(missed), { id: "show-run" })] : [];
    const next = !missed && this.at + 1 < this.course.exercises.length ? [button("Next exercise", () => { this.go(this.at + 1); this.list.focus(); }, { id: "next-exercise" })] : [];
    const rest = alone ? [make("p", {}, `${many(alone, "check")} more, over every schedule, ${alone === 1 ? "is" : "are"} made by `, make("code", {}, "./kdf9 mark"), " alone.")] : [];
    this.found.replaceChildren(make("p", { class: missed ? "notice" : "said" }, said), ...(remark ? [make("p", { class: "remark" }, remark)] : []), ...rest, ...show, ...next);
    this.page.say([said, remark].filter(Boolean).join(" "), Boolean(missed));
  }

  /** Shows the run that wasn't right, call by call: at the call with which the word got its value, or at the end. */
  showRun({ job, about }) {
    return this.page.showOther(job, about?.kind === "word" ? { slot: about.slot, word: about.subject } : null);
  }

  drawHandIn() {
    const link = make("input", { readonly: true, onfocus: () => link.select() }), field = labelled("The link to your work", link);
    field.hidden = true;
    const makeLink = async () => {
      link.value = location.href.split("#")[0] + await this.coursework.packed();
      field.hidden = false;
      link.focus();
      this.page.say("The link has all your work. Hand it in, or open it elsewhere to go on.");
    };
    return make("details", { id: "hand-in" }, make("summary", {}, "Hand in, or go on elsewhere"),
      make("p", {}, "The browser keeps your work here. A link has all of it too: whoever opens it has your jobs, and ", make("code", {}, "./kdf9 mark"), " takes it. A file has a link for each exercise."),
      make("div", { class: "fields" }, button("Make the link", makeLink, { id: "work-link" }), button("Save a file of links", () => this.saveLinks(), { id: "save-links" })), field);
  }

  /** Saves the jobs of all exercises that were begun as a file of links, each with the number of its exercise. */
  async saveLinks() {
    const place = location.href.split("#")[0], begun = Object.entries(this.coursework.work);
    if (!begun.length) {
      this.page.say("There is no work to hand in yet. Change the job of an exercise, or press Check.", true);
      return;
    }
    const lines = await Promise.all(begun.map(async ([number, { job }]) => `${number} ${place}${await packedJob(job)}\n`));
    saveFile(`${this.course.name}.txt`, lines.join(""));
    this.page.say(`${this.course.name}.txt has the links of ${many(lines.length, "exercise")}. Give the file your own name before you hand it in.`);
  }

  drawTeacher() {
    const word = make("input", { type: "password", autocomplete: "off", size: "16" }), open = () => this.openSolutions(word.value);
    word.onkeydown = (event) => { if (event.key === "Enter" && !event.ctrlKey) open(); };
    return make("details", { id: "teacher" }, make("summary", {}, "For teachers"),
      make("div", { class: "fields" }, labelled("The teacher's word", word), button("Open the solutions", open, { id: "open-solutions" })), this.solution);
  }

  openSolutions(word) {
    this.key = keyOf(word);
    this.page.say(this.drawSolution() ? "The solutions are open." : "No solution of this exercise opens with this word.", !this.solution.childElementCount);
  }

  /** Draws the solution, if the word that was given opens it. Returns whether it does. */
  drawSolution() {
    const { sealed } = this.exercise, told = sealed && this.key ? opened(sealed, this.key) : null;
    const put = (job, name) => button(name, () => this.page.begin(job, ["run"]));
    this.solution.replaceChildren(...(told ? [
      make("h4", {}, "The solution"), make("p", {}, ...nodesOf(told.answers)), put(told.solution, "Put the solution into the editor"),
      ...(told.cases.length ? [this.tableOfCases("Cases that students don't see", told.cases)] : []),
      ...told.wrong.flatMap(({ name, job, remark }) => [make("h4", {}, `Wrong: ${name}`), make("p", {}, ...nodesOf(remark)), put(job, `Put '${name}' into the editor`)]),
    ] : []));
    return told !== null;
  }
}
