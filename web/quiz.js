// Questions whose answers the machine gave when the page was made. One is tried before its answer is shown.

import { button, labelled, make, scrolled } from "./dom.js";
import { nodesOf } from "./prose.js";

const simplified = (text) => text.trim().toLowerCase().replace(/[\s,;]+/g, " ");

/** A question with its texts, a place for the answer, and the answer once it was tried. `page` begins a job, `tries` has what was answered by the titles of questions, and `keep` keeps that. */
export function drawQuestion(question, { page, tries, keep }) {
  const { title, task, texts, asked, answer, why } = question;
  const mine = make("input", { type: "text", size: "30", autocomplete: "off", spellcheck: "false" }), said = make("p", { class: "said", role: "status", hidden: true });
  const tell = () => {
    const typed = tries[title], isRight = simplified(typed) === simplified(answer);
    said.replaceChildren(isRight ? `✓ ${typed}: that is what the machine does.` : `✗ ${typed}: the machine does something else.`);
    said.hidden = false;
    show.disabled = false;
  };
  const solve = () => {
    if (mine.value.trim() === "") return page.say("Type an answer first.", true);
    tries[title] = mine.value.trim();
    keep();
    return tell();
  };
  const show = button("Show the answer", () => said.append(make("br"), `Answer: ${answer}. `, ...nodesOf(why)), { disabled: true });
  mine.onkeydown = (event) => { if (event.key === "Enter" && !event.ctrlKey) solve(); };
  mine.value = tries[title] ?? "";
  if (tries[title]) tell();
  const others = Object.entries(texts).filter(([name]) => name !== "job").flatMap(([name, text]) => [make("p", {}, `${name[0].toUpperCase()}${name.slice(1)}:`), textOf(name, text)]);
  const job = [textOf("job", texts.job), button("Put the job into the editor", () => page.begin(texts.job, ["run"]))];
  return make("section", { "aria-label": title }, make("h4", {}, title), make("p", {}, ...nodesOf(task)), ...job, ...others,
    make("p", {}, make("strong", {}, asked)), make("div", { class: "fields" }, labelled("Your answer", mine), button("Try", solve), show), said);
}

const textOf = (name, text) => scrolled("deck", `The ${name} of the question`, text);
