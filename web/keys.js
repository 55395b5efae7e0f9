// The keys of the page: a list of all of them, which the key ? shows.

import { byId, make, table } from "./dom.js";

/** The keys, and what each does, by where they work. */
const KEYS = [
  ["Everywhere", [
    ["Ctrl Enter", "runs the job"], ["Escape", "stops a run, or closes what is open"], ["?", "shows this list, if no text is being written"],
    ["F6, Shift F6", "goes to the next part of the page, to the one before"],
  ]],
  ["In a deck", [
    ["F1", "says what the statement at the caret is"], ["F2", "goes from a jump to its reference, and from a reference to the next jump to it"],
    ["F8", "shows the run at the next call at which the program comes to the statement at the caret"], ["F9", "sets a breakpoint at the statement, or takes it away"],
    ["Ctrl Space", "offers names that go on as the statement begins"], ["Ctrl Alt F", "finds and replaces"],
  ]],
  ["In a picture", [
    ["+, -, 0", "shows fewer calls, more calls, all calls"], ["[, ]", "goes back, goes on"],
    ["←, →, ↑, ↓", "go from bar to bar and from row to row, and say what is there"], ["Enter", "goes to the call of the bar"],
  ]],
  ["In a run, call by call", [
    ["b, f", "one call back, one call on"], ["e", "to the next event"], ["h", "to the next call that finds a program held up"],
    ["o", "to the next order of the chosen program"], ["n, p", "after watch: to the next stop, to the previous stop"],
    ["N, B", "to the next breakpoint, to the one before"], ["c", "to the next call at which the program comes to the statement at the caret"],
    ["w", "back to the call with which the chosen word got its value"],
  ]],
];

/** The places to which F6 goes, one after another. From them a few tabs lead to all that can be used. */
const STATIONS = [
  "#lecture", "#exercise", "#check", "#questions > summary", "#hand-in > summary", "#teacher > summary", "#example", "#editors textarea", "#scheduling > summary", "#try", "#exploring > summary",
  "#explored summary", "#command", "#run", ".timeline > [tabindex]", ".sums > summary", ".what-if > summary",
  "#sections summary", "#sections .blocks", "#report", "#replay input", "#replay [tabindex]", "#compare-alone", "#compared summary",
].join();

/** The kinds of INPUT into which one writes. */
const WRITTEN = ["text", "search"];

const isWriting = ({ tagName, type }) => tagName === "TEXTAREA" || tagName === "SELECT" || (tagName === "INPUT" && WRITTEN.includes(type));

function show() {
  if (!byId("keys").open) byId("keys").showModal();
}

/** Goes to the next station after what has the focus, or to the one before; from the last to the first. */
function goOn(isBack) {
  const at = document.activeElement, all = [...document.querySelectorAll(STATIONS)].filter((each) => each.checkVisibility() && !each.disabled);
  const side = isBack ? Node.DOCUMENT_POSITION_PRECEDING : Node.DOCUMENT_POSITION_FOLLOWING, rest = all.filter((each) => each !== at && at.compareDocumentPosition(each) & side);
  const next = isBack ? rest.at(-1) ?? all.at(-1) : rest[0] ?? all[0];
  next.focus();
}

/** Fills the list, and shows it by its key and its button. */
export function attendToKeys() {
  const keys = (names) => make("span", {}, ...names.split(", ").flatMap((name, at) => [...(at ? [", "] : []), make("kbd", {}, name)]));
  byId("keys-list").replaceChildren(...KEYS.map(([where, rows]) => table(where, ["key", "does"], rows.map(([names, does]) => [keys(names), does]))));
  byId("show-keys").onclick = show;
  addEventListener("keydown", (event) => {
    if (event.key === "F6") {
      event.preventDefault();
      goOn(event.shiftKey);
      return;
    }
    if (event.key !== "?" || isWriting(event.target)) return;
    event.preventDefault();
    show();
  });
}
