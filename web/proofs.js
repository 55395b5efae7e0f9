// The page of the proofs. What each word means is found when the page is made: here the words are drawn, definitions open in place, and the trail is kept.
import { byId, make } from "./dom.js";

const data = JSON.parse(byId("data").textContent);
const { entries } = data;
const numberByKey = new Map(entries.map((entry, number) => [entry.k, number]));
const views = [...document.querySelectorAll(".view")];

// What stands in front of a word that is bound in its own text.
const BOUND = /\ue000([^\s(){}[\],;.]+)/;

const KINDS = {
  definition: "definition", record: "definition, as a record", data: "definition, by its forms", field: "field", form: "form", struct: "type of the code", enum: "type of the code",
  trait: "trait of the code", const: "constant of the code", type: "type of the code", function: "public call", law: "law", example: "computed examples", library: "word of the library",
  notation: "word of clauses", ghost: "what contracts see", crate: "crate", module: "module of definitions",
};
const believed = new Set(data.lists.definitions);
const MOST_LISTED = 80, MOST_FOUND = 40, OPENING_PART = "theorem", OF_THIS_PAGE = "word of this page";

const addressOf = (key) => `#${encodeURIComponent(key)}`;
const whole = (number) => entries[number].p ?? number;

// ---- which entries cite which

let citedBy;

/** The entries that cite another, by its number. */
function citing(number) {
  if (!citedBy) {
    citedBy = entries.map(() => new Set());
    entries.forEach((entry, from) => {
      for (const pieces of texts(entry)) {
        for (let at = 1; at < pieces.length; at += 2) {
          const to = [pieces[at]].flat()[0];
          if (whole(to) !== from) citedBy[whole(to)].add(from);
        }
      }
    });
  }
  return [...citedBy[number]];
}

/** The texts of an entry in which words are links. */
const texts = (entry) => [entry.x, entry.h, entry.v, ...(entry.c ?? []).map((clause) => clause.x)].filter(Boolean);

// ---- texts

/** A sentence, in which words between backquotes are words of the code. */
const withCode = (text) => text.split("`").map((part, at) => (at % 2 ? make("code", {}, part) : part));

/** Paragraphs of sentences. */
const paragraphs = (text, attributes = {}) => text.split(/\n\n+/).filter(Boolean).map((part) => make("p", attributes, ...withCode(part.replace(/\n/g, " "))));

/** A word of a text as a link to what it means. */
function wordLink(number, word, own) {
  const entry = entries[number], kind = entry.t;
  const isSign = !/[\p{L}\p{N}]/u.test(word);
  const names = [kind === "library" || kind === "notation" ? "of-library" : "", ["struct", "enum", "const", "trait", "form", "ghost", "type"].includes(kind) ? "of-code" : "", isSign ? "sign" : "", number === own ? "self" : ""];
  const link = make("a", { href: addressOf(entry.k), class: names.filter(Boolean).join(" "), title: `${entry.k}: ${(entry.s ?? entries[whole(number)].s ?? "").slice(0, 160)}` }, word);
  if (isSign) link.tabIndex = -1;
  return link;
}

/** The words that are bound in a text, and its remarks. */
function plainWords(text) {
  return text.split(/((?:--|\/\/)[^\n]*)/).flatMap((part, at) => (at % 2 ? [make("span", { class: "remark" }, part.replaceAll("\ue000", ""))]
    : part.split(BOUND).map((word, place) => (place % 2 ? make("span", { class: "bound", title: "a variable of this text" }, word) : word))));
}

/** A text with its words as links. */
function linked(pieces, own, marked) {
  const found = [];
  pieces.forEach((piece, at) => {
    if (at % 2 === 0) return found.push(...plainWords(piece));
    const [number, word] = typeof piece === "number" ? [piece, shortName(piece)] : piece;
    const link = wordLink(number, word, own);
    if (number === marked && number !== own) link.classList.add("here");
    return found.push(link);
  });
  return found;
}

const shortName = (number) => { const { k, n, t } = entries[number]; return t === "function" ? k.split(/[.:]/).at(-1) : n; };

/** A block of text, below which definitions open. */
const textBlock = (pieces, own, marked) => make("pre", { class: "block", "data-of": entries[own].c ? "call" : "text" }, make("code", {}, ...linked(pieces, own, marked)));

/** What opens on demand: its content is made then. */
function unfolding(title, content, isOpen = false) {
  const inner = make("div", { class: "inner" });
  const details = make("details", {}, make("summary", {}, title), inner);
  const fill = () => { if (!inner.hasChildNodes()) inner.append(...content()); };
  details.ontoggle = () => { if (details.open) fill(); };
  if (isOpen) { fill(); details.open = true; }
  return details;
}

/** A list of links to entries. */
function linksTo(list, says = false) {
  const items = list.slice(0, MOST_LISTED).map((number) => make("li", {}, make("a", { href: addressOf(entries[number].k) }, make("code", {}, entries[number].n)), says && entries[number].s ? ": " : "", ...(says ? withCode(firstSentence(entries[number].s)) : [])));
  const rest = list.length - items.length;
  return [make("ul", { class: says ? "" : "list" }, ...items, ...(rest > 0 ? [make("li", {}, `and ${rest} more`)] : []))];
}

const firstSentence = (text = "") => text.split(/\n\n/)[0].replace(/\n/g, " ");

// ---- cards

/** What an entry says, with all that belongs to it. */
function contentOf(number, marked) {
  const entry = entries[number];
  const found = [];
  if (entry.s) found.push(...paragraphs(entry.s));
  if (entry.o !== undefined) found.push(make("p", { class: "note" }, ...(entry.o ? ["This stands in front of ", make("code", {}, entry.o), ", and covers this definition too, or is what it helps to write."] : ["This is what is said of its module. The definition has no sentence of its own."])));
  if (entry.v) found.push(make("p", { class: "label" }, "Contracts see it as"), textBlock(entry.v, number, marked));
  if (entry.h) found.push(textBlock(entry.h, number, marked));
  if (entry.x) found.push(textBlock(entry.x, number, marked));
  for (const clause of entry.c ?? []) found.push(clauseOf(clause, number));
  if (entry.b) found.push(unfolding("Its body", () => [make("pre", {}, entry.b)]));
  found.push(...marginOf(entry, number));
  return found;
}

/** A clause of a contract with its name. */
function clauseOf(clause, number) {
  const label = `${clause.k}${clause.n ? ` ${clause.n}` : ""}`;
  return make("div", { class: "clause" }, ...(clause.s ? [make("p", { class: "note" }, ...withCode(clause.s))] : []), make("span", { class: "label" }, label), textBlock(clause.x, number));
}

/** What stands beside an entry: the rule that it states, examples, who cites it, and where it stands. */
function marginOf(entry, number) {
  const found = [];
  const module = data.modules[entry.m];
  if (module?.r !== undefined) {
    const rule = data.rules[module.r];
    found.push(unfolding(`The rule it states: ${rule.name} (${rule.path})`, () => [...byId(`rule-${module.r}`).querySelector(".text").cloneNode(true).childNodes]));
  }
  const examples = data.examples[number] ?? [];
  if (examples.length) found.push(unfolding(`Computed examples: ${examples.length}`, () => examples.slice(0, 12).map(([from, place]) => exampleOf(from, place)).concat(examples.length > 12 ? [make("p", {}, `and ${examples.length - 12} more`)] : [])));
  const citers = citing(number).filter((from) => entries[from].t !== "example");
  if (citers.length) found.push(unfolding(`Cited by ${citers.length}`, () => linksTo(citers)));
  const where = entry.f ? [make("code", {}, `${entry.f[0]}:${entry.f[1]}`)] : [];
  if (data.modules[entry.m]) where.push(believed.has(number) ? ". The theorem reaches this definition." : ". The theorem doesn't reach this definition: it serves other contracts.");
  if (where.length) found.push(make("p", { class: "note" }, ...where));
  return found;
}

/** A clause of an example, with the name of its function. */
function exampleOf(from, place) {
  const entry = entries[from], clause = entry.c[place];
  return make("div", { class: "clause" }, make("span", { class: "label" }, make("a", { href: addressOf(entry.k) }, entry.n), clause.n ? ` ${clause.n}` : ""), textBlock(clause.x, from));
}

/** The kind of an entry, and the module, or else the crate, in which it stands. */
function kindOf(number) {
  const entry = entries[whole(number)], { m } = entry;
  const place = data.modules[m] ? m : data.crates.find((crate) => m?.startsWith(`${crate.name}.`))?.name;
  const where = place ? make("a", { href: addressOf(place) }, make("code", {}, place)) : m && m !== "notation" ? make("code", {}, m) : "";
  const part = whole(number) === number ? [] : [`${KINDS[entries[number].t]} of `, make("code", {}, entry.n), ", "];
  const state = ["function", "law"].includes(entry.t) ? data.crates.find((crate) => m.startsWith(`${crate.name}.`)).state : "";
  return make("span", { class: "kind" }, ...part, KINDS[entry.t], where ? " in " : "", where, ...(state ? [" ", make("span", { class: `state ${state}` }, state)] : []));
}

let cards = 0;

/** An entry as a card, which can be closed. */
function cardOf(key, close) {
  const number = numberByKey.get(key), own = whole(number), entry = entries[own];
  const id = `card-${++cards}`;
  const title = own === number ? entry.n : `${entry.n}.${entries[number].n}`;
  const head = make("header", {}, make("h3", { id, tabindex: "-1" }, title), kindOf(number), make("a", { href: addressOf(key), class: "kind alone" }, "by itself"), make("button", { type: "button", onclick: close, "aria-label": `Close ${title}` }, "Close"));
  return make("section", { class: "card", "aria-labelledby": id, "data-key": key }, head, ...contentOf(own, number));
}

// ---- the parts of the page

/** A crate: what it is, its modules, its calls and its laws. */
function crateContent(name) {
  const crate = data.crates.find((each) => each.name === name);
  const of = (kinds) => entries.flatMap((entry, number) => (entry.m?.startsWith(`${name}.`) && kinds.includes(entry.t) ? [number] : []));
  const modules = Object.keys(data.modules).filter((each) => each.startsWith(`${name}.`));
  const found = [make("p", {}, make("span", { class: `state ${crate.state}` }, crate.state)), ...paragraphs(crate.says)];
  if (crate.needs.length) found.push(make("p", {}, "It stands on ", ...crate.needs.flatMap((each, at) => [at ? ", " : "", data.crates.find((other) => other.name === each).state === "trusted" ? make("code", {}, each) : make("a", { href: addressOf(each) }, make("code", {}, each))]), "."));
  if (modules.length) found.push(make("h2", {}, "Definitions"), make("ul", {}, ...modules.map((each) => make("li", {}, make("a", { href: addressOf(each) }, make("code", {}, each)), ": ", ...withCode(data.modules[each].s)))));
  if (crate.longest?.length) found.push(make("h2", {}, "Where its proof is longest"), make("p", {}, `Its proofs have ${crate.lines[1].toLocaleString("en")} lines, beside ${crate.lines[0].toLocaleString("en")} of code with contracts.`), make("ul", {}, ...crate.longest.map(([says, file, lines]) => make("li", {}, ...withCode(says), ` (${lines} lines, `, make("code", {}, file), ")"))));
  for (const [title, kinds] of [["Public calls", ["function"]], ["Laws", ["law"]], ["Computed examples", ["example"]]]) {
    const list = of(kinds);
    if (list.length) found.push(make("h2", {}, title), ...linksTo(list, true));
  }
  return found;
}

/** A module of definitions: its definitions one after the other, as its file has them. */
function moduleContent(name) {
  const module = data.modules[name];
  const list = entries.flatMap((entry, number) => (entry.m === name && entry.f ? [number] : [])).sort((one, other) => entries[one].f[1] - entries[other].f[1]);
  return [...paragraphs(module.s), ...list.map((number) => make("section", { class: "definition" }, make("h3", {}, make("a", { href: addressOf(entries[number].k) }, make("code", {}, entries[number].n))), ...(entries[number].s ? paragraphs(entries[number].s) : []), textBlock(entries[number].x, number)))];
}

/** Fills the places of a part that the script draws: clauses, and lists of definitions to be opened. */
function fill(view) {
  if (view.dataset.isFilled) return;
  view.dataset.isFilled = "yes";
  for (const place of view.querySelectorAll("[data-clauses]")) {
    const top = entries[data.top];
    for (const name of place.dataset.clauses.split(" ")) {
      if (name === "head") place.append(textBlock(top.h, data.top));
      for (const clause of top.c.filter((each) => (each.n ?? "") === name)) place.append(make("div", { class: "clause", "data-clause": name }, make("span", { class: "label" }, `${clause.k} ${name}`), textBlock(clause.x, data.top)));
    }
  }
  for (const place of view.querySelectorAll("[data-entry]")) {
    const number = numberByKey.get(place.dataset.entry);
    place.append(...paragraphs(entries[number].s, { class: "note" }), textBlock(entries[number].x, number));
  }
  for (const place of view.querySelectorAll("[data-list]")) place.append(...listOf(data.lists[place.dataset.list], place.dataset.list));
}

/** A list of entries, each of which opens; definitions and types stand under the names of their crates, definitions under those of their modules too. */
function listOf(list, name) {
  if (name !== "definitions" && name !== "code") return entryRows(list);
  const crates = [...new Set(list.map(crateOf))].map((crate) => [crate, list.filter((number) => crateOf(number) === crate)]);
  return crates.map(([crate, own]) => unfolding(`${crate}: ${own.length}`, () => entryRows(own, name === "definitions")));
}

const crateOf = (number) => entries[number].m.split(".")[0];

function entryRows(list, withModules = false) {
  const found = [];
  let module;
  for (const number of list) {
    const entry = entries[number];
    if (entry.m !== module && withModules) {
      module = entry.m;
      found.push(make("h3", {}, make("a", { href: addressOf(module) }, make("code", {}, module))), make("p", { class: "note" }, ...withCode(data.modules[module].s)));
    }
    const opened = unfolding("", () => contentOf(number));
    opened.querySelector("summary").append(make("code", {}, entry.n), entry.s ? ": " : "", ...(entry.s ? withCode(firstSentence(entry.s)) : []));
    found.push(opened);
  }
  return found;
}

// ---- where the reader is

let shown = { view: "", key: "", trail: [] };
const openers = [];

/** The place that an address names, with the trail that history keeps for it. */
function placeNow() {
  const name = decodeURIComponent(location.hash.slice(1)) || OPENING_PART;
  if (history.state?.trail) return history.state;
  if (name !== "entry" && viewOf(name)) return { view: name, key: "", trail: [] };
  const inside = document.getElementById(name)?.closest(".view");
  if (inside && name !== "main") return { view: inside.id.slice("part-".length), key: "", trail: [], at: name };
  return { view: "entry", key: name, trail: [] };
}

const viewOf = (name) => byId(`part-${name}`);
const headingOf = (place) => (place.view === "entry" ? nameOf(place.key) : viewOf(place.view).querySelector("h1").textContent);
const nameOf = (key) => { const number = numberByKey.get(key); return number === undefined ? key : entries[number].p === undefined ? entries[number].n : `${entries[entries[number].p].n}.${entries[number].n}`; };

/** Shows a place: its part of the page, and below it the definitions of the trail, one in another. */
function show(place, isNew = false) {
  if (place.view !== shown.view || place.key !== shown.key) showView(place);
  let same = 0;
  while (same < place.trail.length && same < shown.trail.length && place.trail[same].key === shown.trail[same].key && place.trail[same].block === shown.trail[same].block) same++;
  const closed = openers[same];
  for (const opener of openers.splice(same)) { opener.card.remove(); opener.link?.classList.remove("open"); opener.link?.removeAttribute("aria-expanded"); }
  for (const step of place.trail.slice(same)) if (!openStep(step)) break;
  // What history has kept may come from an earlier page, in which other definitions stood.
  shown = { ...place, trail: place.trail.slice(0, openers.length) };
  showTrail(shown);
  document.title = `${shown.trail.length ? nameOf(shown.trail.at(-1).key) : headingOf(place)}: what is proved of kdf9`;
  const last = openers.at(-1);
  if (isNew || openers.length > same) focusOn(last ? last.card.querySelector("h3") : null, place);
  else closed?.link?.focus();
  markRow();
}

// The order of which a reader has chosen the name, until its row is marked.
let orderChosen = "";

/** Marks the row of the order that was chosen in the definition that is shown, by the remark with its name, and brings it into view. */
function markRow() {
  const written = [orderChosen, orderChosen.replace(/q$/, ""), orderChosen.replace("Jr", "J")];
  const remarks = orderChosen && shown.view === "entry" ? [...byId("entry-card").querySelectorAll(".remark")] : [];
  const rows = remarks.filter((it) => written.includes(it.textContent.replace(/^-- /, "")));
  for (const it of remarks) it.classList.toggle("here", rows.includes(it));
  rows[0]?.scrollIntoView({ block: "center" });
  orderChosen = "";
}

/** Puts the focus on a heading, and brings it into view. */
function focusOn(heading, place) {
  const target = heading ?? (place.at ? byId(place.at) : viewOf(place.view).querySelector("h1"));
  if (!target) return;
  if (!target.hasAttribute("tabindex") && target.tagName !== "DETAILS") target.tabIndex = -1;
  if (target.tagName === "DETAILS") target.open = true;
  (target.querySelector(":scope > summary") ?? target).focus({ preventScroll: true });
  if (heading) heading.closest(".card").scrollIntoView({ block: heading.closest(".card").offsetHeight > innerHeight * .7 ? "start" : "nearest" });
  else if (place.at) target.scrollIntoView();
  else scrollTo(0, 0);
}

/** Shows a part of the page. */
function showView(place) {
  for (const opener of openers.splice(0)) opener.card.remove();
  shown = { view: "", key: "", trail: [] };
  for (const view of views) view.hidden = view !== viewOf(place.view);
  for (const link of byId("parts").children) {
    if (link.hash === `#${place.view}`) link.setAttribute("aria-current", "page");
    else link.removeAttribute("aria-current");
  }
  if (place.view === "entry") showEntry(place.key);
  else fill(viewOf(place.view));
}

/** Shows an entry, a module or a crate by itself. */
function showEntry(key) {
  const number = numberByKey.get(key), title = byId("entry-title"), card = byId("entry-card");
  title.textContent = nameOf(key);
  if (number !== undefined) card.replaceChildren(make("p", { class: "note" }, kindOf(number)), ...contentOf(whole(number), number));
  else if (data.modules[key]) card.replaceChildren(make("p", { class: "note" }, KINDS.module, " in ", make("a", { href: addressOf(key.split(".")[0]) }, make("code", {}, key.split(".")[0]))), ...moduleContent(key));
  else if (data.crates.some((crate) => crate.name === key)) card.replaceChildren(...crateContent(key));
  else card.replaceChildren(make("p", {}, "There is no such name here. The search above finds names by a part of them."));
}

/** The blocks of a part or of a card that stand in it directly, and not in a card within it. */
const blocksOf = (container) => [...container.querySelectorAll(".block")].filter((it) => it.closest(".card, .view") === container);

/** Opens a definition below the block of which a word was chosen, and tells whether it can be opened there. */
function openStep(step) {
  const container = openers.at(-1)?.card ?? views.find((view) => !view.hidden);
  for (const title of step.within ?? []) {
    const details = [...container.querySelectorAll("details")].find((it) => it.querySelector("summary").textContent === title);
    if (details && !details.open) { details.open = true; details.ontoggle(); }
  }
  const anchor = blocksOf(container)[step.block];
  if (!anchor || !numberByKey.has(step.key)) return false;
  const card = cardOf(step.key, () => leave(openers.findIndex((opener) => opener.card === card)));
  anchor.after(card);
  const link = [...anchor.querySelectorAll("a")].find((it) => it.hash === addressOf(step.key));
  link?.classList.add("open");
  link?.setAttribute("aria-expanded", "true");
  openers.push({ card, link });
  return true;
}

/** Closes the definition at this place of the trail, and those that were opened from it. */
const leave = (at) => go({ ...shown, trail: shown.trail.slice(0, at) });

/** Goes to a place, which the button Back leaves again. */
function go(place) {
  const top = place.trail.at(-1)?.key ?? (place.view === "entry" ? place.key : place.view);
  history.pushState(place, "", addressOf(top));
  show(place);
}

/** Draws the trail: the part that the reader began with, and each definition that was opened since. */
function showTrail(place) {
  const items = [{ title: headingOf(place), trail: [] }, ...place.trail.map((step, at) => ({ title: nameOf(step.key), trail: place.trail.slice(0, at + 1) }))];
  byId("trail").hidden = !place.trail.length;
  byId("trail").firstElementChild.replaceChildren(...items.map(({ title, trail }, at) => {
    const link = make("a", { href: addressOf(trail.at(-1)?.key ?? (place.key || place.view)), onclick: (event) => { event.preventDefault(); go({ ...place, trail }); } }, title);
    if (at === items.length - 1) link.setAttribute("aria-current", "true");
    return make("li", {}, link);
  }));
  byId("trail").firstElementChild.scrollTop = byId("trail").firstElementChild.scrollHeight;
}

/** Where a chosen word stands: how deep in the trail, in which block, and in what that had to be opened first. */
function stepFrom(link, key) {
  const container = link.closest(".card, .view");
  const depth = openers.findIndex((opener) => opener.card === container) + 1;
  const within = [];
  for (let it = link.closest("details"); it && container.contains(it); it = it.parentElement.closest("details")) within.unshift(it.querySelector("summary").textContent);
  return { depth, step: { key, block: blocksOf(container).indexOf(link.closest(".block")), within } };
}

/** Marks a variable wherever it stands in its text; one of a contract, in the head and in all clauses. */
function markSame(bound) {
  const blocks = bound.closest(".block").dataset.of === "call" ? blocksOf(bound.closest(".card, .view")) : [bound.closest(".block")];
  for (const it of blocks.flatMap((each) => [...each.querySelectorAll(".bound")])) it.classList.toggle("same", it.textContent === bound.textContent);
}

addEventListener("click", (event) => {
  const bound = event.target.closest(".bound");
  for (const it of document.querySelectorAll(".bound.same")) it.classList.remove("same");
  if (bound) markSame(bound);
  if (!event.target.closest("search")) hideFound();
  const link = event.target.closest("a");
  if (!link?.hash || event.ctrlKey || event.metaKey || event.shiftKey || event.button) return;
  const key = decodeURIComponent(link.hash.slice(1));
  if (link.closest("#found")) clearSearch();
  orderChosen = link.dataset.order ?? "";
  if (link.hash === location.hash) markRow();
  if (!numberByKey.has(key) || !link.closest(".block") || link.classList.contains("alone")) return;
  event.preventDefault();
  if (link.classList.contains("open")) { leave(openers.findIndex((opener) => opener.link === link)); return; }
  const { depth, step } = stepFrom(link, key);
  go({ ...shown, trail: [...shown.trail.slice(0, depth), step] });
});

addEventListener("popstate", () => show(placeNow(), !history.state?.trail));

addEventListener("keydown", (event) => {
  if (event.key === "Escape" && !byId("found").hidden) { hideFound(); byId("sought").focus(); }
  else if (event.key === "Escape" && shown.trail.length) leave(shown.trail.length - 1);
  else if (event.key === "/" && !/INPUT|TEXTAREA/.test(document.activeElement.tagName)) { event.preventDefault(); byId("sought").focus(); }
});

// ---- search

// A module whose definitions only help to write examples.
const HELPER = /\.(Worked|\w*Examples)$/;

/** What the search finds: its name, where it leads, what it is, and what is said of it. */
const named = (name, key, says, more = {}) => ({ name, key, says, of: "", rank: 0, ...more, text: (more.text ?? "").toLowerCase().replace(/\s+/g, " ") });

/** The names of a passage: a word with a meaning of its own may have several. */
const namesOf = ({ dataset }) => (dataset.as === OF_THIS_PAGE ? dataset.name.split(", ") : [dataset.name]);

const names = [
  ...entries.flatMap((entry, number) => {
    const of = entries[entry.p];
    if (entry.t === "example" || entry.n === of?.n) return [];
    return [named(entry.n, entry.k, KINDS[entry.t], { of: entry.m ?? of?.k, rank: number, text: entry.s, isPart: Boolean(of) || HELPER.test(entry.m), isBelieved: believed.has(number) })];
  }),
  ...data.orders.map(([name, number]) => named(name, entries[number].k, "order", { of: entries[number].k, order: name, isBelieved: true })),
  ...Object.entries(data.modules).map(([key, { s }]) => named(key, key, KINDS.module, { text: s })),
  ...data.crates.filter(({ state }) => state !== "trusted").map(({ name, says }) => named(name, name, KINDS.crate, { text: says })),
  ...[...document.querySelectorAll("[data-as]")].flatMap((it) => {
    const text = it.textContent + (it.tagName === "DT" ? it.nextElementSibling.textContent : "");
    return namesOf(it).map((name) => named(name, it.id, it.dataset.as, { text, isWord: true }));
  }),
];

/** A text as its words, with a space before each and after the last. */
const asWords = (text) => ` ${text.replace(/[^a-z0-9]+/g, " ")} `;

/** How good a name is as what is sought: 0 if it is that, or 0.7 as a part of an entry, 0.5 if it is one in words that has its words, 1 to 3 if it begins with it, has it, or has it in its address, 4 if what is said of it has it, and none otherwise. */
function fit({ name, key, text, isWord, isPart }, sought) {
  const own = name.toLowerCase(), places = [own.indexOf(sought), own.indexOf(sought.replaceAll(" ", "_"))];
  if (own === sought || own === sought.replaceAll(" ", "_")) return isPart ? .7 : 0;
  if (isWord && asWords(own).includes(asWords(sought))) return .5;
  if (places.includes(0)) return 1;
  if (Math.max(...places) > 0) return 2;
  if (key.toLowerCase().includes(sought)) return 3;
  return text.includes(sought) ? 4 : undefined;
}

/** Which of two names that fit equally comes first: a word of the page, what the theorem reaches, any other, and last the parts of entries and what examples are written with. */
const precedence = ({ isWord, isPart, isBelieved }) => (isWord ? 0 : isPart ? 3 : isBelieved ? 1 : 2);

/** What is found for a text: first the names that are it, then those that begin with it, and last those of which something is said that has it. */
function namesWith(text) {
  const sought = text.toLowerCase();
  const found = names.map((each) => ({ each, fits: fit(each, sought) })).filter(({ fits }) => fits !== undefined);
  return found.sort((one, other) => one.fits - other.fits || precedence(one.each) - precedence(other.each) || one.each.name.length - other.each.name.length || one.each.rank - other.each.rank).map(({ each }) => each);
}

function hideFound() {
  byId("found").hidden = true;
}

/** Empties the search, as it is before the first letter. */
function clearSearch() {
  byId("sought").value = "";
  byId("found-said").textContent = "";
  hideFound();
}

/** Shows what is found for the text of the search. */
function showFound() {
  const text = byId("sought").value.trim(), found = text ? namesWith(text) : [];
  byId("found").hidden = !text;
  byId("found-said").textContent = text ? `${found.length} found` : "";
  byId("found").replaceChildren(...found.slice(0, MOST_FOUND).map((each) => make("li", {}, make("a", { href: addressOf(each.key), "data-order": each.order }, make("code", {}, each.name), make("span", {}, ` ${each.says}${each.of ? `, ${each.of}` : ""}`)))));
  const rest = found.length - MOST_FOUND;
  if (text && (rest > 0 || !found.length)) byId("found").append(make("li", { class: "note" }, rest > 0 ? `and ${rest} more` : "Nothing here has this in it."));
}

byId("sought").addEventListener("input", showFound);
byId("sought").addEventListener("click", showFound);
byId("sought").closest("search").addEventListener("focusout", (event) => { if (event.relatedTarget && !event.relatedTarget.closest("search")) hideFound(); });

byId("sought").addEventListener("keydown", (event) => {
  const first = byId("found").querySelector("a");
  if (event.key === "Enter" && first) first.click();
  else if (event.key === "ArrowDown" && first) { event.preventDefault(); byId("found").hidden = false; first.focus(); }
});

byId("found").addEventListener("keydown", (event) => {
  const item = document.activeElement.closest("li");
  const next = event.key === "ArrowDown" ? item?.nextElementSibling : event.key === "ArrowUp" ? item?.previousElementSibling : null;
  if (!/^Arrow(Up|Down)$/.test(event.key)) return;
  event.preventDefault();
  (next?.querySelector("a") ?? byId("sought")).focus();
});

show(placeNow(), location.hash !== "");
