"""The page of the proofs as one file: what is read from the sources and from the documents, the pictures, the style and the script."""
import html
import json
import pathlib
import re
from typing import Any, Dict, List, Tuple

from proving import documents, drawing
from proving.linking import Missing
from proving.reading import TOP, Reader, definition_order, examples, orders, reached
from proving.world import World
from web.bundle import in_page, script

PROOFS, README = "docs/PROOFS.md", "README.md"

# The definition that says of a machine what the headline says.
HEART = "kdf_top.Due.IsMachineOf"

# The parts of the page: what each is called.
PARTS = {"theorem": "The theorem", "map": "The map", "believe": "What must I believe?", "calls": "Calls and laws", "rules": "Rules", "help": "How to read this"}

# The kinds of entries that are words of the library, and that are types of the code.
LIBRARY, NOTATION, CODE = ("library",), ("notation",), ("struct", "enum", "const", "trait", "type")

# The crates whose definitions say how a job and its decks are read.
READING = ("kdf_job", "kdf_usercode", "kdf_place")

# Of a crate, so many of its longest files of proofs are named, each with at least so many lines.
LONGEST, LONG = 3, 100


def counted(number: int, what: str) -> str:
    """So many of something."""
    return f"{number} {what}{'' if number == 1 else 's'}"


def slug(name: str) -> str:
    """A name as a part of an address."""
    return re.sub(r"\W+", "-", name.lower()).strip("-")


def found_as(kind: str, name: str, of: str = "") -> str:
    """The attributes of an element that the search finds: its id, which begins with its kind or with `of`, its name, and what it is."""
    return f'id="{of or kind}-{slug(name)}" data-name="{html.escape(name.replace("`", ""))}" data-as="{kind}"'


def lines_of(folder: pathlib.Path, pattern: str) -> Dict[pathlib.Path, int]:
    """The files below a folder that fit a pattern, with how many lines each has."""
    return {path: len(path.read_text(encoding="utf-8").splitlines()) for path in sorted(folder.glob(pattern))}


def shown_by(path: pathlib.Path, proofs: pathlib.Path) -> str:
    """What a file of proofs is about: what its first line says, or the call whose clauses it answers."""
    first = path.read_text(encoding="utf-8").partition("\n")[0]
    inner = path.relative_to(proofs).parent.parts
    return first[3:] if first.startswith("-- ") else f"What `{'::'.join(inner)}` promises."


def sizes(crate: pathlib.Path) -> Dict[str, Any]:
    """How many lines of code and of proofs a crate has, and its longest files of proofs: where its proof is hard."""
    proofs = crate / "proofs"
    lines = lines_of(proofs, "**/*.antt")
    if not lines:
        return {}
    longest = sorted(lines, key=lambda path: (-lines[path], path))[:LONGEST]
    return {
        "lines": [sum(lines_of(crate / "src", "**/*.rt").values()), sum(lines.values())],
        "longest": [[shown_by(path, proofs), str(path.relative_to(crate)), lines[path]] for path in longest if lines[path] >= LONG],
    }


class Site:
    """All that the page has, from the repository in this folder."""

    def __init__(self, root: pathlib.Path):
        self.root = root
        self.tables = json.loads(self.text("tables/proofs.json"))
        self.world = World(root, self.tables["library"], self.tables["notation"])
        self.reader = Reader(self.world)
        self.reader.read_all()
        self.crates = drawing.crates(self.text("crates.txt"), self.tested(), {file.crate for file in self.world.files.values()})
        self.reach = reached(self.reader, TOP)
        self.order = definition_order(self.reader, self.reach, [name for row in drawing.rows_of(self.crates) for name in row])
        for key in [*(key for _, key in self.tables["words"] + self.tables["first"]), *(key for meaning in self.tables["meanings"] for key in meaning[2:])]:
            self.reader.number(key)
        self.orders = orders(self.reader, [row["name"] for row in json.loads(self.text("tables/orders.json"))["orders"]])
        self.codes = self.named_once()

    def text(self, path: str) -> str:
        """The text of a file of the repository."""
        return (self.root / path).read_text(encoding="utf-8")

    @property
    def missing(self) -> List[Tuple[str, Missing]]:
        """The words that mean nothing that is known, each with the entry in which it stands."""
        return self.reader.missing

    def tested(self) -> set:
        """The crates that have tests, and nothing that others can call."""
        found = set()
        for name in {file.crate for file in self.world.files.values()}:
            files = [file for file in self.world.files.values() if file.crate == name]
            has_tests = any("#[test]" in self.text(file.path) for file in files)
            if has_tests and not any(self.world.is_public(file, each) for file in files for each in file.functions if each.clauses):
                found.add(name)
        return found

    # ---- words of documents

    def named_once(self) -> Dict[str, str]:
        """The names of which there is one: of crates, laws, calls and definitions, each with its key."""
        found: Dict[str, List[str]] = {}
        for entry in self.reader.entries:
            if entry["t"] in ("law", "function", "definition", "record", "data", "struct", "enum", "const"):
                found.setdefault(entry["n"], []).append(entry["k"])
                found.setdefault(entry["k"].rpartition(".")[2], []).append(entry["k"])
        # Of laws with one name in a crate, the last speaks of journals with a service, as docs/PROOFS.md does.
        for entry in self.reader.entries:
            if entry["t"] in ("law", "function"):
                found[f"{entry['n']} of {entry['m'].partition('.')[0]}"] = [entry["k"]]
        # A name that is also a word of the language, such as that of a command, would be taken for it.
        once = {name: keys[0] for name, keys in found.items() if len(set(keys)) == 1 and not re.fullmatch("[a-z]+", name)}
        return {**once, **{name: name for name, crate in self.crates.items() if crate.state != "trusted"}}

    def linked(self, word: str, of: str = "") -> str:
        """A word of the code in a document: a link, if just one entry is called so, or one of a crate that is named with it."""
        key = self.codes.get(f"{word} of {of}") or self.codes.get(word)
        return f'<a href="#{html.escape(key)}">{documents.plain(word)}</a>' if key else documents.plain(word)

    def linked_order(self, word: str, _of: str = "") -> str:
        """A word of the code in a rule: a link to what an order does, if it is the name of one. A sign by itself may mean something else."""
        key = self.orders.get(word) if re.search(r"\w", word) else None
        return f'<a href="#{html.escape(key)}" data-order="{html.escape(word)}">{documents.plain(word)}</a>' if key else documents.plain(word)

    def keys(self, keys: List[str]) -> str:
        """Links to the definitions of these names."""
        return "".join(f' <a href="#{html.escape(key)}"><code>{html.escape(re.split(r"[.:]", key)[-1])}</code></a>' for key in keys)

    def headline(self) -> Tuple[str, str]:
        """The theorem in a sentence, and what is said after it, with the words that stand for definitions as links."""
        once, more = documents.headline(self.text(README))
        parts = [html.escape(once, quote=False), html.escape(more, quote=False)]
        for word, key in self.tables["words"]:
            at = next((number for number, part in enumerate(parts) if re.search(rf"(?<![\w>]){word}(?![\w<])", part)), None)
            if at is None:
                raise ValueError(f"the headline has no word {word}")
            parts[at] = re.sub(rf"(?<![\w>]){word}(?![\w<])", f'<a href="#{html.escape(key)}">{word}</a>', parts[at], count=1)
        return parts[0], parts[1]

    # ---- parts

    def theorem(self) -> str:
        """The first part: the theorem in words, its steps, and the contract of the call, clause by clause."""
        once, more = self.headline()
        proofs = self.text(PROOFS)
        rows = documents.clauses_in_words(proofs)
        laws = documents.prose(documents.laws(proofs), self.linked)
        top = self.reader.entries[self.reader.numbers[TOP]]
        first = ", ".join(f'<a href="#{html.escape(key)}">{says}</a>' for says, key in self.tables["first"])
        before = [clause["n"] for clause in top["c"] if clause["k"] == "requires"]
        parts = [
            "<p><code>kdf9</code> is a computer modelled on the English Electric KDF9. It is handed a job: up to four programs, each with its store and devices, and a schedule, which says how far the run goes and when transfers move and end. It runs them, and writes a report. It is written in Rattle, which is Rust with contracts.</p>",
            f'<p class="headline block" {found_as("part of this page", "The headline", "said")}>{once}</p><p class="more-of-it block" {found_as("word of this page", "recorded answer", "word")}>{more}</p>',
            "<p>A program may also go on for ever. What it “ends with” is what it has when the run stops: the same as its run alone has after as many orders. Of a transfer that is still in flight then, the device and the words that have still to move are shown as its order found them. "
            "The theorem doesn't say that a program ends, or gets its turn.</p>",
            f"<p>It is a theorem about <code>kdf9</code> as it is shipped: {len(self.order):,} definitions say what its words mean, and it is proved that the code meets them. <a href=\"#believe\">What must I believe?</a> has what is only tested or trusted. "
            'Choose a word to open its definition below it, and a word of that, down to whole numbers and lists. <a href="#help">How to read this</a> says what job, journal, order and call mean here.</p>',
            f'<h2>The heart of it</h2><p>If a job has no fault, and neither memory nor reading nor writing fails, a run of it makes a machine of which this holds.</p><div data-entry="{HEART}"></div>'
            f'<p class="block">Its words lead to all the rest. Read these first: {first}.</p>',
            f"<h2>Its steps</h2><p>Each step rests on those below it, but for the laws, which are proved of the definitions alone.</p>{self.steps()}",
            f"<h2>Three laws that say what it is worth</h2>{laws}",
            f'<h2>The theorem, clause by clause</h2>{documents.prose(documents.paragraph(proofs, "The program makes one call"), self.linked)}'
            "<p>This is the head of the call. After it come the clauses of its contract, in plain words first.</p>"
            '<div data-clauses="head"></div>',
            f'<div class="row"><p>It is lent a service, of which it asks this.</p><div data-clauses="{" ".join(before)}"></div></div>',
        ]
        placed: List[str] = []
        for row in rows:
            fresh = [name for name in row.names if name not in placed]
            placed += fresh
            again = "" if fresh else f'<p class="note">This is said by <code>{"</code>, <code>".join(row.names)}</code> above.</p>'
            places = f'<div data-clauses="{" ".join(fresh)}"></div>' if fresh else ""
            parts.append(f'<div class="row">{documents.prose(row.says, self.linked)}{again}{places}</div>')
        return "".join(parts)

    def steps(self) -> str:
        """The steps of the theorem as a picture and as a list."""
        drawn, said = [], []
        for step in self.tables["ladder"]:
            target = step.get("at") or step["of"][0]
            drawn.append((step["name"], step["state"], target))
            says = step.get("says") or documents.first_sentence(documents.paragraph(self.text(PROOFS), step["said"]))
            said.append(f'<li><strong>{step["name"]}</strong> <span class="state {step["state"]}">{step["state"]}</span><br>{documents.inline(says, self.linked)}{self.keys(step["of"])}</li>')
        return f'<div class="ladder"><div class="drawing">{drawing.picture_of_steps(drawn)}</div><ol reversed>{"".join(said)}</ol></div>'

    def map(self) -> str:
        """The part with the crates: the picture, and the same as a list."""
        states = {state: sum(crate.state == state for crate in self.crates.values()) for state in ("proved", "tested", "trusted")}
        counts = ", ".join(f'{number} <span class="state {state}">{state}</span>' for state, number in states.items())
        items = "".join(
            f'<li><a href="#{name}"><code>{name}</code></a> <span class="state {crate.state}">{crate.state}</span>' + (f' on {", ".join(crate.needs)}' if crate.needs else "") + "</li>"
            for name, crate in self.crates.items() if crate.state != "trusted"
        )
        return (
            f"<p>Each crate stands on those below it, and knows of them only their contracts: {counts}. Lines that go through another crate anyway are left out. Those that are trusted come with the prover: "
            'what their contracts say is believed, as the toolchain is. Of <code>kdf_json</code>, <code>kdf_hints</code>, <code>kdf_listing</code>, <code>kdf_trace</code> and <code>kdf_causes</code> it is only proved that they are safe and end.</p>'
            f'<div class="drawing" tabindex="0" role="region" aria-label="The crates as a picture">{drawing.picture_of_crates(self.crates)}</div>'
            f"<details><summary>The same as a list</summary><ul>{items}</ul></details>"
        )

    def believe(self) -> str:
        """The part with what is believed, and what isn't proved."""
        reading = sum(self.reader.entries[number]["m"].startswith(tuple(f"{crate}." for crate in READING)) for number in self.lists()["definitions"])
        kit = html.escape(re.findall(r"^Proved with `([^`]+)`", self.text(PROOFS), re.MULTILINE)[0])
        parts = [
            f'<p class="count">To believe the theorem, read these <strong>{len(self.order):,} definitions</strong>, and see that they say what you think they say. They are all that its contract reaches, and nothing else.</p>'
            "<p>You need not read the code or its proofs: the prover has checked, for every input that a contract allows, that the code does what the definitions say. A definition comes after those that it cites. "
            f'{reading} of them only say how a job and its decks are read; <a href="#theorem">The theorem</a> names those to read first.</p>',
            f"<p>The prover is that of the Rattle kit, <code>{kit}</code>. It isn't part of this page, which is made from the sources and proves nothing itself. With the kit, <code>./kdf9 --proved</code> waits until <code>kdf9</code> is proved and built, "
            "and says whether it was proved on your machine.</p>",
            f"<p>{len(self.lists()['code'])} types and constants of the code stand in them, and {len(self.lists()['library'])} words of the library; both are below the definitions.</p>",
            '<p>Where a job was run, the call also hands over the machine that ran it. Its contract says what that machine shows; a caller sees it by the calls of <a href="#kdf_director"><code>kdf_director</code></a>, such as '
            '<a href="#kdf_director.machine.Machine::word"><code>Machine::word</code></a>, which have contracts of their own.</p>',
            "<h2>What isn't proved</h2><p>In short: it is only tested that memory suffices, and what passes through standard input and output. By the contract alone, <code>Memory</code> could be the answer each time.</p>",
        ]
        questions = "".join(f"<dt {found_as('question', asked)}>{documents.inline(asked, self.linked)}</dt><dd>{documents.inline(answer, self.linked)}</dd>" for asked, answer in self.tables["questions"])
        for title, kind, text in documents.unproved(self.text(PROOFS), self.linked):
            state = f' <span class="state {kind}">{kind}</span>' if kind != "neither" else ""
            parts.append(f'<details class="unproved" id="{kind}" data-name="{title}" data-as="part of this page"><summary>{title}{state}</summary>{text}</details>')
        parts.append(f"<h2>What readers have asked</h2><dl>{questions}</dl>")
        for name, title in (("definitions", "The definitions, in the sequence in which to read them"), ("code", "The types of the code that they use"), ("library", "The words of the library"), ("notation", "The words that clauses are written in")):
            parts.append(f'<h2>{title}</h2><div data-list="{name}"></div>')
        return "".join(parts)

    def calls(self) -> str:
        """The part with the public calls and the laws, by crates."""
        parts = ["<p>Each public call of each crate, with its contract, and the laws that are proved of the definitions.</p>"]
        for name, crate in self.crates.items():
            own = [entry for entry in self.reader.entries if entry.get("m", "").startswith(f"{name}.")]
            calls, laws = ([entry for entry in own if entry["t"] == kind] for kind in ("function", "law"))
            if not calls and not laws:
                continue
            lists = "".join(
                f'<h4>{title}</h4><ul class="list">' + "".join(f'<li><a href="#{html.escape(entry["k"])}"><code>{html.escape(entry["n"])}</code></a></li>' for entry in each) + "</ul>"
                for title, each in (("Calls", calls), ("Laws", laws)) if each
            )
            parts.append(f'<details><summary><code>{name}</code>: {counted(len(calls), "call")}, {counted(len(laws), "law")} <span class="state {crate.state}">{crate.state}</span></summary><p><a href="#{name}">The crate</a></p>{lists}</details>')
        return "".join(parts)

    def rules(self) -> str:
        """The part with the rules that definitions state."""
        parts = ["<p>These sections of the documents say for people what definitions say for the prover. Each stands beside its definitions too.</p>"]
        rules = list(documents.rules(self.root, self.tables["rules"], self.linked_order))
        for document in sorted({path for path, _, _ in rules}):
            names = "".join(f'<li><a href="#rule-{number}">{documents.inline(name)}</a></li>' for number, (path, name, _) in enumerate(rules) if path == document)
            parts.append(f'<p class="note">{document}</p><ul class="list">{names}</ul>')
        for number, (path, name, text) in enumerate(rules):
            of = [module for module, rule in self.tables["rules"].items() if rule == f"{path}: {name}"]
            modules = ", ".join(f'<a href="#{module}"><code>{module}</code></a>' for module in of)
            parts.append(
                f'<section id="rule-{number}" data-name="{html.escape(name.replace("`", ""))}" data-as="rule"><h2>{documents.inline(name)}</h2><p class="note">{path}, stated by {modules}</p><div class="text">{text}</div></section>')
        return "".join(parts)

    def help(self) -> str:
        """The part that says how to read the page."""
        meanings = "".join(f"<li {found_as('word of this page', word, 'word')}><strong>{word}</strong>: {documents.inline(says, self.linked)}{self.keys(keys)}</li>" for word, says, *keys in self.tables["meanings"])
        return (
            "<p>A clause says what comes of a call, in a language of types: each statement is a type, and a proof is a value of it. A word of a clause is a link. It opens what it means below the clause, and a word of that does the same. "
            "The trail on top says how you came there: choose a step of it to go back, or use the button Back of the browser, or Escape.</p>"
            '<p>A word like <code class="of-word">this</code> is a definition, like <code class="of-library">this</code> a word of the library, like <code class="of-code">this</code> a type of the code, and like <code class="bound">this</code> a variable. If you choose a variable, each place where it stands is marked. '
            "A name in the address, such as <code>#kdf_lockout.Groups.is_out</code>, opens that definition by itself. The key <kbd>/</kbd> goes to the search, which finds names, and also what is said of them.</p>"
            "<p><code>abbrev</code> and <code>unfoldable</code> say when the prover puts a definition in place of its name, and <code>pub</code> that other files use it: none of them changes what it means. A name with a dot, such as <code>course.IsWhole</code>, is that of another file.</p>"
            "<p><span class=\"state proved\">proved</span> means that the prover has checked that the code meets its contracts, for every input that they allow; <span class=\"state tested\">tested</span> that only tests do; <span class=\"state trusted\">trusted</span> that it is believed. A contract is what a call says of its results, clause by clause; a law is proved of definitions alone.</p>"
            f"<h2>Words with a meaning of their own</h2><ul>{meanings}</ul>"
            '<h2>The words that clauses are written in</h2><div data-list="notation"></div>'
        )

    # ---- the page

    def lists(self) -> Dict[str, List[int]]:
        """The lists of what is believed, by the numbers of their entries."""
        numbers, named = self.reader.numbers, self.world.named

        def of(kinds: Tuple[str, ...]) -> List[int]:
            return [numbers[key] for key in sorted(self.reach) if key in numbers and named[key].kind in kinds]

        return {"definitions": [numbers[key] for key in self.order], "code": of(CODE), "library": of(LIBRARY), "notation": [numbers[f"notation.{word}"] for word in self.world.notation if f"notation.{word}" in numbers]}

    def data(self) -> Dict[str, Any]:
        """What the script draws."""
        lists = self.lists()
        rules = list(dict.fromkeys(self.tables["rules"].values()))
        modules = {}
        for name, module in self.world.modules.items():
            modules[name] = {"s": module.says, "f": module.path}
            if name in self.tables["rules"]:
                modules[name]["r"] = rules.index(self.tables["rules"][name])
        said = {name: self.says_of_crate(name) for name in self.crates}
        return {
            "entries": self.reader.entries, "modules": modules, "top": self.reader.numbers[TOP], "lists": lists, "examples": examples(self.reader),
            "orders": [[name, self.reader.numbers[key]] for name, key in self.orders.items()],
            "rules": [{"path": rule.partition(": ")[0], "name": rule.partition(": ")[2].replace("`", "")} for rule in rules],
            "crates": [{"name": name, "state": crate.state, "needs": crate.needs, "says": said[name], **sizes(self.root / "crates" / name)} for name, crate in self.crates.items()],
        }

    def says_of_crate(self, name: str) -> str:
        """What the first file of a crate says of it."""
        for file in ("lib", "main"):
            path = self.root / "crates" / name / "src" / f"{file}.rt"
            if path.is_file():
                return "\n".join(re.findall(r"^//! ?(.*)$", path.read_text(encoding="utf-8"), re.MULTILINE)).replace("[`", "`").replace("`]", "`")
        return ""

    def page(self) -> str:
        """The page."""
        views = "".join(
            f'<section class="view" id="part-{name}" aria-labelledby="{name}-title"><h1 id="{name}-title" tabindex="-1" data-name="{title}" data-as="part of this page">{title}</h1>{getattr(self, name)()}</section>'
            for name, title in PARTS.items()
        )
        parts = {"STYLE": self.text("web/proofs.css"), "PARTS": views, "DATA": in_page(self.data()), "SCRIPT": script("proofs")}
        return re.sub(r"/\* ([A-Z]+) \*/", lambda mark: parts[mark[1]], self.text("web/proofs.html"))
