"""Compares the page that ./kdf9 proofs writes with the files that it is made from, and then reads it in browsers."""
import json
import pathlib
import re
import subprocess
import sys
import tempfile
from typing import Any, Callable, Dict, Iterator, List, NamedTuple, Optional, Set, Tuple

import browser
from proofs_page import in_chromium, in_firefox
from toolkit import ENVIRONMENT, ROOT

sys.path.insert(0, str(ROOT / "tools"))
from proving import antt, equations, world  # noqa: E402

Cases = Iterator[Tuple[str, Optional[str]]]
Words = List[Tuple[str, Optional[int]]]

MOST_BYTES = 3_000_000
SHIPPED = ROOT / "dist" / "proofs.html"
DATA = re.compile(r'<script type="application/json" id="data">(.*?)</script>', re.DOTALL)
BOUND = "\ue000"

# A definition of a file, found without the module that makes the page; and a word of a text that isn't bound, with what no word is in.
DEFINED = re.compile(r"^(?:(?:abbrev|unfoldable|opaque)(?: pub)?|(?:pub )?(?:record|data)) (\S+)|^(?:pub )?([\w'-]+) : ", re.MULTILINE)
UNSAID = re.compile(r"(?:--|//)[^\n]*|\"(?:[^\"\\]|\\.)*\"|0[xob][0-9a-fA-F_]+|[0-9][0-9_]*")
WORD = re.compile(BOUND + r"[^\s(){}\[\],;.]+|[^\W\d][\w'«»]*|[ℕℤ⊥λ≡≢≤→×∷⊎]")

# The words with which a definition is written, and which mean nothing by themselves.
WRITTEN = {"abbrev", "unfoldable", "opaque", "pub", "record", "data", "where", "elim", "as", "in", "ghost", "trait", "props", "_"}

# From the theorem, so many choices lead to these.
NEAR = {"kdf_theory.Flights.touches": 4, "kdf_lockout.Groups.is_out": 4, "kdf_arith.Rows.arith_row": 6, "kdf_arith.Digits.to_binary": 6}

# A word that is taken from the imports of a module, and the definition in which it then has no target.
SLIPS = [("kdf_top.Due", "seen_of", "report_of"), ("kdf_processor.Lone", "row", "lone_step"), ("kdf_theory.Flights", "has_area", "touches")]


class Page(NamedTuple):
    """The page: its text, and what its script draws."""

    html: str
    data: Dict[str, Any]

    @property
    def entries(self) -> List[Dict[str, Any]]:
        """The entries of the page."""
        return self.data["entries"]

    def words(self, pieces: list) -> Words:
        """A text as it is shown, each stretch with the number of the entry to which it leads."""
        found: Words = []
        for at, piece in enumerate(pieces):
            if at % 2 == 0:
                found.append((piece, None))
            else:
                number, word = (piece, self.name(piece)) if isinstance(piece, int) else piece
                found.append((word, number))
        return found

    def name(self, number: int) -> str:
        """The name of an entry as its own file has it."""
        entry = self.entries[number]
        return re.split(r"[.:]", entry["k"])[-1] if entry["t"] == "function" else entry["n"]

    def whole(self, number: int) -> int:
        """The entry of which an entry is part, or itself."""
        return self.entries[number].get("p", number)

    def texts(self, entry: Dict[str, Any]) -> List[list]:
        """The texts of an entry."""
        return [entry[name] for name in ("x", "h", "v") if name in entry] + [clause["x"] for clause in entry.get("c", [])]

    def leads_to(self, number: int) -> Set[int]:
        """The entries that one choice in an entry opens."""
        return {to for text in self.texts(self.entries[self.whole(number)]) for _, to in self.words(text) if to is not None}


def shown(page: Page, pieces: list) -> str:
    """A text as the page shows it."""
    return "".join(text for text, _ in page.words(pieces)).replace(BOUND, "")


def source(entry: Dict[str, Any]) -> str:
    """The text of the file in which an entry stands."""
    return (ROOT / entry["f"][0]).read_text(encoding="utf-8")


def squeezed(text: str) -> str:
    """A text without the breaks of its lines."""
    return " ".join(text.split())


# ---- what is on the page


def definitions_are_those_of_the_files(page: Page) -> Cases:
    """Each definition of each file stands on the page, at its line and letter by letter, and none that no file has."""
    on_page = {entry["k"]: entry for entry in page.entries if entry["t"] in ("definition", "record", "data")}
    found = set()
    for path in sorted(ROOT.glob("crates/*/specs/**/*.antt")):
        text, crate = path.read_text(encoding="utf-8"), path.parts[len(ROOT.parts) + 1]
        module = ".".join(path.relative_to(ROOT / "crates" / crate / "specs").with_suffix("").parts)
        wrong = []
        for match in DEFINED.finditer(text):
            key = f"{crate}.{module}.{match[1] or match[2]}"
            found.add(key)
            entry = on_page.get(key)
            number = text.count("\n", 0, match.start()) + 1
            if not entry or entry["f"] != [str(path.relative_to(ROOT)), number] or shown(page, entry["x"]) not in text:
                wrong.append(key)
        yield f"the definitions of {path.relative_to(ROOT)}", f"aren't on the page as they are there: {wrong[:3]}" if wrong else None
    yield "no other definitions", None if set(on_page) == found else f"{sorted(set(on_page) ^ found)[:5]}"


def clauses_are_those_of_the_files(page: Page) -> Cases:
    """Each clause of a public call stands on the page as it does in its file; and each call of the list of signatures that has a contract is there."""
    calls = [entry for entry in page.entries if "c" in entry]
    for entry in calls:
        text = squeezed(source(entry))
        missing = [clause["n"] for clause in entry["c"] if squeezed(shown(page, clause["x"])) not in text]
        missing += [] if squeezed(shown(page, entry["h"])) in text else ["its head"]
        yield f"the contract of {entry['k']}", f"isn't that of its file: {missing}" if missing else None
    named = {(entry["m"].partition(".")[0], entry["n"]) for entry in calls}
    crate = ""
    for line in (ROOT / "tests" / "signatures.txt").read_text(encoding="utf-8").splitlines():
        crate = line.split()[1] if line.startswith("crate ") else crate
        match = re.match(r"(?:laws::)?(?:\w+::)*?((?:\w+::)?\w+)(?:<[^(]*>)?\(", line)
        if not match or crate in ("kdf_trials",):
            continue
        name = match[1] if not line.startswith("laws::") else match[1].split("::")[-1]
        has_contract = (crate, name) in named or (crate, called(crate, name)) in named or (crate, name.split("::")[-1]) in named or not contract_of(crate, name)
        yield f"{crate}: {name}", None if has_contract else "isn't on the page"


def called(crate: str, name: str) -> str:
    """The name of a method by the type that has it, where the type of this name is another name of that one."""
    of, _, own = name.rpartition("::")
    for path in (ROOT / "crates" / crate / "src").rglob("*.rt") if of else ():
        other = re.search(rf"^pub type {of} = (\w+)", path.read_text(encoding="utf-8"), re.MULTILINE)
        if other:
            return f"{other[1]}::{own}"
    return name


def contract_of(crate: str, name: str) -> bool:
    """Whether a public function of this name in a crate has a clause."""
    own = name.split("::")[-1]
    for path in (ROOT / "crates" / crate / "src").rglob("*.rt"):
        if re.search(rf"pub fn {own}\b[^{{;]*\n\s+(?:requires|ensures)\b", path.read_text(encoding="utf-8")):
            return True
    return False


def words_have_targets(page: Page) -> Cases:
    """No word of a definition or of a contract is left that neither leads somewhere nor is bound in it; and each leads to an entry that has its name, or another by its import."""
    for number, entry in enumerate(page.entries):
        unsaid, wrong = [], []
        for text in page.texts(entry):
            for word, target in page.words(text):
                if target is None:
                    left = UNSAID.sub(" ", word)
                    # In the head of a call and in types of the code, only the names of types mean something.
                    is_code = entry["t"] not in ("definition", "record", "data") and text not in [clause["x"] for clause in entry.get("c", [])]
                    unsaid += [each for each in WORD.findall(left) if not each.startswith(BOUND) and each not in WRITTEN and not is_code]
                elif not 0 <= target < len(page.entries):
                    wrong.append(word)
                elif word != page.name(target) and word not in page.entries[target]["n"] and not word.isdigit() and not named_otherwise(entry, word, page.entries[target]["k"]):
                    wrong.append(word)
        if unsaid or wrong:
            yield f"the words of {entry['k']}", f"without a target: {unsaid[:4]}; with another's: {wrong[:4]}"
    yield "all words of all texts", None


def named_otherwise(entry: Dict[str, Any], word: str, key: str) -> bool:
    """Whether a file calls what has this key by this word."""
    own = key.rpartition(".")[2]
    text = source(entry) if "f" in entry else ""
    return bool(
        re.search(rf"(?<![\w']){re.escape(own)} as {re.escape(word)}(?![\w'])", text)
        or re.search(rf"\bas {re.escape(word.partition('.')[0])}\b", text) and word.endswith(f".{own}")
        or word.endswith(f".{own}") or word in ("if", "then", "else", "in", "←", "Inside") or word.endswith(f">⟧.{own}")
    )


def links_are_imported(page: Page) -> Cases:
    """A word that leads to a definition of another module is brought from there by a line of its file, or by one of a module that gives it on."""
    for entry in page.entries:
        if entry["t"] not in ("definition", "record", "data"):
            continue
        text, wrong = source(entry), set()
        for word, target in page.words(entry["x"]):
            if target is None or page.entries[target]["t"] not in ("definition", "record", "data"):
                continue
            other = page.entries[target]
            alias, point, _ = word.rpartition(".")
            line = rf"\b{re.escape(other['m'].rpartition('.')[2])}(?: as {re.escape(alias)})?$" if point else rf"\.\{{[^}}]*(?<![\w']){re.escape(other['n'])}(?![\w'])[^}}]*\}}"
            if other["m"] != entry["m"] and not re.search(rf"use Rattle\.[\w.]*{line}", text, re.MULTILINE):
                wrong.add(word)
        if wrong:
            yield f"the imports of {entry['k']}", f"have no {sorted(wrong)}"
    yield "all words that come from elsewhere", None


def what_is_believed_is_what_is_reached(page: Page) -> Cases:
    """The list of what a reader must believe has what the contract of the top call reaches, and only that, each after what it cites."""
    top = page.data["top"]
    reached, ahead = {top}, [top]
    while ahead:
        for to in page.leads_to(ahead.pop()):
            for each in (to, page.whole(to)):
                if each not in reached:
                    reached.add(each)
                    ahead.append(each)
    due = {number for number in reached if page.entries[number]["t"] in ("definition", "record", "data")}
    listed = page.data["lists"]["definitions"]
    yield "what must be believed", None if set(listed) == due and len(listed) == len(due) else f"{len(set(listed) ^ due)} differ, such as {[page.entries[it]['k'] for it in list(set(listed) ^ due)[:4]]}"
    yield "its count", None if f"<strong>{len(due):,} definitions</strong>" in page.html else "isn't said"
    place = {number: at for at, number in enumerate(listed)}
    late = [page.entries[number]["k"] for number in listed for to in page.leads_to(number) if place.get(page.whole(to), -1) > place[number]]
    yield "the sequence in which it is read", None if not late else f"{late[:3]} come before what they cite"


def rules_have_headings(page: Page) -> Cases:
    """Each rule of the table is a heading of its document, and each module of it is there."""
    rules = json.loads((ROOT / "tables" / "proofs.json").read_text(encoding="utf-8"))["rules"]
    for module, rule in rules.items():
        path, _, name = rule.partition(": ")
        is_heading = re.search(rf"^#+ {re.escape(name)}$", (ROOT / path).read_text(encoding="utf-8"), re.MULTILINE)
        yield f"the rule of {module}", None if is_heading and module in page.data["modules"] and path in ("docs/JOB.md", "docs/MACHINE.md", "docs/USERCODE.md") else f"is {rule}"


    believed = {page.entries[number]["m"] for number in page.data["lists"]["definitions"]}
    yield "the rules of what must be believed", None if believed <= set(rules) else f"are missing for {sorted(believed - set(rules))}"


def clauses_are_said_in_words(page: Page) -> Cases:
    """Each clause of the top call stands in docs/PROOFS.md in plain words, and on the page under them; and nothing else does."""
    names = [clause["n"] for clause in page.entries[page.data["top"]]["c"]]
    placed = " ".join(re.findall(r'data-clauses="([^"]*)"', page.html)).split()
    yield "the clauses of the theorem", None if sorted(placed) == sorted([*names, "head"]) else f"{set(placed) ^ set(names)}"
    for heading in ("What is only tested", "What is neither", "What is trusted"):
        text = re.search(rf"^## {heading}\n+(?:- )?(.{{30}})", (ROOT / "docs" / "PROOFS.md").read_text(encoding="utf-8"), re.MULTILINE)
        yield heading, None if text and re.sub(r"`[^`]*$", "", text[1])[:20] in re.sub(r"<[^>]*>", "", page.html) else "isn't on the page"


def theorem_is_near(page: Page) -> Cases:
    """From the theorem, few choices lead to what a lockout is, and to what TOB does."""
    first = {number for number, entry in enumerate(page.entries) if f'href="#{entry["k"]}"' in re.search(r'id="part-theorem".*?<section class="view"', page.html, re.DOTALL)[0]}  # type: ignore[index]
    reached, steps = set(first) | page.leads_to(page.data["top"]), 1
    while steps < max(NEAR.values()):
        for key, most in NEAR.items():
            if steps == most:
                yield f"{key} in {most} choices", None if any(page.entries[number]["k"] == key for number in reached) else "isn't reached"
        reached |= {to for number in reached for to in page.leads_to(number)}
        steps += 1
    for key, most in NEAR.items():
        if steps == most:
            yield f"{key} in {most} choices", None if any(page.entries[number]["k"] == key for number in reached) else "isn't reached"


def page_is_one_small_file(page: Page) -> Cases:
    """The page is one file of no more bytes than it may have, and names nothing that a browser would fetch."""
    size = len(page.html.encode("utf-8"))
    yield "its size", None if size <= MOST_BYTES else f"is {size}"
    head = DATA.sub("", page.html)
    asked = re.findall(r"\b(?:src=|url\(|@import|fetch\(|XMLHttpRequest|https?://)", head)
    yield "it fetches nothing", None if not asked and "default-src 'none'" in head else f"{asked}"


def slips_are_found(_page: Page) -> Cases:
    """Where a module doesn't bring a word that a definition of it has, that word has no target."""
    tables = json.loads((ROOT / "tables" / "proofs.json").read_text(encoding="utf-8"))
    whole = world.World(ROOT, tables["library"], tables["notation"])
    for name, word, definition in SLIPS:
        module = whole.modules[name]
        fewer = [each._replace(words=[pair for pair in each.words if pair[1] != word]) for each in module.imports]
        for imports, due in ((module.imports, []), (fewer, [word])):
            walk = equations.Equations(whole, {**whole.env_of(imports), **{each.name: f"{name}.{each.name}" for each in module.definitions}}, whole.texts[f"{name}.{definition}"].text)
            walk.definition(f"{name}.{definition}")
            lacking = sorted({each.word for each in walk.missing})
            yield f"{definition} {'without ' + word if due else 'as it is'}", None if lacking == due else f"lacks {lacking}"


def definitions_are_cut_right(_page: Page) -> Cases:
    """A file of definitions comes apart as it should, whatever stands between them."""
    text = "-- The first.\nuse Rattle.std.specs.Prelude.{ℕ}\n\n-- ---- a part\n\n-- one\nabbrev pub one : ℕ\none = 1\n\nabbrev pub two : ℕ\ntwo =\n    record {\n}\n\n-- three\npub record Three : Type 0 where\n  pub a b : ℕ\n"
    got = [(each.name, each.kind, each.says, each.said_of, each.line, [name for name, _ in each.parts()]) for each in antt.definitions(text)]
    due = [("one", "word", "one", "one", 7, []), ("two", "word", "one", "one", 10, []), ("Three", "record", "three", "Three", 16, ["a", "b"])]
    yield "a file of definitions", None if got == due else f"{got}"


def page_in_repository_is_current(page: Page) -> Cases:
    """The page in dist/ is the one that is made here."""
    is_same = SHIPPED.is_file() and SHIPPED.read_text(encoding="utf-8") == page.html
    yield "dist/proofs.html", None if is_same else "isn't the page that is made here; ./kdf9 proofs > dist/proofs.html makes it"


SUITES: List[Callable[[Page], Cases]] = [
    definitions_are_those_of_the_files, clauses_are_those_of_the_files, words_have_targets, links_are_imported, what_is_believed_is_what_is_reached, rules_have_headings,
    clauses_are_said_in_words, theorem_is_near, page_is_one_small_file, slips_are_found, definitions_are_cut_right, page_in_repository_is_current,
]


def made(file: pathlib.Path) -> Optional[Page]:
    """The page, made by the tool; or None, if it can't be made."""
    with open(file, "wb") as written:
        if subprocess.run([ROOT / "kdf9", "proofs"], stdout=written, env=ENVIRONMENT, check=False).returncode:
            return None
    text = file.read_text(encoding="utf-8")
    return Page(text, json.loads(DATA.search(text)[1]))  # type: ignore[index]


def main() -> int:
    """Tries all, and returns the status."""
    with tempfile.TemporaryDirectory() as folder:
        file = pathlib.Path(folder) / "proofs.html"
        page = made(file)
        if page is None:
            print("proofs: the page could not be made")
            return 1
        cases = [case for suite in SUITES for case in suite(page)]
        if browser.PROGRAM:
            cases += in_chromium(file, page)
        else:
            print("proofs: not read in Chromium, since there is none")
        cases += in_firefox(file)
    faults = [(what, why) for what, why in cases if why]
    for what, why in faults:
        print(f"proofs: {what}: {why}")
    print(f"proofs: {len(cases) - len(faults)} passed, {len(faults)} failed")
    return 1 if faults else 0


if __name__ == "__main__":
    sys.exit(main())
