"""The grammars in the form of TextMate, by a tokenizer that reads them as editors do: a line at a time, with the first match, and of several the first rule."""
import json
import re
import subprocess
from typing import Dict, Iterator, List, Optional, Tuple

from editors_client import files, in_folder, placed, tool
from toolkit import ENVIRONMENT, ROOT, document

from editing.textmate import NAMES  # noqa: E402
from kdf9.tables import forms, table  # noqa: E402

Cases = Iterator[Tuple[str, Optional[str]]]
Token = Tuple[int, int, str]

SYNTAXES = ROOT / "editors" / "vscode" / "syntaxes"

# Decks with what no statement is, and the text that is told apart as such.
ILLEGAL = [("PROGRAM; ERAZE; FINISH;", "ERAZE"), ("PROGRAM; +F; FINISH;", "+F"), ("PROGRAM; SETB9; FINISH;", "SETB9"), ("PROGRAM; J1CNZ; FINISH;", "J1CNZ")]


class Grammar:
    """A grammar with those that it includes."""

    def __init__(self) -> None:
        read = [json.loads(path.read_text(encoding="utf-8")) for path in sorted(SYNTAXES.glob("*.json"))]
        self._of: Dict[str, List[dict]] = {grammar["scopeName"]: grammar["patterns"] for grammar in read}
        self._known: Dict[str, "re.Pattern[str]"] = {}

    def _pattern(self, text: str) -> "re.Pattern[str]":
        if text not in self._known:
            self._known[text] = re.compile(text)
        return self._known[text]

    def _rules(self, patterns: List[dict]) -> Iterator[dict]:
        for rule in patterns:
            if "include" in rule:
                yield from self._rules(self._of[rule["include"]])
            else:
                yield rule

    def tokens(self, scope: str, text: str) -> List[Token]:
        """The tokens of a text: where each begins and ends, and its innermost scope."""
        found: List[Token] = []
        stack: List[dict] = [{"patterns": self._of[scope]}]
        start = 0
        for number, line in enumerate(text.split("\n")):
            self._line(line, start, number == 0, stack, found)
            start += len(line) + 1
        return found

    def _line(self, line: str, start: int, is_first: bool, stack: List[dict], found: List[Token]) -> None:
        """Adds the tokens of a line that begins here."""
        at = 0
        while at <= len(line):
            top = stack[-1]
            rules = ([{"end": top["end"], "rule": top}] if "end" in top else []) + list(self._rules(top.get("patterns", [])))
            best = None
            for rule in rules:
                pattern = rule.get("end") if "rule" in rule else rule.get("match") or rule["begin"]
                if pattern.startswith("\\A") and not is_first:
                    continue
                match = self._pattern(pattern).search(line, at)
                if match and (best is None or match.start() < best[0].start()):
                    best = match, rule
            end = best[0].start() if best else len(line)
            if top.get("name") and at < end:
                found.append((start + at, start + end, top["name"]))
            if best is None:
                return
            match, rule = best
            if "rule" in rule:
                stack.pop()
                name = rule["rule"].get("name") or rule["rule"].get("endCaptures", {}).get("0", {}).get("name", "")
            elif "begin" in rule:
                stack.append(rule)
                name = rule.get("name") or rule.get("beginCaptures", {}).get("0", {}).get("name", "")
            else:
                name = rule.get("name", "")
            self._add(match, rule, name, start, found)
            at = match.end() + (match.end() == match.start())

    def _add(self, match: "re.Match[str]", rule: dict, name: str, start: int, found: List[Token]) -> None:
        """Adds the tokens of a match: of its groups, if these have names."""
        groups = {int(group): said for group, said in rule.get("captures", {}).items() if "name" in said}
        if groups:
            found += [(start + match.start(group), start + match.end(group), said["name"]) for group, said in groups.items() if match.end(group) > match.start(group)]
        elif name:
            found.append((start + match.start(), start + match.end(), name))


def scope_of(kind: str) -> str:
    """The scope with which a statement of a class begins."""
    return "variable.other.constant" if kind == "constant" else NAMES.get(kind, f"support.function.{kind}")


def grammars_are_made() -> Cases:
    """What tools/editors made is as the tables are now, and the files that aren't made of them can be read."""
    done = subprocess.run(["tools/editors"], cwd=ROOT, env=ENVIRONMENT, capture_output=True, text=True, check=False)
    yield "what tools/editors made", None if (done.returncode, done.stdout, done.stderr) == (0, "", "") else f"{done}"
    package = json.loads((ROOT / "editors" / "vscode" / "package.json").read_text(encoding="utf-8"))["contributes"]
    named = [it["path"] for it in package["grammars"]] + [it["configuration"] for it in package["languages"]]
    missing = [name for name in named if not (ROOT / "editors" / "vscode" / name).is_file()]
    yield "the files that the extension names", f"{missing}" if missing else None


def statements_have_their_scopes() -> Cases:
    """In each example, and in a deck alone, a statement begins with the scope of its class, and nothing is illegal."""
    grammar = Grammar()
    with in_folder() as folder:
        for name, text in files(folder).items():
            tokens = grammar.tokens("source.kdf9-job" if text.is_job else "source.usercode", text.text)
            starts = {start: scope for start, _, scope in tokens}
            wrong = [(text.text[at:at + 20], starts.get(at), kind) for at, kind in placed(text) if not (starts.get(at) or "").startswith(scope_of(kind))]
            placed_all = list(placed(text))
            illegal = [text.text[start:end] for start, end, scope in tokens if scope.startswith("invalid")] if placed_all else []
            yield f"the scopes of {name.rsplit('/', maxsplit=1)[-1]}", f"{wrong[:3]} {illegal[:3]}" if wrong or illegal else None


def forms_have_scopes() -> Cases:
    """Every form of a statement has the scope of its class, with spaces in it too; what no statement is, is illegal."""
    grammar = Grammar()
    wrong = []
    for form in forms():
        for text in (form, re.sub(r"(?<=.)(?=0)", " ", form)):
            tokens = grammar.tokens("source.usercode", f"{text};")
            if not tokens or tokens[0][:2] != (0, len(text)) or tokens[0][2].startswith("invalid"):
                wrong.append((text, tokens))
    yield f"the scopes of {len(forms())} forms", f"{wrong[:5]}" if wrong else None
    for deck, text in ILLEGAL:
        found = [deck[start:end] for start, end, scope in grammar.tokens("source.usercode", deck) if scope.startswith("invalid")]
        yield f"what is illegal in {deck}", None if found == [text] else f"{found}"
    known = [text for text in table("orders")["floating"] if not grammar.tokens("source.usercode", f"{text};")[0][2].startswith("invalid.deprecated")]
    yield "floating orders are told apart", f"{known}" if known else None


def document_is_true() -> Cases:
    """What docs/EDITORS.md shows is made again, and the files that it names are there."""
    text = document("EDITORS.md")
    for command, due in re.findall(r"^```\n\$ \./kdf9 (.*)\n((?:.*\n)*?)```$", text, re.MULTILINE):
        words = command.split()
        done = subprocess.run([*tool(words[0]), *words[1:]], cwd=ROOT, env=ENVIRONMENT, capture_output=True, text=True, check=False)
        yield f"docs/EDITORS.md: {command}", None if done.stdout == due and not done.returncode else f"{done}"
    named = [f"docs/{name}" for name in re.findall(r"\]\((\S+\.svg)\)", text)] + re.findall(r"\b(?:editors|tests|tools)/[\w./]+\w", text)
    missing = [name for name in named if not (ROOT / name).exists()]
    yield f"the {len(named)} files of docs/EDITORS.md", f"{missing}" if missing or len(named) < 9 else None


SUITES = (grammars_are_made, document_is_true, statements_have_their_scopes, forms_have_scopes)
