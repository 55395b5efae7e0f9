"""The grammars in the form of TextMate, which VS Code and many others read."""
import json
from typing import Dict

from editing.grammar import FILL, FLOATING, HEADING, ONIGURUMA, REFERENCE, classes, constants, lines_of_job, pattern
from kdf9.tables import table

# What each class of statements is called there; those that aren't named are orders. And the classes of values of constants.
NAMES = {
    HEADING: "keyword.control.heading", FILL: "keyword.other.fill", REFERENCE: "entity.name.label", FLOATING: "invalid.deprecated.floating",
    "jumps": "keyword.control.jump", "stores": "variable.other.store", "constants": "support.function.constants",
}
VALUES = {"number": "constant.numeric.decimal", "octal": "constant.numeric.octal", "q-store": "constant.numeric.q-store", "characters": "string.unquoted.characters"}

# A statement begins after a `;`, a comment or a space, and ends before a `;`, a comment or the end of a line.
BEGINS, ENDS = r"(?<![^;)\s])", r"(?=\s*(?:[;(]|$))"


def usercode() -> str:
    """The grammar of a deck."""
    patterns = [{"name": "comment.block.usercode", "begin": "\\(", "end": "\\)"}]
    for name, forms in classes().items():
        scope = NAMES.get(name, f"support.function.{name}")
        rule = {"name": f"{scope}.usercode", "match": f"{BEGINS}{pattern(forms, ONIGURUMA)}{ENDS}"}
        patterns.append(rule if name in (REFERENCE, FILL, FLOATING) else {**rule, "captures": numbered("usercode")})
    for store, value, name in constants(ONIGURUMA):
        patterns.append({
            "match": f"{BEGINS}({store})({value}){ENDS}",
            "captures": {"1": {"name": "variable.other.constant.usercode"}, "2": {"name": f"{VALUES[name]}.usercode"}},
        })
    patterns.append({"name": "invalid.illegal.statement.usercode", "match": "(?<![^;\\s])[^;()\\s*][^;()]*(?=;)"})
    return text_of({"name": "Usercode", "scopeName": "source.usercode", "fileTypes": ["usercode", "deck"], "patterns": patterns})


def job() -> str:
    """The grammar of a job, whose decks have the other one."""
    deck = {
        "begin": "^DECK$", "end": "^ENDDECK$", "contentName": "meta.embedded.deck.kdf9-job",
        "beginCaptures": {"0": {"name": "keyword.control.deck.kdf9-job"}}, "endCaptures": {"0": {"name": "keyword.control.deck.kdf9-job"}},
        "patterns": [{"include": "source.usercode"}],
    }
    patterns = [{"name": "keyword.control.header.kdf9-job", "match": f"\\A{table('job')['header']}$"}, deck]
    for word, line in lines_of_job(ONIGURUMA).items():
        if "DECK" not in word:
            patterns.append({"name": f"keyword.other.{word.lower()}.kdf9-job", "match": f"^{line}$", "captures": numbered("kdf9-job")})
    patterns += [{"name": "string.unquoted.medium.kdf9-job", "match": "^\\+.*$"}, {"name": "string.unquoted.marked.kdf9-job", "match": "^=.*$"}]
    patterns.append({"name": "invalid.illegal.line.kdf9-job", "match": "^.+$"})
    return text_of({"name": "KDF9 job", "scopeName": "source.kdf9-job", "fileTypes": ["job"], "firstLineMatch": f"^{table('job')['header']}$", "patterns": patterns})


def numbered(language: str) -> Dict[str, dict]:
    """That the numbers of what is matched are shown as such."""
    return {"0": {"patterns": [{"match": "\\d+", "name": f"constant.numeric.{language}"}]}}


def text_of(grammar: dict) -> str:
    """A grammar as text."""
    return json.dumps({"comment": "Made by tools/editors from the tables.", **grammar}, indent=1) + "\n"
