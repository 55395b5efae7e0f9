"""The tables of the Emacs mode: the patterns of statements and lines, each with its face."""
from typing import List, Tuple

from editing.grammar import EMACS, FILL, FLOATING, HEADING, REFERENCE, classes, constants, lines_of_job, pattern
from kdf9.tables import forms, table

# The face in which Emacs shows each class of statements; those that aren't named are orders.
FACES = {HEADING: "keyword", FILL: "preprocessor", REFERENCE: "constant", FLOATING: "warning", "jumps": "builtin", "stores": "variable-name"}
VALUES = {"number": "constant", "octal": "constant", "q-store": "constant", "characters": "string"}


def tables() -> str:
    """The file that the mode reads."""
    statements = [(pattern(found, EMACS), FACES.get(name, "function-name")) for name, found in classes().items()]
    statements += [(f"{store}{value}", VALUES[name]) for store, value, name in constants(EMACS)]
    lines = [(line, "keyword") for word, line in lines_of_job(EMACS).items()] + [("[+].*", "string"), ("[=].*", "string")]
    names = sorted({form.replace("0", "") for form in forms()} - {"", "*"})
    return "".join([
        ";;; kdf9-tables.el --- Statements of Usercode and lines of a job  -*- lexical-binding: t; -*-\n\n;;; Commentary:\n\n",
        ";; Made by tools/editors from the tables.\n\n;;; Code:\n\n",
        rows_of("kdf9-statements", "Patterns of statements, each with its face.", statements),
        rows_of("kdf9-lines", "Patterns of lines of a job, each with its face.", lines),
        f"(defconst kdf9-header {quoted(table('job')['header'])}\n  \"The first line of a job.\")\n\n",
        f"(defconst kdf9-names '({' '.join(map(quoted, names))})\n  \"The letters and signs of statements.\")\n\n",
        "(provide 'kdf9-tables)\n;;; kdf9-tables.el ends here\n",
    ])


def rows_of(name: str, says: str, rows: List[Tuple[str, str]]) -> str:
    """The definition of a list of patterns with their faces."""
    lines = "".join(f"\n    ({quoted(found)} . font-lock-{face}-face)" for found, face in rows)
    return f"(defconst {name}\n  '({lines.lstrip()})\n  \"{says}\")\n\n"


def quoted(text: str) -> str:
    """A text as Emacs reads it."""
    return '"' + text.replace("\\", "\\\\").replace('"', '\\"') + '"'
