"""The statements of Usercode and the lines of a job as patterns, for any editor: made of the tables of orders and of lines.

A form of a statement has a 0 for each number. Between its letters, numbers and signs there may be spaces.
"""
import re
from typing import Dict, List, NamedTuple

from kdf9.tables import kinds, lines, table

# The classes of statements besides those of the groups of orders, and the forms of the table of statements that each has.
HEADING, FILL, REFERENCE, FLOATING = "heading", "fill", "reference", "floating"
OF_STATEMENTS = {"PROGRAM": HEADING, "PROGRAMV0": HEADING, "P0": HEADING, "P0V0": HEADING, "FINISH": HEADING, "*": FILL, "0": REFERENCE}

TOKEN = re.compile(r"PROGRAM|SET|[A-Z]+|0|[^A-Z0]")


class Dialect(NamedTuple):
    """How an editor writes a pattern: what opens and closes a group, what stands between alternatives and after what may be missing, and a digit."""

    opens: str
    closes: str
    either: str
    digit: str

    def group(self, parts: List[str]) -> str:
        """A pattern for one of some; an empty one may be missing."""
        full = [part for part in parts if part]
        whole = full[0] if len(full) == 1 == len(parts) else f"{self.opens}{self.either.join(full)}{self.closes}"
        return f"{whole}?" if len(full) < len(parts) else whole


ONIGURUMA = Dialect("(?:", ")", "|", "\\d")
VIM = Dialect("%(", ")", "|", "\\d")
EMACS = Dialect("\\(?:", "\\)", "\\|", "[0-9]")


def classes() -> Dict[str, List[str]]:
    """The forms of each class of statements: a group of orders, headings, `*`, references, or orders on floating numbers."""
    found: Dict[str, List[str]] = {}
    for row in table("orders")["statements"]:
        if row["form"] in OF_STATEMENTS:
            found.setdefault(OF_STATEMENTS[row["form"]], []).append(row["form"])
    for order in table("orders")["orders"]:
        found.setdefault(slug(order["group"]), []).extend(order["forms"])
    found[FLOATING] = list(table("orders")["floating"])
    return found


def slug(group: str) -> str:
    """The name of a group in one word: its first."""
    return re.split(r"[ ,]", group.lower())[0]


def pattern(forms: List[str], dialect: Dialect) -> str:
    """A pattern that the statements of these forms have, and no others."""
    tree: dict = {}
    for form in forms:
        at, before = tree, ""
        for token in TOKEN.findall(form):
            at = at.setdefault(piece(token, before, dialect), {})
            before = token
        at[""] = {}
    return written(tree, dialect)


def piece(token: str, before: str, dialect: Dialect) -> str:
    """The pattern of one token of a form, after another. What is no letter stands in brackets, as every editor reads it alike. A store of Y may have a letter."""
    if token == "0":
        digits = "[0-7]+" if before == "B" else f"{dialect.digit}+"
        return f"[A-Z]? *{digits}" if before.endswith("Y") else digits
    return token if token.isalpha() else f"[{token}]"


def written(tree: dict, dialect: Dialect) -> str:
    """The pattern of a tree of tokens."""
    parts = [token + (continued(below, dialect) if token else "") for token, below in tree.items()]
    return dialect.group(parts)


def continued(tree: dict, dialect: Dialect) -> str:
    """The pattern of what comes after a token, with spaces before it."""
    if set(tree) == {""}:
        return ""
    rest = {token: below for token, below in tree.items() if token}
    parts = [f" *{token}{continued(below, dialect)}" for token, below in rest.items()]
    return dialect.group(parts + ([""] if "" in tree else []))


def constants(dialect: Dialect) -> List[List[str]]:
    """The forms of a constant, each as the pattern of its store with the sign, and that of its value, with the class of the value."""
    digit, store = dialect.digit, f"A *{dialect.group(['V', 'Y[A-Z]?'])} *{dialect.digit}+{dialect.group([f' *P *{dialect.digit}+', ''])}"
    part = dialect.group([f"[-+]? *{digit}+", store])
    head = f"V *{digit}+ *= *".replace("=", "[=]")
    return [
        [head, f"[-+]? *{digit}+", "number"], [head, "B *[0-7]+", "octal"], [head, f"Q *{part} */ *{part} */ *{part}", "q-store"],
        [head, "P[^;()]+", "characters"],
    ]


def lines_of_job(dialect: Dialect) -> Dict[str, str]:
    """The patterns of the lines of a job by the words with which they begin, but for those of a deck and of a medium."""
    found = {}
    for word, row in lines().items():
        forms = [row["form"], row["also"]] if "also" in row else [row["form"]]
        found[word] = dialect.group([" ".join([word, *(operand(each, dialect) for each in form.split(" ")[1:])]) for form in forms])
    return found


def operand(name: str, dialect: Dialect) -> str:
    """The pattern of a field of a line of a job, by its name in the form of the line."""
    if name.isupper():
        return name
    return {"k": dialect.group(list(kinds())), "label": "[A-Z0-9]+"}.get(name, f"{dialect.digit}+")
