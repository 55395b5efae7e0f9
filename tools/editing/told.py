"""What is said of a place in a text: of an order by docs/ORDERS.md, and of stores, constants, Q-stores and references by the deck and its image."""
import functools
import re
from typing import Dict, List, Optional

from kdf9.changes import number_of
from kdf9.deck import CONSTANT
from kdf9.program import ROOT
from kdf9.statements import Statement
from kdf9.tables import names_of_forms, table
from kdf9.words import whole

from editing.image import Image, image_of, names_of
from editing.naming import PART, REFERENCE, V_STORE, Names, Symbol, Use, class_of, form_of
from editing.texts import Deck, Text

# A Q-store that a statement names, and a number of SET or of a shift.
Q_STORE = re.compile(r"[QCIM](\d+)")
SET_NUMBER = re.compile(r"SET(?:B([0-7]+)|([-+]?\d+))\Z")


def document(name: str) -> str:
    """The text of a page of the documents."""
    return (ROOT / "docs" / name).read_text(encoding="utf-8")


@functools.lru_cache(maxsize=1)
def orders() -> Dict[str, str]:
    """The entries of docs/ORDERS.md by their names, as they are written there."""
    return dict(re.findall(r"^### `(\S+)`\n\n(.*?)\n*(?=^### |\Z)", document("ORDERS.md"), re.MULTILINE | re.DOTALL))


@functools.lru_cache(maxsize=1)
def statements_of_forms() -> Dict[str, str]:
    """What each statement does that is no order."""
    return {row["form"]: row["is"] for row in table("orders")["statements"]}


@functools.lru_cache(maxsize=1)
def glossary() -> Dict[str, str]:
    """The words of docs/GLOSSARY.md, each with what is said of it."""
    return dict(re.findall(r"^\| ([^|]+?) \| (.*?) \|$", document("GLOSSARY.md"), re.MULTILINE))


@functools.lru_cache(maxsize=1)
def lines_of_job() -> Dict[str, str]:
    """What docs/JOB.md says of each line of a job, by the word with which it begins."""
    table_of_lines = document("JOB.md").partition("### The media")[0].partition("## The text of a job")[2]
    rows = re.findall(r"^\| `([A-Z0-9]+)\b[^|]*\| ([^|]*) \| ?(.*?) ?\|$", table_of_lines, re.MULTILINE)
    return {word: f"comes {comes}" + (f": {what}" if what else "") for word, comes, what in reversed(rows)}


def hover(text: Text, offset: int) -> Optional[dict]:
    """What an editor shows of a place, or None."""
    deck = text.deck_at(offset)
    if deck is None:
        return hover_of_line(text, offset)
    names = names_of(text.of_deck(deck))
    index = names.index_at(offset - deck.start)
    if index is None:
        return None
    statement = names.statements[index]
    image = image_of(text.of_deck(deck), deck.store)
    part = names.part_at(index)
    lines = said(Said(text, deck, names, image), statement, part.number if part else None)
    start = deck.start + statement.start
    return {"contents": {"kind": "markdown", "value": "\n\n".join(lines)}, "range": text.span(start, deck.start + statement.end)} if lines else None


def hover_of_line(text: Text, offset: int) -> Optional[dict]:
    """What is said of a line of a job."""
    number = text.line_of(offset)
    line = text.line(number)
    says = lines_of_job().get(line.partition(" ")[0])
    value = f"`{line}`\n\n{says}"
    return {"contents": {"kind": "markdown", "value": value}, "range": text.span(text.starts[number], text.starts[number] + len(line))} if says else None


class Said:
    """What a statement's deck has: its text, the deck in it, its names and its image."""

    def __init__(self, text: Text, deck: Deck, names: Names, image: Image) -> None:
        self.text, self.deck, self.names, self.image = text, deck, names, image

    def line(self, use: Use) -> int:
        """The line of a name, from 1."""
        return self.text.line_of(self.deck.start + use.start) + 1


def said(of: Said, statement: Statement, part: Optional[int]) -> List[str]:
    """What is said of a statement of this part, in paragraphs."""
    own = list(said_of_deck(of, statement, part))
    entry = said_of_form(statement.text, part)
    if not (own or entry):
        return []
    return [f"**`{statement.written}`**" + (f" {own[0]}" if own else ""), *own[1:], *([entry] if entry else [])]


def said_of_form(text: str, part: Optional[int]) -> str:
    """What the documents say of the form of a statement."""
    if CONSTANT.match(text):
        return section("Constants")
    name = names_of_forms().get(form_of(text))
    if part is None or name is None:
        does = statements_of_forms().get(form_of(text))
        return f"{does} (`docs/USERCODE.md`)" if does else ""
    return f"### `{name}`\n\n{orders()[name]}" if name in orders() else ""


def section(name: str) -> str:
    """The table of a section of docs/USERCODE.md."""
    return re.search(rf"^## {name}\n+(\|.*?)\n\n", document("USERCODE.md"), re.MULTILINE | re.DOTALL)[1]


def said_of_deck(of: Said, statement: Statement, part: Optional[int]) -> List[str]:
    """What the deck and its image say of a statement: where it is and what it became, numbers, and each name in it."""
    lines = [*place_and_syllables(of.image, statement), *said_of_number(statement.text)]
    if CONSTANT.match(statement.text) and part is not None:
        address = of.image.address(Symbol(V_STORE, part, whole(CONSTANT.match(statement.text)[1])))
        if address is not None:
            lines += said_of_word(of.image.words[address], is_q="=Q" in statement.text)
    for use in of.names.uses_in(statement, part):
        lines += said_of_use(of, use)
    if class_of(statement.text) and part is not None:
        numbers = dict.fromkeys(whole(q) for q in Q_STORE.findall(statement.text))
        if numbers and class_of(statement.text) not in ("stores",) or numbers and "M" in statement.text:
            lines.append(said_of_q_stores(statement.text, list(numbers)))
    return lines


def place_and_syllables(image: Image, statement: Statement) -> List[str]:
    """Where a statement is in the store, and its syllables in hexadecimal."""
    at, syllables = image.at(statement.start), image.syllables(statement.start)
    if not syllables:
        return []
    return [f"is at {at[0]}/{at[1]}: `{' '.join(f'{syllable:02X}' for syllable in syllables)}`"]


def said_of_number(text: str) -> List[str]:
    """The number of a SET, in decimal and octal."""
    found = SET_NUMBER.match(text)
    if not found:
        return []
    number = int(found[1], 8) if found[1] else int(found[2])
    return [f"{number} is octal `{number % 2**48:016o}`"] if abs(number) < 2**47 else []


def said_of_word(word: int, is_q: bool) -> List[str]:
    """A word in octal and decimal, as characters, and as a Q-store."""
    values = word >> 32, word >> 16 & 65535, word & 65535
    named = "; ".join(f"{name} {value}" for name, value in zip(("counter", "increment", "modifier"), values))
    parts = "/".join(map(str, values)) + (f": {named}" if is_q else "")
    characters = "".join(table("job")["characters"][word >> shift & 63] for shift in range(42, -6, -6))
    return [f"octal `{word:016o}`, decimal {number_of(word)}, as a Q-store {parts}, as characters `{characters.replace('`', chr(39))}`"]


def said_of_use(of: Said, use: Use) -> List[str]:
    """What is said of a name in a statement: where it is, or what its word has at the start."""
    symbol = use.symbol
    definition = of.names.definition_of(symbol)
    where = f", line {of.line(definition)}" if definition and not use.defines else ""
    if symbol.kind in (REFERENCE, PART):
        at = of.image.place(symbol)
        jumps = sum(not each.defines for each in of.names.by_symbol.get(symbol, []))
        return [f"{symbol.said()}{where}" + (f", at {at[0]}/{at[1]}" if at else "") + (f"; named {jumps} time{'s' * (jumps != 1)}" if use.defines else "")]
    address = of.image.address(symbol)
    if address is None:
        return [f"{symbol.said()}{where}"]
    starts = "" if use.defines else f", which has octal `{of.image.words[address]:016o}` at the start"
    return [f"{symbol.said()}{where} is the word at address {address}{starts}"]


def said_of_q_stores(text: str, numbers: List[int]) -> str:
    """What the Q-stores of a statement are for: by docs/GLOSSARY.md, or by docs/MACHINE.md in an order of a device."""
    head = " and ".join(f"Q{number}" for number in numbers)
    if class_of(text) in ("devices", "tests"):
        return f"{head}: {operands_of_devices()}"
    return f"{head}: {glossary()['Q-store']}"


@functools.lru_cache(maxsize=1)
def operands_of_devices() -> str:
    """What docs/MACHINE.md says of the Q-store of a device order."""
    found = re.search(r"^### The operands of a device order\n\n(.*?signs\.)", document("MACHINE.md"), re.MULTILINE | re.DOTALL)
    return " ".join(found[1].split())
