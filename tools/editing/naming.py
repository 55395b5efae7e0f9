"""What a deck names: its references, parts and stores, each with the places where it stands.

The deck may have faults; so this is read off its text. Where the machine knows more, as addresses, it is asked (facts.py).
"""
import functools
import re
from bisect import bisect_right
from typing import Dict, Iterator, List, NamedTuple, Optional, Tuple

from kdf9.deck import CONSTANT, DECLARATION, OPENING
from kdf9.statements import Statement, statements
from kdf9.words import whole

from editing.grammar import classes

# The kinds of names.
REFERENCE, PART, V_STORE, Y_STORE = "reference", "part", "V-store", "Y-store"

# A jump with its target, an order or an address with its store, and a store in a constant.
JUMP = re.compile(r"JS?(\d+)?(P\d+)?")
STORE = re.compile(r"(?:=|SETA)?(?:(V\d+)(P\d+)?|(Y[A-Z]?\d+))(?:M\d+Q?)?\Z")
IN_CONSTANT = re.compile(r"A(?:(V\d+)(P\d+)?|(Y[A-Z]?\d+))(?=/|\Z)")

LETTER_OF_Y = re.compile(r"\A(=?|SETA)Y[A-Z](?=\d)")

# The group of orders, or another class, by the form of a statement.
CLASSES = {form: name for name, found in classes().items() for form in found}


class Symbol(NamedTuple):
    """A name: its kind, the number of its part or the letter of its Y-store, and its own number. The references and V-stores of a part are its own."""

    kind: str
    of: object
    number: int

    def said(self) -> str:
        """The name in words."""
        if self.kind == REFERENCE:
            return f"reference {self.number} of {part_name(self.of)}"
        if self.kind == PART:
            return part_name(self.number)
        return f"V{self.number} of {part_name(self.of)}" if self.kind == V_STORE else f"Y{self.of}{self.number}"


class Use(NamedTuple):
    """A place where a name stands: where it begins and ends in the deck, where its number begins, and whether the name is defined here."""

    symbol: Symbol
    start: int
    end: int
    digits: int
    defines: bool


class Part(NamedTuple):
    """A part: its number, its opening, the highest of its V-stores or None, and the index of its opening among the statements."""

    number: int
    opening: Statement
    highest: Optional[int]
    index: int


def part_name(number: object) -> str:
    """A part in words."""
    return f"part {number}" if number else "the main part"


@functools.lru_cache(maxsize=1 << 14)
def form_of(text: str) -> str:
    """The form of a statement: with a 0 for each of its numbers. A store of any Y has the form of one of Y."""
    return re.sub(r"\d+", "0", LETTER_OF_Y.sub(r"\1Y", text))


def class_of(text: str) -> Optional[str]:
    """The class of a statement of this text: the group of an order, or a heading, a reference, `*` or a floating order; None for another."""
    return CLASSES.get(form_of(text))


def places_of(deck: str, statement: Statement) -> range:
    """Where each character of a statement stands, or what stands for that: a range where there is nothing between them."""
    if statement.end - statement.start == len(statement.text):
        return range(statement.start, statement.end)
    found, is_comment = [], False
    for at in range(statement.start, statement.end):
        character = deck[at]
        is_comment = character == "(" or is_comment and character != ")"
        if not is_comment and character not in " \n)":
            found.append(at)
    return found


class Names:
    """The names of a deck."""

    def __init__(self, deck: str) -> None:
        self.deck = deck
        self.statements: List[Statement] = list(statements(deck))
        self._starts = [each.start for each in self.statements]
        self.parts = [
            Part(whole(found[1] or ""), each, whole(found[2]) if found[2] else None, at)
            for at, each in enumerate(self.statements) if each.text[0] == "P" for found in [OPENING.match(each.text)] if found
        ]
        self._openings = [part.index for part in self.parts]

    def index_at(self, offset: int) -> Optional[int]:
        """The index of the statement at a place, or that ends there; None if there is none."""
        at = bisect_right(self._starts, offset) - 1
        return at if at >= 0 and offset <= self.statements[at].end else None

    def between(self, start: int, end: int) -> List[Statement]:
        """The statements that have a place between two."""
        first = max(0, bisect_right(self._starts, start) - 1)
        return self.statements[first:bisect_right(self._starts, end)]

    def part_at(self, index: int) -> Optional[Part]:
        """The part in which the statement of this index stands; None above the first."""
        at = bisect_right(self._openings, index) - 1
        return self.parts[at] if at >= 0 else None

    @functools.cached_property
    def uses(self) -> List[Use]:
        """Every place where a name stands, in sequence."""
        found, part, openings = [], None, set(self._openings)
        for index, statement in enumerate(self.statements):
            if index in openings:
                part = self.part_at(index)
            if statement.text != "*":
                found += self.uses_in(statement, part.number if part else None)
        return found

    @functools.cached_property
    def by_symbol(self) -> Dict[Symbol, List[Use]]:
        """The places of each name."""
        found: Dict[Symbol, List[Use]] = {}
        for use in self.uses:
            found.setdefault(use.symbol, []).append(use)
        return found

    def uses_in(self, statement: Statement, part: Optional[int]) -> List[Use]:
        """The names in a statement of this part."""
        found = names_in(statement.text, part)
        if not found:
            return []
        places = places_of(self.deck, statement)
        return [Use(symbol, places[start], places[end - 1] + 1, places[digits], defines) for symbol, (start, digits, end), defines in found]

    def use_at(self, offset: int) -> Optional[Use]:
        """The name at a place, or that ends there; the one that begins there comes first."""
        index = self.index_at(offset)
        if index is None:
            return None
        part = self.part_at(index)
        found = [use for use in self.uses_in(self.statements[index], part.number if part else None) if use.start <= offset <= use.end]
        return found[-1] if found else None

    def definition_of(self, symbol: Symbol) -> Optional[Use]:
        """Where a name is defined first. The V-stores that have no constant are defined where their part is opened, and Y-stores where they are declared."""
        own = next((use for use in self.by_symbol.get(symbol, []) if use.defines), None)
        if own or symbol.kind in (REFERENCE, PART):
            return own
        highest = [use for use in self.uses if use.defines and use.symbol.kind == symbol.kind and use.symbol.of == symbol.of and use.symbol.number > symbol.number]
        return next((use for use in highest if not CONSTANT.match(self.statements[self.index_at(use.start)].text)), None)

    def symbols_of(self, kind: str, of: object) -> List[int]:
        """The numbers that have a definition among the names of this kind: the references of a part, or all parts."""
        return sorted({use.symbol.number for use in self.uses if use.defines and use.symbol.kind == kind and use.symbol.of == of})

    def highest_stores(self) -> Dict[str, int]:
        """The highest number of each group of Y-stores, by its letter."""
        first = self._openings[0] if self._openings else len(self.statements)
        found: Dict[str, int] = {}
        for statement in self.statements[:first]:
            declared = DECLARATION.match(statement.text)
            if declared:
                found.setdefault(declared[1], whole(declared[2]))
        return found


Place = Tuple[int, int, int]


@functools.lru_cache(maxsize=1 << 14)
def names_in(text: str, part: Optional[int]) -> Tuple[Tuple[Symbol, Place, bool], ...]:
    """The names in the text of a statement: each with where it, its number and its end are, and whether it is defined here."""
    return tuple(named_in(text, part))


def named_in(text: str, part: Optional[int]) -> Iterator[Tuple[Symbol, Place, bool]]:
    """The names in the text of a statement of this part, or above the first for None."""
    if part is None:
        declared = DECLARATION.match(text)
        if declared:
            yield Symbol(Y_STORE, declared[1], whole(declared[2])), (0, declared.start(2), declared.end()), True
    elif text.isdecimal():
        yield Symbol(REFERENCE, part, whole(text)), (0, 0, len(text)), True
    elif text[0] == "P" and OPENING.match(text):
        yield from named_in_opening(text, part)
    elif CONSTANT.match(text):
        end = text.index("=")
        yield Symbol(V_STORE, part, whole(text[1:end])), (0, 1, end), True
        if text[end + 1:end + 2] == "Q":
            for found in IN_CONSTANT.finditer(text, end):
                yield from named_as_store(found, part)
    elif text[0] == "J":
        found = JUMP.match(text)
        if found[1] and class_of(text) == "jumps":
            yield Symbol(REFERENCE, whole(found[2][1:]) if found[2] else part, whole(found[1])), (found.start(1), found.start(1), found.end(1)), False
        if found[2] and class_of(text) == "jumps":
            yield named_part(found, 2), (found.start(2), found.start(2) + 1, found.end(2)), False
    else:
        found = STORE.match(text)
        if found:
            yield from named_as_store(found, part)


def named_in_opening(text: str, part: int) -> Iterator[Tuple[Symbol, Place, bool]]:
    """The names in the opening of a part."""
    found = OPENING.match(text)
    if found[1]:
        yield Symbol(PART, None, whole(found[1])), (0, 1, found.end(1)), True
    else:
        yield Symbol(PART, None, 0), (0, 0, len("PROGRAM")), True
    if found[2]:
        yield Symbol(V_STORE, part, whole(found[2])), (found.start(2) - 1, found.start(2), found.end(2)), True


def named_as_store(found: "re.Match[str]", part: int) -> Iterator[Tuple[Symbol, Place, bool]]:
    """The names in a store."""
    if found[1]:
        yield Symbol(V_STORE, whole(found[2][1:]) if found[2] else part, whole(found[1][1:])), (found.start(1), found.start(1) + 1, found.end(1)), False
        if found[2]:
            yield named_part(found, 2), (found.start(2), found.start(2) + 1, found.end(2)), False
    else:
        letter = found[3][1] if found[3][1].isalpha() else ""
        yield Symbol(Y_STORE, letter, whole(found[3][1 + len(letter):])), (found.start(3), found.start(3) + 1 + len(letter), found.end(3)), False


def named_part(found: "re.Match[str]", group: int) -> Symbol:
    """The part that a jump or a store names."""
    return Symbol(PART, None, whole(found[group][1:]))
