"""A deck in even form, with the same image: spaces and the beginnings of lines change, and nothing else.

Headings, references and declarations begin in the first column, and other statements two columns further; what goes on in a further line begins four columns in.
A comment keeps its column where there is room, and its text always.
"""
import functools
import re
from typing import Iterator, List, NamedTuple, Tuple

from kdf9.deck import DECLARATION, OPENING

INDENT, FURTHER = 2, 4

# The parts of a deck's text: a comment, the end of a statement or of a line, a gap, or what else there is.
PIECE = re.compile(r"\([^)]*\)?|;|\n|[ \t]+|[^ \t\n;()]+|\)")
GAP = re.compile(r"(\([^)]*\)?)|[ \t\n]+")

# Where a space stands in a statement, as the documents write it.
SPACES = [
    (re.compile(r"(SET|EXIT)(?=[-+\d])"), r"\1 "), (re.compile(r"(SH(?:AD|LD|A|L|C))(?=\d)"), r"\1 "),
    (re.compile(r"(PROGRAM|P\d+)V(?=\d+\Z)"), r"\1 V"), (re.compile(r"(V\d+)="), r"\1 = "),
]


class Piece(NamedTuple):
    """A part of a line: whether it is a comment, its text, and the column where it was, from 0."""

    is_comment: bool
    text: str
    column: int


@functools.lru_cache(maxsize=1 << 14)
def spaced(statement: str) -> str:
    """A statement without spaces as the documents write it."""
    for where, with_space in SPACES:
        found = where.match(statement)
        if found:
            return where.sub(with_space, statement, count=1)
    return statement


def bare(deck: str) -> str:
    """A deck without its spaces and newlines, but with those of its comments."""
    return GAP.sub(r"\1", deck)


def formatted(deck: str) -> str:
    """The deck in even form. Where that would change more than spaces outside of comments, it stays as it is."""
    made, is_opened = [], False
    for line, goes_on in lines_of(deck):
        groups = list(statements_of(line))
        made.append(written(groups, goes_on, is_opened))
        is_opened = is_opened or any(OPENING.match(without_spaces(piece.text)) for piece in groups if not piece.is_comment)
    text = "\n".join(made)
    ends_deck = "\nENDDECK\n" in f"\n{text}\n"
    return deck if ends_deck or bare(text) != bare(deck) or text.count("\n") != deck.count("\n") else text


def lines_of(deck: str) -> Iterator[Tuple[List[Piece], bool]]:
    """The lines of a deck, each with whether a statement goes on in it. A comment of several lines is a piece of the line where it begins."""
    line: List[Piece] = []
    column, goes_on, is_open = 0, False, False
    for text in PIECE.findall(deck):
        if text == "\n":
            yield line, goes_on
            line, column, goes_on = [], 0, is_open
            continue
        if text[0] not in " \t":
            line.append(Piece(text[0] == "(", text, column))
            is_open = is_open if text[0] == "(" else text != ";"
        column += len(text)
    yield line, goes_on


def without_spaces(text: str) -> str:
    """A statement of a line without its spaces and its `;`."""
    return "".join(text.rstrip(";").split())


def written(groups: List[Piece], goes_on: bool, is_opened: bool) -> str:
    """A line of these statements and comments in even form, above or below the opening of the main part."""
    if not groups:
        return ""
    made = " " * (groups[0].column if groups[0].is_comment else indent_of(without_spaces(groups[0].text), goes_on, is_opened))
    for at, piece in enumerate(groups):
        if piece.is_comment:
            made = made.ljust(piece.column if at else 0)
            made += ("" if not at or made.endswith(" ") or piece.column == 0 else " ") + piece.text
        else:
            made += ("" if not made.strip() else " ") + piece.text
    return made


def statements_of(line: List[Piece]) -> Iterator[Piece]:
    """The pieces of a line, with those of one statement put together with the `;` that ends it."""
    parts: List[str] = []
    column = 0
    for piece in line:
        if piece.is_comment:
            if parts:
                yield Piece(False, " ".join(parts), column)
            parts = []
            yield piece
        elif piece.text == ";":
            yield Piece(False, spaced("".join(parts)) + ";", column if parts else piece.column)
            parts = []
        else:
            column = column if parts else piece.column
            parts.append(piece.text)
    if parts:
        yield Piece(False, " ".join(parts), column)


def indent_of(statement: str, goes_on: bool, is_opened: bool) -> int:
    """Where a line begins whose first statement is this one."""
    if goes_on:
        return FURTHER
    is_outer = statement.isdecimal() or statement == "FINISH" or OPENING.match(statement) or not is_opened and DECLARATION.match(statement)
    return 0 if is_outer else INDENT
