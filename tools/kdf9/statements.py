"""The statements of the text of a deck, which may be one that is being written: the machine lists those of a deck without a fault alone."""
import re
from typing import Iterator, NamedTuple, Optional

from kdf9.deck import without_comments

STATEMENT = re.compile(r"\*(?:[* \n]*\*)?|[^*; \n][^;]*")


class Statement(NamedTuple):
    """A statement: the offsets in its deck of its first significant byte and after its last, what is written there with single
    spaces, and its text without comments and spaces.
    """

    start: int
    end: int
    written: str
    text: str


def statements(deck: str) -> Iterator[Statement]:
    """The statements of a deck, in sequence; the text after the last `;` is one too. A statement that begins with `*` and goes on is two, and a
    row of `*` counts as one.
    """
    for found in STATEMENT.finditer(without_comments(deck)):
        text, start = found[0], found.start()
        if text[0] == "*":
            yield Statement(start, found.end(), "*", "*")
        elif " " not in text and "\n" not in text:
            yield Statement(start, start + len(text), text, text)
        else:
            words = text.split()
            yield Statement(start, start + len(text.rstrip()), " ".join(words), "".join(words))


def statement_at(deck: str, offset: int) -> Optional[Statement]:
    """The statement that has this byte of the deck, or None."""
    for statement in statements(deck):
        if statement.end > offset:
            return statement if statement.start <= offset else None
    return None
