"""A text that an editor has open: a job, or a deck alone. It is kept with a character for each of its bytes in UTF-8, as the machine counts them.

A text is a job if its first line is that of a job, or begins as one, or if the editor or its name says so; any other text is a deck.
"""
import bisect
import functools
import re
from typing import List, NamedTuple, Optional

from kdf9.job import HEADER
from kdf9.program import ENCODING
from kdf9.tables import lines

LARGEST_STORE = lines()["STORE"]["numbers"][0][1]

# How a language server counts the characters of a line: the bytes in UTF-8, or the halves of UTF-16, as all editors can.
UTF_8, UTF_16 = "utf-8", "utf-16"

# What an editor calls a job, and how the names of jobs end.
JOB_LANGUAGES, JOB_ENDING = ("kdf9-job", "kdf9job"), ".job"

# The lines above the deck in a job of it alone.
ABOVE = 4

STORE_LINE = re.compile(r"STORE ([1-9]\d{0,3})\Z")
SLOT_LINE = re.compile(r"SLOT ([0-3])\Z")


class Deck(NamedTuple):
    """A deck in a text: the number of its slot, the words of its store, where it begins and ends, and the number of its first line, from 0."""

    slot: int
    store: int
    start: int
    end: int
    line: int


class Text:
    """The text of a document, its lines and its decks."""

    def __init__(self, text: str, is_job: bool, counts: str = UTF_16) -> None:
        self.text, self.is_job, self._counts = text, is_job, counts

    @functools.cached_property
    def starts(self) -> List[int]:
        """Where each line begins."""
        return [0, *(found.end() for found in re.finditer("\n", self.text))]

    @functools.cached_property
    def decks(self) -> List[Deck]:
        """The decks, in sequence. One that nothing ends goes on to the end of the text."""
        return list(decks_of(self.text, self.starts)) if self.is_job else [Deck(0, LARGEST_STORE, 0, len(self.text), 0)]

    def deck_at(self, offset: int) -> Optional[Deck]:
        """The deck that has this place, or None."""
        return next((deck for deck in self.decks if deck.start <= offset <= deck.end), None)

    def of_deck(self, deck: Deck) -> str:
        """The text of a deck."""
        return self.text[deck.start:deck.end]

    def line_of(self, offset: int) -> int:
        """The number of the line of a place, from 0."""
        return bisect.bisect_right(self.starts, offset) - 1

    def line(self, number: int) -> str:
        """The line of this number, without its end."""
        end = self.starts[number + 1] - 1 if number + 1 < len(self.starts) else len(self.text)
        return self.text[self.starts[number]:end]

    def offset(self, position: dict) -> int:
        """The place of a position of an editor; what is outside of the text or of its line is at its end."""
        number, character = as_number(position.get("line")), as_number(position.get("character"))
        if number >= len(self.starts):
            return len(self.text)
        line = self.line(number)
        if self._counts == UTF_8 or line.isascii():
            return self.starts[number] + min(character, len(line))
        halves = decoded(line).encode("utf-16-le")[:2 * character]
        return self.starts[number] + min(len(halves.decode("utf-16-le", "ignore").encode("utf-8")), len(line))

    def position(self, offset: int) -> dict:
        """The position of a place, as an editor counts it."""
        offset = max(0, min(offset, len(self.text)))
        number = self.line_of(offset)
        before = self.text[self.starts[number]:offset]
        if not (self._counts == UTF_8 or before.isascii()):
            before = " " * (len(decoded(before).encode("utf-16-le")) // 2)
        return {"line": number, "character": len(before)}

    def span(self, start: int, end: int) -> dict:
        """The range between two places."""
        return {"start": self.position(start), "end": self.position(end)}

    def changed(self, changes: list) -> "Text":
        """The text after the changes of an editor, of which each has a range, or else is the whole text."""
        now = self
        for change in changes:
            new = of_bytes(str(change["text"]))
            if isinstance(change.get("range"), dict):
                start, end = now.offset(change["range"]["start"]), now.offset(change["range"]["end"])
                new = now.text[:start] + new + now.text[max(start, end):]
            now = Text(new, self.is_job, self._counts)
        return now


def as_number(value: object) -> int:
    """A number of a message: 0 for what is none."""
    return value if isinstance(value, int) and 0 <= value < 1 << 31 else 0


def of_bytes(text: str) -> str:
    """A text with a character for each of its bytes in UTF-8."""
    return text if text.isascii() else text.encode("utf-8", "replace").decode(ENCODING)


def decoded(text: str) -> str:
    """A text of bytes as it is shown."""
    return text if text.isascii() else text.encode(ENCODING).decode("utf-8", "replace")


def is_job(text: str, language: str, name: str) -> bool:
    """Whether a text is a job, and not a deck."""
    return text.startswith(HEADER.split(" ", maxsplit=1)[0] + " ") or language in JOB_LANGUAGES or name.endswith(JOB_ENDING)


def decks_of(text: str, starts: List[int]) -> "List[Deck]":
    """The decks of a job, which may have any fault."""
    found, slot, store = [], 0, LARGEST_STORE
    at, rows = 0, text.split("\n")
    while at < len(rows):
        line = rows[at]
        if SLOT_LINE.match(line):
            slot = int(line[5:])
        elif STORE_LINE.match(line):
            store = min(max(int(line[6:]), 32), LARGEST_STORE) // 32 * 32
        elif line == "DECK":
            end = next((after for after in range(at + 1, len(rows)) if rows[after] == "ENDDECK"), len(rows))
            begins = starts[at + 1] if at + 1 < len(starts) else len(text)
            found.append(Deck(slot, store, begins, starts[end] if end < len(rows) else len(text), at + 1))
            at = end
        at += 1
    return found


def lone_job(deck: str, store: int) -> str:
    """A job of a deck alone, in slot 0. If the deck's last line has no end, it gets one."""
    ended = deck if deck.endswith("\n") or not deck else f"{deck}\n"
    return f"{HEADER}\nSLOT 0\nSTORE {store}\nDECK\n{ended}ENDDECK\nSCHEDULE\nENDJOB\n"
