"""A deck next to its image: its statements, what each of them became, and the names of words.

The machine tells the kind of each statement, where it is and what it became, and the parts and stores of the deck (kdf9/told.py); nothing else is known of
orders here.
"""
import bisect
import re
from typing import Iterator, List, NamedTuple, Optional, Tuple

from kdf9.words import whole

# The syllables of a word, and those of the jump in word 0.
WORD, SIZE_OF_JUMP = 6, 3

# The kinds of statements that became something, or mean a place; each of the others is a heading.
KINDS = ("order", "constant", "reference")

COMMENT = re.compile(r"\([^)]*\)?")
DECLARATION = re.compile(r"Y([A-Z]?)(\d+)\Z")
OPENING = re.compile(r"(?:PROGRAM|P(\d+))(?:V(\d+))?\Z")
CONSTANT = re.compile(r"V(\d+)=")

# The name of a place in an image: word and syllable, or a reference and a part as a jump names them.
PLACE = re.compile(r"(\d{1,4})/([0-5])|(\d{1,4})?(?:P(\d{1,3}))?")


class Statement(NamedTuple):
    """A statement: its line and column in the job, and what is written there, without comments and with single spaces."""

    line: int
    column: int
    written: str


class Row(NamedTuple):
    """What a statement became: its kind, the place of its first syllable, counted from the beginning of the store, and how many there are.
    The jump in word 0 and the orders that fill a word have no statement.
    """

    kind: str
    place: int
    size: int
    statement: Optional[Statement]


class Names(NamedTuple):
    """The names of neighbouring stores: the text before the number, the text after it, the address of number 0, and how many there are."""

    before: str
    after: str
    address: int
    count: int

    def name(self, number: int) -> str:
        """The name of the store of this number."""
        return f"{self.before}{number}{self.after}"


def without_comments(deck: str) -> str:
    """The deck with its comments replaced by spaces, so that offsets stay the same."""
    return COMMENT.sub(lambda comment: " " * len(comment[0]), deck)


def written(text: str) -> str:
    """What is written in a statement, of its text up to the next `;`: with single spaces, and without comments. A `*` is a statement by itself."""
    return "*" if text[:1] == "*" else " ".join(without_comments(text).split())


class Layout:
    """A deck next to its image, in which each statement has its row and each store its name. It is made of the facts of the deck (`told.Listing`)."""

    def __init__(self, listing) -> None:
        self.image = b"".join(int(word, 8).to_bytes(WORD, "big") for word in listing.words)
        self.rows: List[Row] = [Row("jump", 0, SIZE_OF_JUMP, None)]
        self.names = [Names(each.name, f"P{each.part}" if each.part else "", each.address, each.count) for each in listing.stores]
        self._parts = {each.part: place_at(each.at) for each in listing.parts}
        self._references = {(each.part, each.reference): place_at(each.at) for each in listing.references}
        for each in listing.statements:
            self._add(each)
        self._orders = {place: row for row in self.rows if row.size for place in places_of_orders(row)}
        self._addresses = [names.address for names in self.names]

    def row_at(self, place: int) -> Optional[Row]:
        """The row of the order that begins at this place, or None."""
        return self._orders.get(place)

    def name_of(self, address: int) -> str:
        """The name of the word at this address: that of the deck, or else by the address alone."""
        at = bisect.bisect_right(self._addresses, address) - 1
        if at >= 0 and address < self.names[at].address + self.names[at].count:
            return self.names[at].name(address - self.names[at].address)
        return f"E{address}"

    def address_of(self, name: str) -> Optional[int]:
        """The address of the word of this name, or None where no store has it."""
        found = re.fullmatch(r"(V|Y[A-Z]?|E)(\d+)(P\d+)?", name)
        if not found:
            return None
        before, number, after = found[1], whole(found[2]), f"P{whole(found[3][1:])}" if found[3] else ""
        if before == "E":
            return None if after else number
        after = "" if after == "P0" else after
        ours = [names for names in self.names if (names.before, names.after) == (before, after) and number < names.count]
        return ours[0].address + number if ours else None

    def place_of(self, name: str) -> Optional[int]:
        """The place that a name is of, or None where there is no such reference or part. A reference without a part is one of the main part."""
        found = PLACE.fullmatch(name)
        if not found or not name:
            return None
        word, syllable, reference, part = (number and int(number) for number in found.groups())
        if word is not None:
            return WORD * word + syllable
        return self._parts.get(part) if reference is None else self._references.get((part or 0, reference))

    def _add(self, line) -> None:
        """Adds a statement, and what fills the word before it. A `*` comes before what it fills, and one after a `*` is left out: it fills nothing."""
        last = self.rows[-1].statement
        if line.kind == "star" and last and last.written == "*":
            return
        place, statement = place_at(line.at), Statement(line.line, line.column, line.written)
        filling = [Row("filling", place - line.filled, line.filled, None)] if line.filled else []
        if line.kind == "star":
            self.rows += [Row("heading", place - line.filled, 0, statement), *filling]
        else:
            size = WORD if line.kind == "constant" else line.syllables
            self.rows += [*filling, Row(line.kind if line.kind in KINDS else "heading", place, size, statement)]


def place_at(at: Tuple[int, int]) -> int:
    """The place of a word and a syllable."""
    return WORD * at[0] + at[1]


def places_of_orders(row: Row) -> Iterator[int]:
    """The places at which the orders of a row begin: those that fill a word have one syllable each."""
    if row.kind == "filling":
        yield from range(row.place, row.place + row.size)
    elif row.kind in ("order", "jump"):
        yield row.place
