"""A deck next to what the machine says of it: where its statements are in the store, and what its words have at the start."""
import functools
from typing import Dict, List, Optional

from editing.facts import facts_of
from editing.naming import PART, REFERENCE, V_STORE, Names, Symbol
from editing.texts import ABOVE, lone_job


class Image:
    """The listing of a deck, or its fault."""

    def __init__(self, deck: str, store: int) -> None:
        self.facts = facts_of(lone_job(deck, store), 0)

    @property
    def is_sound(self) -> bool:
        """Whether the deck has no fault."""
        return self.facts["kind"] == "listing"

    @property
    def fault(self) -> Optional[dict]:
        """The deck's fault, or None."""
        return None if self.is_sound else self.facts

    @functools.cached_property
    def words(self) -> List[int]:
        """The words of the image; none of a deck with a fault."""
        return [int(word, 8) for word in self.facts.get("words", [])]

    @functools.cached_property
    def statements(self) -> Dict[int, dict]:
        """The statements by their offsets."""
        return {row["offset"]: row for row in self.facts.get("statements", [])}

    @functools.cached_property
    def _references(self) -> Dict[tuple, list]:
        return {(row["part"], row["reference"]): row["at"] for row in self.facts.get("references", [])}

    @functools.cached_property
    def _stores(self) -> Dict[tuple, dict]:
        """The stores that the deck names, by their names and the numbers of their parts."""
        return {(row["name"], row["part"]): row for row in self.facts.get("stores", [])}

    def at(self, offset: int) -> Optional[list]:
        """The word and the syllable of the statement at this offset, if the machine knows them."""
        row = self.statements.get(offset)
        return row and row["at"]

    def place(self, symbol: Symbol) -> Optional[list]:
        """The word and the syllable of a reference."""
        return self._references.get((symbol.of, symbol.number)) if symbol.kind == REFERENCE else None

    def syllables(self, offset: int) -> List[int]:
        """The syllables of the order at this offset."""
        row = self.statements.get(offset)
        if not row or not row["syllables"]:
            return []
        first = 6 * row["at"][0] + row["at"][1]
        return [self.words[at // 6] >> 8 * (5 - at % 6) & 255 for at in range(first, first + row["syllables"])]

    def address(self, symbol: Symbol) -> Optional[int]:
        """The address of a store."""
        if symbol.kind in (REFERENCE, PART):
            return None
        stores = self._stores.get(("V", symbol.of) if symbol.kind == V_STORE else (f"Y{symbol.of}", None))
        return stores and stores["address"] + symbol.number


@functools.lru_cache(maxsize=16)
def image_of(deck: str, store: int) -> Image:
    """What the machine says of a deck."""
    return Image(deck, store)


@functools.lru_cache(maxsize=16)
def names_of(deck: str) -> Names:
    """The names of a deck."""
    return Names(deck)


def line_of_deck(fault: dict) -> int:
    """The line of a deck, from 0, that a fault of a job of it alone is in."""
    return max(0, fault["line"] - 1 - ABOVE)
