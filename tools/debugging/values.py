"""What there is to see of a run after some calls: registers, stores and devices of each program, the parts that it called, and values by their names."""
import re
from typing import Dict, Iterator, List, Optional, Tuple

from debugging.history import History, Place
from editing.naming import V_STORE, Y_STORE, Symbol
from kdf9.changes import number_of
from kdf9.deck import WORD
from kdf9.journal import SLOTS, exchanged
from kdf9.report import Section
from kdf9.words import whole

REGISTERS, STORES, DEVICES, MACHINE = "Registers", "Stores", "Devices", "Machine"

# The kinds of values that may be asked for by their names.
NAMED = re.compile(r"(V|Y[A-Z]?|E|N|Q|C|I|M)(\d+)(?:P(\d+))?\Z")

Values = Iterator[Tuple[str, str]]


class View:
    """A run after some calls."""

    def __init__(self, history: History, calls: int) -> None:
        self._history, self.calls = history, calls

    @property
    def sections(self) -> Dict[int, Section]:
        """What each program is like."""
        return self._history.sections(self.calls)

    def calling(self, slot: int) -> List[Tuple[Place, str]]:
        """The next order of a program, and the orders that called its part, each with its statement and where that is."""
        section, program = self.sections[slot], self._history.programs[slot]
        links = [WORD * int(word) + int(syllable) for word, syllable in (link.split("/") for link in section.links)]
        places = [program.place(place)._replace(place=place) for place in [section.place, *links]]
        return [(each, f"{each.text} at {each.place // WORD}/{each.place % WORD}" + (", which called this" if depth else "")) for depth, each in enumerate(places)]

    def registers(self, slot: int) -> Values:
        """The nest, the Q-stores, V, TR and the links of a program."""
        section = self.sections[slot]
        yield from ((f"N{at}", value_of(word)) for at, word in enumerate(section.nest, 1))
        yield from ((f"Q{number}", "/".join(map(str, parts))) for number, parts in sorted(section.q_stores.items()))
        yield from zip(("V", "TR"), map(str, section.flags))
        yield from ((f"link {at}", link) for at, link in enumerate(section.links, 1))

    def stores(self, slot: int) -> Values:
        """The words that have names."""
        words = self.sections[slot].words
        yield from ((name, value_of(words[address])) for name, address in self._named_words(slot))

    def _named_words(self, slot: int) -> Iterator[Tuple[str, int]]:
        """The stores of a deck, with their addresses."""
        for row in self._history.programs[slot].image.facts["stores"]:
            part = "" if row["part"] is None else f"P{row['part']}"
            yield from ((f"{row['name']}{number}{part}", row["address"] + number) for number in range(row["count"]))

    def devices(self, slot: int) -> Values:
        """The devices of a program, also those of the pool that it took, and what it spooled."""
        section = self.sections[slot]
        for device in section.devices + section.stints:
            yield f"device {device.number} {device.kind}", device.state + (f", {len(device.blocks)} blocks" if device.blocks else "")
        yield from ((f"spooled {at}", text) for at, text in enumerate(section.spools, 1))

    def machine(self, slot: int) -> Values:
        """The calls, the orders and the state of a program, and the priorities."""
        section, order = self.sections[slot], SLOTS
        for entry in self._history.entries:
            if entry["entry"] == "SWAP" and entry["call"] <= self.calls:
                order = exchanged(order, entry["slot"], entry["other"])
        yield "calls", f"{self.calls} of {self._history.calls}"
        yield "orders", str(section.orders)
        yield "state", " ".join(section.state)
        yield "priorities", ", ".join(str(each) for each in order if each in self._history.programs)

    def address(self, slot: int, name: str) -> Optional[int]:
        """The address of a word of this name, or None."""
        found, program = NAMED.match(name), self._history.programs[slot]
        if not found or found[1][0] not in "VYE":
            return None
        number = whole(found[2])
        if found[1] == "E":
            return number if number < program.slot.store and not found[3] else None
        part = whole(found[3]) if found[3] else self._part_of(slot)
        symbol = Symbol(V_STORE, part, number) if found[1] == "V" else Symbol(Y_STORE, found[1][1:], number)
        return dict(self._named_words(slot)).get(f"V{number}P{part}" if symbol.kind == V_STORE else name)

    def _part_of(self, slot: int) -> int:
        """The part of the next order of a program."""
        program, order = self._history.programs[slot], self._history.place(slot, self.calls)
        lines = program.slot.deck.split("\n")[:order.line - program.slot.deck_line]
        index = program.names.index_at(sum(len(line) + 1 for line in lines) + order.column - 1)
        part = program.names.part_at(index) if index is not None else None
        return part.number if part else 0

    def value(self, slot: int, name: str) -> Optional[str]:
        """The value of a word of the store, a register, or a part of a Q-store; None where a program has none of this name."""
        section, address = self.sections[slot], self.address(slot, name)
        if address is not None:
            return value_of(section.words[address])
        found, known = NAMED.match(name), dict(self.registers(slot))
        if name not in known and found and found[1] in "QCIM" and int(found[2][:4]) < 16:
            parts = section.q_stores.get(int(found[2]), (0, 0, 0))
            return "/".join(map(str, parts)) if found[1] == "Q" else str(parts["CIM".index(found[1])])
        return known.get(name)


def value_of(word: int) -> str:
    """A word in decimal and octal."""
    return f"{number_of(word)} = {word:016o}"


# What there is to see, by the names under which an editor shows it.
SHOWN = {REGISTERS: View.registers, STORES: View.stores, DEVICES: View.devices, MACHINE: View.machine}
