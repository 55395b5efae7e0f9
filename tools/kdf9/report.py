"""The texts that say what programs came to: the report of a run, and the output for a program that ran alone."""
import re
from typing import NamedTuple

from kdf9.deck import WORD
from kdf9.job import HEADER as JOB
from kdf9.job import read_lines
from kdf9.program import BadInput
from kdf9.tables import byte_13, table
from kdf9.tools import NAME

# The entries of a journal, and how many fields each of them has after its first word; and those of which the last word is a name.
ENTRIES = {row["entry"]: len(row["fields"]) for row in table("entries")}
NAMING = [row["entry"] for row in table("entries") if row["fields"][-1] == "kind"]

# No entry is longer; a longer number would take Python long, or be refused by it.
LONGEST_ENTRY = 40

SLOTS = ["0", "1", "2", "3"]

# The first line of a report; and those of a report and of the text of a program that ran alone.
HEADER = "KDF9 REPORT 1"
HEADERS = (HEADER, *(f"KDF9 ALONE {slot}" for slot in SLOTS))

# What a line of a device says after its kind.
STATE_OF_DEVICE = re.compile(r"(?:HELD|FREE) PLACE [0-9]+ FLAG [0-9]+")

# The first word of what the program writes instead of a report, and the status that goes with it.
STATUSES = {"USAGE": 1, "JOB": 2, "DECK": 3, "LARGE": 4, "SNAPSHOT": 8}


class Device(NamedTuple):
    """A device of a section, or what a program did with one of the pool from taking it on: the number and kind, the words of the state,
    the blocks, and of each whether it has the Last Block Mark.
    """

    number: int
    kind: str
    state: str
    blocks: list
    marks: list


def numbers(text, count):
    """The numbers, so many, of which a text is made."""
    found = tuple(map(int, text.split(" ")))
    if len(found) != count:
        raise ValueError(text)
    return found


# The lines that a section has once: what each of them is of, and how it is read.
ONCE = {
    "STATE": ("state", lambda rest: rest.split(" ")), "ORDERS": ("orders", int), "AT": ("at", lambda rest: numbers(rest, 2)),
    "FLAGS": ("flags", lambda rest: numbers(rest, 2)), "NEST": ("nest", lambda rest: [int(word, 8) for word in rest.split(" ")[1:]]),
    "LINKS": ("links", lambda rest: rest.split(" ")[1:]),
}


class Section:
    """What a report says of one program. The words of its store are numbers by address, the Q-stores are triples by number."""

    def __init__(self, number):
        self.number, self.state, self.orders = number, [], 0
        self.at, self.flags = (0, 0), (0, 0)
        self.nest, self.links, self.spools, self.devices, self.stints = [], [], [], [], []
        self.q_stores, self.words = {}, {}

    @property
    def place(self):
        """The place of the program's next order, in syllables from the beginning of the store."""
        word, syllable = self.at
        return WORD * word + syllable

    def add(self, word, rest):
        """Takes one line, of this first word and with this rest. A block is one of the device in the last line of one; those of the pool come last."""
        if word == "WORD":
            address, octal = rest.split(" ")
            self.words[int(address)] = int(octal, 8)
        elif word in ONCE:
            name, read = ONCE[word]
            setattr(self, name, read(rest))
        elif word == "Q":
            number, *parts = numbers(rest, 4)
            self.q_stores[number] = tuple(parts)
        elif word == "SPOOL":
            stream, _ = rest.split(" ", 1)
            int(stream)
            self.spools.append(rest)
        elif word in ("DEVICE", "POOL"):
            number, kind, state = rest.split(" ", 2)
            if not STATE_OF_DEVICE.fullmatch(state):
                raise ValueError(state)
            (self.devices if word == "DEVICE" else self.stints).append(Device(int(number), kind, state, [], []))
        elif word in ("BLOCK", "LAST"):
            device = (self.stints or self.devices)[-1]
            device.blocks.append(rest)
            device.marks.append(word == "LAST")
        else:
            raise KeyError(word)


def length_of_journal(lines):
    """How many lines of a report come before its first section: its first line, and one for each entry."""
    return next((at for at, line in enumerate(lines) if line.startswith("SLOT ")), len(lines))


def status_of_fault(text):
    """The status with which the program wrote this line instead of a report, or 0 if it isn't such a line."""
    word = text.partition(" ")[0]
    return STATUSES.get(word, 0) if text.count("\n") == 1 and len(text) <= LONGEST_ENTRY * 2 else 0


class Report(NamedTuple):
    """A report: its first line, the entries of its journal, each with its words and with numbers for those that are, and its sections by slot."""

    header: str
    entries: list
    sections: dict


def read_report(text, name):
    """The report that this text is. If it isn't one, the message begins with `name`."""
    return read(text, name, [HEADER])


def read_alone(text, number):
    """The section of the text of a program of this slot that ran alone."""
    return read(text, "the program's text", HEADERS).sections[number]


def read_section(text, number):
    """The section of this slot in the text of a sound report, of which nothing else is read."""
    start = text.index(f"\nSLOT {number}\n") + 1
    end = text.find("\nSLOT ", start)
    section = text[start:] if end < 0 else text[start:end + 1] + "ENDREPORT\n"
    return read_sections(read_lines(section), 0, "the report")[number]


def entries_of(text):
    """The entries of the journal of a sound report, of which nothing else is read."""
    return read_entries(read_lines(text[:text.index("\nSLOT ") + 1])[1:], "the report")


def lines_by_slot(text):
    """The lines of each section of a sound report by its slot, without its first."""
    sections = {}
    for line in read_lines(text[text.index("\nSLOT ") + 1:])[:-1]:
        if line.startswith("SLOT "):
            lines = sections[int(line[5:])] = []
        else:
            lines.append(line)
    return sections


def sections_of(text):
    """The sections of a sound report by slot, of which nothing else is read."""
    return read_sections(read_lines(text[text.index("\nSLOT ") + 1:]), 0, "the report")


def read(text, name, headers):
    """The report, or a text of its form, which begins with one of these lines."""
    lines = read_lines(text)
    if lines[:1] == [] or lines[0] not in headers:
        raise BadInput(f"{name}:1: this isn't a report: its first line isn't {headers[0]}" + (" or KDF9 ALONE K" if len(headers) > 1 else "") + instead(lines))
    sections_from = next((at for at, line in enumerate(lines) if line.startswith(("SLOT ", "ENDREPORT"))), len(lines))
    return Report(lines[0], read_entries(lines[1:sections_from], name), read_sections(lines, sections_from, name))


def instead(lines):
    """What to do where a text has these lines and isn't a report, if that is known."""
    first = lines[0] if lines else ""
    if first == JOB:
        return f"; this is a job, whose report {NAME} run writes"
    return f"; {byte_13()}" if first.endswith("\r") else ""


def read_entries(lines, name):
    """The entries of a journal, which begin in the second line of a report. Many are alike, and each text is read only once."""
    known = {}
    for at, line in enumerate(lines, 2):
        if line not in known:
            known[line] = read_entry(line, at, name)
    return [known[line] for line in lines]


def read_entry(line, at, name):
    """An entry of a journal: its first word and its other fields."""
    word, *rest = line.split(" ")
    if ENTRIES.get(word) == len(rest) and len(line) <= LONGEST_ENTRY:
        if "".join(rest).isdecimal() and "" not in rest:
            return (word, *map(int, rest))
        if word in NAMING and rest[0].isdecimal():
            return word, int(rest[0]), rest[1]
    raise BadInput(f"{name}:{at}: this isn't an entry of a journal: {line[:60]}")


def read_sections(lines, start, name):
    """The sections from this line on, up to the last line of the report. Each has to have a line STATE."""
    sections, section = {}, None
    for at, line in enumerate(lines[start:], start + 1):
        word, _, rest = line.partition(" ")
        if line == "ENDREPORT":
            stateless = [number for number in sections if not sections[number].state]
            if at < len(lines) or stateless:
                raise BadInput(f"{name}:{at}: slot {stateless[0]} has no line STATE" if at == len(lines) else f"{name}:{at + 1}: nothing may come after ENDREPORT")
            return sections
        try:
            if word == "SLOT":
                section = sections[SLOTS.index(rest)] = Section(SLOTS.index(rest))
            else:
                section.add(word, rest)
        except (AttributeError, IndexError, KeyError, ValueError) as why:
            raise BadInput(f"{name}:{at}: this isn't a line of a report: {line[:60]}") from why
    raise BadInput(f"{name}:{len(lines)}: the report ends without ENDREPORT")
