"""What is wrong with a job or a deck: where it is in the text, and what the documents say of it. The machine tells it (kdf9/told.py)."""
from __future__ import annotations

from typing import List, Optional, Tuple

from kdf9 import job as jobs
from kdf9 import library, saved, tables, told
from kdf9.job import HEADER, Slot
from kdf9.program import ENCODING, BadInput
from kdf9.words import listed, shown

LONGEST_SUBJECT = 60

# So many characters of a text are enough to tell what is wrong with its first line.
FIRST = 4096


def head(source: str, line: int, column: int, name: str, subject: str) -> str:
    """The line that says where something is and what it is. It begins like a compiler's."""
    return f"{source}:{line}:{column}: {name}" + (f": {brief(subject)}" if subject else "")


def head_of(source: str, fault: told.Fault) -> str:
    """The line that says where a fault is and what it is."""
    return head(source, fault.line, fault.column, fault.name, fault.subject)


def fault_of(text: str, *words: str) -> told.Fault:
    """The fault that the words of a command find in a text. Which line a snapshot should have in the place of one that is wrong, its front job says."""
    facts = library.facts(text.encode(ENCODING), words)
    if facts["of"] == "snapshot" and facts["text"] is not None:
        due = saved.due_in(jobs.read_lines(text), facts["line"])
        facts.update(column=1 + first_difference(facts["text"], due), hint={"name": "snapshot_line", "line": due} if due else None)
    return told.fault_in(facts)


def first_difference(text: str, due: str) -> int:
    """The index of the first character in which two texts differ."""
    return next((at for at, (one, other) in enumerate(zip(text, due)) if one != other), min(len(text), len(due)))


def brief(text: str) -> str:
    """The text, or its beginning if it is long."""
    return text if len(text) <= LONGEST_SUBJECT else text[:LONGEST_SUBJECT - 3] + "..."


def brief_at(text: str, column: int) -> str:
    """The text, or its part around a column if it is long."""
    return brief(text) if column < LONGEST_SUBJECT // 2 else "..." + brief(text[column - LONGEST_SUBJECT // 4:])


def sentence(fault: told.Fault) -> str:
    """What the documents say of a fault, and where."""
    return f"{fault.sentence} (docs/{f'USERCODE.md, fault {fault.number}' if fault.of == 'deck' else 'JOB.md'})"


def told_hint(fault: told.Fault) -> Optional[str]:
    """The hint that the machine tells of a fault, or None. A text of the job may be long, and have bytes that a terminal can't show."""
    if fault.hint is None:
        return None
    values = {member: value for member, value in vars(fault.hint).items() if value is not None}
    if "text" in values:
        values["text"] = brief(shown(values["text"]))
    name = values.pop("name")
    if name == "snapshot_line":
        return tables.hint("snapshot_line", line=brief_at(shown(values["line"]), fault.column))
    return tables.byte_13() if name == "byte_13" else tables.hint(name, **values)


def in_one_line(source: str, fault: told.Fault) -> str:
    """The line that says where a fault is, what is wrong, and what may have led to it."""
    hint = told_hint(fault)
    return f"{head_of(source, fault)}: {sentence(fault)}" + (f"; {hint}" if hint else "")


def lines_of_job(source: str, text: str) -> List[str]:
    """The lines of a job. A text with another first line isn't a job, but bad input."""
    lines = jobs.read_lines(text)
    if lines[:1] == [HEADER]:
        return lines
    raise BadInput(in_one_line(source, fault_of(text[:FIRST], "run")))


def sound_lines(source: str, text: str) -> List[str]:
    """The lines of a job. A job with a fault, also of a deck, is bad input."""
    lines = lines_of_job(source, text)
    listing_of(source, text, 0)
    return lines


def sound_slot(source: str, text: str, number: Optional[int]) -> Tuple[Slot, told.Listing]:
    """The slot of this number of a job, or its first for None, with the facts of its deck. A job with a fault, or without that slot, is bad input."""
    lines, listing = lines_of_job(source, text), listing_of(source, text, number or 0)
    slots = jobs.read_slots(lines)
    slot = slots[min(slots)] if number is None else slots.get(number)
    if slot is None:
        raise BadInput(f"{source}: the job has no slot {number}; it has {listed([f'slot {each}' for each in slots])}")
    return slot, listing if listing.slot == slot.number else listing_of(source, text, slot.number)


def listing_of(source: str, text: str, number: int) -> told.Listing:
    """The facts of the deck of a slot. A job with a fault is bad input."""
    listing = told.told_in(text, "asm", str(number))
    if told.is_fault(listing):
        raise BadInput(f"{source}: the job has more than {listing.limit} bytes" if listing.of == "text" else in_one_line(source, listing))
    return listing
