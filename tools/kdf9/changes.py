"""What an order changed, in words: what differs between two sections of one program."""
from itertools import zip_longest

from kdf9.words import count

LARGE_NUMBER = 10**9


def number_of(word):
    """A word as a number with its sign."""
    return word - 2**48 if word >> 47 else word


def value(word):
    """A word as a number, or in octal as in a report if it is probably not a number."""
    return str(number_of(word)) if abs(number_of(word)) < LARGE_NUMBER else f"{word:016o}"


def changes(before, after, layout):
    """What differs between two sections, apart from the nest, in words."""
    if after.words != before.words:
        for address, word in after.words.items():
            if word != before.words[address]:
                yield f"{layout.name_of(address)} = {value(word)}"
    yield from changes_of_registers(before, after)
    yield from changes_outside(before, after)


def changes_of_registers(before, after):
    """What differs in Q-stores, V, TR and the links."""
    for q in sorted(before.q_stores.keys() | after.q_stores.keys()):
        parts = after.q_stores.get(q, (0, 0, 0))
        if parts != before.q_stores.get(q, (0, 0, 0)):
            yield f"Q{q} = {'/'.join(map(str, parts))}"
    for name, old, new in zip(("V", "TR"), before.flags, after.flags):
        if old != new:
            yield f"{name} = {new}"
    if after.links != before.links:
        yield f"links {' '.join(after.links) or 'empty'}"


def changes_outside(before, after):
    """What differs in devices, spooled texts and the life of the program."""
    for old, new in zip(before.devices, after.devices):
        yield from changes_of_device(f"device {new.number} {new.kind}", old, new)
    for old, new in zip_longest(before.stints, after.stints):
        yield from changes_of_device(f"pool {new.number} {new.kind}", old or new._replace(state="", blocks=[]), new)
    for text in after.spools[len(before.spools):]:
        yield f"spooled {text}"
    if after.state != before.state:
        yield " ".join(after.state)


def changes_of_device(name, old, new):
    """What differs in a device of this name."""
    if old.state != new.state:
        yield f"{name}: {new.state}"
    if old.blocks != new.blocks:
        yield f"{name}: {count(len(new.blocks), 'block')}"


def statement_at(section, layout):
    """The statement of the next order of a section's program."""
    row = layout.row_at(section.place)
    if row is None:
        return "(no statement)"
    return row.statement.written if row.statement else "(DUMMY)" if row.kind == "filling" else "(to the main part)"
