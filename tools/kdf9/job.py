"""The text of a job in which the program found no fault of the job: its lines, its slots with their decks, and its pool."""
from typing import NamedTuple

from kdf9.tables import table

# The first line of a job.
HEADER = table("job")["header"]

# The line of a slot, directly after its deck, whose program the installation's service answers.
SERVICE = "SERVICE"


class Slot(NamedTuple):
    """A slot of a job: its number, the words of its store, the line of the job, from 1, where its deck begins, the text of the deck, the
    lines of its devices with their media, those of the pool, which all slots share, and whether it has the line SERVICE.
    """

    number: int
    store: int
    deck_line: int
    deck: str
    devices: list
    pool: tuple = ()
    served: bool = False

    def place(self, offset):
        """The line of the job and the column, both from 1, of a byte of the deck. ENDDECK comes after the last byte."""
        line = self.deck.count("\n", 0, offset)
        return self.deck_line + line, offset - (self.deck.rfind("\n", 0, offset) + 1) + 1

    def lines(self):
        """What a program has from its job, but for the number of its slot."""
        return self.store, self.deck, self.devices, self.pool, self.served

    def kinds(self):
        """The kinds of the slot's devices by their numbers."""
        return kinds_of(self.devices)

    def pool_kinds(self):
        """The kinds of the pool's devices by their numbers."""
        return kinds_of(self.pool)


def kinds_of(lines):
    """The kinds of the devices in some lines by their numbers."""
    words = [line.split(" ") for line in lines if line.startswith("DEVICE ")]
    return {int(number): kind for _, number, kind, *_ in words}


def kinds_of_devices(slots):
    """The kinds of all devices of some slots by their numbers, those of the pool too."""
    return {number: kind for slot in slots.values() for number, kind in {**slot.kinds(), **slot.pool_kinds()}.items()}


def read_lines(text):
    """The lines of a job. After the last newline there is another line only if it isn't empty."""
    lines = text.split("\n")
    return lines if lines[-1] else lines[:-1]


def read_slots(lines):
    """The slots of a job by their numbers."""
    slots, pool = {}, read_pool(lines)
    at = 1
    while lines[at].startswith("SLOT "):
        end = lines.index("ENDDECK", at)
        after = next(line for line in range(end, len(lines)) if lines[line].startswith(("SLOT ", "POOL", "SCHEDULE")))
        slot = Slot(
            number=int(lines[at].split()[1]),
            store=int(lines[at + 1].split()[1]),
            deck_line=at + 4,
            deck=join_lines(lines[at + 3:end]),
            devices=[line for line in lines[end + 1:after] if line != SERVICE and not line.startswith("SHOW ")],
            pool=pool,
            served=lines[end + 1] == SERVICE,
        )
        slots[slot.number] = slot
        at = after
    return slots


def parts_of(lines):
    """The lines of each slot of a job by its number, from its line SLOT on."""
    slots = read_slots(lines)
    starts = [slot.deck_line - 4 for slot in slots.values()]
    last = max(slots.values(), key=lambda slot: slot.deck_line)
    after = lines.index("ENDDECK", last.deck_line - 1)
    ends = starts[1:] + [next(at for at in range(after, len(lines)) if lines[at] in ("POOL", "SCHEDULE"))]
    return {number: lines[start:end] for number, start, end in zip(slots, starts, ends)}


def read_pool(lines):
    """The lines of the pool's devices. They come after the last deck, in which a line may be anything."""
    after = lines[len(lines) - lines[::-1].index("ENDDECK"):]
    return tuple(after[after.index("POOL") + 1:after.index("SCHEDULE")]) if "POOL" in after else ()


def join_lines(lines):
    """The text of some lines, each with its end."""
    return "".join(line + "\n" for line in lines)


def job_text(slots, schedule, shown=()):
    """The text of a job of these slots and their pool, with the lines of its schedule, that shows the whole store of the slots whose numbers
    are `shown`.
    """
    slots = list(slots)
    pool = ["POOL", *slots[0].pool] if slots[0].pool else []
    programs = "".join(text_of_slot(slot, slot.number in shown) for slot in slots)
    return join_lines([HEADER]) + programs + join_lines([*pool, "SCHEDULE", *schedule, "ENDJOB"])


def text_of_slot(slot, is_shown):
    """The lines of a slot, which show its whole store or nothing."""
    head = join_lines([f"SLOT {slot.number}", f"STORE {slot.store}", "DECK"])
    service, shows = [SERVICE] if slot.served else [], [f"SHOW 0 {slot.store - 1}"] if is_shown else []
    return head + slot.deck + join_lines(["ENDDECK", *service, *slot.devices, *shows])


def lone_job(slot, orders):
    """A job of this slot alone, with its pool, that shows its whole store, with a schedule of this number of calls."""
    return job_text([slot], [f"ORDERS {orders}"] if orders else [], [slot.number])
