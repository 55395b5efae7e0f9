"""What tests work out of the text of a journal by themselves: the calls before each entry, and which transfers and loans go on at its end."""
from kdf9.journal import calls_of

# The entries that say what holds a program up.
HOLDS = ("LOV", "BUSY", "WAIT")


def timed(entries):
    """Each entry with the number of calls before it. An entry of an order that was counted just before has that order's call."""
    calls = 0
    for entry in entries:
        yield calls, entry
        calls += calls_of(entry)


def lent(entries):
    """The devices of the pool that have holders at the end of a journal: the slot of each, and the call that it was taken with, by device."""
    holders = {}
    for calls, entry in timed(entries):
        if entry[0] == "TAKE":
            holders[entry[2]] = (entry[1], calls)
        elif entry[0] == "GIVE":
            holders.pop(entry[2], None)
        elif entry[0] in ("FAIL", "ENDED"):
            holders = {device: holder for device, holder in holders.items() if holder[0] != entry[1]}
    return holders


def in_flight(entries):
    """The transfers that go on at the end of a journal: the slot for which each goes on, and the call that it began with, by device."""
    flying = {}
    for calls, entry in timed(entries):
        if entry[0] == "START":
            flying[entry[2]] = (entry[1], calls)
        elif entry[0] == "END":
            flying.pop(entry[1], None)
    return flying
