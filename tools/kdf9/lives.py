"""Why a program of a run failed, or is live still, in sentences: as the machine tells it, and what a line of the schedule may have been meant for."""
from kdf9.journal import SLOTS, exchanged, in_order
from kdf9.schedule import start_of
from kdf9.timeline import in_flight


def sentences(source, stopped, program, layout, numbers):
    """What is said of a program that isn't over as it should be. `numbers` are those of the lines of the job in their text."""
    causes = [cause.sentence for cause in program.why]
    if program.failure:
        yield f"{program.failure}: {causes.pop(0)} (docs/MACHINE.md)"
        yield from way_there(source, stopped, program, layout)
    yield from causes
    yield from priorities_at_failure(program.slot, stopped) if program.failure else ends_of_nobody(stopped, numbers)


def way_there(source, stopped, program, layout):
    """The order before one that no statement wrote, which led there."""
    if program.statement or program.orders < 2:
        return
    before = stopped.after_order(program.slot, program.orders - 2)
    row = layout.row_at(before.place)
    if row and row.statement:
        yield f"the order before it was {row.statement.written}, at {source}:{row.statement.line}:{row.statement.column}"


def ends_of_nobody(stopped, numbers):
    """The lines END and MOVE of devices that nobody has, with what may have been meant. `numbers` are those of the lines of the job in their text."""
    run, seen = stopped.facts, set()
    devices, flying = {each.device for each in run.devices}, sorted(each.device for each in in_flight(run, run.made + 1))
    nobody = "neither a slot nor the pool" if any(each.slot is None for each in run.devices) else "no slot"
    for at in range(start_of(stopped.lines) + 1, len(stopped.lines) - 1):
        word, _, rest = stopped.lines[at].partition(" ")
        if word not in ("END", "MOVE") or int(rest.split(" ")[0]) in devices | seen:
            continue
        device = int(rest.split(" ")[0])
        seen.add(device)
        meant = [other for other in flying if set(str(other)) & set(str(device))] or flying
        did = f"; did you mean {word} {meant[0]}?" if meant else ""
        yield f"line {numbers[at]}, {stopped.lines[at]}: {nobody} has device {device}{did}"


def priorities_at_failure(number, stopped):
    """The priorities when this program failed, if they had been exchanged."""
    order, is_exchanged = SLOTS, False
    for entry in stopped.facts.entries:
        if entry.entry == "SWAP":
            order, is_exchanged = exchanged(order, entry.slot, entry.other), True
        elif entry.entry == "FAIL" and entry.slot == number:
            break
    if is_exchanged:
        yield f"priorities at that point, highest first: {in_order(order, stopped.slots)}"
