"""What is said of a chart in words: of its programs, devices and exchanges, in all or in some of its stretches."""
from kdf9.journal import RAN, READY, Held, in_order
from kdf9.tables import table
from kdf9.words import count

# What is said of a picture. The page says it by the same table (web/picture.js).
SAYS = table("picture")["says"]

# The beginnings of transfers are drawn only for a device that has no more of them than this; if there are more MOVEs, their signs are small.
MOST_SIGNS = table("picture")["sizes"]["most_signs"]


def name_of_device(chart, number):
    """A device in words: its number and its kind."""
    return SAYS["device"].format(device=number, kind=chart.devices[number])


def label_of_device(chart, number):
    """A device in words, and whether it is one of the pool."""
    return SAYS["pooled" if number in chart.pool else "device"].format(device=number, kind=chart.devices[number])


def held_calls(calls):
    """For how many calls a program was held up."""
    return sum(number for reason, number in calls.items() if isinstance(reason, Held))


def waiting_calls(calls):
    """For how many calls a program waited for the pool."""
    return sum(number for reason, number in calls.items() if isinstance(reason, Held) and reason.what == "pool")


def said_of_slot(chart, calls):
    """What a program did in these calls, in words; what held it up for most of them comes first."""
    said = [SAYS["obeyed"].format(orders=count(calls[RAN], "order"))] if calls[RAN] else []
    held = [(number, reason) for reason, number in calls.items() if isinstance(reason, Held)]
    for number, (what, which) in sorted(held, key=lambda one: -one[0]):
        device = name_of_device(chart, which) if what == "device" else ""
        said.append(SAYS[f"by_{what}"].format(calls=count(number, "call"), device=device, group=which, kind=which))
    if calls[READY]:
        said.append(SAYS["ready"].format(calls=count(calls[READY], "call")))
    return "; ".join(said)


def said_of_device(calls, events):
    """For whom a device had transfers in these calls, in words."""
    said = [SAYS["transfer"].format(slot=slot, calls=count(calls[slot], "call")) for slot in sorted(calls)]
    if events:
        said.append(SAYS["begun"].format(transfers=count(len(events), "transfer")))
    return "; ".join(said)


def transfers_and_moves(chart, number):
    """How many transfers a device had, how many lines MOVE moved words of them, and how often the pool lent it, in words."""
    said, moves = count(chart.transfers[number], "transfer"), chart.move_lanes[number].number_of_events()
    moved = f", {count(moves, 'MOVE')}" if moves else ""
    return said + moved + (f", {times_lent(chart, number)}" if number in chart.pool else "")


def times_lent(chart, number):
    """How often the pool lent a device, in words."""
    return SAYS["lent_in_all"].format(times=count(chart.lent_lanes[number].number_of_events(), "time"))


def said_of_lending(calls):
    """To whom a device of the pool was lent in these calls, in words."""
    return "; ".join(SAYS["lent"].format(slot=slot, calls=count(calls[slot], "call")) for slot in sorted(calls))


def said_of_exchanges(chart, exchanges):
    """Some exchanges of priorities and what they lead to, in words."""
    first, last = exchanges[0], exchanges[-1]
    said = f"SWAP {first.slots[0]} {first.slots[1]}"
    if len(exchanges) > 1:
        said += f" to SWAP {last.slots[0]} {last.slots[1]}"
    return f"{said}; {SAYS['exchanged'].format(slots=in_order(last.after, chart.sections))}"


def exchanges_in_all(chart):
    """How often priorities were exchanged, and what that led to, in words."""
    return f"{count(chart.exchanges.number_of_events(), 'exchange')}, at the end {in_order(chart.order, chart.sections)}"


def sums_of_slot(section, lane):
    """What became of a program in all, in words."""
    total = lane.total()
    return SAYS["sums"].format(orders=count(section.orders, "order"), held=count(held_calls(total), "call"), ready=total[READY])


def description(chart):
    """The whole picture in words, for those who can't see it."""
    said = [f"slot {number}: {state_of(chart.sections[number])}, {sums_of_slot(chart.sections[number], lane)}" for number, lane in chart.slot_lanes.items()]
    said += [f"{label_of_device(chart, number)}: {transfers_and_moves(chart, number)}" for number in chart.device_lanes]
    return "; ".join(said) + "."


def state_of(section):
    """The life of a program at the end, in words."""
    return " ".join(section.state)


def title_of(chart):
    """The run in one line."""
    transfers = sum(chart.transfers.values())
    return SAYS["run"].format(calls=count(chart.total, "call"), idle=chart.idle.total()["idle"], transfers=count(transfers, "transfer"))
