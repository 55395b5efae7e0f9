"""The facts of a run: how many calls went to what, from what the machine tells of the run. This is the only place where stats and study take a run apart.

All counts are of calls of the machine, but for those that say otherwise. The machine counts the calls of each program and the transfers, words and calls of each
device; what is added up here is by which group, device or kind a program was held up, and for how long a device was lent.
"""
from collections import Counter
from typing import Any, Dict, Iterator, List, NamedTuple, Tuple

# What the machine tells of a run, with the fields of docs/schema/facts.json.
RunTold = Dict[str, Any]

# From how many calls on something was so, and up to how many.
Stretch = Tuple[int, int]


class ProgramFacts(NamedTuple):
    """What a program had: its state at the end, its orders, the calls at which it obeyed one, those at which nothing held it up while another had its
    turn, those for which it was held up by each cause, and all of these, up to its end.
    """

    state: str
    orders: int
    running: int
    ready: int
    held: Dict[str, int]
    turnaround: int


class DeviceFacts(NamedTuple):
    """What a device had: its kind, whether it is of the pool, its transfers, the words that they moved, the calls at which
    it had one, those for which programs were held up by it, how often it was lent, and the calls for which it was.
    """

    kind: str
    is_of_pool: bool
    transfers: int
    words: int
    busy: int
    waited_for: int
    times_lent: int
    lent: int


class Facts(NamedTuple):
    """What a run had: its calls, those at which an order was obeyed, those that found a program held up, those that found all held up, and those at which an
    order was obeyed while a transfer went on; its programs by slot, and its devices by number.
    """

    calls: int
    running: int
    held_up: int
    idle: int
    overlapped: int
    programs: Dict[int, ProgramFacts]
    devices: Dict[int, DeviceFacts]


def facts_of(told: RunTold) -> Facts:
    """The facts of the run that the machine told of."""
    lent = {kind: list(without(told, kind)) for kind in ("TP", "LP")}
    programs = {each["slot"]: of_program(told, each, lent) for each in told["programs"]}
    used = {loan["device"] for loan in told["loans"]}
    devices = {each["device"]: of_device(told, each, programs) for each in told["devices"] if each["slot"] is not None or each["device"] in used}
    running, held_up = sum(program.running for program in programs.values()), len(told["holds"])
    return Facts(told["made"], running, held_up, told["idle"], told["meanwhile"], programs, dict(sorted(devices.items())))


def of_program(told: RunTold, program: RunTold, lent: Dict[str, List[Stretch]]) -> ProgramFacts:
    """The facts of a program."""
    calls = next(each["calls"] for each in told["calls"] if each["slot"] == program["slot"])
    state = " ".join(filter(None, (program["state"], program["failure"])))
    turnaround = calls["running"] + calls["ready"] + sum(calls["held"].values())
    return ProgramFacts(state, program["orders"], calls["running"], calls["ready"], held_by(told, program["slot"], lent), turnaround)


def held_by(told: RunTold, slot: int, lent: Dict[str, List[Stretch]]) -> Dict[str, int]:
    """The calls at which each cause held a program up."""
    holds, held = [hold for hold in told["holds"] if hold["slot"] == slot], Counter()
    for hold, following in zip(holds, [*holds[1:], {"call": None}]):
        transfer = {} if hold["transfer"] is None else told["transfers"][hold["transfer"]]
        ends = [transfer.get("ended"), hold["resumed"], following["call"], told["made"]]
        until = min(end for end in ends if end is not None)
        stretches = lent[hold["pool"]] if hold["by"] == "pool" else [(hold["call"], until)]
        held[f"{hold['by']} {hold[hold['by']]}"] += sum(max(0, min(until, last) - max(hold["call"], first)) for first, last in stretches)
    return {cause: calls for cause, calls in sorted(held.items()) if calls}


def without(told: RunTold, kind: str) -> Iterator[Stretch]:
    """The stretches in which each device of a kind of the pool has a holder, if there is one."""
    devices = {each["device"] for each in told["devices"] if each["slot"] is None and each["kind"] == kind}
    loans = [loan for loan in told["loans"] if loan["device"] in devices]
    changes = sorted([(loan["taken"], 1) for loan in loans] + [(told["made"] if loan["given"] is None else loan["given"], -1) for loan in loans])
    lent, since = 0, 0
    for calls, more in changes:
        if lent == len(devices) and calls > since:
            yield since, calls
        lent, since = lent + more, calls


def of_device(told: RunTold, device: RunTold, programs: Dict[int, ProgramFacts]) -> DeviceFacts:
    """The facts of a device."""
    number = device["device"]
    waited_for = sum(program.held.get(f"device {number}", 0) for program in programs.values())
    loans = [loan for loan in told["loans"] if loan["device"] == number]
    lent = sum((told["made"] if loan["given"] is None else loan["given"]) - loan["taken"] for loan in loans)
    return DeviceFacts(device["kind"], device["slot"] is None, device["transfers"], device["words"], device["busy"], waited_for, len(loans), lent)
