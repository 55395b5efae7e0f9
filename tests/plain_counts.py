"""The counts of a run, made call by call as docs/STUDY.md defines them: the plain way that tests/study compares ./kdf9 stats with."""
from collections import Counter
from typing import Dict, Optional, Set


class Program:
    """What is known of a program: whether it is over, what held it up last, and the transfers that it waits for."""

    def __init__(self) -> None:
        self.is_over = False
        self.cause: Optional[str] = None
        self.transfers: Set[int] = set()


class Counts:
    """The counts of the run of a report: for each slot and each device a counter, and one for the run."""

    def __init__(self, report: str) -> None:
        lines = report.split("\n")
        end = next(at for at, line in enumerate(lines) if line.startswith("SLOT "))
        self.pool = {int(line.split(" ")[1]): line.split(" ")[2] for line in lines[end:] if line.startswith("POOL ")}
        self.programs = {int(line[5:]): Program() for line in lines[end:] if line.startswith("SLOT ")}
        self.slots: Dict[int, Counter] = {slot: Counter() for slot in self.programs}
        self.devices = {int(line.split(" ")[1]): Counter() for line in lines[end:] if line.startswith(("POOL ", "DEVICE "))}
        self.run: Counter = Counter()
        self.flying: Dict[int, int] = {}
        self.lent: Dict[int, int] = {}
        for line in lines[1:end]:
            self.take(*line.split(" "))

    def take(self, kind: str, *fields: str) -> None:
        """Takes an entry: some calls, or what happened at the last one or after it."""
        if kind in ("RAN", "IDLE"):
            for _ in range(int(fields[-1])):
                self.call(int(fields[0]) if kind == "RAN" else None, kind, "")
        elif kind in ("LOV", "BUSY", "WAIT"):
            self.call(int(fields[0]), kind, {"LOV": "group ", "BUSY": "device ", "WAIT": "pool "}[kind] + fields[1])
        elif kind == "START":
            self.flying[int(fields[1])] = int(fields[0])
            self.devices[int(fields[1])]["transfers"] += 1
        elif kind == "END":
            self.flying.pop(int(fields[0]), None)
        elif kind == "TAKE":
            self.lent[int(fields[1])] = int(fields[0])
            self.devices[int(fields[1])]["times lent"] += 1
        elif kind == "GIVE":
            del self.lent[int(fields[1])]
        elif kind in ("FAIL", "ENDED"):
            self.programs[int(fields[0])].is_over = True
            self.lent = {device: holder for device, holder in self.lent.items() if holder != int(fields[0])}

    def call(self, slot: Optional[int], kind: str, cause: str) -> None:
        """Counts a call for all: it ran a program, found one held up, or found all held up."""
        if kind in ("LOV", "BUSY", "WAIT"):
            program = self.programs[slot]
            program.cause = cause
            own = {device for device, owner in self.flying.items() if owner == slot}
            program.transfers = {int(cause.split(" ")[1])} if kind == "BUSY" else own
        for number, program in self.programs.items():
            if not program.is_over:
                self.slots[number][self.does(number, slot if kind == "RAN" else None)] += 1
                self.slots[number]["turnaround"] += 1
        if kind == "RAN":
            self.programs[slot].cause = None
        self.run[{"RAN": "running", "IDLE": "idle"}.get(kind, "held up")] += 1
        self.run["calls"] += 1
        self.run["overlapped"] += kind == "RAN" and bool(self.flying)
        for device in self.flying:
            self.devices[device]["busy"] += 1
        for device in self.lent:
            self.devices[device]["lent"] += 1

    def does(self, number: int, running: Optional[int]) -> str:
        """What a live program does at a call: it runs, is held up by something, or is ready."""
        program = self.programs[number]
        if number == running:
            return "running"
        if program.cause is None:
            return "ready"
        what, which = program.cause.split(" ")
        if what == "pool":
            held = all(device in self.lent for device, kind in self.pool.items() if kind == which)
        else:
            program.transfers &= set(self.flying)
            held = bool(program.transfers)
        if not held and what != "pool":
            program.cause = None
        return f"held by {program.cause}" if held else "ready"


def held_by(counts: Counter) -> Dict[str, int]:
    """The calls for which each cause held a program up."""
    return {name[len("held by "):]: calls for name, calls in counts.items() if name.startswith("held by ")}


def waited_for(counts: Counts, device: int) -> int:
    """The calls for which programs were held up by a device."""
    return sum(own[f"held by device {device}"] for own in counts.slots.values())
