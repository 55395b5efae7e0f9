"""What the facts of a run tell up to some call, as far as it is needed to guess what comes next."""
import copy
from typing import Any, Dict, List, Optional, Sequence, Set, Tuple, Union

from kdf9.journal import SLOTS, exchanged
from kdf9.timeline import HELD, NUMBERS, calls_in
from plans.recall import Key, Memory, Name, What

# An entry of a journal, as the machine tells it. One that began a transfer has its words too, and one that found a program held up the device that it waits for.
Entry = Dict[str, Any]

# The entries that are lines of the schedule.
OF_SCHEDULE = ("END", "MOVE", "CLOCK", "SWAP")


class Program:
    """Where a program is: in which stretch, how many orders of it it has obeyed, and what came before. `held` is the device whose transfer holds it up, or the
    kind of a device of the pool; and `lent` are the devices of the pool that it has, by kind.
    """

    __slots__ = ("slot", "memory", "orders", "done", "last", "acts", "keys", "needs", "held", "is_over", "lent", "stretch", "checked")

    def __init__(self, slot: int, memory: Memory) -> None:
        self.slot, self.memory = slot, memory
        self.orders = self.done = self.acts = 0
        self.last: Tuple[object, ...] = (None, None, None)
        self.keys: Tuple[Key, ...] = ()
        self.needs: Dict[int, List[Name]] = {}
        self.held: Union[int, str, None] = None
        self.is_over = False
        self.lent: Dict[str, List[int]] = {}
        self.stretch, self.checked = None, -1
        self._set_keys()

    def copy(self) -> "Program":
        """Another that is at the same place."""
        new = copy.copy(self)
        new.needs = {before: list(names) for before, names in self.needs.items()}
        new.lent = {kind: list(devices) for kind, devices in self.lent.items()}
        new.stretch, new.checked = None, -1
        return new

    def name_of(self, device: int) -> Name:
        """How a device that the program uses is named in what is remembered."""
        for kind, devices in self.lent.items():
            if device in devices:
                return kind, devices.index(device)
        return device

    def device_of(self, name: Name) -> int:
        """The device of a name; -1 if the program has none."""
        if isinstance(name, int):
            return name
        devices = self.lent.get(name[0], [])
        return devices[name[1]] if name[1] < len(devices) else -1

    def ends_stretch(self, what: What, answer: int = 0) -> None:
        """The stretch ends with an order that did this, or was answered so."""
        self.last = ((self.done, what, min(answer, 2)), self.last[0], self.last[1])
        self.orders, self.done, self.needs = self.orders + self.done, 0, {}
        self.acts += what[0] != "ANSWER"
        self.stretch, self.checked = None, -1
        self._set_keys()

    def _set_keys(self) -> None:
        """What the stretch is remembered by, the best first: its first order; what was done so far, and last; and only what was last."""
        one, two, three = self.last
        self.keys = ((self.orders, one), (self.acts, one, two), (one, two, three), (one,))


class Scene:
    """What there is after some calls: the programs by slot, the slots of the transfers in flight with the calls after which they began, the holders of the pool's
    devices, and the priorities.
    """

    def __init__(self, memories: Dict[int, Memory], pool: Dict[int, str]) -> None:
        self.pool, self.calls, self.order = pool, 0, SLOTS
        self.programs = {slot: Program(slot, memory) for slot, memory in memories.items()}
        self.flying: Dict[int, Tuple[int, int]] = {}
        self.lent: Dict[int, int] = {}

    def copy(self) -> "Scene":
        """Another of the same."""
        new = copy.copy(self)
        new.programs = {slot: program.copy() for slot, program in self.programs.items()}
        new.flying, new.lent = dict(self.flying), dict(self.lent)
        return new

    def names_flying(self, program: Program) -> Set[Name]:
        """The transfers of a program that are in flight."""
        return {program.name_of(device) for device, (slot, _) in self.flying.items() if slot == program.slot}

    def follow(self, entries: Sequence[Entry], until: int) -> "Scene":
        """Follows a journal to its end, and learns from it; what there was after `until` calls, before the lines of the schedule there."""
        then = None
        for entry in entries:
            if then is None and (entry["call"] + calls_in(entry) > until or entry["call"] == until and entry["entry"] in OF_SCHEDULE):
                self._go(entry, until)
                then = self.copy()
            self._take(entry)
        return then or self

    def _take(self, entry: Entry) -> None:
        """Takes an entry."""
        kind, calls = entry["entry"], entry["call"]
        if kind in NUMBERS:
            self._go(entry, calls + calls_in(entry))
        elif kind in HELD:
            self.calls = calls + 1
            self._hold(self.programs[entry["slot"]], entry)
        elif kind == "END":
            self.flying.pop(entry["device"], None)
        elif kind == "SWAP":
            self.order = exchanged(self.order, entry["slot"], entry["other"])
        elif kind not in OF_SCHEDULE:
            self._note(self.programs[entry["slot"]], kind, entry)

    def _go(self, entry: Entry, until: int) -> None:
        """Goes on to `until` in an entry of calls that were obeyed or idle."""
        if until > self.calls:
            if entry["entry"] == "RAN":
                program = self.programs[entry["slot"]]
                program.held = None
                program.done += until - self.calls
            self.calls = until

    def _hold(self, program: Program, entry: Entry) -> None:
        """A program was found held up."""
        if entry["entry"] == "WAIT":
            program.held = entry["kind"]
            return
        program.held, needs, name = entry["device"], program.needs.setdefault(program.done, []), program.name_of(entry["device"])
        if name not in needs:
            needs.append(name)

    def _note(self, program: Program, kind: str, entry: Entry) -> None:
        """Takes what the journal notes of the order that was obeyed last."""
        what = self._what(program, kind, entry)
        flying = self.names_flying(program) if kind == "ANSWER" else set()
        for stretch in program.memory.learn(program.keys, program.done, what):
            for before, names in program.needs.items():
                stretch.needs[before] = list(dict.fromkeys([*stretch.needs.get(before, ()), *names]))
            if kind == "ANSWER":
                stretch.answered(entry["answer"], flying)
            elif kind == "START":
                stretch.words = entry["words"]
        self.does(program, what, entry["answer"] if kind == "ANSWER" else entry.get("device", 0))

    def _what(self, program: Program, kind: str, entry: Entry) -> What:
        """What an order did, as it is remembered."""
        if kind in ("FAIL", "ENDED"):
            return ("OVER",)
        if kind == "ANSWER":
            return ("ANSWER",)
        return (kind, self.pool[entry["device"]]) if kind == "TAKE" else (kind, program.name_of(entry["device"]))

    def does(self, program: Program, what: What, number: int) -> None:
        """A program does something with the order that it obeyed last. The number is that of a device, or the answer."""
        if what[0] == "START":
            self.flying[number] = (program.slot, self.calls)
        elif what[0] == "TAKE":
            self.lent[number] = program.slot
            program.lent.setdefault(self.pool[number], []).append(number)
        elif what[0] == "GIVE":
            del self.lent[number]
            program.lent[self.pool[number]].remove(number)
        elif what[0] == "OVER":
            program.is_over = True
            self.lent = {device: slot for device, slot in self.lent.items() if slot != program.slot}
        program.ends_stretch(what, number if what[0] == "ANSWER" else 0)

    def free(self, kind: object) -> Optional[int]:
        """The device of the pool of a kind that nobody has, the lowest number of them; None if there is none."""
        return min((device for device, its in self.pool.items() if its == kind and device not in self.lent), default=None)

    def next(self) -> Optional[Program]:
        """Whose turn it is: that of the program of highest priority that isn't held up."""
        for slot in self.order:
            program = self.programs.get(slot)
            if program is not None and not program.is_over and (program.held is None or isinstance(program.held, str) and self.free(program.held) is not None):
                return program
        return None

    def ends(self, device: int) -> None:
        """A transfer ends; whoever it held up is tried again."""
        del self.flying[device]
        for program in self.programs.values():
            if program.held == device:
                program.held = None
