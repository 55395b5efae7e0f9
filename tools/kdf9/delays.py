"""How long transfers take: a number of steps, or by their lengths."""
import re
from argparse import ArgumentTypeError
from typing import Dict, Iterator, NamedTuple, Optional, Tuple

from kdf9 import command
from kdf9.schedule import Event
from kdf9.tables import lines, table

MOST_CALLS = lines()["ORDERS"]["numbers"][0][1]
LAST_DEVICE = lines()["DEVICE"]["numbers"][0][1]

OF_DEVICE = "has to be the number of a device, = and a number, such as 4=30, and {} isn't"
SPEED_OF_DEVICE = "has to be the number of a device, =, a number of calls, + and a number of calls for each word, such as 4=800+33, and {} isn't"


class Transfer(NamedTuple):
    """A transfer: the number of calls when it had begun, its device, and its words, or 0 where they don't matter."""

    calls: int
    device: int
    words: int = 0


class Speed(NamedTuple):
    """How many calls a transfer takes: some, and some for each of its words."""

    calls: int
    calls_a_word: int


def delay_of_device(word: str) -> Tuple[int, int]:
    """The device and the number of steps that an argument has."""
    device, equals, steps = word.partition("=")
    if not equals:
        raise ArgumentTypeError(OF_DEVICE.format(word))
    return command.number(0, LAST_DEVICE)(device), command.number(0, MOST_CALLS)(steps)


def speed_of_device(word: str) -> Tuple[int, Speed]:
    """The device and the speed that an argument has."""
    parts = re.fullmatch(r"([^=]*)=([^+]*)\+(.*)", word, re.DOTALL)
    if not parts:
        raise ArgumentTypeError(SPEED_OF_DEVICE.format(word or "an empty word"))
    calls = command.number(0, MOST_CALLS)
    return command.number(0, LAST_DEVICE)(parts[1]), Speed(calls(parts[2]), calls(parts[3]))


def speeds_of_kinds(name: Optional[str], kinds: Dict[int, str]) -> Dict[int, Speed]:
    """The speeds of devices of these kinds in the set of this name; none for None."""
    of_kinds = table("speeds")[name]["kinds"] if name else {}
    return {device: Speed(of_kinds[kind]["calls"], of_kinds[kind]["calls_a_word"]) for device, kind in kinds.items() if kind in of_kinds}


class Delays:
    """How long transfers take: a number of steps, which some devices have of their own, or a speed. A step is a call or, with `every`, that number of calls
    and a MOVE of one word.
    """

    def __init__(self, steps: int, every: Optional[int], of_devices: Dict[int, int], speeds: Dict[int, Speed]) -> None:
        self._steps, self._every, self._of_devices = steps, every, of_devices
        self._speeds = {device: speed for device, speed in speeds.items() if device not in of_devices}

    def goes_by_words(self, device: int) -> bool:
        """Whether a transfer of this device takes longer for each of its words."""
        return device in self._speeds and self._speeds[device].calls_a_word > 0

    def _of(self, transfer: Transfer) -> Tuple[int, int]:
        """How many steps a transfer has, and how many calls each of them has."""
        if transfer.device in self._speeds:
            speed = self._speeds[transfer.device]
            return speed.calls + speed.calls_a_word * transfer.words, 1
        return self._of_devices.get(transfer.device, self._steps), self._every or 1

    def _has_moves(self, transfer: Transfer) -> bool:
        """Whether each step of a transfer has a MOVE."""
        return bool(self._every) and transfer.device not in self._speeds

    def _moves(self, transfer: Transfer, calls: int) -> int:
        """How many steps of a transfer with a MOVE come before this number of calls."""
        steps, length = self._of(transfer)
        return max(0, min(steps, (calls - 1 - transfer.calls) // length)) if self._has_moves(transfer) else 0

    def end(self, transfer: Transfer) -> int:
        """The number of calls before a transfer ends."""
        steps, length = self._of(transfer)
        return transfer.calls + steps * length

    def events(self, transfer: Transfer, calls: int) -> Iterator[Event]:
        """The events of a transfer that come before this number of calls, in order."""
        steps, length = self._of(transfer)
        if self._every:
            for step in range(1, self._moves(transfer, calls) + 1):
                yield Event(transfer.calls + step * length, f"MOVE {transfer.device} 1")
        end = transfer.calls + steps * length
        if end < calls:
            yield Event(end, f"END {transfer.device}")

    def number_of_events(self, transfer: Transfer, calls: int) -> int:
        """How many events of a transfer come before this number of calls."""
        return (self._moves(transfer, calls) if self._every else 0) + (1 if self.end(transfer) < calls else 0)

    def most_lines(self) -> int:
        """The most lines of a schedule that a transfer can take, including the ORDERS before them."""
        return 2 + 2 * max([self._steps, *self._of_devices.values()]) if self._every else 2

    def first(self, transfer: Transfer) -> int:
        """The number of calls before the first event of a transfer."""
        return transfer.calls + self._of(transfer)[1] if self._has_moves(transfer) and self._of(transfer)[0] else self.end(transfer)
