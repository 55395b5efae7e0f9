"""Jobs that chance makes: programs that compute for a while, begin a transfer, and wait until it is over, again and again. The same numbers give the same job."""
import random
from typing import Dict, List, Sequence

from kdf9.job import HEADER

# How many programs a workload has at most, how many kinds of devices each of them uses, and the words of a store.
PROGRAMS, KINDS_EACH, STORE = 4, 3, 2048

# A transfer counts as so many calls where the share of computing says how much computing there is between two of them.
TRANSFER = 400

# The kinds of devices: the orders that claim one for Q-store {q}, and the order that transfers; the number by which OUT 5 asks for a kind; and what is on a device.
CLAIM, CLAIM_TAPE = "SET {number}; SET 5; OUT; V{area}; =Q{q}; =C{q};", "V{name}; SET 4; OUT; V{area}; =Q{q}; =C{q};"
ORDERS = {"TR": "PRQ", "TP": "PWQ", "CR": "CRQ", "LP": "LPQ", "MT": "MFRQ"}
NUMBERS = {"TP": 1, "TR": 2, "LP": 3, "CR": 4}
MEDIUM = {"TR": "+" + "ABCDEFGH" * 64, "CR": "+" + "ABCDEFGH" * 10, "MT": "+" + "ABCDEFGH" * 16}
SHARED = ("TP", "LP")

# The parameters of a workload with their values where a plan has none.
USUAL: Dict[str, object] = {"seed": 1, "degree": 2, "computing": 50, "kinds": "TR LP", "shared": "", "rounds": 20, "schedule": 200000}


class Chance:
    """Numbers that chance makes, the same for the same words in every Python: only `random()` is, of what it offers."""

    def __init__(self, *words: object) -> None:
        self._random = random.Random(" ".join(map(str, words)))

    def below(self, most: int) -> int:
        """A number from 0 to most - 1."""
        return int(self._random.random() * most)

    def share(self) -> float:
        """A number from 0 up to 1."""
        return self._random.random()

    def some(self, things: Sequence[str], number: int) -> List[str]:
        """So many of some things, in their sequence."""
        left = list(things)
        while len(left) > number:
            del left[self.below(len(left))]
        return left


def lines_of(values: Dict[str, object]) -> List[str]:
    """The lines of the job of these values; those that are missing are as in USUAL."""
    of = {**USUAL, **values}
    kinds, shared = str(of["kinds"]).split(), str(of["shared"]).split()
    lines = [HEADER]
    for slot in range(int(str(of["degree"]))):
        lines += program(slot, Chance(of["seed"], slot), kinds, shared, int(str(of["computing"])), int(str(of["rounds"])))
    pool = [f"DEVICE {15 - at} {kind}" for at, kind in enumerate(shared)]
    return [*lines, *(["POOL", *pool] if pool else []), "SCHEDULE", f"ORDERS {of['schedule']}", "ENDJOB"]


def program(slot: int, chance: Chance, kinds: Sequence[str], shared: Sequence[str], computing: int, rounds: int) -> List[str]:
    """The lines of the slot of a program with devices of its own of some of these kinds, and with those that are shared."""
    own = chance.some(kinds, KINDS_EACH)
    areas = [(STORE - 64 * (at + 1), chance.below(16)) for at in range(len(own) + len(shared))]
    constants = [f"V{at}=Q0/{first}/{first + more};" for at, (first, more) in enumerate(areas)]
    claims = [(CLAIM_TAPE if kind == "MT" else CLAIM).format(number=NUMBERS.get(kind), area=at, q=at + 1, name=len(areas)) for at, kind in enumerate(own)]
    mean = TRANSFER * computing / (100 - computing)
    steps = []
    for number in range(1, rounds + 1):
        burst, which = int(chance.share() * mean), chance.below(len(areas))
        steps.append(f"SET {min(32767, burst + 1)}; =C15; {number}; DC15; J{number}C15NZ;")
        kind = [*own, *shared][which]
        use = f"{ORDERS[kind]}{which + 1}; INTQ{which + 1};"
        steps.append(use if which < len(own) else f"{CLAIM.format(number=NUMBERS[kind], area=which, q=which + 1)} {use} C{which + 1}; SET 6; OUT;")
    head = [f"SLOT {slot}", f"STORE {STORE}", "DECK", f"PROGRAM V{len(areas)};", *constants, f"V{len(areas)}=PDATA;"]
    devices = [line for at, kind in enumerate(own) for line in of_device(KINDS_EACH * slot + at, kind)]
    return [*head, *claims, *steps, "ZERO; OUT; FINISH;", "ENDDECK", *devices]


def of_device(number: int, kind: str) -> List[str]:
    """The lines of a device with its medium."""
    return [f"DEVICE {number} {kind}{' DATA' if kind == 'MT' else ''}", *([MEDIUM[kind]] if kind in MEDIUM else [])]
