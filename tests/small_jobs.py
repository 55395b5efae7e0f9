"""Small jobs that chance makes for the test of ./kdf9 explore: programs of a few transfers, which ask whether a device is busy, whether an area is locked out,
for a device of the pool, or for the time. Each is the same for the same seed.
"""
import random
from typing import List

# The number by which OUT 5 asks for a kind of device, and the orders that transfer on it.
KINDS = {"TP": (1, "PWQ"), "TR": (2, "PRQ"), "LP": (3, "LPQ")}


class Program:
    """A program that grows by pieces, and how many transfers it may still begin."""

    def __init__(self, chance: random.Random, has_pool: bool, has_clock: bool, transfers: int) -> None:
        self.chance, self.has_pool, self.has_clock, self.transfers = chance, has_pool, has_clock, transfers
        self.kinds: List[str] = []
        self.own: List[str] = []
        self.pieces: List[str] = []
        self.references = 0

    def deck(self) -> str:
        """The text of the deck."""
        if self.has_pool and self.chance.random() < 0.7:
            self.take_two()
        any_piece = [self.claim, self.transfer, self.transfer, self.ask, self.ask, self.use, self.give, *[self.time] * 3 * self.has_clock]
        for _ in range(self.chance.randint(1, 3)):
            self.chance.choice(any_piece)()
        end = self.chance.choice(["ZERO; OUT;"] * 6 + ["+;", "1; J1;"])
        names = [f"V{at} = Q0/{32 + 32 * at}/{32 + 32 * at + self.chance.randint(0, 1)};" for at in range(3)]
        return "\n".join(["Y1; PROGRAM V2;", *names, *self.pieces, end, "FINISH;"])

    def claim(self) -> None:
        """Claims a device of its own, or takes one of the pool."""
        if len(self.kinds) < 2:
            kind = self.chance.choice([kind for kind in (["TP", "LP"] if self.has_pool else KINDS) if kind not in self.kinds])
            if not self.has_pool or self.chance.random() < 0.2:
                self.own.append(kind)
            self.kinds.append(kind)
            q = len(self.kinds)
            self.pieces.append(f"SET {KINDS[kind][0]}; SET 5; OUT; V{q - 1}; =Q{q}; =C{q};")

    def take_two(self) -> None:
        """Takes a device of each kind, and uses the first of them before it takes the second."""
        self.claim()
        self.transfers = max(1, self.transfers)
        self.transfer()
        self.use()
        other = {"TP": "LP", "LP": "TP"}[self.kinds[0]]
        self.pieces.append(f"SET {KINDS[other][0]}; SET 5; OUT; ERASE;")

    def any_q(self) -> int:
        """The Q-store of a device that was claimed."""
        if not self.kinds:
            self.claim()
        return self.chance.randint(1, len(self.kinds))

    def transfer(self) -> None:
        """Begins a transfer, if it may."""
        if self.transfers:
            self.transfers -= 1
            q = self.any_q()
            self.pieces.append(f"{KINDS[self.kinds[q - 1]][1]}{q};")

    def ask(self) -> None:
        """Asks whether a device is busy or an area locked out, and goes another way if so."""
        self.references += 2
        first, last = 10 + self.references, 11 + self.references
        asks = self.chance.choice(["BUSYQ{}", "BUSYQ{}", "TLOQ{}"]).format(self.any_q())
        self.pieces.append(f"{asks}; J{first}TR; J{last}; {first}; {self.chance.choice(['DUMMY', 'SET 1; =Y0', 'ZERO; OUT', '+'])}; {last};")

    def use(self) -> None:
        """Waits for a device or a group."""
        q = self.any_q()
        self.pieces.append(self.chance.choice([f"INTQ{q};", f"PARQ{q};", f"E{32 * q}; ERASE;"]))

    def give(self) -> None:
        """Gives a device back, and perhaps takes one again."""
        q = self.any_q()
        again = f" SET {KINDS[self.kinds[q - 1]][0]}; SET 5; OUT; =C{q};" if self.chance.random() < 0.3 else ""
        self.pieces.append(f"C{q}; SET 6; OUT;{again}")

    def time(self) -> None:
        """Asks for the time."""
        self.pieces.append(self.chance.choice(["SET 9; OUT; ERASE;", "SET 9; OUT; =Y0;"]))


def job(seed: int) -> str:
    """A small job: without a pool, with a pool, with a clock, or with both."""
    chance = random.Random(seed)
    has_pool, has_clock = chance.random() < 0.5, chance.random() < 0.3
    lines = ["KDF9 JOB 1"]
    for slot in range(chance.choice([1, 2, 2, 2, 2])):
        program = Program(chance, has_pool, has_clock, chance.choice([1, 1, 2]))
        lines += [f"SLOT {slot}", "STORE 128", "DECK", program.deck(), "ENDDECK"]
        for at, kind in enumerate(program.own):
            lines += [f"DEVICE {4 * slot + at} {kind}", *(["+ABCDEFGHIJKLMNOP"] if kind == "TR" else [])]
        lines += ["SHOW 0 1"] if chance.random() < 0.5 else []
    pool = [f"DEVICE {8 + at} {kind}" for at, kind in enumerate(chance.choice([["TP", "LP"], ["TP", "LP"], ["TP", "LP", "LP"]]))]
    swap = ["SWAP 0 1"] if chance.random() < 0.2 else []
    return "\n".join([*lines, *(["POOL", *pool] if has_pool else []), "SCHEDULE", *swap, "ORDERS 1", *(["CLOCK 7"] if has_clock else []), "ENDJOB", ""])
