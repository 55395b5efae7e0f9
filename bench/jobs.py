"""The jobs of the benches."""
from typing import Callable, Iterable, NamedTuple

# A job of so many orders, lines, bytes or whatever else is counted.
Made = Callable[[int], bytes]

# The loops whose orders are counted. bench/plain.c has their orders.
LOOPS = {
    "one jump": b"PROGRAM; 1; J1; FINISH;\n",
    "fetch, add, store, `JCqNZS`": b"Y0; PROGRAM V0; V0 = 1; SET 1; =C1; *; 1; Y0; V0; +; =Y0; J1C1NZS; FINISH;\n",
    "arithmetic, double length, shifts, a subroutine": (
        b"Y0; PROGRAM V2; V0 = 3; V1 = 5; V2 = Q0/1/0; 1; V0; V1; XD; SHLD+3; CONT; NOT; V1; -; DUP; SHA-2; =Y0; SHC5; V1; +; ERASE; JS2; J1;\n"
        b"2; V0; V1; +; NEG; ERASE; EXIT1; FINISH;\n"
    ),
    "its own orders, fetched and stored": b"PROGRAM; *; 1; E1; =E1; J1; FINISH;\n",
}
JUMP, ADDS = list(LOOPS.values())[:2]

# So many words has the store of a loop, and that of a loop with transfers, whose area of 15 words is in the second group.
STORE, STORE_AND_AREA = 32, 64


def slot(p: int, store: int, deck: bytes, devices: bytes = b"") -> bytes:
    """The lines of a slot: its store of so many words, its deck, and what follows that."""
    return b"SLOT %d\nSTORE %d\nDECK\n%sENDDECK\n%s" % (p, store, deck, devices)


def job(slots: Iterable[bytes], schedule: bytes) -> bytes:
    """A job of these slots under a schedule."""
    return b"KDF9 JOB 1\n%sSCHEDULE\n%sENDJOB\n" % (b"".join(slots), schedule)


def obeying(*slots: bytes) -> Made:
    """A job of these slots for so many calls."""
    return lambda many: job(slots, b"ORDERS %d\n" % many)


def loop(deck: bytes, shown: bytes = b"") -> Made:
    """A job of this loop for so many orders."""
    return obeying(slot(0, STORE, deck, shown))


class Transfers(NamedTuple):
    """A loop of a transfer and a jump: its deck, the number of its device, and what a job says of that."""

    deck: bytes
    number: int
    device: bytes

    def at_once(self, many: int, shown: bytes = b"") -> bytes:
        """A job of so many transfers, for `alone 0`."""
        return job([self.slot(shown)], b"ORDERS %d\n" % self.orders(many))

    def in_turn(self, many: int) -> bytes:
        """A job of so many transfers, each of which a line of the schedule ends."""
        return job([self.slot()], b"ORDERS %d\n" % self.orders(0) + b"ORDERS 2\nEND %d\n" % self.number * many)

    def slot(self, shown: bytes = b"") -> bytes:
        """The lines of its slot."""
        return slot(0, STORE_AND_AREA, self.deck, self.device + shown)

    def orders(self, many: int) -> int:
        """How many orders it obeys for so many transfers. Seven come before the loop, the first a jump."""
        return 7 + 2 * many


# So many texts fit on a tape.
TEXTS = 30_000
LOOP_OF = b"PROGRAM V0; V0=Q0/32/46; SET %d; SET 5; OUT; V0; =Q1; =C1; 1; %s1; J1; FINISH;\n"

# The loops of transfers that are counted. bench/plain.c has their orders too.
TRANSFERS = {
    "`PREQq`, which reads 15 words, and a jump": Transfers(LOOP_OF % (2, b"PREQ"), 2, b"DEVICE 2 TR\n" + b"+%s|\n" % (b"ABCDEFG" * 17) * TEXTS),
    "`LPQq`, which prints 15 words, and a jump": Transfers(LOOP_OF % (3, b"LPQ"), 3, b"DEVICE 3 LP\n"),
}


def following(line: bytes, *slots: bytes) -> Made:
    """A job of one order and then so many times this line."""
    return lambda many: job(slots or [slot(0, STORE, JUMP)], b"ORDERS 1\n" + line * many)


def assembling(deck_of: Made) -> Made:
    """A job whose deck has so many bytes."""
    return lambda size: job([slot(0, 8192, deck_of(size))], b"ORDERS 100\n")


def padded(pieces: bytes, size: int) -> bytes:
    """The deck of this size that begins with these statements."""
    end = b"ZERO; OUT; FINISH;\n"
    return pieces + b" " * (size - len(pieces) - len(end)) + end


def comments(size: int) -> bytes:
    """A deck of comments of 20,000 bytes."""
    comment = b"(" + b"a long comment; " * 1249 + b"            )\n"
    return padded(b"PROGRAM;\n" + comment * ((size - 1000) // len(comment)), size)


def references(size: int) -> bytes:
    """A deck of the shortest statements: references, and a part for each 9,999 of them."""
    part = b"".join(b"%d;" % number for number in range(1, 10_000))
    pieces, parts = b"PROGRAM;", 0
    while len(pieces) + len(part) + 1000 < size:
        parts += 1
        pieces += part + b"P%d;" % parts
    room = size - 1000 - len(pieces)
    return padded(pieces + part[:part.rfind(b";", 0, max(room, 0)) + 1], size)


def opened(size: int) -> bytes:
    """Brackets that are never closed."""
    return b"(" * (size - 1) + b"\n"


def stars(size: int) -> bytes:
    """A deck of as many statements as it has bytes: they fill up a word, all but the first in vain."""
    return b"PROGRAM;" + b"*" * (size - 17) + b";FINISH;\n"


# Two loops of five orders, one of which asks.
ASKS_TIME = slot(0, STORE, b"PROGRAM; 1; SET 9; OUT; NOT; ERASE; J1; FINISH;\n")
ASKS_SERVICE = slot(0, STORE, b"PROGRAM; 1; SET 7; SETB100; OUT; ERASE; J1; FINISH;\n", b"SERVICE\n")

# Reads paper tape and then wants a word of the area: it waits for as long as the transfer isn't ended.
WAITS = b"PROGRAM V0; V0=Q0/32/33; SET 2; SET 5; OUT; V0; =Q1; =C1; PRQ1; E32; ZERO; OUT; FINISH;\n"


def waiter(p: int) -> bytes:
    """A slot that waits for its reader."""
    return slot(p, 64, WAITS, b"DEVICE %d TR\n+ABCDEFGHIJKLMNOP\n" % p)


# Reads a block of words, writes it, and rewinds both tapes, again and again.
COPIES = (
    b"PROGRAM V2; V0=PIN; V1=POUT; V2=Q0/64/%d;\n"
    b"V0; SET 4; OUT; V2; =Q1; =C1; V1; SET 4; OUT; V2; =Q2; =C2;\n"
    b"1; MFRQ1; MWQ2; MRWDQ1; MRWDQ2; J1; FINISH;\n"
)
# A round of that, whose first transfer is moved by these lines.
COPIED = b"ORDERS 6\n%sEND 6\nORDERS 2\nEND 8\nORDERS 2\nEND 6\nEND 8\nORDERS 2\n"


def copying(words: int, moved: bytes = b"") -> Made:
    """A job in which blocks of so many words go from tape to tape, until so many words have been moved."""
    copier = slot(0, 4224, COPIES % (63 + words), b"DEVICE 6 MT IN\n+%s\nDEVICE 8 MT OUT\n" % (b"ABCDEFGH" * words))
    return lambda many: job([copier], b"ORDERS 20\n" + COPIED % moved * (many // (2 * words)))


def taking(deck: bytes, own: bytes = b"") -> Made:
    """A job of a deck that goes round a loop so many times and takes a punch of the pool each time."""
    turns = 1_000
    return lambda many: job([slot(0, 64, deck % (turns, many // turns), own), b"POOL\nDEVICE 9 TP\n"], b"ORDERS 20000000\n")


# Takes the punch of the pool and gives it back; and takes one of its own too.
TAKES = (
    b"PROGRAM V1; V0=Q%d/0/0; V1=Q%d/0/0; V1; =Q2;\n"
    b"2; V0; =Q1; 1; SET 1; SET 5; OUT; SET 6; OUT; DC1; J1C1NZ; DC2; J2C2NZ; ZERO; OUT; FINISH;\n"
)
TAKES_BOTH = TAKES.replace(b"SET 6; OUT;", b"SET 1; SET 5; OUT; SET 6; OUT; SET 6; OUT;")

# Four slots, of which two wait for blocks that the schedule lets them have in turn.
READS = b"PROGRAM V1; V0 = PIN; V1 = Q0/32/47; V0; SET 4; OUT; V1; =Q1; =C1; 1; MFRQ1; E32; ERASE; MRWDQ1; J1; FINISH;\n"
FOUR = [
    *(slot(p, 64, READS, b"DEVICE %d MT IN\n+%s\n" % (device, b"ABCDEFGH" * 16)) for p, device in ((0, 0), (1, 4))),
    *(slot(p, STORE, ADDS) for p in (2, 3)),
]
A_ROUND = b"ORDERS 160\nEND 0\nEND 4\nSWAP 0 1\n"


def rounds(many: int) -> bytes:
    """A job of four slots and so many rounds of four lines."""
    return job(FOUR, A_ROUND * many)


# A loop of ten orders at word 1.
TEN_ORDERS = b"PROGRAM; 1; " + b"VR; " * 9 + b"J1; FINISH;\n"

# Jobs whose snapshots are long: each third order asks the time, which is late; each order asks whether a device is busy; blocks of 4,096 words are written.
LATEST = b"CLOCK 140737488355327\n"
ASKS_THIRD = slot(0, 1024, b"PROGRAM; 1;" + b"SET 9; OUT; ERASE;" * 600 + b"J1; FINISH;\n")
ASKS_EACH = slot(0, 1024, b"PROGRAM; SET 2; SET 5; OUT; =C1; 1;" + b"BUSYQ1;" * 600 + b"J1; FINISH;\n", b"DEVICE 3 TR\n")
WRITES = slot(0, 4224, b"PROGRAM V1; V0 = POUT; V1 = Q0/64/4159; V0; SET 4; OUT; V1; =Q1; =C1; 1; MWQ1; J1; FINISH;\n", b"DEVICE 8 MT OUT\n")
