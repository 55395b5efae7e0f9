"""Jobs that chance makes, each the same for the same seed: well-formed ones that run, and texts in which something is wrong.

A text is one of some kinds: a job; a job or an example of which lines are changed, that is cut off, or that has strange bytes; a report, the JSON of one,
a snapshot or a job with its report, of which lines or fields are changed.
"""
import random
import re
from typing import Callable, Dict, List, NamedTuple

from toolkit import examples

# A medium for each kind of device that has one.
MEDIA = {"TR": ["+ABCDEFGHIJKLMNOP", "+WXYZ"], "CR": ["+12345678", "+00000025"], "MT": ["+ABCDEFGH", "+12345678", "=IJKLMNOP"], "TP": [], "LP": []}
CODES = {"TP": 1, "TR": 2, "LP": 3, "CR": 4}
ORDERS_OF = {
    "TR": ["PRQ{}", "PREQ{}"], "CR": ["CRQ{}"], "MT": ["MFRQ{}", "MWQ{}", "MLWQ{}", "MBSKQ{}", "MRWDQ{}"], "TP": ["PWQ{}", "PWEQ{}"], "LP": ["LPQ{}", "LPEQ{}"],
}

# Pieces of a program that leave the nest as it was, with {} for a small number and @ for a reference of their own; and pieces that most often fail.
SOUND = [
    "SET {}; SET 7; +; ERASE", "SET {}; DUP; XD; CONT; =Y1", "SET {}; =Y0; Y0; ERASE", "ZERO; NOT; BITS; ERASE", "SET {}; SHL+3; ERASE", "SET -{}; ABS; ERASE",
    "SET {}; SET 3; DIVI; ERASE; ERASE", "SET {}; =M9; M9; ERASE", "SET 9; OUT; ERASE", "DUMMY", "*", "(a comment; PROGRAM)", "SET {}; TOB; FRB; ERASE",
    "SET {}; SET 1; SET 2; CAB; ERASE; ERASE; ERASE", "SET {}; =C8; C8; ERASE", "VR", "SET {}; SET {}; J@=; @; ERASE",
]
FAILING = [
    "+", "ERASE; ERASE; ERASE", "SET 9000; =M2; M0M2", "E8000", "SET {}; OUT", "EXIT 1", "PRQ7", "SET {}; SET 4; OUT", "SET {}; SET 5; OUT", "SET -1; =LINK; EXIT",
    "XD", "=E40; +",
]
STRANGE = ["\x00", "\t", "\r", "\x1b[31m", "é", "\xff", "ü", "\x80", "\xa0", "\u00ad", "~", "\x7f", "\xef\xbb\xbf"]
LINES = [
    "", " ", "SLOT 1", "SLOT 4", "STORE 33", "DECK", "ENDDECK", "SERVICE", "DEVICE 3", "DEVICE 3 XX", "DEVICE 16 TR", "DEVICE 2 MT", "+", "=", "SHOW 3 2", "SHOW 32", "POOL",
    "SCHEDULE", "ORDERS", "ORDERS 0", "ORDERS 7", "ORDERS 20000001", "ORDERS 4" + "0" * 5000, "MOVE 3", "MOVE 3 0", "END", "END 99", "END 3", "CLOCK 1", "CLOCK -1", "SWAP 0",
    "SWAP 0 4", "ENDJOB", "JOURNAL", "SEAL", "ENDSNAPSHOT", "KDF9 JOB 1", "KDF9 REPORT 1", "ENDREPORT", "RAN 0 1", "RAN 0 00", "START 0 3 1", "FAIL 0 LIV", "IDLE 5", "BUSY 0 3",
    "TAKE 0 9", "GIVE 0 9", "WAIT 0 TP", "LOV 0 1", "ENDED 0", "STATE", "STATE FAILED", "STATE FAILED NOSUCH", "STATE LIVE", "ORDERS x", "AT 1", "AT 1 9", "FLAGS", "NEST 2 0",
    "NEST", "LINKS 1", "LINKS 1 9/9", "LINKS 2 1/1 x", "Q 1 2 3", "Q 99 0 0 0", "WORD 1", "WORD 0 8888888888888888", "SPOOL 1", "DEVICE 3 TR HELD", "BLOCK", "LAST X",
    "POOL 9 TP HELD PLACE 0 FLAG 0", "FINISH;", "PROGRAM;", "P1; 1;", "V1 = Q0/99999/1;", "(", ";", "1: SET 5;", "DUPP;", "J99;", "+F;", "Y40000;", "SET 40000;", "000000001;",
]


class Deck:
    """A deck that grows by pieces: its constants, its statements, and the kinds of devices that its program claims, by Q-store."""

    def __init__(self, chance: random.Random, store: int, kinds: List[str], is_served: bool) -> None:
        self.chance, self.store, self.kinds, self.is_served = chance, store, kinds, is_served
        self.constants: List[str] = []
        self.pieces: List[str] = []
        self.q_stores: Dict[int, str] = {}

    def text(self) -> str:
        """The lines of the deck, without the last newline."""
        for _ in range(self.chance.randint(1, 8)):
            self.chance.choice([self.sound, self.sound, self.claim, self.transfer, self.transfer, self.loop, self.ask])()
        if self.chance.random() < 0.3:
            self.pieces.append(self.chance.choice(FAILING).replace("{}", str(self.chance.randint(0, 70))))
        end = self.chance.choice(["ZERO; OUT;"] * 6 + ["@; J@;", "DUMMY;", "JSP1; ZERO; OUT;"])
        part = "P1; SET 4; =Y0; EXIT 1;\n" if "JSP1" in end else ""
        opening = f"PROGRAM V{len(self.constants) - 1};\n" if self.constants else "PROGRAM;\n"
        own = "".join(piece.replace("@", str(at)) + ";\n" for at, piece in enumerate([*self.pieces, end.rstrip(";")], 100))
        return f"Y3; {opening}{''.join(f'{constant};' + chr(10) for constant in self.constants)}{own}{part}FINISH;"

    def constant(self, value: str) -> str:
        """The name of a new constant of this value."""
        self.constants.append(f"V{len(self.constants)} = {value}")
        return f"V{len(self.constants) - 1}"

    def area(self) -> str:
        """The increment and the modifier of an area that is most often in the store."""
        first = self.chance.randint(32, self.store - 1) if self.chance.random() < 0.9 else self.chance.randint(0, self.store)
        return f"{first}/{first + self.chance.randint(0, 2)}"

    def sound(self) -> None:
        self.pieces.append(self.chance.choice(SOUND).replace("{}", str(self.chance.randint(0, 70))))

    def claim(self) -> None:
        kind = self.chance.choice(self.kinds) if self.kinds else self.chance.choice(list(CODES))
        q = len(self.q_stores) + 1
        if q > 8:
            return
        name = self.constant(f"Q0/{self.area()}")
        call = f"SET {CODES[kind]}; SET 5; OUT" if kind in CODES else f"{self.constant('PDATA')}; SET 4; OUT"
        self.pieces.append(f"{call}; {name}; =Q{q}; =C{q}")
        self.q_stores[q] = kind

    def transfer(self) -> None:
        if not self.q_stores:
            self.claim()
        q = self.chance.choice(list(self.q_stores))
        order = self.chance.choice(ORDERS_OF[self.q_stores[q]]).format(q)
        after = self.chance.choice([f"INTQ{q}", f"BUSYQ{q}; J@TR; @", "DUMMY", f"C{q}; SET 6; OUT; E40; ERASE", "E32; ERASE", f"PARQ{q}; J@TR; @"])
        self.pieces.append("; ".join([order, *["DUMMY"] * self.chance.randint(0, 9), after]))

    def loop(self) -> None:
        name = self.constant(f"Q{self.chance.randint(1, 12)}/1/0")
        body = self.chance.choice(["DUMMY", "SET 3; ERASE", *([f"{ORDERS_OF[kind][0].format(q)}; INTQ{q}" for q, kind in self.q_stores.items()])])
        self.pieces.append(f"{name}; =Q10; @; {body}; DC10; J@C10NZ")

    def ask(self) -> None:
        self.pieces.append("SET 7; SETB100; OUT; ERASE" if self.is_served else "SET 3; OUT; ERASE")


def job(chance: random.Random) -> str:
    """A well-formed job. Its programs run, and some of them fail, loop or are held up."""
    numbers = list(range(16))
    chance.shuffle(numbers)
    pool = [f"DEVICE {numbers.pop()} {chance.choice(['TP', 'LP'])}" for _ in range(chance.choice([0, 0, 1, 2]))]
    lines, devices = ["KDF9 JOB 1"], [int(line.split()[1]) for line in pool]
    for slot in sorted(chance.sample(range(4), chance.choice([1, 1, 2, 3]))):
        store, is_served = chance.choice([64, 96, 256]), chance.random() < 0.3
        own = [(numbers.pop(), chance.choice(list(MEDIA))) for _ in range(chance.randint(0, 3))]
        devices += [number for number, _ in own]
        deck = Deck(chance, store, [kind for _, kind in own] + [line.split()[2] for line in pool], is_served)
        lines += [f"SLOT {slot}", f"STORE {store}", "DECK", deck.text(), "ENDDECK", *["SERVICE"] * is_served]
        for at, (number, kind) in enumerate(own):
            lines += [f"DEVICE {number} {kind}" + (f" {'DATA' if at == 0 else f'T{number}'}" if kind == "MT" else ""), *MEDIA[kind][:chance.randint(0, 3)]]
        lines += ["SHOW 0 40"] * (chance.random() < 0.5)
    return "\n".join([*lines, *(["POOL", *pool] if pool else []), "SCHEDULE", *schedule(chance, devices), "ENDJOB", ""])


def schedule(chance: random.Random, devices: List[int]) -> List[str]:
    """The lines of a schedule, for these devices and now and then another."""
    lines, time = [], 0
    for _ in range(chance.randint(1, 12)):
        lines.append(f"ORDERS {chance.choice([1, 2, 5, 20, 60])}")
        kind, device = chance.choice(["END", "END", "END", "MOVE", "CLOCK", "SWAP", ""]), chance.choice([*devices, *devices, *devices, 7])
        time += chance.randint(0, 9)
        event = {"END": f"END {device}", "MOVE": f"MOVE {device} {chance.randint(1, 3)}", "CLOCK": f"CLOCK {time}", "SWAP": f"SWAP {chance.randint(0, 3)} {chance.randint(0, 3)}"}
        lines += [event[kind]] if kind else []
    return lines


def any_job(chance: random.Random) -> str:
    """A job of chance, or one of the examples and cases that isn't long."""
    return job(chance) if chance.random() < 0.6 else chance.choice(SHORT)


SHORT = [text for _, text in examples() if len(text) < 8000 and text.count("\n") < 400]


def changed(chance: random.Random, text: str) -> str:
    """A text of which some lines or characters are changed."""
    lines = text.split("\n")
    for _ in range(chance.choice([1, 1, 1, 2, 4])):
        at = chance.randrange(len(lines))
        how = chance.randrange(8)
        if how == 0:
            del lines[at:at + 1]
            lines = lines or [""]
        elif how == 1:
            lines.insert(at, lines[chance.randrange(len(lines))])
        elif how == 2:
            lines.insert(at, chance.choice(LINES))
        elif how == 3:
            lines[at] = chance.choice(LINES)
        elif how == 4:
            lines[at] = re.sub(r"\d+", lambda _: chance.choice(["0", "1", "9", "17", "00", "-1", "40000", "9" * 30, ""]), lines[at], count=1)
        elif how == 5 and lines[at]:
            place = chance.randrange(len(lines[at]))
            lines[at] = lines[at][:place] + chance.choice([*"AZ09 ;*(/=+-", ""]) + lines[at][place + 1:]
        elif how == 6:
            lines[at] = " ".join(chance.sample(lines[at].split(" "), len(lines[at].split(" "))))
        else:
            lines[at] = chance.choice([lines[at].lower(), lines[at] + " ", " " + lines[at], lines[at] + ";", lines[at][:-1]])
    return "\n".join(lines)


def cut(chance: random.Random, text: str) -> str:
    """The beginning of a text."""
    return text[:chance.randrange(len(text) + 1)]


def with_strange_bytes(chance: random.Random, text: str) -> str:
    """A text with bytes that it can't have."""
    for _ in range(chance.randint(1, 3)):
        at = chance.randrange(len(text) + 1)
        text = text[:at] + chance.choice(STRANGE) + text[at + chance.randint(0, 1):]
    return text


def changed_json(chance: random.Random, text: str) -> str:
    """A JSON text of which some values are others."""
    values = re.compile(r'"[^"]*"|-?\d+|true|false|\[|\{|,')
    for _ in range(chance.randint(1, 2)):
        found = chance.choice(list(values.finditer(text)) or [re.search("", text)])
        value = chance.choice(["0", "-1", '"x"', "null", "[]", "{}", "true", "1e400", "NaN", '"a\\nb"', '"\\ud800"', "[" * 3000, "", "9" * 5000, '"0000000000000000"'])
        text = text[:found.start()] + value + text[found.end():]
    return text


# The kinds of texts: each is made at random, from what the program answers to a command over a text, or what a tool makes of that.
Ask = Callable[[List[str], str], str]


def of_report(chance: random.Random, ask: Ask) -> str:
    return changed(chance, ask(["run"], any_job(chance)))


def of_lone_report(chance: random.Random, ask: Ask) -> str:
    return changed(chance, ask(["alone", str(chance.randrange(4))], any_job(chance)))


def of_snapshot(chance: random.Random, ask: Ask) -> str:
    whole = ask(["save"], any_job(chance)) + "\n".join([*schedule(chance, [2, 3, 9]), "ENDJOB", ""])
    return whole if chance.random() < 0.3 else changed(chance, whole)


def of_check(chance: random.Random, ask: Ask) -> str:
    text = any_job(chance)
    return text + changed(chance, ask(["run"], text))


def of_json(chance: random.Random, ask: Ask) -> str:
    return changed_json(chance, ask(["json"], ask(["run"], any_job(chance))))


KINDS: Dict[str, Callable[[random.Random, Ask], str]] = {
    "a job": lambda chance, ask: job(chance),
    "a changed job": lambda chance, ask: changed(chance, any_job(chance)),
    "a report": of_report,
    "a job that is cut off": lambda chance, ask: cut(chance, any_job(chance)),
    "a snapshot": of_snapshot,
    "a job with strange bytes": lambda chance, ask: with_strange_bytes(chance, any_job(chance)),
    "a changed example": lambda chance, ask: changed(chance, chance.choice(SHORT)),
    "a lone report": of_lone_report,
    "a job with its report": of_check,
    "the JSON of a report": of_json,
    "noise": lambda chance, ask: "".join(chr(chance.randrange(256)) for _ in range(chance.randrange(300))),
}


class Text(NamedTuple):
    """A text: what it is, its characters, each of which is a byte, and the chance that goes on for what is done with it."""

    kind: str
    text: str
    chance: random.Random


def text_of(seed: int, number: int, ask: Ask) -> Text:
    """The text of this number for a seed. `ask` gives what a command, or the tool json, writes for a text."""
    kind = list(KINDS)[number % len(KINDS)]
    chance = random.Random(seed * 1000003 + number)
    return Text(kind, KINDS[kind](chance, ask), chance)
