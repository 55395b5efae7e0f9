"""What is due of a run: a word by its name, what a program came to, the blocks of a device, a measure. Each is a line of a case."""
import re
from typing import Callable, Dict, List, NamedTuple, Optional, Sequence, Tuple

from courses import machine
from kdf9.report import Device, Section
from kdf9.tables import table
from kdf9.words import count

# The most characters of a text that are shown of what came.
MOST_SHOWN = 60

# The kinds of failures.
FAILURES = ("LIV", "NOUV", "RESET", "CLAIM", "OUT")

NAME = r"(?:V\d+(?:P\d+)?|Y[A-Z]?\d+|E\d+)"
COMPARISONS: Dict[str, Callable[[float, float], bool]] = {
    "is": lambda value, due: value == due, "at most": lambda value, due: value <= due, "at least": lambda value, due: value >= due,
}

# The measures that are numbers, as docs/STUDY.md has them.
OF_SLOT = r"orders|turnaround|running|ready|held(?: by (?:device|group) \d+| by pool (?:TP|LP))?"
OF_DEVICE = r"transfers|busy|share busy|waited for|times lent|lent"
MEASURE = rf"calls|running|held up|idle|overlapped|share running|share overlapped|throughput|slot [0-3] (?:{OF_SLOT})|device \d+ (?:{OF_DEVICE})"

# How each kind of line is written, after `due`.
FORMS = {
    "word": rf"(?:slot (?P<slot>[0-3]) )?(?P<subject>{NAME}) = (?P<value>\S+)",
    "q": r"(?:slot (?P<slot>[0-3]) )?(?P<subject>Q\d+) = (?P<value>-?\d+/-?\d+/-?\d+)",
    "nest": r"(?:slot (?P<slot>[0-3]) )?nest (?P<value>empty|\S+(?: \S+)*)",
    "state": rf"(?:slot (?P<slot>[0-3]) )?(?P<value>ended|live|failed (?:{'|'.join(FAILURES)}))",
    "overflow": r"(?:slot (?P<slot>[0-3]) )?overflow (?P<value>[01])",
    "device": r"device (?P<subject>\d+) (?P<value>empty|\+.*)",
    "pool": r"(?:slot (?P<slot>[0-3]) )?pool (?P<subject>TP|LP) (?P<value>empty|\+.*)",
    "stream": r"(?:slot (?P<slot>[0-3]) )?stream (?P<subject>[0-7]) (?P<value>empty|\+.*)",
    "results": r"(?:slot (?P<slot>[0-3]) )?results (?P<value>\d+)",
    "deadlock": r"deadlock (?P<value>none|some)",
    "measure": rf"(?P<subject>{MEASURE}) (?P<compare>is|at most|at least) (?P<value>\d+(?:\.\d+)?)",
}

# The kinds of which several lines one after the other are one: each line has one more block.
BLOCKS = ("device", "pool", "stream")


class Due(NamedTuple):
    """What is due: its line and how it is written there, its kind, its slot, of what it is, and the value; that of blocks is a list of texts."""

    line: int
    text: str
    kind: str
    slot: Optional[int]
    subject: str
    value: object
    compare: str = "is"


class Seen(NamedTuple):
    """What was seen of a run: its job and its report; the addresses of words by slot and name; the number of results of each slot and of deadlocks, if every schedule was
    searched. With `names` an address is None where the deck has no such word.
    """

    job: str
    report: str
    names: Dict[Tuple[int, str], Optional[int]]
    results: Optional[Dict[int, int]] = None
    deadlocks: int = 0

    def section(self, slot: int) -> Section:
        """The section of a slot."""
        return machine.section(self.report, slot)


def read_due(text: str, line: int) -> Due:
    """What a line says that is due, without its first word; ValueError, with the reason, if it says nothing."""
    for kind, form in FORMS.items():
        found = re.fullmatch(form, text)
        if found:
            words = found.groupdict()
            slot = words.get("slot")
            due = Due(line, text, kind, None if slot is None else int(slot), words.get("subject") or "", words["value"], words.get("compare") or "is")
            return due._replace(value=value_of(due))
    raise ValueError("this isn't something that can be due")


def value_of(due: Due):
    """The value of what is due, read from its text."""
    text = str(due.value)
    if due.kind == "word":
        return constant(text)
    if due.kind == "q":
        return tuple(int(part) % 2**16 for part in text.split("/"))
    if due.kind == "nest":
        return [] if text == "empty" else [constant(word) for word in text.split(" ")]
    if due.kind in BLOCKS:
        return [] if text == "empty" else [text[1:].rstrip()]
    if due.kind == "measure":
        return float(text)
    return int(text) if due.kind in ("results", "overflow") else text


def constant(text: str) -> int:
    """The word that a constant is."""
    try:
        return machine.word_of(text)
    except ValueError:
        raise ValueError(f"{text} isn't a constant, such as 12, B14, Q1/2/3 or PHELLO") from None


def joined(dues: Sequence[Due]) -> List[Due]:
    """The same dues with the blocks of one device as one."""
    told: List[Due] = []
    for due in dues:
        if told and due.kind in BLOCKS and told[-1][2:5] == due[2:5] and due.value and told[-1].value:
            told[-1] = told[-1]._replace(value=[*told[-1].value, *due.value])
        else:
            told.append(due)
    return told


def applies(due: Due, is_measured: bool, is_every: bool) -> bool:
    """Whether something is due under a schedule that is measured, or under every one."""
    if due.kind in ("results", "deadlock"):
        return is_every
    return is_measured if due.kind == "measure" else True


def missed(due: Due, seen: Seen, slot: int) -> Optional[Tuple[str, str]]:
    """What came in place of what was due, and what was due, in words; None if it came. `slot` is that of a due that names none."""
    return CHECKS[due.kind](due, seen, slot if due.slot is None else due.slot)


# What is said of what came, by the kind of what was due. The page says the same (courses/paged.py).
CAME = {
    "word": "{of}{subject} = {came}", "q": "{of}{subject} = {came}", "nest": "{of}the nest, top first, is {came}", "overflow": "{of}V is {came}",
    "measure": "{subject}: {came}",
}
LACKS = "{of}the deck has no {subject}"
OF_BLOCKS = {
    "none": "{name} has nothing", "fewer": "{name} has {count}", "more": "{name} has {count}, and block {at} is {came}", "other": "block {at} of {name} is {came}",
    "only": "{name} is {came}",
}


def of_slot(due: Due) -> str:
    """How a sentence on something of a slot begins, if the line named the slot."""
    return "" if due.slot is None else f"slot {due.slot}: "


def said_of(due: Due, sentence: str, **values: str) -> str:
    """A sentence on what came in place of something that was due."""
    return sentence.format(of=of_slot(due), subject=due.subject, **values)


def name_of_blocks(due: Due) -> str:
    """What blocks are of."""
    return {"device": f"device {due.subject}", "pool": f"{of_slot(due)}the pool's {due.subject}", "stream": f"{of_slot(due)}stream {due.subject}"}[due.kind]


def written_of(due: Due) -> str:
    """What was due of a word, a Q-store, V or a nest, as it is written; of an empty nest, nothing."""
    return "" if due.text.endswith("empty") else due.text.partition("nest ")[2] if due.kind == "nest" else due.text.rsplit(" ", 1)[1]


def missed_word(due: Due, seen: Seen, slot: int):
    """Compares a word."""
    address, written = seen.names[slot, due.subject], written_of(due)
    if address is None:
        return said_of(due, LACKS), f"{due.subject} = {written}"
    word = seen.section(slot).words.get(address)
    if word == due.value:
        return None
    return said_of(due, CAME[due.kind], came="no word" if word is None else like(word, written)), written


def like(word: int, written: str) -> str:
    """A word as another one is written: as octal digits, characters, a Q-store, or a number."""
    if written[0] == "B":
        return f"B{word:o}"
    if written[0] == "Q":
        return f"Q{word >> 32}/{word >> 16 & 0xFFFF}/{word & 0xFFFF}"
    if written[0] == "P":
        characters = table("job")["characters"]
        return f"P{''.join(characters[word >> 6 * at & 0o77] for at in range(7, -1, -1)).rstrip()}"
    return str(word - 2**48 if word >> 47 else word)


def missed_q(due: Due, seen: Seen, slot: int):
    """Compares a Q-store."""
    parts = seen.section(slot).q_stores.get(int(due.subject[1:]), (0, 0, 0))
    return None if parts == due.value else (said_of(due, CAME[due.kind], came="/".join(map(str, parts))), written_of(due))


def missed_nest(due: Due, seen: Seen, slot: int):
    """Compares the nest."""
    nest, written = seen.section(slot).nest, written_of(due).split()
    if nest == due.value:
        return None
    shown = " ".join(like(word, written[at] if at < len(written) else "0") for at, word in enumerate(nest)) or "empty"
    return said_of(due, CAME[due.kind], came=shown), " ".join(written) or EMPTY_NEST


def missed_state(due: Due, seen: Seen, slot: int):
    """Compares how a program came to its end."""
    state, wanted = " ".join(seen.section(slot).state), wanted_state(due)
    return None if state == wanted else (f"{of_slot(due)}{said_of_state(state)}", said_of_wanted_state(wanted))


def wanted_state(due: Due) -> str:
    """The state that is due, as a report has it."""
    return "FAILED" + str(due.value)[6:] if str(due.value).startswith("failed") else str(due.value).upper()


def said_of_state(state: str) -> str:
    """How a program came to its end, in words."""
    return SAID_OF_STATE.get(state, f"the program failed: {state[7:]}")


def said_of_wanted_state(state: str) -> str:
    """How a program had to come to its end, in words."""
    return WANTED_STATE.get(state, f"a failure, {state[7:]}")


EMPTY_NEST = "an empty nest"
SAID_OF_STATE = {"LIVE": "the program didn't come to its end", "ENDED": "the program ended"}
WANTED_STATE = {"LIVE": "that it goes on for ever", "ENDED": "that it ends"}


def missed_overflow(due: Due, seen: Seen, slot: int):
    """Compares V."""
    flag = seen.section(slot).flags[0]
    return None if flag == due.value else (said_of(due, CAME[due.kind], came=flag), written_of(due))


def missed_device(due: Due, seen: Seen, slot: int):
    """Compares the blocks of a device, whichever slot has it."""
    for section in machine.sections(seen.report):
        for device in section.devices:
            if device.number == int(due.subject):
                return missed_blocks(due, device.blocks)
    return f"the job has no device {due.subject}", due.text


def missed_pool(due: Due, seen: Seen, slot: int):
    """Compares the blocks that a program wrote on devices of the pool, in the order of taking."""
    stints: List[Device] = [stint for stint in seen.section(slot).stints if stint.kind == due.subject]
    return missed_blocks(due, [block for stint in stints for block in stint.blocks])


def missed_stream(due: Due, seen: Seen, slot: int):
    """Compares what was spooled to a stream."""
    spools = [spool.partition(" ")[2] for spool in seen.section(slot).spools if spool.partition(" ")[0] == due.subject]
    return missed_blocks(due, spools)


def missed_blocks(due: Due, blocks: Sequence[str]):
    """Compares blocks, without the spaces at their ends."""
    came, wanted, name = [block.rstrip() for block in blocks], blocks_of(due), name_of_blocks(due)
    at = next((at for at, (one, other) in enumerate(zip(came, wanted)) if one != other), min(len(came), len(wanted)))
    if at == len(came) == len(wanted):
        return None
    if at == len(came):
        return OF_BLOCKS["fewer" if came else "none"].format(name=name, count=count(len(came), "block")), missing_block(due, at)
    if at == len(wanted):
        return OF_BLOCKS["more"].format(name=name, count=count(len(came), "block"), at=at + 1, came=brief(came[at])), no_more_blocks(due)
    which = "other" if max(len(came), len(wanted)) > 1 else "only"
    return OF_BLOCKS[which].format(name=name, at=at + 1, came=brief(came[at])), brief(wanted[at])


def blocks_of(due: Due) -> List[str]:
    """The blocks that are due."""
    return list(due.value)  # type: ignore[call-overload]


def missing_block(due: Due, at: int) -> str:
    """What was due where there is no block of this number, from 0."""
    wanted = blocks_of(due)
    return f"{brief(wanted[at])} as block {at + 1}" if len(wanted) > 1 else brief(wanted[at])


def no_more_blocks(due: Due) -> str:
    """What was due where there are too many blocks."""
    return count(len(blocks_of(due)), "block") if due.value else "nothing"


def brief(text: str) -> str:
    """A text between quotation marks, or its beginning if it is long."""
    return f"'{text}'" if len(text) <= MOST_SHOWN else f"'{text[:MOST_SHOWN]}..'"


def missed_results(due: Due, seen: Seen, slot: int):
    """Compares the number of results of a program over every schedule."""
    number = (seen.results or {}).get(slot, 0)
    return None if number == due.value else (f"{of_slot(due)}over all schedules there {'is' if number == 1 else 'are'} {count(number, 'result')}", f"{due.value}")


def missed_deadlock(due: Due, seen: Seen, slot: int):
    """Compares whether a schedule leads to a deadlock."""
    if bool(seen.deadlocks) == (due.value == "some"):
        return None
    return ("some schedule leads to a deadlock", "none") if seen.deadlocks else ("no schedule leads to a deadlock", "one")


def missed_measure(due: Due, seen: Seen, slot: int):
    """Compares a measure."""
    value = machine.measures_of(seen.job).get(due.subject, 0)
    if isinstance(value, (int, float)) and COMPARISONS[due.compare](value, due.value):
        return None
    return said_of(due, CAME[due.kind], came=value), written_of_measure(due)


def written_of_measure(due: Due) -> str:
    """What was due of a measure, as it is said."""
    return f"{due.compare.replace('is', '').strip()} {due.value:g}".strip()


CHECKS: Dict[str, Callable[[Due, Seen, int], Optional[Tuple[str, str]]]] = {
    "word": missed_word, "q": missed_q, "nest": missed_nest, "state": missed_state, "overflow": missed_overflow, "device": missed_device, "pool": missed_pool,
    "stream": missed_stream, "results": missed_results, "deadlock": missed_deadlock, "measure": missed_measure,
}
