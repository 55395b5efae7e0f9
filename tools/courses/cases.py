"""The cases of an exercise: what each gives, what is due, and the schedules under which it is run."""
import re
from typing import Dict, List, Sequence, Tuple

from courses.chapters import Block, Source, lines_of
from courses.dues import Due, joined, read_due
from courses.exercise import Case, Given, Rules
from courses.rules import plans_in


def case_of(source: Source, block: Block, rules: Rules, is_shown: bool) -> Case:
    """The case of a block."""
    constants: Dict[str, str] = {}
    media: Dict[int, List[str]] = {}
    events: List[Tuple[int, str]] = []
    dues: List[Due] = []
    plans = rules.plans
    for at, line in lines_of(block):
        if line.startswith("give "):
            take_given(source, at, line[5:].strip(), constants, media, events)
        elif line.startswith("due "):
            dues.append(due_of(source, at, line[4:].strip()))
        elif line.startswith("schedules "):
            plans = plans_in(source, at, line[10:], rules.takes_schedule)
        else:
            source.fail(at, f"a line of a case begins with give, due or schedules: {line}")
    if not dues:
        source.fail(block.line, "nothing is due in this case: it has no line due")
    told = [line[5:].strip() for _, line in lines_of(block) if line.startswith("give ")]
    name = block.rest or ", ".join(told) or "the starting job"
    return Case(name, block.line, Given(constants, media, tuple(events)), tuple(with_ends(joined(dues), rules, block)), plans, is_shown)


def with_ends(dues: List[Due], rules: Rules, block: Block) -> List[Due]:
    """What is due, and first of all that each program that is handed in ends, unless a line says something else of it."""
    own = rules.slots or (0,)
    said = {own[0] if due.slot is None else due.slot for due in dues if due.kind == "state"}
    shown = len(own) > 1
    ends = [Due(block.line, "ended", "state", slot if shown else None, "", "ended") for slot in rules.slots if slot not in said]
    return [*ends, *dues]


def take_given(source: Source, at: int, text: str, constants: Dict[str, str], media: Dict[int, List[str]], events: List[Tuple[int, str]]) -> None:
    """Takes a line give."""
    constant = re.fullmatch(r"(V\d{1,5}) = (\S+)", text)
    medium = re.fullmatch(r"device (\d{1,2})(?: ([+=].*)| empty)", text)
    event = re.fullmatch(r"(CLOCK \d{1,15}|SWAP [0-3] [0-3]) after (\d{1,6})", text)
    if constant:
        constants[constant[1]] = constant[2]
    elif medium:
        lines = media.setdefault(int(medium[1]), [])
        lines += [medium[2]] if medium[2] else []
    elif event:
        events.append((int(event[2]), event[1]))
    else:
        source.fail(at, f"this can't be given: {text}; it is V0 = 12, device 4 +TEXT, device 4 empty, CLOCK 5 after 20, or SWAP 0 1 after 20")


def due_of(source: Source, at: int, text: str) -> Due:
    """What a line says that is due."""
    try:
        return read_due(text, at)
    except ValueError as why:
        source.fail(at, f"{why}: {text}")


def refuse_alike(source: Source, cases: Sequence[Case]) -> None:
    """Refuses two cases of one name: a remark names the case."""
    seen = set()
    for case in cases:
        if case.name in seen:
            source.fail(case.line, f"there is another case '{case.name}'")
        seen.add(case.name)
