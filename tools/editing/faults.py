"""The faults of a text as an editor shows them, each with the edits that mend it: those after which the machine finds no fault there any more."""
import re
from typing import Iterator, List, NamedTuple, Optional, Tuple

from kdf9 import fault as found_faults
from kdf9 import told
from kdf9.deck import OPENING, without_comments
from kdf9.job import HEADER, Slot, read_lines
from kdf9.program import BadInput
from kdf9.statements import Statement, statement_at
from kdf9.tables import hint, table
from kdf9.tables import lines as rows_of_lines
from kdf9.words import capitals, whole

from editing.facts import facts_of
from editing.features import edited
from editing.image import image_of, line_of_deck, names_of
from editing.naming import REFERENCE, V_STORE
from editing.texts import ABOVE, Deck, Text

Edit = Tuple[int, int, str]

# For how long a text hints are told.
LONGEST_HINTED = 100_000

# The number of the last Q-store.
LAST_Q_STORE = 15

# How many other numbers are offered for one that a deck doesn't have.
MOST_OFFERED = 4

# The statements with which a hint begins.
IN_HINT = re.compile(r"((?:[A-Z0-9+*=-]+;? )+)(?=[a-z])")

# A line that no deck has, but a job.
OF_JOB = re.compile(r"^(?:SERVICE|DEVICE \d+ .*|SHOW \d+ \d+|SLOT \d|POOL|SCHEDULE)$", re.MULTILINE)

# A piece of a statement, after which a `;` may be missing.
PIECE = re.compile(r"[^ \n]+")
MOST_PIECES = 16


class Fault(NamedTuple):
    """A fault of a text: where it begins and ends, its name, what the documents say of it, the deck that has it or None, and the facts of it."""

    start: int
    end: int
    name: str
    sentence: str
    deck: Optional[Deck]
    facts: dict


class Fix(NamedTuple):
    """What mends a fault: what it does, in words, and its edits of the text, in sequence."""

    title: str
    edits: List[Edit]


def faults_of(text: Text) -> List[Fault]:
    """The first fault of a job, and the first of each deck."""
    found = []
    if text.is_job:
        facts = facts_of(text.text, 0)
        if facts["kind"] == "listing":
            return []
        if facts.get("of") != "deck":
            found.append(fault_of_job(text, facts))
    for deck in text.decks:
        facts = image_of(text.of_deck(deck), deck.store).fault
        if facts:
            found.append(fault_of_deck(text, deck, facts))
    return found


def fault_of_job(text: Text, facts: dict) -> Fault:
    """The fault of a job with these facts, at its column up to the end of its line."""
    if facts["of"] == "text":
        return Fault(0, len(text.line(0)), facts["name"], f"the job has more than {facts['limit']} bytes", None, facts)
    line = min(facts["line"] - 1, len(text.starts) - 1)
    start = min(text.starts[line] + facts["column"] - 1, text.starts[line] + len(text.line(line)))
    return Fault(start, text.starts[line] + len(text.line(line)), facts["name"], facts["sentence"], None, facts)


def fault_of_deck(text: Text, deck: Deck, facts: dict) -> Fault:
    """The fault of a deck with these facts, over its statement."""
    if facts["of"] == "deck":
        start = min(deck.start + facts["offset"], deck.end)
        end = min(start + max(1, len(facts["text"].rstrip())), deck.end)
        return Fault(start, max(start, end), facts["name"], facts["sentence"], deck, facts)
    if facts["of"] == "text":
        return Fault(deck.start, deck.end, facts["name"], f"the deck has more than {facts['limit']} bytes", None, facts)
    line = min(deck.line + line_of_deck(facts), len(text.starts) - 1)
    return Fault(text.starts[line], text.starts[line] + len(text.line(line)), facts["name"], facts["sentence"], None, facts)


def hint_of(text: Text, fault: Fault) -> Optional[str]:
    """What may have led to a fault, or None."""
    if len(text.text) > LONGEST_HINTED or fault.facts["of"] == "text":
        return None
    try:
        return hint_in(text.text, text.is_job, fault)
    except (BadInput, IndexError, KeyError, StopIteration, ValueError):
        return None


def hint_in(text: str, is_job: bool, fault: Fault) -> Optional[str]:
    """A hint for a fault of a text, or None. Its places are those of the text."""
    if fault.deck:
        deck = text[fault.deck.start:fault.deck.end]
        slot = Slot(0, fault.deck.store, fault.deck.line + 1, deck if deck.endswith("\n") else f"{deck}\n", [])
        return found_faults.told_hint(placed(fault.facts, slot))
    return found_faults.told_hint(told.fault_in(fault.facts)) if is_job else None


def placed(facts: dict, slot: Slot) -> "told.Fault":
    """The fault of these facts of a deck alone, with the places that it has in the text where the deck is that of a slot."""
    line, column = slot.place(facts["offset"])
    hint = facts["hint"]
    if hint and "place" in hint:
        own, _, own_column = hint["place"].partition(":")
        hint = {**hint, "place": f"{int(own) - ABOVE - 1 + slot.deck_line}:{own_column}"}
    return told.fault_in({**facts, "line": line, "column": column, "hint": hint})


def fixes_of(text: Text, fault: Fault) -> List[Fix]:
    """What mends a fault: each was tried, and the machine finds no fault there any more."""
    try:
        offered = list(offered_in_deck(text, fault) if fault.deck else offered_in_job(text, fault))
    except (BadInput, IndexError, KeyError, TypeError, ValueError):
        offered = []
    good = [fix for fix in offered if mends(text, fault, fix)]
    return list({fix.title: fix for fix in reversed(good)}.values())[::-1]


def mends(text: Text, fault: Fault, fix: Fix) -> bool:
    """Whether a fault is gone after the edits of a fix."""
    whole_text = edited(text.text, fix.edits, 0, len(text.text))
    after = [(each.name, each.start) for each in faults_of(Text(whole_text, text.is_job))]
    others = [(each.name, each.start) for each in faults_of(text) if each != fault]
    moved = fault.start + sum(len(new) - (end - start) for start, end, new in fix.edits if start <= fault.start)
    return not {(fault.name, fault.start), (fault.name, moved)} & {*after} and all(each in others or each[1] >= fault.start for each in after)


def offered_in_deck(text: Text, fault: Fault) -> Iterator[Fix]:
    """What may mend a fault of a deck."""
    deck = text.of_deck(fault.deck)
    statement = statement_at(deck, fault.facts["offset"])
    offered = DECK_FIXES.get(fault.name)
    if offered:
        for title, edits in offered(deck, fault.facts, statement):
            yield Fix(title, [(fault.deck.start + start, fault.deck.start + end, new) for start, end, new in sorted(edits)])
    if fault.name == "TooLarge" and text.is_job and fault.facts.get("store"):
        store = next(at for at in range(fault.deck.line - 1, -1, -1) if text.line(at).startswith("STORE "))
        yield Fix(f"Write STORE {fault.facts['store']}", [(text.starts[store], text.starts[store] + len(text.line(store)), f"STORE {fault.facts['store']}")])


Offered = Iterator[Tuple[str, List[Edit]]]


def of_byte(deck: str, facts: dict, _statement: Optional[Statement]) -> Offered:
    """What may mend a byte that no deck has."""
    at = facts["offset"]
    if deck[at] == "\t":
        yield "Write spaces for all tabs", [(each.start(), each.end(), "  ") for each in re.finditer("\t", deck)]
    if deck[at] == "\r":
        yield "Remove all bytes 13", [(each.start(), each.end(), "") for each in re.finditer("\r", deck)]
    end = re.compile("[^\n -~]+").match(deck, at).end()
    yield "Remove this", [(at, end, "")]


def of_comment(deck: str, facts: dict, _statement: Optional[Statement]) -> Offered:
    """What may mend a comment without an end."""
    end = deck.find("\n", facts["offset"])
    at = len(deck) if end < 0 else end
    yield "Write ) at the end of the line", [(at, at, ")")]


def of_semicolon(deck: str, _facts: dict, _statement: Optional[Statement]) -> Offered:
    """What may mend a text after the last `;`."""
    at = len(without_comments(deck).rstrip())
    yield "Write ;", [(at, at, ";")]


def of_statement(deck: str, facts: dict, statement: Optional[Statement]) -> Offered:
    """What may mend a statement that is none: capitals, one that may have been meant, or a `;`."""
    text = deck[statement.start:statement.end]
    if text != capitals(text):
        yield f"Write {capitals(statement.written)}", [(statement.start, statement.end, capitals(text))]
    if re.match(r"\d+:", statement.text):
        yield "Write ; for :", [(statement.start + text.index(":"), statement.start + text.index(":") + 1, ";")]
    if facts["name"] == "UnknownOrder":
        hint = facts["hint"] or {}
        written_here, names = IN_HINT.match(hint.get("said", "")), hint.get("names")
        for other in ([written_here[1].rstrip("; ")] if written_here else []) + (names.split(" or ") if names else []):
            yield f"Write {other}", [(statement.start, statement.end, other)]
    pieces = list(PIECE.finditer(without_comments(deck)[statement.start:statement.end]))[:MOST_PIECES]
    for piece in reversed(pieces[:-1]):
        yield f"Write ; after {text[:piece.end()]}", [(statement.start + piece.end(), statement.start + piece.end(), ";")]


def of_number(_deck: str, facts: dict, statement: Optional[Statement]) -> Offered:
    """What may mend a number that is too large: the largest that is allowed."""
    most = facts["hint"]["number"] if facts["hint"] else LAST_Q_STORE
    first = next((each for each in re.finditer(r"\d+", statement.written) if whole(each[0]) > most), None)
    if first:
        new = statement.written[:first.start()] + str(most) + statement.written[first.end():]
        yield f"Write {new}", [(statement.start, statement.end, new)]


def of_no_finish(deck: str, _facts: dict, _statement: Optional[Statement]) -> Offered:
    """What may mend a deck without an end."""
    before = "" if deck.endswith("\n") or not deck else "\n"
    yield "Write FINISH;", [(len(deck), len(deck), f"{before}FINISH;" + ("\n" if deck.endswith("\n") else ""))]


def of_after_finish(deck: str, facts: dict, _statement: Optional[Statement]) -> Offered:
    """What may mend text after the end of a deck."""
    end = len(deck.rstrip("\n"))
    yield "Remove what comes after FINISH;", [(facts["offset"], end, "")]


def of_second(deck: str, _facts: dict, statement: Optional[Statement]) -> Offered:
    """What may mend a reference or a part that comes a second time: a number that is free."""
    names = names_of(deck)
    use = names.use_at(statement.start)
    taken = {each.number for each in names.by_symbol if (each.kind, each.of) == (use.symbol.kind, use.symbol.of)}
    free = next(number for number in range(1, len(taken) + 2) if number not in taken)
    yield f"Write {deck[use.start:use.digits]}{free}", [(use.digits, use.end, str(free))]


def of_missing(deck: str, facts: dict, statement: Optional[Statement]) -> Offered:
    """What may mend a name of a reference or a part that the deck doesn't have: one that it has, or the reference before the next statement."""
    names = names_of(deck)
    kind = REFERENCE if facts["name"] == "ReferenceMissing" else "part"
    part = names.part_at(names.index_at(statement.start))
    use = next(each for each in names.uses_in(statement, part.number) if each.symbol.kind == kind)
    there = [number for number in names.symbols_of(kind, use.symbol.of) if number]
    for number in sorted(there, key=lambda each: abs(each - use.symbol.number))[:MOST_OFFERED]:
        yield f"Write {deck[statement.start:use.digits]}{number}{deck[use.end:statement.end]}", [(use.digits, use.end, str(number))]
    if kind == "part":
        finish = next((each.start for each in names.statements if each.text == "FINISH"), len(deck))
        yield f"Open part {use.symbol.number}", [(finish, finish, f"P{use.symbol.number};\n  EXIT 1;\n")]


def of_v_store(deck: str, _facts: dict, statement: Optional[Statement]) -> Offered:
    """What may mend a V-store that the part doesn't have: its opening declares as many."""
    names = names_of(deck)
    part = names.part_at(names.index_at(statement.start))
    use = next(each for each in names.uses_in(statement, part.number) if each.symbol.kind == V_STORE)
    own = next(each for each in names.parts if each.number == use.symbol.of)
    opening = own.opening
    new = f"{'PROGRAM' if own.number == 0 else f'P{own.number}'} V{use.symbol.number}"
    if own.highest is None or own.highest < use.symbol.number:
        yield f"Write {new}", [(opening.start, opening.end, new)]


def of_y_store(deck: str, _facts: dict, statement: Optional[Statement]) -> Offered:
    """What may mend a Y-store that the deck doesn't declare: it declares as many."""
    names = names_of(deck)
    part = names.part_at(names.index_at(statement.start))
    use = next(each for each in names.uses_in(statement, part.number) if each.symbol.kind == "Y-store")
    new = f"Y{use.symbol.of}{use.symbol.number}"
    old = next((each for each in names.uses if each.defines and (each.symbol.kind, each.symbol.of) == ("Y-store", use.symbol.of)), None)
    at = names.statements[0].start
    yield f"Declare {new}", [(old.start, old.end, new)] if old else [(at, at, f"{new}; ")]


def of_short_loop(deck: str, _facts: dict, statement: Optional[Statement]) -> Offered:
    """What may mend a short loop whose reference is elsewhere: a `*` before either or both."""
    names = names_of(deck)
    part = names.part_at(names.index_at(statement.start))
    use = names.uses_in(statement, part.number)[0]
    target = names.definition_of(use.symbol)
    jump, place = (statement.start, statement.start, "*; "), (target.start, target.start, "*; ")
    yield "Write *; before the reference", [place]
    yield "Write *; before the loop", [jump]
    yield "Write *; before both", [place, jump]


def of_heading(deck: str, _facts: dict, statement: Optional[Statement]) -> Offered:
    """What may mend a statement out of its sequence: one without an opening before it, or a constant below the orders."""
    names = names_of(deck)
    if not names.parts:
        yield "Write PROGRAM;", [(statement.start, statement.start, "PROGRAM; ")]
    end = deck.find(";", statement.end) + 1 or statement.end
    opening = names.part_at(names.index_at(statement.start))
    if opening and statement.text.startswith("V") and "=" in statement.text:
        after = deck.find(";", opening.opening.end) + 1
        yield f"Move it below {opening.opening.written}", [(after, after, f" {statement.written};"), (statement.start, end, "")]
    if OPENING.match(statement.text) and statement.text.startswith("PROGRAM"):
        return
    yield "Remove this statement", [(statement.start, end, "")]


DECK_FIXES = {
    "BadByte": of_byte, "CommentOpen": of_comment, "NoSemicolon": of_semicolon, "UnknownOrder": of_statement, "ConstantRange": of_statement, "BadNumber": of_number,
    "QRange": of_number, "BadHeading": of_heading, "NoFinish": of_no_finish, "AfterFinish": of_after_finish, "ReferenceTwice": of_second, "PartTwice": of_second,
    "ReferenceMissing": of_missing, "PartMissing": of_missing, "VRange": of_v_store, "YRange": of_y_store, "ShortLoopFar": of_short_loop,
}


def offered_in_job(text: Text, fault: Fault) -> Iterator[Fix]:
    """What may mend a fault of a job."""
    if fault.facts["of"] != "job":
        return
    number = fault.facts["line"] - 1
    if number >= len(read_lines(text.text)):
        before = "" if text.text.endswith("\n") or not text.text else "\n"
        deck = text.decks[-1] if text.decks else None
        below = OF_JOB.search(text.text, deck.start) if deck and deck.end == len(text.text) else None
        if below:
            yield Fix("Write ENDDECK", [(below.start(), below.start(), "ENDDECK\n")])
        for word in ("ENDDECK", "ENDJOB"):
            yield Fix(f"Write {word}", [(len(text.text), len(text.text), f"{before}{word}\n")])
        yield from ([Fix(f"Write {HEADER}", [(0, 0, f"{HEADER}\n")])] if fault.name == "Header" else [])
        return
    start, line = text.starts[number], text.line(number)
    for title, new in lines_instead(line, fault, text, number):
        yield Fix(title, [(start, start + len(line), new)])
    if "\r" in line:
        yield Fix("Remove all bytes 13", [(each.start(), each.end(), "") for each in re.finditer("\r", text.text)])
    if fault.name == "Header":
        yield Fix(f"Write {HEADER} above", [(0, 0, f"{HEADER}\n")])
    if fault.name in ("BadLine", "SlotOrder", "DeviceTwice", "TooManyEvents", "BadMedium"):
        yield Fix("Remove this line", [(start, min(start + len(line) + 1, len(text.text)), "")])


def lines_instead(line: str, fault: Fault, text: Text, number: int) -> Iterator[Tuple[str, str]]:
    """Lines that may stand instead of one with a fault, each with what it does in words."""
    others = [capitals(line), " ".join(line.split()), re.sub(r"(?<= )0+(?=\d)", "", line)]
    word = line.split(" ")[0]
    if fault.name == "Header":
        others.append(HEADER)
    if fault.name == "SizeNotGroups":
        group = table("job")["most"]["words_of_group"]
        size = int(line[6:]) // group * group
        others += [f"STORE {size}", f"STORE {size + group}"]
    if fault.name == "BadNumber" and word in rows_of_lines():
        others += numbers_in_range(line, rows_of_lines()[word]["numbers"])
    if fault.name == "DeviceTwice":
        taken = {int(each[1]) for each in re.finditer(r"^DEVICE (\d+) ", text.text, re.MULTILINE)}
        others += [re.sub(r"\d+", str(free), line, count=1) for free in range(16) if free not in taken][:1]
    if fault.name == "ClockFalls":
        others += [each for each in reversed(text.text.split("\n")[:number]) if each.startswith("CLOCK ")][:1]
    if fault.name == "BadLabel":
        others += [" ".join([*line.split(" ")[:3], re.sub("[^A-Z0-9]", "", capitals(line.split(" ", 3)[3]))[:8]])]
    if fault.name == "ShowRange":
        first, last = line.split(" ")[1:]
        others += [f"SHOW {last} {first}", re.sub(r"\d+\Z", (hint_of(text, fault) or "").rsplit(" ", maxsplit=1)[-1], line)]
    if fault.name == "BadLine":
        said = hint_of(text, fault) or ""
        head = hint("meant", names="").rstrip("?")
        others += [said[len(head):].rstrip("?") + line[len(word):]] if said.startswith(head) else []
    yield from ((f"Write {found_faults.brief(new)}", new) for new in dict.fromkeys(others) if new != line and new.strip())


def numbers_in_range(line: str, ranges: list) -> List[str]:
    """A line with its first number that is out of range as near as one in its range is."""
    words = line.split(" ")
    for at, (least, most) in enumerate(ranges, 1):
        if at < len(words) and words[at].isdecimal() and not least <= whole(words[at]) <= most:
            return [" ".join([*words[:at], str(min(max(whole(words[at]), least), most)), *words[at + 1:]])]
    return []
