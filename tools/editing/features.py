"""What an editor asks of a place in a text besides what is said of it: where a name is defined and used, what it may be called, and what may be written there; and
the outline and the tokens of a text.
"""
import functools
import re
from typing import Dict, Iterator, List, NamedTuple, Optional, Tuple

from kdf9.deck import COMMENT, CONSTANT
from kdf9.statements import Statement
from kdf9.tables import lines as rows_of_lines
from kdf9.tables import table

from editing.grammar import FILL, FLOATING, HEADING
from editing.image import image_of, names_of
from editing.naming import PART, REFERENCE, V_STORE, Y_STORE, Names, Symbol, Use, class_of, part_name, places_of
from editing.texts import Deck, Text
from editing.told import orders

# The kinds of tokens by their numbers, as the language server names them, and those of the classes of statements; those that aren't named are orders.
TOKENS = ["comment", "keyword", "function", "variable", "number", "string", "namespace", "label", "operator"]
KINDS = {HEADING: "namespace", FILL: "operator", REFERENCE: "label", FLOATING: "operator", "jumps": "keyword", "stores": "variable"}

# The kinds of symbols and of completions, by the numbers of the protocol.
FILE, NAMESPACE, FUNCTION, VARIABLE, CONSTANT_KIND, EVENT, KEY = 1, 3, 12, 13, 14, 24, 20
OF_ORDER, OF_VARIABLE, OF_REFERENCE, OF_LINE = 3, 6, 18, 14

# The least and the greatest number of a reference and of a part.
NUMBERS = {REFERENCE: (1, 9999), PART: (1, 999)}

# How many stores of a group are offered.
MOST_STORES = 16

DEVICE_LINE = re.compile(r"^DEVICE (\d+) ", re.MULTILINE)
OF_DEVICE = re.compile(r"(?:END|MOVE) (\d+)")


class Found(NamedTuple):
    """A name at a place: its deck, the names of the deck, and the use of it there."""

    deck: Deck
    names: Names
    use: Use


class NotRenamed(Exception):
    """Why a name can't be called so."""


def name_at(text: Text, offset: int) -> Optional[Found]:
    """The name at a place, or None."""
    deck = text.deck_at(offset)
    if deck is None:
        return None
    names = names_of(text.of_deck(deck))
    use = names.use_at(offset - deck.start)
    return use and Found(deck, names, use)


def span_of(text: Text, deck: Deck, use: Use) -> dict:
    """The range of a name."""
    return text.span(deck.start + use.start, deck.start + use.end)


def definition(text: Text, offset: int) -> Optional[dict]:
    """Where the name at a place is defined: a range; that of the device for a line of the schedule."""
    found = name_at(text, offset)
    if found:
        defined = found.names.definition_of(found.use.symbol)
        return defined and span_of(text, found.deck, defined)
    line = OF_DEVICE.match(text.line(text.line_of(offset))) if text.is_job and not text.deck_at(offset) else None
    device = next((each for each in DEVICE_LINE.finditer(text.text) if line and each[1] == line[1] and not text.deck_at(each.start())), None)
    return device and text.span(device.start(), device.end() - 1)


def references(text: Text, offset: int, with_definition: bool = True) -> List[dict]:
    """The ranges of the name at a place, wherever it stands in its deck."""
    found = name_at(text, offset)
    uses = found.names.by_symbol.get(found.use.symbol, []) if found else []
    return [span_of(text, found.deck, use) for use in uses if with_definition or not use.defines]


def range_to_rename(text: Text, offset: int) -> Optional[dict]:
    """The number that would be another if the name at a place were."""
    found = name_at(text, offset)
    if not found or found.use.symbol == Symbol(PART, None, 0):
        return None
    start = found.deck.start + found.use.digits
    return {"range": text.span(start, found.deck.start + found.use.end), "placeholder": str(found.use.symbol.number)}


def renamed(text: Text, offset: int, new: str) -> List[dict]:
    """The edits that give the name at a place another number. Raises NotRenamed where it can't have that."""
    found = name_at(text, offset)
    if not found or found.use.symbol == Symbol(PART, None, 0):
        raise NotRenamed("there is no name here that can be another")
    symbol, names = found.use.symbol, found.names
    prefix = {REFERENCE: "", PART: "P", V_STORE: "V", Y_STORE: f"Y{symbol.of}"}[symbol.kind]
    digits = new[len(prefix):] if prefix and new.startswith(prefix) else new
    if not (digits.isascii() and digits.isdecimal() and len(digits) <= 5):
        raise NotRenamed(f"{new or 'an empty name'} isn't a number")
    other = symbol._replace(number=int(digits))
    least, most = NUMBERS.get(symbol.kind, (0, 32767))
    if not least <= other.number <= most:
        raise NotRenamed(f"it has to be a number from {least} to {most}")
    if other != symbol and other in names.by_symbol:
        raise NotRenamed(f"the deck has {other.said()} already")
    uses = names.by_symbol[symbol]
    edits = [(found.deck.start + use.digits, found.deck.start + use.end, digits) for use in uses]
    check_renamed(text, found.deck, edits, symbol)
    return [{"range": text.span(start, end), "newText": digits} for start, end, digits in edits]


def check_renamed(text: Text, deck: Deck, edits: List[Tuple[int, int, str]], symbol: Symbol) -> None:
    """Asks the machine what comes of a name that is another: a deck without a fault has none then, and only stores may be in other places."""
    before = image_of(text.of_deck(deck), deck.store)
    if not before.is_sound:
        return
    after = image_of(edited(text.text, edits, deck.start, deck.end), deck.store)
    if not after.is_sound:
        raise NotRenamed(f"the deck would have a fault: {after.facts['name']}")
    if symbol.kind in (REFERENCE, PART) and after.words != before.words:
        raise NotRenamed("the program would be another one")


def edited(text: str, edits: List[Tuple[int, int, str]], start: int, end: int) -> str:
    """The part of a text from `start` to `end` after these edits of it, which are in sequence."""
    parts, at = [], start
    for first, last, new in edits:
        parts += [text[at:first], new]
        at = last
    return "".join([*parts, text[at:end]])


def completions(text: Text, offset: int, with_places: bool) -> List[dict]:
    """What may be written at a place: orders, with places for their operands if the editor has such, the deck's names, and lines of a job."""
    deck = text.deck_at(offset)
    if deck is None:
        return list(lines_offered(text, offset))
    names = names_of(text.of_deck(deck))
    before = re.search(r"[^;()\n]*\Z", text.text[max(deck.start, offset - 200):offset])
    typed = "".join(before[0].split())
    start = offset - len(before[0].lstrip(" "))
    index = max((at for at, each in enumerate(names.statements) if each.start < offset - deck.start), default=-1)
    part = names.part_at(index) if index >= 0 else None
    found = [*stores_offered(names, part.number if part else None), *jumps_offered(names, part.number if part else None), *orders_offered(with_places)]
    span = text.span(start, offset)
    return [
        {**{key: value for key, value in each.items() if key != "new"}, "textEdit": {"range": span, "newText": each["new"]}}
        for each in found if each["label"].startswith(re.sub(r"\d+\Z", "", typed)) or not typed or each["label"].startswith(typed)
    ]


def orders_offered(with_places: bool) -> Iterator[dict]:
    """Every order."""
    for order in table("orders")["orders"]:
        name = order["name"]
        numbers = iter(range(1, 9))
        new = re.sub(r"[a-z]", lambda letter: f"${{{next(numbers)}:{letter[0]}}}", name) if with_places else re.split(r"[a-z]", name, maxsplit=1)[0]
        yield {
            "label": name, "kind": OF_ORDER, "detail": f"{order['group']}, {order['syllables']} syllables", "new": new, "insertTextFormat": 2 if with_places else 1,
            "filterText": name, "documentation": {"kind": "markdown", "value": orders().get(name, "")},
        }


def stores_offered(names: Names, part: Optional[int]) -> Iterator[dict]:
    """The stores that a deck declares, fetched and stored."""
    highest = [(f"Y{letter}", "", last) for letter, last in names.highest_stores().items()]
    highest += [("V", "" if of.number == part else f"P{of.number}", of.highest) for of in names.parts if of.highest is not None]
    for before, after, last in highest:
        for number in range(min(last + 1, MOST_STORES)):
            for sign in ("", "="):
                label = f"{sign}{before}{number}{after}"
                yield {"label": label, "kind": OF_VARIABLE, "detail": f"{before}0 to {before}{last}{after}", "new": label, "sortText": f"0{label}"}


def jumps_offered(names: Names, part: Optional[int]) -> Iterator[dict]:
    """Jumps to the references of a part, and to the other parts."""
    targets = [(f"J{number}", f"reference {number} of {part_name(part)}") for number in names.symbols_of(REFERENCE, part)]
    targets += [(f"JSP{of.number}", part_name(of.number)) for of in names.parts if of.number]
    for label, detail in targets:
        yield {"label": label, "kind": OF_REFERENCE, "detail": detail, "new": label, "sortText": f"0{label}"}


def lines_offered(text: Text, offset: int) -> Iterator[dict]:
    """The lines of a job."""
    start = text.starts[text.line_of(offset)]
    for word, row in rows_of_lines().items():
        yield {
            "label": row["form"], "kind": OF_LINE, "filterText": row["form"],
            "textEdit": {"range": text.span(start, offset), "newText": word + " " * (" " in row["form"])},
        }


def outline(text: Text) -> List[dict]:
    """The parts of each deck with their references and constants, below the slots and devices of a job."""
    decks = [outline_of_deck(text, deck) for deck in text.decks]
    if not text.is_job:
        return decks[0] if decks else []
    found = []
    for number, line in enumerate(text.text.split("\n")):
        start = text.starts[number]
        if line.startswith("SLOT ") and not inside(text, start):
            deck = next((at for at, each in enumerate(text.decks) if each.start > start), None)
            end = text.decks[deck].end if deck is not None else start + len(line)
            found.append(symbol_of(text, line, NAMESPACE, (start, end), (start, start + len(line)), decks[deck] if deck is not None else []))
        elif line.startswith(("DEVICE ", "POOL", "SCHEDULE")) and not inside(text, start):
            found.append(symbol_of(text, line, EVENT if line == "SCHEDULE" else KEY, (start, start + len(line)), (start, start + len(line)), []))
    return found


def inside(text: Text, offset: int) -> bool:
    """Whether a line of a job is one of a deck."""
    return any(deck.start <= offset < deck.end for deck in text.decks)


def outline_of_deck(text: Text, deck: Deck) -> List[dict]:
    """The declarations and parts of a deck."""
    names = names_of(text.of_deck(deck))
    found, end_of = [], [part.opening.start for part in names.parts[1:]] + [len(names.deck)]
    for use in names.uses:
        if use.defines and use.symbol.kind == Y_STORE:
            found.append(leaf(text, deck, use, VARIABLE))
    ends = dict(zip([part.opening.start for part in names.parts], end_of))
    below: Dict[int, List[dict]] = {start: [] for start in ends}
    starts = list(ends)
    at = -1
    for use in names.uses:
        while at + 1 < len(starts) and starts[at + 1] <= use.start:
            at += 1
        if use.defines and at >= 0 and use.symbol.kind in (REFERENCE, V_STORE):
            below[starts[at]].append(leaf(text, deck, use, FUNCTION if use.symbol.kind == REFERENCE else CONSTANT_KIND))
    for part in names.parts:
        start, opening = part.opening.start, part.opening
        span = (deck.start + start, deck.start + ends[start])
        found.append(symbol_of(text, opening.written, NAMESPACE, span, (deck.start + opening.start, deck.start + opening.end), below[start]))
    return found


def leaf(text: Text, deck: Deck, use: Use, kind: int) -> dict:
    """A name of an outline without others below it."""
    span = (deck.start + use.start, deck.start + use.end)
    return symbol_of(text, names_of(text.of_deck(deck)).deck[use.start:use.end], kind, span, span, [])


def symbol_of(text: Text, name: str, kind: int, whole: Tuple[int, int], own: Tuple[int, int], below: List[dict]) -> dict:
    """An entry of an outline."""
    return {"name": name, "kind": kind, "range": text.span(*whole), "selectionRange": text.span(*own), "children": below}


def tokens(text: Text, start: int, end: int) -> List[int]:
    """The tokens between two places, as the protocol has them: five numbers each, relative to the token before."""
    found, line, character = [], 0, 0
    numbers, is_plain, at = {kind: number for number, kind in enumerate(TOKENS)}, text.text.isascii(), text.line_of(start)
    starts = [*text.starts, len(text.text) + 1]
    for first, last, kind in sorted(tokens_of(text, start, end)):
        while starts[at + 1] <= first:
            at += 1
        parts = [(first, last)] if last < starts[at + 1] else parts_by_line(text, first, last)
        for begins, ends in parts:
            on = at if begins < starts[at + 1] else text.line_of(begins)
            column, size = (begins - starts[on], ends - begins) if is_plain else columns(text, begins, ends)
            found += (on - line, column - character if on == line else column, size, numbers[kind], 0)
            line, character = on, column
    return found


def columns(text: Text, start: int, end: int) -> Tuple[int, int]:
    """Where a part of a line begins, and how long it is, as the editor counts."""
    first, last = text.position(start)["character"], text.position(end)["character"]
    return first, last - first


def parts_by_line(text: Text, first: int, last: int) -> Iterator[Tuple[int, int]]:
    """The parts of a span, each within a line: no editor takes one of several."""
    for number in range(text.line_of(first), text.line_of(max(first, last - 1)) + 1):
        begins = max(first, text.starts[number])
        ends = min(last, text.starts[number] + len(text.line(number)))
        if begins < ends:
            yield begins, ends


def tokens_of(text: Text, start: int, end: int) -> Iterator[Tuple[int, int, str]]:
    """The tokens between two places: where each begins and ends, and its kind."""
    for deck in text.decks:
        if deck.end < start or deck.start > end:
            continue
        names = names_of(text.of_deck(deck))
        for found in COMMENT.finditer(names.deck):
            if start <= deck.start + found.end() and deck.start + found.start() <= end:
                yield deck.start + found.start(), deck.start + found.end(), "comment"
        for statement in names.between(start - deck.start, end - deck.start):
            yield from tokens_of_statement(names, statement, deck.start)
    if text.is_job:
        yield from tokens_of_lines(text, start, end)


@functools.lru_cache(maxsize=1 << 14)
def parts_of(text: str) -> Tuple[Tuple[int, int, str], ...]:
    """The tokens of a statement of this text: its numbers, and what stands between them."""
    kind, constant = class_of(text), CONSTANT.match(text)
    if kind is None and not constant:
        return ()
    if constant and text[constant.end():].startswith("P"):
        return (0, constant.end(), "variable"), (constant.end(), len(text), "string")
    if kind == REFERENCE:
        return ((0, len(text), "label"),)
    name = "variable" if constant else KINDS.get(kind, "function")
    return tuple((each.start(), each.end(), "number" if each[0].isdecimal() else name) for each in re.finditer(r"\d+|[^\d/]+", text))


def tokens_of_statement(names: Names, statement: Statement, by: int) -> Iterator[Tuple[int, int, str]]:
    """The tokens of a statement of a deck that begins here. Where spaces or comments stand in one, each of its characters is one."""
    parts = parts_of(statement.text)
    if statement.end - statement.start == len(statement.text):
        start = by + statement.start
        for first, last, what in parts:
            yield start + first, start + last, what
        return
    places = places_of(names.deck, statement)
    for first, last, what in parts:
        if places[last - 1] - places[first] == last - 1 - first:
            yield by + places[first], by + places[last - 1] + 1, what
        else:
            yield from ((by + places[at], by + places[at] + 1, what) for at in range(first, last))


def tokens_of_lines(text: Text, start: int, end: int) -> Iterator[Tuple[int, int, str]]:
    """The tokens of the lines of a job outside of its decks."""
    number, last = text.line_of(start), text.line_of(end)
    while number <= last:
        begins, line = text.starts[number], text.line(number)
        deck = next((each for each in text.decks if each.start <= begins < each.end), None)
        if deck:
            number = text.line_of(deck.end - 1) + 1
            continue
        if line[:1] in ("+", "="):
            yield begins, begins + len(line), "string"
        else:
            for found in re.finditer(r"\S+", line):
                yield begins + found.start(), begins + found.end(), "number" if found[0].isdecimal() else "keyword"
        number += 1
