"""A report as JSON and back. Each of the two is the other's inverse: what has no inverse is refused, with its place."""
import json
from typing import Any, Dict, Iterator, List

from kdf9.changes import number_of
from kdf9.job import join_lines, read_lines
from kdf9.program import ENCODING, BadInput
from kdf9.report import HEADERS, Device, Report, Section, read
from kdf9.tables import table

Record = Dict[str, Any]

# The fields after the first word of an entry, by name.
FIELDS = {row["entry"]: row["fields"] for row in table("entries")}

# The lists of a section, and the forms of their lines; and the lists of devices, and the first words of theirs.
REPEATED = (("q", "Q {q} {counter} {increment} {modifier}"), ("words", "WORD {address} {octal}"), ("spools", "SPOOL {stream} {text}"))
DEVICES = (("devices", "DEVICE"), ("stints", "POOL"))


def line_of_entry(record: Record) -> str:
    """The line of an entry."""
    return " ".join([record["entry"], *(str(record[name]) for name in FIELDS[record["entry"]])])


def record_of_word(word: int) -> Record:
    """A word, octal and decimal."""
    return {"octal": f"{word:016o}", "number": number_of(word)}


def record_of_device(device: Device) -> Record:
    """A device with its blocks."""
    held, _, place, _, flag = device.state.split(" ")
    blocks = [{"text": text, "marked": is_marked} for text, is_marked in zip(device.blocks, device.marks)]
    return {"device": device.number, "kind": device.kind, "claimed": held == "HELD", "place": int(place), "flag": int(flag), "blocks": blocks}


def record_of_section(section: Section) -> Record:
    """The section of a program."""
    spools = [spool.split(" ", 1) for spool in section.spools]
    return {
        "slot": section.number, "state": " ".join(section.state), "orders": section.orders, "at": list(section.at), "v": section.flags[0], "tr": section.flags[1],
        "nest": [record_of_word(word) for word in section.nest], "links": section.links,
        "q": [{"q": q, "counter": parts[0], "increment": parts[1], "modifier": parts[2]} for q, parts in section.q_stores.items()],
        "words": [{"address": address, **record_of_word(word)} for address, word in section.words.items()],
        "spools": [{"stream": int(stream), "text": text} for stream, text in spools],
        "devices": [record_of_device(device) for device in section.devices], "stints": [record_of_device(device) for device in section.stints],
    }


def record_of_report(report: Report) -> Record:
    """A report, or the text of a lone program."""
    journal = [{"entry": word, **dict(zip(FIELDS[word], rest))} for word, *rest in report.entries]
    return {"text": report.header, "journal": journal, "slots": [record_of_section(section) for section in report.sections.values()]}


def lines_of_report(record: Record) -> Iterator[str]:
    """The lines of a report."""
    yield record["text"]
    yield from map(line_of_entry, record["journal"])
    for section in record["slots"]:
        yield from lines_of_section(section)
    yield "ENDREPORT"


def lines_of_section(section: Record) -> Iterator[str]:
    """The lines of a section."""
    yield from (f"SLOT {section['slot']}", f"STATE {section['state']}", f"ORDERS {section['orders']}")
    yield from (f"AT {' '.join(map(str, section['at']))}", f"FLAGS {section['v']} {section['tr']}")
    yield " ".join(["NEST", str(len(section["nest"])), *(word["octal"] for word in section["nest"])])
    yield " ".join(["LINKS", str(len(section["links"])), *section["links"]])
    for name, form in REPEATED:
        yield from (form.format(**each) for each in section[name])
    for name, word in DEVICES:
        for device in section[name]:
            held = "HELD" if device["claimed"] else "FREE"
            yield f"{word} {device['device']} {device['kind']} {held} PLACE {device['place']} FLAG {device['flag']}"
            yield from (f"{'LAST' if block['marked'] else 'BLOCK'} {block['text']}" for block in device["blocks"])


def parts_of_json(record: Record) -> Iterator[str]:
    """The JSON of a record, piece by piece, with an entry or a section on each line."""
    encode = json.JSONEncoder().encode
    yield f'{{"text": {encode(record["text"])},\n"journal": ['
    for name, separator in (("journal", '],\n"slots": ['), ("slots", "]}\n")):
        for at, part in enumerate(record[name]):
            yield (",\n" if at else "\n") + encode(part)
        yield separator


def read_record(text: str, name: str) -> Record:
    """The record of a report of which `name` says whose text it is. Each of its lines has to be as the record leads to it."""
    record = record_of_report(read(text, name, HEADERS))
    for at, (line, due) in enumerate(zip(read_lines(text), lines_of_report(record)), 1):
        if line != due:
            raise BadInput(f"{name}:{at}: this line isn't allowed here: {line[:60]}")
    return record


def read_json(text: str, name: str) -> List[str]:
    """The lines of the report that a JSON text is, of which `name` says whose it is."""
    try:
        record = json.loads(text)
    except (ValueError, RecursionError) as why:
        place = f"{name}:{why.lineno}:{why.colno}" if isinstance(why, json.JSONDecodeError) else name
        raise BadInput(f"{place}: this isn't JSON") from why
    try:
        lines = list(lines_of_report(record))
        same = all("\n" not in line and line.encode(ENCODING) for line in lines) and record_of_report(read(join_lines(lines), name, HEADERS)) == record
    except BadInput:
        same = False
    except (AttributeError, IndexError, KeyError, TypeError, ValueError) as why:
        raise BadInput(f"{name}: this JSON isn't a report: {f'{why} is missing or unknown' if isinstance(why, KeyError) else 'a part has the wrong form'}") from why
    if not same:
        raise BadInput(f"{name}: this JSON isn't a report: a part has a value that a report can't have")
    return lines
