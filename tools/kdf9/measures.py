"""The measures that are told of a run, each with what it is of, its name and its value; docs/STUDY.md defines each in a sentence."""
import csv
import io
import json
import re
from typing import Dict, Iterator, List, NamedTuple, Tuple, Union

from kdf9.spent import DeviceFacts, Facts, ProgramFacts
from kdf9.tables import table
from kdf9.words import in_columns

Value = Union[int, float, str]

# How many digits a share has after its point, and of how many calls throughput is told.
DIGITS, THROUGHPUT_CALLS = 4, table("measures")["throughput_calls"]

# How the measure begins that has the calls for which one cause held a program up.
HELD_BY = "held by "

# The columns of the CSV.
COLUMNS = ("job", "of", "number", "measure", "value")


class Measure(NamedTuple):
    """A measure of a run: what it is of (run, slot or device) and the number of that, its name, and its value."""

    of: str
    number: Union[int, str]
    name: str
    value: Value

    @property
    def what(self) -> Tuple[str, Union[int, str], str]:
        """All but the value."""
        return self.of, self.number, self.name


# The form of the name of a measure of a slot or a device, as a plan has it, and of a cause that holds a program up.
OF_ONE, CAUSE = re.compile(r"(slot) [0-3] (.*)|(device) (?:\d|1[0-5]) (.*)"), re.compile(r"(device|group) \d+|pool (TP|LP)")


def is_measure(name: str) -> bool:
    """Whether a run can have a measure of this name."""
    found = OF_ONE.fullmatch(name)
    if not found:
        return name in of_run(Facts(0, 0, 0, 0, 0, {}, {}))
    if found[3]:
        return found[4] in of_device(DeviceFacts("", True, 0, 0, 0, 0, 0, 0), 0)
    cause = found[2][len(HELD_BY):] if found[2].startswith(HELD_BY) else ""
    return bool(CAUSE.fullmatch(cause)) or found[2] in of_program(ProgramFacts("", 0, 0, 0, {}, 0))


def share(part: int, whole: int) -> float:
    """A part as a fraction of the whole; 0 of nothing."""
    return round(part / whole, DIGITS) if whole else 0.0


def measures_of(facts: Facts) -> Iterator[Measure]:
    """All measures of a run, of its programs and of its devices."""
    yield from (Measure("run", "", name, value) for name, value in of_run(facts).items())
    for slot, program in facts.programs.items():
        yield from (Measure("slot", slot, name, value) for name, value in of_program(program).items())
    for number, device in facts.devices.items():
        yield from (Measure("device", number, name, value) for name, value in of_device(device, facts.calls).items())


def by_name(facts: Facts) -> Dict[str, Value]:
    """All measures of a run by the names that docs/STUDY.md gives them."""
    return {said(measure.what): measure.value for measure in measures_of(facts)}


def of_run(facts: Facts) -> Dict[str, Value]:
    """The measures of the processor."""
    over = sum(program.state != "LIVE" for program in facts.programs.values())
    return {
        "calls": facts.calls, "running": facts.running, "held up": facts.held_up, "idle": facts.idle, "overlapped": facts.overlapped,
        "share running": share(facts.running, facts.calls), "share overlapped": share(facts.overlapped, facts.running),
        "throughput": share(THROUGHPUT_CALLS * over, facts.calls),
    }


def of_program(program: ProgramFacts) -> Dict[str, Value]:
    """The measures of a program."""
    held = {f"{HELD_BY}{cause}": calls for cause, calls in program.held.items()}
    return {
        "state": program.state, "orders": program.orders, "turnaround": program.turnaround, "running": program.running, "ready": program.ready,
        "held": sum(program.held.values()), **held,
    }


def of_device(device: DeviceFacts, calls: int) -> Dict[str, Value]:
    """The measures of a device."""
    lent = {"times lent": device.times_lent, "lent": device.lent} if device.is_of_pool else {}
    return {
        "kind": device.kind, "transfers": device.transfers, "words": device.words, "busy": device.busy, "share busy": share(device.busy, calls), "waited for": device.waited_for, **lent,
    }


def as_json(runs: Dict[str, Facts]) -> str:
    """The measures of some runs as JSON: for each, those of the run, of its slots and of its devices."""
    told = []
    for name, facts in runs.items():
        programs = [{"slot": slot, **keyed(of_program(program)), "held_by": program.held} for slot, program in facts.programs.items()]
        devices = [{"device": number, **keyed(of_device(device, facts.calls))} for number, device in facts.devices.items()]
        told.append({"job": name, **keyed(of_run(facts)), "slots": programs, "devices": devices})
    return json.dumps(told, indent=1) + "\n"


def keyed(measures: Dict[str, Value]) -> Dict[str, Value]:
    """Measures by their names as keys of JSON, without those of single causes."""
    return {name.replace(" ", "_"): value for name, value in measures.items() if not name.startswith(HELD_BY)}


def as_csv(runs: Dict[str, Facts]) -> str:
    """The measures of some runs as CSV, a line for each."""
    text = io.StringIO()
    rows = csv.writer(text, lineterminator="\n")
    rows.writerow(COLUMNS)
    for name, facts in runs.items():
        rows.writerows((name, *measure) for measure in measures_of(facts))
    return text.getvalue()


def as_table(runs: Dict[str, Facts]) -> List[str]:
    """The lines of a table: a row for each measure, and a column for each run, with the differences from the first."""
    columns = [{measure.what: measure.value for measure in measures_of(facts)} for facts in runs.values()]
    rows = rows_of(columns)
    cells = [[said(what), *(cell(columns[0].get(what), column.get(what), at) for at, column in enumerate(columns))] for what in rows]
    return in_columns([["", *runs], *cells])


def rows_of(columns: List[dict]) -> List[tuple]:
    """What the rows of a table are of: the measures of all columns, of the run, then of the slots and of the devices."""
    whats = list(dict.fromkeys(what for column in columns for what in column))
    return sorted(whats, key=lambda what: (("run", "slot", "device").index(what[0]), what[1]))


def said(what: tuple) -> str:
    """What a row is of."""
    of, number, name = what
    return name if of == "run" else f"{of} {number} {name}"


def cell(first, value, at: int) -> str:
    """A value, and how it differs from that of the first run."""
    if value is None:
        return "-"
    if at == 0 or isinstance(value, str) or not isinstance(first, (int, float)) or value == first:
        return str(value)
    difference = round(value - first, DIGITS)
    return f"{value} ({difference:+})"
