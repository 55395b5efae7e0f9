"""A plan: a text that names a job, or makes one at random, and the values that it is to be run with. It is JSON, or TOML where Python reads that.

A plan has the keys `job` or `workload`, `values`, and, if they are wanted, `measures` and `plots`. A parameter of `values` that has a list has its values in turn; all
combinations are run. One that has a single value is held fixed.
"""
import hashlib
import itertools
import json
import pathlib
import re
from typing import Any, Callable, Dict, Iterator, List, NamedTuple, NoReturn, Tuple, Union

from kdf9.fault import sound_lines
from kdf9.job import join_lines, kinds_of, read_pool, read_slots
from kdf9.measures import is_measure
from kdf9.program import ENCODING, BadInput, read_text
from kdf9.tables import kinds, table
from kdf9.words import listed
from plans import workload

Value = Union[int, float, str]

# A plot: what goes across and up, the parameter of its lines, the values that its rows have to have, and its title.
Plot = Dict[str, Any]

MOST_CALLS, MOST_RUNS = 20000000, 10000000
KEYS = ("job", "workload", "values", "measures", "plots")
OF_PLOT = ("across", "up", "lines", "only", "title")

# The parameters by the form of their names, what is told of them where a name is wrong, and the least and the greatest of those whose values are whole numbers.
AFTER, POOL, INPUT = re.compile(r"after( (?:\d|1[0-5]))?"), re.compile(r"pool (TP|LP)"), re.compile(r"input (?:\d|1[0-5])")
ALLOWED = "programs, priorities, after, after D with the number of a device, speeds, faster, pool TP, pool LP, schedule, tick and input D"
NUMBERS = {"seed": (0, 10**9), "degree": (1, workload.PROGRAMS), "computing": (0, 99), "rounds": (1, 100), "schedule": (1, MOST_CALLS), "tick": (1, MOST_CALLS)}

# What a value of another parameter has to be: what is said of it, and whether it is so.
LEAST_FASTER, MOST_FASTER = 0.001, 1000

# How Python says the place of what is wrong with JSON or TOML.
PLACE = re.compile(r"(?:: | \(at )line (\d+),? column (\d+)(?: \(char \d+\)|\))")


class Run(NamedTuple):
    """A run of a plan: its number, from 1, and the value of each parameter that isn't fixed."""

    number: int
    values: Dict[str, Value]


class Source(NamedTuple):
    """What the jobs of a plan are made from: the lines of a job, or none for a workload; whether it is a workload; the values that are fixed; and the lines of the
    files that are put into devices, by their names.
    """

    job: List[str]
    workload: bool
    fixed: Dict[str, Value]
    inputs: Dict[str, List[str]]

    def makes(self, name: str) -> bool:
        """Whether a parameter changes the lines of the slots or the pool, by which programs are told apart."""
        return bool(INPUT.fullmatch(name)) or self.workload and name in workload.USUAL

    def lines(self, values: Dict[str, Value]) -> List[str]:
        """The lines of the job of these values."""
        lines = workload.lines_of(dict(values)) if self.workload else self.job
        for name, value in values.items():
            if INPUT.fullmatch(name):
                lines = with_medium(lines, int(name[6:]), self.inputs[str(value)])
        return lines


def with_medium(lines: List[str], device: int, medium: List[str]) -> List[str]:
    """The lines of a job in which a device of a slot has this medium."""
    after = max(at for at, line in enumerate(lines) if line.startswith(f"DEVICE {device} "))
    end = next(at for at in range(after + 1, len(lines)) if not lines[at].startswith(("+", "=")))
    return [*lines[:after + 1], *medium, *lines[end:]]


class Plan:
    """A plan that was read and found to be sound: its source, its parameters, the measures that it asks for, or none for all, and its plots."""

    def __init__(self, name: str) -> None:
        self._name, self._text = name, read_text(name).encode(ENCODING).decode("utf-8", "surrogateescape")
        record = self._record()
        for key in record:
            if key not in KEYS:
                self._refuse(key, f"isn't a key of a plan; they are {listed(KEYS)}")
        values = record.get("values")
        if not isinstance(values, dict):
            self._refuse("values", "has to have the parameters")
        self.source = self._source(record)
        self.parameters: Dict[str, List[Value]] = {}
        for parameter, value in values.items():
            self._check(parameter, value)
        self._check_job()
        self.measures: List[str] = record.get("measures", [])
        if not isinstance(self.measures, list) or not all(isinstance(measure, str) for measure in self.measures):
            self._refuse("measures", "has to be a list of names of measures")
        for measure in self.measures:
            self._check_measure(measure)
        self.plots: List[Plot] = self._plots(record.get("plots", []))
        if len(self) > MOST_RUNS:
            self._refuse("values", f"makes {len(self)} runs, and {MOST_RUNS} are the most")

    def __len__(self) -> int:
        """How many runs the plan has."""
        runs = 1
        for values in self.parameters.values():
            runs *= len(values)
        return runs

    @property
    def checksum(self) -> str:
        """A checksum of all that decides the rows of the plan."""
        source = self.source
        decides = [source.job, list(self.parameters.items()), self.measures]
        more = [source.workload, source.fixed, source.inputs]
        return checksum(json.dumps(decides + more if any(more) else decides))

    def run(self, number: int) -> Run:
        """The run of this number, from 1; the values of the last parameter change first."""
        if not 1 <= number <= len(self):
            raise BadInput(f"{self._name}: the plan has the runs 1 to {len(self)}, and no run {number}")
        left, values = number - 1, []
        for parameter in reversed(self.parameters):
            left, at = divmod(left, len(self.parameters[parameter]))
            values.append((parameter, self.parameters[parameter][at]))
        return Run(number, dict(reversed(values)))

    def _record(self) -> Dict[str, Any]:
        """What the text of the plan has."""
        if self._name.endswith(".toml"):
            try:
                import tomllib  # pylint: disable=import-outside-toplevel
            except ImportError:
                raise BadInput(f"{self._name}: this Python reads no TOML; it takes 3.11, or the plan as JSON") from None
            read: Callable[[str], object] = tomllib.loads
        else:
            read = json.loads
        try:
            record = read(self._text)
        except (ValueError, RecursionError) as why:
            form = "TOML" if self._name.endswith(".toml") else "JSON"
            raise BadInput(f"{self._name}{place_of(why)}: this isn't {form}: {brief_of(why)}; a plan is JSON, or TOML if its name ends with .toml") from why
        return record if isinstance(record, dict) else self._refuse("", "a plan is an object with the keys job and values")

    def _source(self, record: Dict[str, Any]) -> Source:
        """What the jobs of the plan are made from."""
        if "workload" not in record:
            name = record.get("job")
            path = self._path(name if isinstance(name, str) else self._refuse("job", "has to be the name of a file"))
            return Source(sound_lines(str(path), read_text(str(path))), False, {}, {})
        fixed = record["workload"]
        if not isinstance(fixed, dict) or "job" in record:
            self._refuse("workload", "has to have parameters of a workload, and no job stands beside it")
        source = Source([], True, {}, {})
        for parameter, value in fixed.items():
            if parameter not in workload.USUAL:
                self._refuse(parameter, f"isn't a parameter of a workload; they are {listed(list(workload.USUAL))}")
            self._check_workload(parameter, value)
            source.fixed[parameter] = value
        return source

    def _path(self, name: str) -> pathlib.Path:
        """The file of a name, which is seen from the folder of the plan."""
        return pathlib.Path(self._name).parent / name

    def _check(self, parameter: str, values: object) -> None:
        """Keeps a parameter, and refuses one that there isn't, or values that it can't have."""
        each = values if isinstance(values, list) else [values]
        if not each or len(set(map(str, each))) < len(each):
            self._refuse(parameter, "has to be a list of different values")
        for value in each:
            self._check_value(parameter, value)
        if isinstance(values, list):
            self.parameters[parameter] = values
        else:
            self.source.fixed[parameter] = each[0]

    def _check_value(self, parameter: str, value: object) -> None:
        """Refuses a value that a parameter can't have."""
        if parameter == "priorities":
            if not isinstance(value, str) or sorted(value) != list("0123"):
                self._refuse(parameter, f'has {value!r}; a value is the slots 0 to 3, the highest priority first, such as "1023"')
        elif parameter == "speeds":
            self._check_one_of(parameter, value, sorted(table("speeds")))
        elif parameter == "faster":
            if isinstance(value, bool) or not isinstance(value, (int, float)) or not LEAST_FASTER <= value <= MOST_FASTER:
                self._refuse(parameter, f"has {value!r}; a value is a number from {LEAST_FASTER} to {MOST_FASTER}")
        elif parameter in ("schedule", "tick") or self.source.workload and parameter in workload.USUAL:
            self._check_workload(parameter, value)
        elif AFTER.fullmatch(parameter):
            self._check_number(parameter, value, 0, MOST_CALLS)
        elif POOL.fullmatch(parameter):
            self._check_number(parameter, value, 0, 15)
        elif INPUT.fullmatch(parameter):
            if not isinstance(value, str):
                self._refuse(parameter, f"has {value!r}; a value is the name of a file with the lines of the device")
            self.source.inputs[value] = read_text(str(self._path(value))).splitlines()
        elif parameter != "programs":
            self._refuse(parameter, f"isn't a parameter; they are {ALLOWED}{self._allowed_of_workload()}")

    def _allowed_of_workload(self) -> str:
        """The parameters that only a workload has."""
        return f"; and of a workload {listed(list(workload.USUAL))}" if self.source.workload else ""

    def _check_workload(self, parameter: str, value: object) -> None:
        """Refuses a value that a parameter of a workload can't have."""
        if parameter in NUMBERS:
            self._check_number(parameter, value, *NUMBERS[parameter])
            return
        allowed, least = (sorted(kinds()), 1) if parameter == "kinds" else (list(workload.SHARED), 0)
        named = value.split(" ") if isinstance(value, str) and value else []
        if not isinstance(value, str) or len(named) < least or not set(named) <= set(allowed) or len(set(named)) < len(named):
            self._refuse(parameter, f'has {value!r}; a value is kinds of devices, {listed(allowed)}, such as "{" ".join(allowed[:2])}"')

    def _check_one_of(self, parameter: str, value: object, allowed: List[str]) -> None:
        if value not in allowed:
            self._refuse(parameter, f"has {value!r}; a value is {listed(allowed, 'or')}")

    def _check_number(self, parameter: str, value: object, least: int, most: int) -> None:
        if isinstance(value, bool) or not isinstance(value, int) or not least <= value <= most:
            self._refuse(parameter, f"has {value!r}; a value is a number from {least} to {most}")

    def _check_job(self) -> None:
        """Refuses values that the job of the plan can't have: slots and devices that it hasn't, and media that are none."""
        for values in self._first_values():
            lines = self.source.lines(values)
            slots, pool = read_slots(lines), kinds_of(read_pool(lines))
            own = {number: kind for slot in slots.values() for number, kind in slot.kinds().items()}
            for parameter, each in [*self.parameters.items(), *((name, [value]) for name, value in self.source.fixed.items())]:
                for value in each:
                    self._check_in_job(parameter, value, slots, own, pool)
        for parameter, each in [*self.parameters.items(), *((name, [value]) for name, value in self.source.fixed.items())]:
            for value in each if INPUT.fullmatch(parameter) else ():
                sound_lines(f"{value} in device {parameter[6:]}", join_lines(self.source.lines({parameter: value})))

    def _first_values(self) -> Iterator[Dict[str, Value]]:
        """The values of a job to check the others by: of a workload, those with the most programs for each choice of kinds."""
        fixed = self.source.fixed
        varied = {name: self.parameters.get(name, [fixed[name]] if name in fixed else []) for name in ("kinds", "shared")}
        degree = {"degree": max([int(value) for value in self.parameters.get("degree", [fixed.get("degree", workload.USUAL["degree"])])])}
        if not self.source.workload:
            yield {}
            return
        for choice in itertools.product(*(values or [None] for values in varied.values())):
            yield {**degree, **{name: value for name, value in zip(varied, choice) if value is not None}}

    def _check_in_job(self, parameter: str, value: Value, slots: dict, own: Dict[int, str], pool: Dict[int, str]) -> None:
        """Refuses a value that names what the job doesn't have."""
        if parameter == "programs":
            if not isinstance(value, str) or not value or sorted(set(value)) != list(value) or not set(value) <= set(map(str, slots)):
                self._refuse(parameter, f'has {value!r}; a value is slots of the job in rising sequence, such as "{"".join(map(str, slots))}"')
        elif AFTER.fullmatch(parameter):
            if parameter != "after" and int(parameter[6:]) not in {**own, **pool} and not self.source.workload:
                self._refuse(parameter, f"names device {parameter[6:]}, which the job doesn't have")
        elif POOL.fullmatch(parameter):
            others = {**own, **{number: kind for number, kind in pool.items() if kind != parameter[5:]}}
            self._check_number(parameter, value, 0, 16 - len(others))
        elif INPUT.fullmatch(parameter) and int(parameter[6:]) not in own:
            self._refuse(parameter, f"names device {parameter[6:]}, which no slot of the job has")

    def _check_measure(self, name: str) -> None:
        """Refuses what no run can have as a measure."""
        if not is_measure(name):
            self._refuse(name, "isn't a measure; they are in docs/STUDY.md, such as calls, slot 0 turnaround and device 2 busy")

    def _plots(self, plots: object) -> List[Plot]:
        """The plots that the plan asks for."""
        if not isinstance(plots, list) or not all(isinstance(plot, dict) and {"across", "up"} <= set(plot) <= set(OF_PLOT) for plot in plots):
            self._refuse("plots", f"has to be a list of plots, each with {listed(OF_PLOT[:2])}, and with {listed(OF_PLOT[2:])} if they are wanted")
        for plot in plots:
            for key in ("across", "lines"):
                if key in plot and plot[key] not in self.parameters:
                    self._refuse("plots", f"has a plot with {key} {plot[key]!r}, which isn't a parameter with several values")
            if not isinstance(plot["up"], str) or self.measures and plot["up"] not in self.measures:
                self._refuse("plots", f"has a plot of {plot['up']!r}, which isn't one of the measures")
            self._check_measure(plot["up"])
            only = plot.get("only", {})
            if not isinstance(only, dict) or not all(value in self.parameters.get(name, []) for name, value in only.items()):
                self._refuse("plots", f"has a plot only of {only!r}; it has to have parameters, and for each one of its values")
        return plots

    def _refuse(self, key: str, why: str) -> NoReturn:
        """Ends with what is wrong with a key of the plan, and with its line, if it is there."""
        line = next((at for at, text in enumerate(self._text.split("\n"), 1) if key and key in text), 1)
        raise BadInput(f"{self._name}:{line}: {key + ' ' if key else ''}{why}")


def place_of(why: Exception) -> str:
    """The line and the column of what is wrong with a text, as they stand after the name of its file; none if it doesn't say them."""
    found = PLACE.search(str(why))
    return f":{found[1]}:{found[2]}" if found else ""


def brief_of(why: Exception) -> str:
    """What is wrong with a text, without its place, and in few words."""
    return " ".join(PLACE.sub("", str(why)).split())[:200]


def checksum(text: str) -> str:
    """The first 16 digits of the SHA-256 of a text."""
    return hashlib.sha256(text.encode("latin-1", "replace")).hexdigest()[:16]


def part_of(word: str) -> Tuple[int, int]:
    """The part and the number of parts that an argument I/N has."""
    found = re.fullmatch(r"([1-9]\d{0,5})/([1-9]\d{0,5})", word)
    if not found or int(found[1]) > int(found[2]):
        raise ValueError(word)
    return int(found[1]), int(found[2])
