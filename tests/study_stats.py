"""Compares what ./kdf9 stats tells of jobs that chance makes with the plain counts of tests/plain_counts.py, and finds that every sum holds."""
import csv
import io
import json
import random
from collections import Counter
from typing import Iterator, Optional, Tuple

import random_jobs
from kdf9.machine import sound_facts
from kdf9.measures import as_csv, as_json, as_table, measures_of
from kdf9.program import ask
from kdf9.spent import Facts, facts_of
from plain_counts import Counts, held_by, waited_for

Case = Tuple[str, Optional[str]]


def cases(number: int, seed: int) -> Iterator[Case]:
    """The cases of so many jobs."""
    left = number
    while left:
        text = random_jobs.job(random.Random(seed))
        answer = ask(["run"], text)
        if not answer.status:
            yield f"stats of job {seed}", why_wrong(text, answer.text)
            left -= 1
        seed += 1


def why_wrong(text: str, report: str) -> Optional[str]:
    """What is wrong with the facts of a job and its report, or with how they are told; or None."""
    told = sound_facts(text)
    facts, counts = facts_of(told), Counts(report)
    return why_other(facts, counts) or why_no_sum(facts) or why_untold(facts, told) or why_told_otherwise(facts)


def why_untold(facts: Facts, told: dict) -> Optional[str]:
    """Where what is added up isn't what the machine has counted."""
    for each in told["calls"]:
        held: Counter = Counter()
        for cause, calls in facts.programs[each["slot"]].held.items():
            held[cause.split(" ")[0]] += calls
        if {**dict.fromkeys(each["calls"]["held"], 0), **held} != each["calls"]["held"]:
            return f"the causes of slot {each['slot']} are {held}, and the machine counts {each['calls']['held']}"
    words: Counter = Counter()
    for transfer in told["transfers"]:
        words[transfer["device"]] += transfer["moved"] if transfer["ended"] is None else transfer["words"]
    due = {number: words[number] for number in facts.devices}
    return None if {number: device.words for number, device in facts.devices.items()} == due else f"the words aren't {due}"


def why_other(facts: Facts, counts: Counts) -> Optional[str]:
    """How the facts differ from the plain counts."""
    run = {name: getattr(facts, name.replace(" ", "_")) for name in ("calls", "running", "held up", "idle", "overlapped")}
    if run != {name: counts.run[name] for name in run}:
        return f"the run has {run} and not {counts.run}"
    for slot, program in facts.programs.items():
        own = counts.slots[slot]
        told = (program.running, program.ready, program.turnaround, program.held, program.orders)
        if told != (own["running"], own["ready"], own["turnaround"], held_by(own), own["running"]):
            return f"slot {slot} has {told} and not {own}"
    for number, device in facts.devices.items():
        due = counts.devices[number]
        told = (device.transfers, device.busy, device.waited_for, device.times_lent, device.lent)
        if told != (due["transfers"], due["busy"], waited_for(counts, number), due["times lent"], due["lent"]):
            return f"device {number} has {told} and not {due}"
    return None


def why_no_sum(facts: Facts) -> Optional[str]:
    """Which sum doesn't hold."""
    programs = facts.programs.values()
    if facts.running + facts.held_up + facts.idle != facts.calls or sum(program.running for program in programs) != facts.running:
        return f"the calls of the run are no sum: {facts}"
    if any(program.running + program.ready + sum(program.held.values()) != program.turnaround or program.turnaround > facts.calls for program in programs):
        return f"the calls of a program are no sum: {facts}"
    return None if facts.overlapped <= facts.running else f"more is overlapped than runs: {facts}"


def why_told_otherwise(facts: Facts) -> Optional[str]:
    """How the table, the CSV and the JSON differ from the measures."""
    due = [["a job", *map(str, measure)] for measure in measures_of(facts)]
    rows = list(csv.reader(io.StringIO(as_csv({"a job": facts}))))
    if rows[1:] != due:
        return f"the CSV has {rows}"
    table = list(as_table({"a job": facts, "another": facts}))
    if len(table) != len(due) + 1 or any(line.split()[-1] != row[-1].split()[-1] for line, row in zip(table[1:6], due)):
        return f"the table has {table}"
    record = json.loads(as_json({"a job": facts}))[0]
    held = {slot["slot"]: slot["held_by"] for slot in record["slots"]}
    good = record["calls"] == facts.calls and held == {slot: program.held for slot, program in facts.programs.items()}
    return None if good and [device["busy"] for device in record["devices"]] == [device.busy for device in facts.devices.values()] else f"the JSON has {record}"
