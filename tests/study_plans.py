"""Tries ./kdf9 study: a plan in one go, in parts, on workers of Dask, and stopped in the middle; workloads and plots; and plans with something wrong in them."""
import csv
import json
import os
import pathlib
import random
import signal
import socket
import subprocess
import sys
import tempfile
import time
from typing import Iterator, List, Optional, Tuple

import random_jobs
import small_jobs
from kdf9.delays import Delays, Transfer, speeds_of_kinds
from kdf9.job import join_lines, kinds_of, read_lines, read_pool, read_slots
from kdf9.machine import sound_facts
from kdf9.program import BadInput, answer_to, ask
from kdf9.records import line_of_entry
from kdf9.report import read_report, sections_of
from kdf9.schedule import read_schedule, start_of
from kdf9.spent import facts_of
from plans import workload
from plans.plan import Plan, Run, Source
from plans.variant import Variants
from toolkit import ENVIRONMENT, ROOT, kdf9, refused

Case = Tuple[str, Optional[str]]
JOB = str(ROOT / "examples" / "study" / "convoy.job")
PLAN = {"job": JOB, "values": {"programs": ["0", "01", "012"], "after": [20, 50], "pool TP": [0, 2]}, "measures": ["calls", "idle", "slot 0 turnaround"]}
CHANCE = {
    "workload": {"kinds": "TR LP MT", "shared": "TP", "rounds": 12}, "measures": ["calls", "share running", "throughput"],
    "values": {"seed": [1, 2, 3, 4, 5], "degree": [1, 2, 3, 4], "computing": [20, 70], "speeds": "kdf9", "faster": [8, 20.5]},
    "plots": [{"across": "degree", "up": "share running", "lines": "computing", "title": "A plot"}, {"across": "faster", "up": "throughput", "only": {"degree": 2}}],
}

# How often a study is stopped, and how many jobs with schedules are looked at.
STOPS, SETTLED = 10, 60

# How long the scheduler of Dask and its workers are waited for, in seconds.
PATIENCE = 60

# What is wrong with a plan, by what is changed in it, and what is said of it.
WRONG = [
    ({"jobs": 1}, ":2: jobs isn't a key of a plan"), ({"values": {"speed": [1]}}, ":3: speed isn't a parameter; they are programs, priorities, after, "),
    ({"values": {"programs": ["4"]}}, "programs has '4'"), ({"values": {"programs": ["10"]}}, "programs has '10'"), ({"values": {"priorities": ["01"]}}, "priorities has '01'"),
    ({"values": {"after": [-1]}}, "after has -1; a value is a number from 0 to 20000000"), ({"values": {"after 3": [1]}}, "names device 3, which the job doesn't have"),
    ({"values": {"pool LP": [16]}}, "pool LP has 16; a value is a number from 0 to 15"), ({"values": {"after": [1, 1]}}, "a list of different values"), ({"measures": 1}, "measures has to be a list"),
    ({"measures": ["cals"]}, ":3: cals isn't a measure; they are in docs/STUDY.md"), ({"measures": ["slot 4 state"]}, "slot 4 state isn't a measure"), ({"measures": ["slot 0 held by LP"]}, "slot 0 held by LP isn't a measure"),
    ({"measures": [], "plots": [{"across": "after", "up": "cals"}]}, "cals isn't a measure"),
    ({"job": "no.job"}, "no.job: No such file"), ({"job": 1}, "job has to be the name of a file"), ({"values": []}, "values has to have the parameters"),
    ({"values": {"speeds": ["fast"]}}, "speeds has 'fast'; a value is kdf9"), ({"values": {"faster": 0}}, "faster has 0; a value is a number from 0.001 to 1000"),
    ({"values": {"seed": [1]}}, "seed isn't a parameter"), ({"values": {"input 8": ["convoy.job"]}}, "convoy.job: No such file"), ({"workload": {}}, "no job stands beside it"),
    ({"plots": [{"across": "programs"}]}, "plots has to be a list of plots"), ({"plots": [{"across": "seed", "up": "idle"}]}, "a plot with across 'seed'"),
    ({"plots": [{"across": "after", "up": "idle", "only": {"after": 7}}]}, "a plot only of {'after': 7}"), ({"plots": [{"across": "after", "up": "busy"}]}, "a plot of 'busy', which isn't one of the measures"), ({"values": {"tick": 0}}, "tick has 0; a value is a number from 1 to 20000000"),
]

# The same of a plan with a workload.
WRONG_WORKLOADS = [
    ({"seed": -1}, "seed has -1"), ({"degree": 5}, "degree has 5; a value is a number from 1 to 4"), ({"computing": 100}, "computing has 100; a value is a number from 0 to 99"),
    ({"kinds": ""}, "kinds has ''"), ({"kinds": "TR DR"}, "kinds has 'TR DR'"), ({"shared": "TR"}, "shared has 'TR'; a value is kinds of devices, TP and LP"), ({"size": 1}, "size isn't a parameter of a workload"),
]

# Words that can't stand together.
WRONG_WORDS = [["--plot"], ["--part", "1/2"], ["--join", "x", "--part", "1/2", "--out", "y"], ["--job", "1", "--out", "y"], ["--part", "3/2", "--out", "y"], ["--join", "x", "--dask", "tcp://a:1"]]


def rows(text: str) -> List[dict]:
    """The rows of CSV."""
    return list(csv.DictReader(text.splitlines()))


def written(folder: pathlib.Path, name: str, plan: dict) -> pathlib.Path:
    """The file of a plan."""
    path = folder / name
    path.write_text(json.dumps(plan, indent=1), encoding="ascii")
    return path


def wrong_plans_are_refused() -> Iterator[Case]:
    """Each plan with something wrong is refused before the first run, with one line."""
    plans = [({**change, **{key: value for key, value in PLAN.items() if key not in change}}, change, part) for change, part in WRONG]
    plans += [({"workload": change, "values": {"after": [1]}}, change, part) for change, part in WRONG_WORKLOADS]
    for plan, change, part in plans:
        try:
            with tempfile.TemporaryDirectory() as folder:
                Plan(str(written(pathlib.Path(folder), "plan.json", plan)))
            said = "nothing"
        except BadInput as why:
            said = str(why)
        yield f"a plan with {change}", None if part in said and "\n" not in said else f"{said} without {part!r}"
    run = kdf9(["study", "-"], json.dumps({**PLAN, "jobs": 1}))
    yield "a wrong plan on the command line", None if refused(run) else f"{run}"
    for words in WRONG_WORDS:
        run = kdf9(["study", "-", *words], json.dumps(PLAN))
        yield f"study {' '.join(words)}", None if run.status == 2 and run.err.count("\n") == 1 else f"{run}"


def schedules_are_right(number: int, seed: int) -> Iterator[Case]:
    """The job of a run ends each transfer as long after it began as its values say, and its rows' report is that of the program."""
    for at in range(seed, seed + number):
        chance = random.Random(at)
        values = {"after": chance.choice([0, 1, 7, 60, 200]), **({"speeds": "kdf9", "faster": chance.choice([1, 16, 100])} if chance.random() < 0.4 else {})}
        if at % 3 == 0:
            text = random_jobs.job(chance)
        elif at % 3 == 1:
            text = small_jobs.job(at).replace("ORDERS 1\n", "ORDERS 3000\n")
        else:
            kinds = " ".join(chance.sample(["TR", "TP", "CR", "LP", "MT"], chance.randint(1, 4)))
            text = join_lines(workload.lines_of({"seed": at, "degree": chance.randint(1, 4), "kinds": kinds, "shared": chance.choice(["", "TP"]), "schedule": 30000}))
        if not ask(["asm", "0"], text).status:
            yield f"the schedule of job {at}", why_wrong(text, values)


def why_wrong(text: str, values: dict) -> Optional[str]:
    """What is wrong with the schedules that are found for two runs of a job, of which the second knows the first."""
    lines = read_lines(text)
    variants, due = Variants(Source(lines, False, {}, {})), {}
    for run, more in ((1, {}), (2, {"schedule": read_schedule(lines).calls or 1}), (1, {})):
        settled = variants.settled(Run(run, {**values, **more}))
        report = answer_to(["run"], settled.job)
        if [line_of_entry(each) for each in settled.run["entries"]] != read_lines(report)[1:1 + len(settled.run["entries"])]:
            return f"run {run} has another journal than its job:\n{settled.job}"
        if facts_of(settled.run) != facts_of(sound_facts(settled.job)):
            return f"run {run} has other counts than its job:\n{settled.job}"
        wrong = due.setdefault(run, settled.job) != settled.job or wrong_ends(settled.job, report, values)
        if wrong:
            return f"{wrong} in run {run} of\n{settled.job}"
    return None


def wrong_ends(text: str, report: str, values: dict) -> Optional[str]:
    """Which transfers end at another call than they should, where that doesn't go by their words; or which END is no transfer's."""
    lines, calls, begun = read_lines(text), 0, []
    for kind, *numbers in read_report(report, "the report").entries:
        if kind == "START":
            begun.append(Transfer(calls, numbers[1]))
        calls += numbers[-1] if kind in ("RAN", "IDLE") else kind in ("LOV", "BUSY", "WAIT")
    kinds = {**{device: kind for slot in read_slots(lines).values() for device, kind in slot.kinds().items()}, **kinds_of(read_pool(lines))}
    schedule = read_schedule(lines)
    faster = values.get("faster", 1)
    delays = Delays(values["after"] and max(1, round(values["after"] / faster)), None, {}, {})
    by_speed = speeds_of_kinds(values.get("speeds"), kinds)
    due = sorted((delays.end(each), f"END {each.device}") for each in begun if each.device not in by_speed)
    ends = sorted((event.calls, event.line) for event in schedule.events if event.line.startswith("END ") and int(event.line[4:]) not in by_speed)
    number = sum(event.line.startswith("END ") for event in schedule.events)
    return None if ends == [end for end in due if end[0] < schedule.calls] and number <= len(begun) else f"the ENDs are {ends} and should be {due}"


def studies_agree() -> Iterator[Case]:
    """The rows are those of their jobs, also if they are made in parts, on workers of Dask, or by a study that was stopped and went on."""
    with tempfile.TemporaryDirectory() as name:
        folder = pathlib.Path(name)
        plan = written(folder, "plan.json", PLAN)
        whole = kdf9(["study", str(plan)], "").out
        due = [(programs, after, pool) for programs in ("0", "01", "012") for after in ("20", "50") for pool in ("0", "2")]
        told = [(row["programs"], row["after"], row["pool TP"]) for row in rows(whole)]
        yield "the rows of a plan", None if told == due and not any(row["fault"] for row in rows(whole)) else whole
        yield "the measures of a row", None if rows(whole)[4]["slot 0 turnaround"] == rows(whole)[0]["slot 0 turnaround"] else whole
        yield from parts_agree(folder, plan, whole)
        other = written(folder, "other.json", {**PLAN, "measures": ["calls"]})
        run = kdf9(["study", str(other), "--out", str(folder / "parts")], "")
        yield "a folder of another plan", None if refused(run) and "another plan" in run.err else f"{run}"
        job = kdf9(["study", str(plan), "--job", "5"], "").out
        stats = {row["measure"]: row["value"] for row in rows(kdf9(["stats", "-", "--csv"], job).out) if row["of"] == "run"}
        yield "the job of a row", None if all(rows(whole)[4][measure] == stats[measure] for measure in ("calls", "idle")) else f"{stats}"


def parts_agree(folder: pathlib.Path, plan: pathlib.Path, whole: str) -> Iterator[Case]:
    """Parts in one folder or in several join to the rows of one process; parts that are missing are named."""
    kdf9(["study", str(plan), "--part", "1/2", "--out", str(folder / "parts")], "")
    run = kdf9(["study", str(plan), "--join", str(folder / "parts")], "")
    yield "a part that is missing", None if run.status == 1 and run.err.endswith("6 runs of 12 have no row yet: 2, 4, 6, 8, 10 and 12\n") else f"{run}"
    kdf9(["study", str(plan), "--part", "2/2", "--out", str(folder / "other")], "")
    run = kdf9(["study", str(plan), "--join", str(folder / "parts"), "--join", str(folder / "other")], "")
    yield "the rows of two parts", None if run.status == 0 and run.out == whole else f"{run}"
    run = kdf9(["study", str(plan), "--join", str(folder / "parts"), "--join", str(folder / "other"), "--out", str(folder / "joined")], "")
    yield "the table of two parts", None if run.status == 0 and (folder / "joined" / "rows.csv").read_text(encoding="ascii") == whole else f"{run}"
    run = kdf9(["study", str(plan), "--out", str(folder / "parts")], "")
    yield "a study that goes on behind a part", None if run.status == 0 and (folder / "parts" / "rows.csv").read_text(encoding="ascii") == whole else f"{run}"


def stopped_studies_go_on() -> Iterator[Case]:
    """A study that was stopped ten times in the middle has each row once, and the rows of one that wasn't; a full disk leaves whole rows."""
    with tempfile.TemporaryDirectory() as name:
        folder = pathlib.Path(name)
        plan = written(folder, "plan.json", CHANCE)
        whole = kdf9(["study", str(plan)], "").out
        stopped = sum(stop_in_the_middle(plan, folder / "stopped", at % 2 + 1) for at in range(STOPS))
        yield "stops in the middle", None if stopped == STOPS else f"only {stopped} of {STOPS} came before the end"
        with open(folder / "stopped" / "rows.jsonl", "ab") as file:
            file.write(b'{"run": 1')
        kdf9(["study", str(plan), "--out", str(folder / "stopped")], "")
        lines = (folder / "stopped" / "rows.jsonl").read_text(encoding="ascii").splitlines()
        numbers = sorted(json.loads(line)["run"] for line in lines)
        good = (folder / "stopped" / "rows.csv").read_text(encoding="ascii") == whole and numbers == list(range(1, 81))
        yield "a study that was stopped", None if good else f"{numbers}"
        words = f"ulimit -f 8; exec {ROOT / 'kdf9'} study {plan} --out {folder / 'full'}"
        run = subprocess.run(["bash", "-c", words], cwd=ROOT, env=ENVIRONMENT, capture_output=True, check=False)
        kept = (folder / "full" / "rows.jsonl").read_bytes()
        good = run.returncode == 1 and run.stderr.count(b"\n") == 1 and kept.endswith(b"}\n") and 0 < kept.count(b"\n") < 80
        yield "a disk that is full", None if good else f"{run} {kept[-80:]!r}"
        kdf9(["study", str(plan), "--out", str(folder / "full")], "")
        yield "a study that goes on after that", None if (folder / "full" / "rows.csv").read_text(encoding="ascii") == whole else "has other rows"


def stop_in_the_middle(plan: pathlib.Path, folder: pathlib.Path, processors: int) -> bool:
    """Starts a study on so many processors, and stops its first process as soon as it has one more row; whether it was stopped before its end, and the others of it
    ended by themselves.
    """
    file = folder / "rows.jsonl"
    size = file.stat().st_size if file.exists() else 0
    words = [ROOT / "kdf9", "study", str(plan), "--out", str(folder)]
    some = sorted(os.sched_getaffinity(0))[:processors]
    process = subprocess.Popen(words, cwd=ROOT, env=ENVIRONMENT, stdout=subprocess.DEVNULL, start_new_session=True, preexec_fn=lambda: os.sched_setaffinity(0, some))
    while process.poll() is None and (not file.exists() or file.stat().st_size <= size):
        time.sleep(0.0005)
    was_running = process.poll() is None
    if was_running:
        os.kill(process.pid, signal.SIGKILL)
    process.wait()
    until = time.monotonic() + PATIENCE
    while time.monotonic() < until:
        try:
            os.killpg(process.pid, 0)
        except ProcessLookupError:
            return was_running
        time.sleep(0.01)
    os.killpg(process.pid, signal.SIGKILL)
    return False


def workloads_are_made() -> Iterator[Case]:
    """A workload is the same for the same seed, its programs end, and more computing is more orders."""
    jobs = {seed: join_lines(workload.lines_of({"seed": seed, "degree": 4})) for seed in (1, 2)}
    yield "the same seed", None if join_lines(workload.lines_of({"seed": 1, "degree": 4})) == jobs[1] != jobs[2] else jobs[1]
    lines = workload.lines_of({"seed": 1, "degree": 3})
    yield "one program more", None if join_lines(lines[:start_of(lines)]) in jobs[1] else "changes the others"
    orders = {}
    for computing in (10, 90):
        text = join_lines(workload.lines_of({"seed": 5, "degree": 1, "kinds": "TR TP CR LP MT", "shared": "TP LP", "computing": computing}))
        settled = Variants(Source(read_lines(text), False, {}, {})).settled(Run(1, {"after": 10}))
        section = sections_of(answer_to(["run"], settled.job))[0]
        orders[computing] = section.orders if section.state == ["ENDED"] else 0
    yield "more computing", None if 0 < orders[10] < orders[90] else f"{orders}"


def plots_are_drawn() -> Iterator[Case]:
    """The plots of a plan are drawn where there is matplotlib, twice the same; where there is none, a line says what to install."""
    with tempfile.TemporaryDirectory() as name:
        folder = pathlib.Path(name)
        plan, there = written(folder, "plan.json", CHANCE), python_with("matplotlib")
        drawn = []
        for out in ("one", "two") if there else ():
            run = by(there, ["study", str(plan), "--out", str(folder / out), "--plot"])
            drawn.append({path.name: path.read_text(encoding="utf-8") for path in sorted((folder / out).glob("*.svg"))})
            names = [f"{folder / out / each}\n" for each in ("plot-1-share-running.svg", "plot-2-throughput.svg")]
            yield f"the plots of {out}", None if run.returncode == 0 and run.stdout.decode().endswith("".join(names)) else f"{run}"
        if there:
            svg = drawn[0].get("plot-1-share-running.svg", "")
            texts = [text for text in ("A plot", "degree", "share running", "computing 20", "computing 70") if text not in svg]
            yield "the texts of a plot", None if drawn[0] == drawn[1] and not texts else f"{texts} aren't in the plot, or it is another the second time"
        without = python_with("matplotlib", False)
        if without:
            run = by(without, ["study", str(plan), "--out", str(folder / "none"), "--plot"])
            good = run.returncode == 1 and b"python3-matplotlib" in run.stderr and run.stderr.count(b"\n") == 1 and not (folder / "none").exists()
            yield "no matplotlib, which is said before the first run", None if good else f"{run}"


def dask_agrees() -> Iterator[Case]:
    """Two workers of Dask on loopback give the rows of one process; an address without a scheduler is refused."""
    there = python_with("distributed")
    if not there:
        return
    with tempfile.TemporaryDirectory() as name:
        folder = pathlib.Path(name)
        plan = written(folder, "plan.json", CHANCE)
        whole, address = kdf9(["study", str(plan)], "").out, f"tcp://127.0.0.1:{free_port()}"
        environment = {**ENVIRONMENT, "PYTHONPATH": str(ROOT / "tools")}
        starts = ["-m", "distributed.cli.dask_scheduler", "--host", "127.0.0.1", "--port", address.rsplit(":", 1)[1], "--no-dashboard"]
        work = ["-m", "distributed.cli.dask_worker", address, "--nthreads", "1", "--no-nanny", "--no-dashboard", "--local-directory", name]
        started = [subprocess.Popen([there, *words], env=environment, cwd=name, stdout=subprocess.DEVNULL, stderr=subprocess.DEVNULL) for words in (starts, work, work)]
        try:
            run, until = None, time.monotonic() + PATIENCE
            while time.monotonic() < until and (run is None or b"no workers" in run.stderr or b"no scheduler" in run.stderr):
                run = by(there, ["study", str(plan), "--dask", address])
            yield "the rows of Dask", None if run and run.returncode == 0 and run.stdout.decode("ascii") == whole else f"{run}"
        finally:
            for process in started:
                process.kill()
                process.wait()
        for nowhere, part in (("tcp:/nowhere", b"this is no address"), (f"tcp://127.0.0.1:{free_port()}", b"no scheduler of Dask answers")):
            run = by(there, ["study", str(plan), "--dask", nowhere])
            yield f"no scheduler at {nowhere[:10]}", None if run.returncode == 1 and run.stderr.count(b"\n") == 1 and part in run.stderr else f"{run}"


def free_port() -> int:
    """A port of loopback that nothing uses."""
    with socket.socket() as one:
        one.bind(("127.0.0.1", 0))
        return one.getsockname()[1]


def python_with(package: str, has: bool = True) -> Optional[str]:
    """A Python that has a package, or hasn't: the one that runs this, or that of the system; None if there is none."""
    test = [f"import importlib.util, sys; sys.exit(importlib.util.find_spec({package!r}) is {'None' if has else 'not None'})"]
    each = dict.fromkeys([sys.executable, "/usr/bin/python3"])
    return next((python for python in each if os.path.exists(python) and not subprocess.run([python, "-c", *test], check=False).returncode), None)


def by(python: str, words: List[str]) -> subprocess.CompletedProcess:
    """What a tool comes to that this Python runs."""
    name, *rest = words
    return subprocess.run([python, "-S", str(ROOT / "tools" / name), *rest], cwd=ROOT, env=ENVIRONMENT, capture_output=True, check=False)


def cases(number: int, seed: int) -> Iterator[Case]:
    """All cases."""
    yield from schedules_are_right(number, seed)
    for some in (wrong_plans_are_refused, studies_agree, stopped_studies_go_on, workloads_are_made, plots_are_drawn, dask_agrees):
        yield from some()
