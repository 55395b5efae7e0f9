"""Tries explore and stats on jobs that chance makes, studies of plans, and what docs/STUDY.md shows.

    python3 tests/study.py [JOBS [SEED]]     tries so many jobs, from this seed on
    python3 tests/study.py --fill            writes into docs/STUDY.md what its commands answer
"""
import os
import pathlib
import re
import subprocess
import sys
import tempfile
from concurrent.futures import ProcessPoolExecutor
from typing import Callable, Iterable, Iterator, List, Optional, Tuple

from small_jobs import job
from toolkit import ENVIRONMENT, ROOT, document, kdf9, refused

sys.path.insert(0, str(ROOT / "tools"))

import study_plans  # noqa: E402
import study_stats  # noqa: E402
from building import engine  # noqa: E402
from kdf9.job import read_lines  # noqa: E402
from outcomes import runs as outcome_runs  # noqa: E402
from outcomes.apart import Apart  # noqa: E402
from outcomes.found import Found  # noqa: E402
from outcomes.runs import Job  # noqa: E402
from outcomes.search import LATE, MOMENTS, NAIVE, Limits, Search  # noqa: E402

# How many jobs are tried, and of how many of them also with exchanges; the calls of their schedules; and the most schedules that are run one by one for a job.
# A job that has more is left out.
JOBS, SWAPPED, CALLS, MOST_SCHEDULES = 30, 6, 32, 500
SEED = 1

# How many jobs are counted a second way.
COUNTED = 200

Case = Tuple[str, Optional[str]]
STUDY = ROOT / "examples" / "study"
SHOWN = re.compile(r"^```\n\$ (.*)\n((?:.*\n)*?)```$", re.MULTILINE)


def told(found: Found) -> tuple:
    """The outcomes within the calls of a schedule, and the least calls to each."""
    results = {(slot, result): witness for slot, mine in found.results.items() for result, witness in mine.items()}
    return tuple({what: witness.calls for what, witness in kept.items() if witness.calls <= CALLS} for kept in (results, found.joint, found.deadlocks))


def search(text: str, mode: str, runs: int, swaps: bool = False) -> Found:
    """What a search finds for a job, as explore searches it."""
    made, limits = Job("a job", read_lines(text)), Limits(CALLS, runs, swaps)
    if mode == LATE and not made.pool and not made.times:
        return Apart(made, limits, sys.maxsize).all()
    return Search(made, limits, mode).all()


def compared(seed: int, mode: str = NAIVE) -> Optional[Case]:
    """How the outcomes of all schedules of a job compare with those that explore finds; None if there are too many schedules. They are run one by one, or, if
    priorities are exchanged, one for all that are alike from some moment on.
    """
    outcome_runs.processors = lambda: 1
    text, swaps = job(seed), mode == MOMENTS
    every = search(text, mode, MOST_SCHEDULES, swaps)
    if every.left:
        return None
    due, found = told(every), told(search(text, LATE, MOST_SCHEDULES, swaps))
    return f"job {seed}{' with exchanges' if swaps else ''}", None if found == due else f"explore finds {found} and not {due}, for\n{text}"


def with_exchanges(seed: int) -> Optional[Case]:
    """The same with exchanges at any moment."""
    return compared(seed, MOMENTS)


def tried(workers: ProcessPoolExecutor, compare: Callable[[int], Optional[Case]], number: int, seed: int) -> List[Case]:
    """The cases of so many jobs from a seed on."""
    cases: List[Case] = []
    while len(cases) < number:
        cases += [case for case in workers.map(compare, range(seed, seed + number)) if case is not None]
        seed += number
    return cases[:number]


def page_is_so() -> Iterator[Case]:
    """Each command that docs/STUDY.md shows gives the answer that it shows."""
    for words, due in SHOWN.findall(document("STUDY.md")):
        given = typed(words)
        yield f"docs/STUDY.md: {words}", None if given == due else f"gives {given}"


def typed(words: str) -> str:
    """What a command of the page gives."""
    return subprocess.run(["bash", "-c", words], cwd=ROOT, env=ENVIRONMENT, capture_output=True, check=False).stdout.decode("latin-1")


def fill_page() -> None:
    """Writes the answers of its commands into the page."""
    filled = SHOWN.sub(lambda found: f"```\n$ {found[1]}\n{typed(found[1])}```", document("STUDY.md"))
    (ROOT / "docs" / "STUDY.md").write_text(filled, encoding="utf-8")


def files_are_made() -> Iterator[Case]:
    """The jobs and the figures are those that their script makes."""
    with tempfile.TemporaryDirectory() as folder:
        python = study_plans.python_with("matplotlib")
        path = {"PATH": os.path.dirname(python) + os.pathsep + ENVIRONMENT["PATH"]} if python else {}
        run = subprocess.run([STUDY / "make", folder], cwd=ROOT, env={**ENVIRONMENT, **path}, capture_output=True, check=True)
        made = {path.relative_to(folder): path.read_bytes() for path in pathlib.Path(folder).rglob("*.*") if path.is_file()}
        there = {path.relative_to(ROOT) for path in (*STUDY.glob("*.job"), *(ROOT / "docs").glob("study-*.svg"))}
        plots = {name for name in there if b"Matplotlib" in (ROOT / name).read_bytes()}
        yield "the files of examples/study/make", None if set(made) | plots == there and (not python or set(made) == there) else f"are {sorted(set(made) ^ there)} {run.stderr}"
        for name in sorted(set(made) & there):
            is_other = name in plots and version_of(made[name]) != version_of((ROOT / name).read_bytes())
            yield str(name), None if is_other or (ROOT / name).read_bytes() == made[name] else "isn't what examples/study/make makes"


def version_of(plot: bytes) -> List[bytes]:
    """The version of matplotlib that drew a plot: another one draws it otherwise."""
    return re.findall(rb"Matplotlib v[0-9.]+", plot)


def outcomes_are_written() -> Iterator[Case]:
    """The jobs that --out writes show what is told of them; a folder that has something is refused, and stays."""
    with tempfile.TemporaryDirectory() as folder:
        deadlock = (STUDY / "deadlock.job").read_text(encoding="ascii")
        run = kdf9(["explore", "-", "--out", folder], deadlock)
        names = sorted(path.name for path in pathlib.Path(folder).iterdir())
        yield "the jobs of --out", None if names == sorted(re.findall(r" \[.*/(.*\.job)\]$", run.out, re.MULTILINE)) and "deadlock-1.job" in names else f"{names} {run}"
        report = kdf9(["run"], pathlib.Path(folder, "deadlock-1.job").read_text(encoding="ascii")).out
        yield "the job of a deadlock", None if "WAIT 0 LP\n" in report and "WAIT 1 TP\n" in report and report.count("STATE LIVE") == 2 else report
        again = kdf9(["explore", "-", "--out", folder], deadlock)
        still = sorted(path.name for path in pathlib.Path(folder).iterdir())
        yield "a folder that isn't empty", None if refused(again) and "isn't empty" in again.err and still == names else f"{again}"


def limits_are_told() -> Iterator[Case]:
    """A search says what it left out."""
    deadlock = (STUDY / "deadlock.job").read_text(encoding="ascii")
    for words, due in ((["--runs", "3"], "not whole: --runs ended the search, with "), (["--calls", "20"], "whole within 20 calls; a program may go on after that"), ([], "whole: ")):
        run = kdf9(["explore", "-", *words], deadlock)
        yield f"explore {' '.join(words)}", None if run.status == 0 and run.out.split("\n")[-2].startswith(due) else f"{run}"
    starved = kdf9(["explore", str(ROOT / "examples" / "lets-a-starved-program-in.job")], "")
    yield "a program that starves", None if "slot 1 can starve: it has no turn in 60 calls\n" in starved.out else f"{starved}"


def all_cases(number: int, seed: int) -> Iterable[Case]:
    """All cases."""
    with ProcessPoolExecutor(2) as workers:
        yield from tried(workers, compared, number, seed)
        yield from tried(workers, with_exchanges, number * SWAPPED // JOBS, seed)
    yield from study_stats.cases(max(number, COUNTED), seed)
    for cases in (page_is_so, files_are_made, outcomes_are_written, limits_are_told):
        yield from cases()
    yield from study_plans.cases(study_plans.SETTLED, seed)


def main() -> int:
    """Tries all cases, and tells how many passed."""
    if sys.argv[1:] == ["--fill"]:
        fill_page()
        return 0
    if "KDF9" not in os.environ and engine.SHARED.is_file() and engine.is_current():
        os.environ.setdefault("KDF9_LIBRARY", str(engine.SHARED))
    os.environ.setdefault("KDF9", str(ROOT / "crates" / "kdf9" / "out" / "kdf9"))
    number, seed = [*map(int, sys.argv[1:]), *[JOBS, SEED][len(sys.argv) - 1:]]
    cases = list(all_cases(number, seed))
    for name, why in cases:
        if why:
            print(f"study: {name}: {why}")
    failed = sum(why is not None for _, why in cases)
    print(f"study: {len(cases) - failed} passed, {failed} failed")
    return 1 if failed else 0


if __name__ == "__main__":
    sys.exit(main())
