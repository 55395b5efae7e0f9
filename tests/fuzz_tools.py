"""Hands every tool texts that chance makes (random_jobs.py). None may show a traceback, nor another status or more lines on standard error than
docs/TOOLS.md says.

    python3 tests/fuzz_tools.py [N] [--seed SEED] [--from FIRST] [--seconds S]

tries N texts, or as many as fit in S seconds. What fails is told with the number of its text; --show NUMBER writes that text. The tools run in this
process, so that not each start costs one.
"""
import argparse
import importlib.machinery
import importlib.util
import io
import os
import pathlib
import signal
import sys
import time
from contextlib import redirect_stderr, redirect_stdout
from typing import Dict, List, Optional
from unittest import mock

from toolkit import ROOT, Run

sys.path.insert(0, str(ROOT / "tools"))
from kdf9 import command, program, report  # noqa: E402
from kdf9.tools import TOOLS  # noqa: E402
from random_jobs import Text, text_of  # noqa: E402
from web import output  # noqa: E402

signal.signal(signal.SIGINT, signal.default_int_handler)

# The statuses of explain that the program gives to a fault, which is told in more lines.
OF_FAULTS = (2, 3, 4, 8)
READS_REPORTS = ("picture", "json")

# Arguments of steps and of schedule.
ORDERS = [["0", "1", "3"], ["0", "7", "9"], ["2", "1", "2"], ["1"]]
DELAYS = [[], ["--after", "0"], ["--after", "7"], ["--every", "2", "--after", "3"], ["2=5"], ["--after", "20000000", "--every", "1"]]

# What no tool may say.
SLIPS = ("Traceback", "slip of the tool")

# The tools that read a text; those that serve an editor are tried by tests/editors, and mark and quiz by tests/course.
READERS = [name for name in TOOLS if name not in ("page", "proofs", "clean", "package", "lib", "lsp", "dap", "mark", "quiz")]

# The page has no machine here: making it takes minutes.
output.engine = lambda: b""


def loaded(name: str) -> object:
    """The tool of this name as a module."""
    loader = importlib.machinery.SourceFileLoader(name, str(ROOT / "tools" / name))
    module = importlib.util.module_from_spec(importlib.util.spec_from_loader(name, loader))
    loader.exec_module(module)
    return module


MODULES: Dict[str, object] = {name: loaded(name) for name in READERS}


def run_tool(name: str, words: List[str], text: str) -> Run:
    """A run of a tool in this process, with this text as its standard input."""
    out, err, read = io.TextIOWrapper(io.BytesIO(), encoding="latin-1"), io.StringIO(), program.read_text
    with mock.patch.object(program, "read_text", lambda file: text if file == "-" else read(file)), redirect_stdout(out), redirect_stderr(err):
        status = command.status_of(name, MODULES[name].arguments, MODULES[name].run, words)
    out.flush()
    return Run(status, out.buffer.getvalue().decode("latin-1"), err.getvalue())


def ask(words: List[str], text: str) -> str:
    """What a command of the program, or the tool json, writes for a text."""
    return run_tool("json", [], text).out if words == ["json"] else program.ask(words, text).text


def words_of(name: str, given: Text) -> List[str]:
    """Arguments of a tool, some of them wrong."""
    chance = given.chance
    slot = chance.choice([[], [], ["0"], ["1"], ["3"]])
    some = {
        "explain": [*chance.choice([[], [], ["run"], ["resume"], ["check"]]), *chance.choice([[], ["--strict"]])],
        "steps": [*chance.choice(ORDERS), *chance.choice([[], ["--run"], ["--run"], ["--at", "100"], ["--at", "2/3"], ["--watch", "Y0"]])],
        "listing": slot, "picture": chance.choice([[], ["--text"]]), "schedule": chance.choice(DELAYS),
        "explore": ["--runs", "12", *chance.choice([[], ["--calls", "5"], ["--swap"], ["--mode", "naive"]])], "stats": chance.choice([[], ["--json"], ["--csv"]]),
    }.get(name, [])
    wrong = [chance.choice(["--x", "7", "-1", "", "x", "0", "--after", "é"])] if chance.random() < 0.03 else []
    return [*([] if name in ("picture", "json", "report") else ["-"]), *some, *wrong]


def why_wrong(name: str, given: Text, run: Run) -> Optional[str]:
    """What is wrong with what a tool did; or None."""
    lines = run.err.count("\n")
    if any(slip in run.err for slip in SLIPS):
        return "a slip"
    if run.status == command.BAD_WORDS and run.err.startswith(f"kdf9 {name}: "):
        return None if lines == 1 and not run.out else "more than one line"
    if name == "explain" and run.status in (0, 1, *OF_FAULTS):
        return None if run.status != 1 or run.out or lines == 1 else "more than one line"
    if name in READS_REPORTS and run.status:
        status = report.status_of_fault(given.text) or command.BAD_INPUT
        return None if (run.status, lines) == (status, 1) and not run.out else f"in place of status {status} and one line"
    if name == "json" or name == "same" and run.status:
        return None if lines == 1 or name == "json" and run_tool("report", [], run.out).out in (given.text, given.text + "\n") else "isn't the same"
    return None if (run.status, lines) in ((0, 0), (command.BAD_INPUT, 1)) else "another status, or other lines"


def failures_of(number: int, seed: int) -> List[str]:
    """What the tools do wrong with the text of this number, in a line each."""
    given = text_of(seed, number, ask)
    told = []
    for name in READERS:
        words = words_of(name, given)
        run = run_tool(name, words, given.text)
        why = why_wrong(name, given, run)
        if why:
            told.append(f"fuzz: text {number} of seed {seed}, {given.kind}: {name} {words}: {why}: status {run.status}, {run.out[:80]!r}, {run.err[:300]!r}")
    return told


def arguments() -> argparse.Namespace:
    parser = argparse.ArgumentParser(description="Hands every tool texts that chance makes.")
    parser.add_argument("texts", metavar="N", nargs="?", type=int, default=2000, help="how many texts")
    parser.add_argument("--seed", type=int, default=9, help="which texts")
    parser.add_argument("--from", dest="first", metavar="FIRST", type=int, default=0, help="the number of the first text")
    parser.add_argument("--seconds", type=float, default=float("inf"), help="begins no text after this time")
    parser.add_argument("--show", metavar="NUMBER", type=int, help="writes the text of this number")
    return parser.parse_args()


def use_program() -> None:
    """Asks the program itself, and not ./kdf9, which looks each time whether it is current."""
    os.environ.setdefault("KDF9", str(pathlib.Path(ROOT, "crates", "kdf9", "out", "kdf9")))


def main() -> int:
    options, began = arguments(), time.monotonic()
    use_program()
    if options.show is not None:
        sys.stdout.buffer.write(text_of(options.seed, options.show, ask).text.encode("latin-1"))
        return 0
    tried, faults = 0, 0
    for number in range(options.first, options.first + options.texts):
        if time.monotonic() - began > options.seconds:
            break
        told = failures_of(number, options.seed)
        print("".join(f"{line}\n" for line in told), end="", flush=True)
        tried, faults = tried + 1, faults + len(told)
    print(f"fuzz: {tried} texts, {tried * len(READERS)} runs of tools, {faults} failed")
    return 1 if faults else 0


if __name__ == "__main__":
    sys.exit(main())
