"""How the benches count instructions, measure memory and time programs; and the figures that they are compared with."""
import ctypes
import json
import os
import pathlib
import re
import resource
import shutil
import signal
import subprocess
import sys
import tempfile
from typing import Any, BinaryIO, Dict, List, NamedTuple, Sequence, Tuple, Union

from jobs import Made

BENCH = pathlib.Path(__file__).resolve().parent
BUILT = BENCH.parent / "crates" / "kdf9" / "out" / "kdf9"
FIGURES = BENCH / "figures.json"

# A figure may be so many times the one that is written down.
ROOM = 1.1

# So many bytes of memory a run may take besides, since how much of its own file is in memory differs.
SPARE = 500_000

# How often programs are timed in turn.
ROUNDS = 9

# A run has these variables and no others, so that it counts the same everywhere.
VARIABLES = {"LC_ALL": "C", "PATH": os.environ.get("PATH", "")}

# How a text ends that is whole: a report or another text of the program, a snapshot, or facts.
ENDS = (b"\nENDREPORT\n", b"\nENDSNAPSHOT\n", b'\\nENDREPORT\\n"}\n')

# With this word programs are timed, and nothing is counted.
SECONDS = "--seconds"

# How a process stops at its end, where the system still tells the peak of its memory.
trace = ctypes.CDLL(None, use_errno=True).ptrace
trace.argtypes = (ctypes.c_long, ctypes.c_int, ctypes.c_void_p, ctypes.c_void_p)
PTRACE_TRACEME, PTRACE_CONT, PTRACE_SETOPTIONS, PTRACE_O_TRACEEXIT, PTRACE_EVENT_EXIT = 0, 7, 0x4200, 0x40, 6

Words = Tuple[str, ...]


class Unexpected(Exception):
    """A run didn't end as it should: its command, its status, and the end of what it wrote."""


class Case(NamedTuple):
    """Something that is counted: what one of it is, the command, a job with so many of it, and how many that is. Twice as many are counted too, and the difference
    counts. Where `many` is 0, a whole run counts.
    """

    one: str
    words: Words
    job: Made
    many: int
    timed: int = 0
    status: int = 0

    def count(self, program: str) -> float:
        """The instructions of one."""
        if not self.many:
            return instructions(program, self.words, self.job(0), self.status)
        less, more = (instructions(program, self.words, self.job(many), self.status) for many in (self.many, 2 * self.many))
        return (more - less) / self.many

    def bar(self, figure: float) -> float:
        """The most that a count may be, by the figure that is written down."""
        return ROOM * figure


class Told(Case):
    """The same of the facts of a run. Another program tells them, which stands beside the one that is counted, or which the variable KDF_TOLD names."""

    def count(self, program: str) -> float:
        """The instructions of one."""
        told = os.environ.get("KDF_TOLD") or str(pathlib.Path(program).parents[2] / "kdf_told" / "out" / "kdf_told")
        if not os.access(told, os.X_OK):
            sys.exit(f"{told} isn't built, which tells facts: rt run kdf_told builds it")
        return Case(self.one, ("run",), self.job, self.many).count(told)


class Peak(NamedTuple):
    """A run whose memory is measured: what it has many of, the command, its job, and how many that is. With a goal it may take as much as that in any case. It isn't
    timed.
    """

    one: str
    words: Words
    text: bytes
    many: int
    goal: float = 0
    status: int = 0
    timed: int = 0

    def count(self, program: str) -> float:
        """The bytes of memory for one."""
        return peak(program, self.words, ready(program, self.words, self.text), self.status) / self.many

    def bar(self, figure: float) -> float:
        """The most that a count may be, by the figure that is written down."""
        return max(self.goal, ROOM * figure + SPARE / self.many)


Counted = Union[Case, Peak]


def name_of(case: Counted) -> str:
    """What it is called among the figures."""
    return f"{case.one}: {' '.join(case.words)}"


def file_of(text: bytes) -> BinaryIO:
    """A file with this text, at its beginning."""
    file = tempfile.TemporaryFile()
    file.write(text)
    file.seek(0)
    return file


def has_ended(words: Sequence[str], status: int, expected: int, text: bytes, more: bytes = b"") -> None:
    """Raises `Unexpected` unless a run had this status and wrote all that it should; with the end of what else it wrote."""
    if status != expected or status == 0 and not text.endswith(ENDS):
        raise Unexpected(f"a run by `{' '.join(words)}` ended with status {status}, {text[-80:]!r} and {more[-160:]!r}")


def written(program: str, words: Sequence[str], text: bytes) -> bytes:
    """What a program writes over a text."""
    with file_of(text) as file:
        done = subprocess.run([program, *words], stdin=file, stdout=subprocess.PIPE, check=False, env=VARIABLES)
    has_ended(words, done.returncode, 0, done.stdout)
    return done.stdout


def ready(program: str, words: Words, text: bytes) -> bytes:
    """A job as a command reads it: `check` wants its report too, and `resume` its snapshot."""
    if words[0] == "check":
        return text + written(program, ("run",), text)
    if words[0] == "resume":
        return written(program, ("save",), text) + b"ENDJOB\n"
    return text


def instructions(program: str, words: Words, text: bytes, status: int = 0) -> int:
    """How many instructions a program takes for a job, which it has to end with this status."""
    if not shutil.which("valgrind"):
        sys.exit("there is no valgrind here, which counts the instructions")
    with tempfile.TemporaryDirectory() as folder:
        call = ["valgrind", "--tool=callgrind", f"--callgrind-out-file={folder}/counts", program, *words]
        with file_of(ready(program, words, text)) as file:
            done = subprocess.run(call, stdin=file, stdout=subprocess.PIPE, stderr=subprocess.PIPE, check=False, env=VARIABLES)
    has_ended(words, done.returncode, status, done.stdout, done.stderr)
    return int(re.search(rb"Collected : (\d+)", done.stderr)[1])


def peak(program: str, words: Words, text: bytes, status: int = 0) -> int:
    """The peak in bytes of a program's own memory. What the system tells of a process that has ended isn't its own: it begins with the memory of the script that
    started it.
    """
    with file_of(text) as file, tempfile.TemporaryFile() as report:
        child = subprocess.Popen([program, *words], stdin=file, stdout=report, env=VARIABLES, preexec_fn=lambda: trace(PTRACE_TRACEME, 0, None, None))
        found = 0
        _, stopped = os.waitpid(child.pid, 0)
        if not os.WIFSTOPPED(stopped):
            sys.exit("the peak of a run can't be read here, because processes can't be traced")
        trace(PTRACE_SETOPTIONS, child.pid, None, PTRACE_O_TRACEEXIT)
        while os.WIFSTOPPED(stopped):
            at_end = stopped >> 8 == signal.SIGTRAP | PTRACE_EVENT_EXIT << 8
            found = own_peak(child.pid) if at_end else found
            signalled = 0 if os.WSTOPSIG(stopped) == signal.SIGTRAP else os.WSTOPSIG(stopped)
            trace(PTRACE_CONT, child.pid, None, signalled)
            _, stopped = os.waitpid(child.pid, 0)
        child.returncode = -os.WTERMSIG(stopped) if os.WIFSIGNALED(stopped) else os.WEXITSTATUS(stopped)
        report.seek(0)
        has_ended(words, child.returncode, status, report.read())
    return found


def own_peak(number: int) -> int:
    """The peak in bytes of the memory of a process that is stopped."""
    lines = pathlib.Path(f"/proc/{number}/status").read_text(encoding="ascii").splitlines()
    return next(1024 * int(line.split()[1]) for line in lines if line.startswith("VmHWM:"))


def seconds(call: Sequence[str], text: bytes) -> float:
    """The seconds of a processor that a call takes over a text."""
    before = resource.getrusage(resource.RUSAGE_CHILDREN)
    with file_of(text) as file:
        subprocess.run(call, stdin=file, stdout=subprocess.DEVNULL, check=False, env=VARIABLES)
    after = resource.getrusage(resource.RUSAGE_CHILDREN)
    return after.ru_utime + after.ru_stime - before.ru_utime - before.ru_stime


def in_turn(calls: Sequence[Tuple[Sequence[str], bytes]]) -> List[float]:
    """The least seconds of each call over its text. They are made in turn, so that a machine that gets slower does so for all."""
    return [min(each) for each in zip(*([seconds(*call) for call in calls] for _ in range(ROUNDS)))]


def programs(words: Sequence[str]) -> List[str]:
    """The one or two programs that are named; without a name, the one of this repository."""
    named = list(words) or [str(BUILT)]
    if len(named) > 2 or not all(os.access(each, os.X_OK) for each in named):
        sys.exit(f"usage: {sys.argv[0]} [{SECONDS}] [PROGRAM [OTHER]]: what is named has to be a program; without a name, it is that of this repository, which has to be built")
    return [os.path.abspath(each) for each in named]


def one_program(words: Sequence[str]) -> str:
    """The one program that is named."""
    first, *others = programs(words)
    return sys.exit(f"usage: {sys.argv[0]} [PROGRAM]") if others else first


def stored() -> Dict[str, Dict[str, Any]]:
    """The figures that are written down, by bench and name."""
    return json.loads(FIGURES.read_text(encoding="utf-8")) if FIGURES.is_file() else {}


def model() -> str:
    """What the processors are called."""
    found = re.search(r"^model name\s*: (.*)$", pathlib.Path("/proc/cpuinfo").read_text(encoding="ascii", errors="replace"), re.MULTILINE)
    return found[1] if found else "of a name that isn't known"


def rounded(figure: float) -> float:
    """A figure as it is written down."""
    return round(figure, 1)


def shown(figure: float) -> str:
    """A figure as it is printed. Of a large one no tenths are shown."""
    return f"{figure:,.{0 if figure >= 10_000 else 1}f}"


class Table:
    """What one bench counts, beside the figures that are written down."""

    def __init__(self, bench: str, cases: Sequence[Counted]) -> None:
        self.bench, self.cases = bench, cases
        self.known = stored().get(bench, {})
        self.found: Dict[str, float] = {}
        self.is_good = True

    def count(self, program: str, others: Sequence[str] = ()) -> None:
        """Counts all cases, and prints a row for each: the figure, the one that is written down, and those of the others, each with how many times as many it is."""
        print(f"{self.bench:66}{'one':>12}{'written':>12}" + f"{'other':>12}{'times':>7}" * len(others), flush=True)
        for case in self.cases:
            try:
                figure = case.count(program)
            except Unexpected as why:
                sys.exit(f"{name_of(case)}: {why}")
            self.found[name_of(case)] = rounded(figure)
            print(self.row(case, figure) + "".join(beside(case, figure, other) for other in others), flush=True)

    def row(self, case: Counted, figure: float) -> str:
        """The row of a case."""
        known = self.known.get(name_of(case))
        is_good = known is not None and figure <= case.bar(known)
        self.is_good = self.is_good and is_good
        mark = "" if is_good else " no figure" if known is None else f" over {shown(case.bar(known))}"
        return f"{name_of(case):66}{shown(figure):>12}{'' if known is None else shown(known):>12}{mark}"


def beside(case: Counted, figure: float, other: str) -> str:
    """What another program takes, and how many times as many that is. An older one may refuse the job."""
    try:
        found = case.count(other)
    except Unexpected:
        return f"{'refused':>12}"
    return f"{shown(found):>12}{found / figure:7.2f}"


def time_all(cases: Sequence[Counted], first: str, other: str) -> None:
    """Prints how many times as long as the first program the other takes for each job, by the least seconds."""
    print(f"{'':66}{'times':>8}", flush=True)
    for case in cases:
        if case.timed:
            of_first, of_other = in_turn([((each, *case.words), ready(each, case.words, case.job(case.timed))) for each in (first, other)])
            print(f"{name_of(case):66}{of_other / of_first:8.2f}", flush=True)


def counted(bench: str, cases: Sequence[Counted]) -> int:
    """Does what the command's words ask of a bench, and gives its status."""
    words = [word for word in sys.argv[1:] if word != SECONDS]
    first, *others = programs(words)
    if SECONDS in sys.argv[1:]:
        if not others:
            sys.exit(f"{SECONDS} compares two programs")
        time_all(cases, first, *others)
        return 0
    table = Table(bench, cases)
    table.count(first, others)
    return ended(table.is_good)


def ended(is_good: bool) -> int:
    """The status of a bench, after it has said whether all was within the bars."""
    print("within the bars" if is_good else "NOT within the bars")
    return 0 if is_good else 1
