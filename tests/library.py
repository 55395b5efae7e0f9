"""Tries the machine as a library: `./kdf9 lib`, the programs of examples/embed, and calls that a program wouldn't make."""
import ctypes
import json
import os
import pathlib
import re
import shutil
import subprocess
import sys
import tempfile
import threading
from concurrent.futures import ThreadPoolExecutor
from typing import Iterator, List, Optional, Tuple

from toolkit import ENVIRONMENT, ROOT, Run, document, example_report

sys.path.insert(0, str(ROOT / "tools"))
import kdf9  # noqa: E402
from kdf9 import library, told  # noqa: E402
from kdf9.program import Answer  # noqa: E402

Cases = Iterator[Tuple[str, Optional[str]]]

EMBED = ROOT / "examples" / "embed"
FILES = ["kdf9.h", "kdf9.mjs", "kdf9.wasm", "libkdf9.a", "libkdf9.so"]
CALLS = ["kdf9_facts", "kdf9_run", "kdf9_version"]

# The job of the README, and a job whose deck has a fault.
PLAIN, FAULTY = "adds-5-and-7", "missing-reference"

# The statuses of the library that the program hasn't, or that it gives without a text, and the longest job that is read.
NO_ROOM, USAGE, JOB, LARGE = 6, 1, 2, 4
LONGEST = 4194304
USAGE_LINE = re.search(r"=> (USAGE .*\n)", (ROOT / "tests" / "cases" / "words.table").read_text(encoding="utf-8"))[1]

# How much stack a call may take, and what stands behind the room for a text.
STACK = 256 << 10
BEHIND = b"\xa5" * 64

# Words that are no command, as they are handed in.
NO_COMMANDS = [b"", b"\n", b"walk\n", b"run\nrun\n", b"run \n", b"RUN\n", b"alone\n", b"alone\n4\n", b"\xff\xfe\n", b"run\n\n", b"run\x00\n", b"-h\n"]

# What is no job, and the line that names its fault.
NO_JOBS = [(b"", "JOB Header 1\n"), (b"\n", "JOB Header 1\n"), (b"\x00" * 1000, "JOB Header 1\n"), (bytes(range(256)) * 16, "JOB Header 1\n"), (b"KDF9 JOB 1", "JOB BadLine 2\n")]

# Words and a job, the status, and some of what is told.
FACTS = [
    (["run"], PLAIN, 0, {"format": "kdf9-facts 1", "kind": "run", "made": 7, "time": 0}),
    (["asm", "0"], PLAIN, 0, {"kind": "listing", "slot": 0, "start": [1, 0]}),
    (["run"], FAULTY, 3, {"kind": "fault", "of": "deck", "name": "ReferenceMissing", "line": 7, "column": 3, "text": "J2"}),
    (["run"], b"", JOB, {"kind": "fault", "of": "job", "name": "Header", "line": 1, "text": None}),
    (["run"], bytes(range(256)) * 16, JOB, {"kind": "fault", "name": "Header", "line": 1}),
    (["run"], b"x" * (LONGEST + 1), LARGE, {"kind": "fault", "of": "text", "name": "Large", "limit": LONGEST}),
    (["walk"], PLAIN, USAGE, {"kind": "usage"}),
]

# How Node is started: the first version whose memories have addresses of 64 bits by themselves is 24.
OPTION, WITHOUT_OPTION = "--experimental-wasm-memory64", 24


def job_of(name: str) -> bytes:
    """The job of an example."""
    return (ROOT / "examples" / f"{name}.job").read_bytes()


def done(words: List[object], given: bytes = b"", **how: object) -> Run:
    """What a program came to over this input."""
    run = subprocess.run([str(word) for word in words], input=given, capture_output=True, check=False, **{"env": ENVIRONMENT, **how})
    return Run(run.returncode, run.stdout.decode("latin-1"), run.stderr.decode("latin-1"))


class Library:
    """The library that was written to a folder, and what a call of it comes to."""

    def __init__(self, folder: pathlib.Path) -> None:
        self.folder = folder
        self.calls = ctypes.CDLL(str(folder / "libkdf9.so"))
        piece = [ctypes.c_void_p, ctypes.c_uint64]
        for call in (self.calls.kdf9_run, self.calls.kdf9_facts):
            call.argtypes = [*piece, *piece, *piece, ctypes.POINTER(ctypes.c_uint64)]
            call.restype = ctypes.c_uint32

    def run(self, words: Optional[bytes], job: Optional[bytes], room: int, name: str = library.RUN) -> Tuple[int, int, bytes]:
        """The status, the size and the room after a call, with what stands behind the room. No words, no job or no room is a null pointer."""
        given = ctypes.create_string_buffer(b"\xa5" * room + BEHIND, room + len(BEHIND))
        size = ctypes.c_uint64(12345)
        handed = [part for piece in (words, job) for part in (piece, len(piece or b""))]
        status = self.calls[name](*handed, given if room else None, room, ctypes.byref(size))
        return status, size.value, given.raw


def files_are_written(made: Library) -> Cases:
    yield "the files of ./kdf9 lib", None if sorted(path.name for path in made.folder.iterdir()) == FILES else f"{sorted(made.folder.iterdir())}"
    for words, file in ((["nm", "-D", "--defined-only"], "libkdf9.so"), (["nm", "-g", "--defined-only"], "libkdf9.a")):
        names = re.findall(r" [A-Z] (\w+)$", done([*words, made.folder / file]).out, re.MULTILINE)
        yield f"the names of {file}", None if sorted(names) == CALLS else f"{names}"
    again = done([ROOT / "kdf9", "lib", made.folder])
    yield "lib into a folder that is there", None if again.status == 0 and "cc -I" in again.out else f"{again}"
    file = done([ROOT / "kdf9", "lib", made.folder / "kdf9.h"])
    spaced = made.folder.parent / "with a space"
    shown = done([ROOT / "kdf9", "lib", spaced]).out
    yield "lib into a folder with a space", None if f"cc -I'{spaced}' program.c" in shown else shown
    yield "lib into a file", None if file.status == 1 and file.err.count("\n") == 1 and "this is a file, and no folder" in file.err else f"{file}"


def programs_of_c_run(made: Library) -> Cases:
    """The program for C, with either library, in C and in C++."""
    folder, report = made.folder, example_report(PLAIN)
    flags = ["-Wall", "-Wextra", "-Werror", "-I", folder]
    ways = {"archive": ["cc", "-std=c99", *flags, EMBED / "run.c", folder / "libkdf9.a"], "shared": ["cc", *flags, EMBED / "run.c", "-L", folder, "-lkdf9"]}
    with tempfile.TemporaryDirectory() as place:
        for way, words in ways.items():
            program = pathlib.Path(place, way)
            built = done([*words, "-o", program])
            yield f"run.c with the {way} library is compiled", None if built == Run(0, "", "") else f"{built}"
            env = {**ENVIRONMENT, "LD_LIBRARY_PATH": str(folder)}
            run, faulty = done([program], job_of(PLAIN), env=env), done([program], job_of(FAULTY), env=env)
            yield f"run.c with the {way} library", None if run == Run(0, report, "") else f"{run}"
            yield f"run.c with the {way} library and a fault", None if faulty == Run(3, "DECK 0 ReferenceMissing 47\n", "") else f"{faulty}"
        if shutil.which("c++"):
            header = done(["c++", "-x", "c++", "-fsyntax-only", *flags, "-"], b'#include "kdf9.h"\nint main() { return kdf9_version() - KDF9_VERSION; }\n')
            yield "the header in C++", None if header == Run(0, "", "") else f"{header}"


def programs_of_python_run(made: Library) -> Cases:
    """The program for Python, with the library and where there is none."""
    for what, file in (("a library", made.folder / "libkdf9.so"), ("the kept library", "")):
        env = {**ENVIRONMENT, "PYTHONPATH": str(ROOT / "tools"), "KDF9_LIBRARY": str(file)}
        run, faulty = done([sys.executable, EMBED / "run.py"], job_of(PLAIN), env=env), done([sys.executable, EMBED / "run.py"], job_of(FAULTY), env=env)
        yield f"run.py with {what}", None if run == Run(0, example_report(PLAIN), "") else f"{run}"
        due = Run(3, "DECK 0 ReferenceMissing 47\n", "line 7, column 3: J2\n")
        yield f"run.py with {what} and a fault", None if faulty == due else f"{faulty}"


def programs_of_node_run(made: Library) -> Cases:
    """The program for Node, if it is there."""
    if not shutil.which("node"):
        print("library: no JavaScript, since there is no node")
        return
    version = int(done(["node", "--version"]).out.lstrip("v").split(".")[0])
    words = ["node", *([OPTION] if version < WITHOUT_OPTION else []), EMBED / "run.mjs", made.folder]
    for name in (PLAIN, FAULTY, "walks-over-a-table"):
        run, due = done(words, job_of(name)), as_recorded(ROOT / "examples" / name)
        yield f"run.mjs on {name}", None if (run.status, run.out, run.err) == (*due, "") else f"{run}"
    run = done(words, b"x" * (LONGEST + 1))
    yield "run.mjs on too many bytes", None if run == Run(LARGE, f"LARGE {LONGEST}\n", "") else f"{run}"


def as_recorded(path: pathlib.Path) -> Answer:
    """The status and the text that are recorded of an example or a case."""
    return Answer(int(path.with_suffix(".status").read_text()), path.with_suffix(".report").read_text(encoding="latin-1"))


def answers_are_those_of_the_program(made: Library) -> Cases:
    """Each example and each case of tests/cases that has a job of its own, through `kdf9`."""
    answer = library.loaded(str(made.folder / "libkdf9.so"))
    paths = [path for folder in ("examples", "tests/cases") for path in sorted((ROOT / folder).glob("*.status"))]
    for path in paths:
        job = path.with_suffix(".job")
        text = job.read_bytes() if job.exists() else done([path.with_suffix(".make")]).out.encode("latin-1")
        words = path.with_suffix(".args").read_bytes().decode("utf-8", "surrogateescape").splitlines()
        if not any("\\x" in word for word in words):
            given, due = answer(words, text), as_recorded(path)
            yield f"{path.stem} in the library", None if given == due else f"{given.status} {given.text[:200]!r}"


def odd_calls_are_answered(made: Library) -> Cases:
    """What no program hands in: no bytes, null pointers, words that are no command, bytes that are no job, too many."""
    job = job_of(PLAIN)
    for words in [None, *NO_COMMANDS]:
        status, size, room = made.run(words, job, 100)
        yield f"the words {words!r}", None if (status, room[:size].decode()) == (USAGE, USAGE_LINE) else f"{status} {room[:size]!r}"
    for text, line in [(None, "JOB Header 1\n"), *NO_JOBS]:
        status, size, room = made.run(b"run\n", text, 100)
        yield f"the job {(text or b'')[:20]!r}", None if (status, room[:size].decode()) == (JOB, line) else f"{status} {room[:size]!r}"
    for more, status_due in ((0, JOB), (1, LARGE)):
        status, size, room = made.run(b"run\n", b"x" * (LONGEST + more), 100)
        yield f"{LONGEST + more} bytes", None if status == status_due and room[size:] == b"\xa5" * (100 - size) + BEHIND else f"{status} {room[:size]!r}"
    status, size, _ = made.run(None, None, 0)
    yield "nothing at all", None if (status, size) == (NO_ROOM, len(USAGE_LINE)) else f"{status} {size}"


def rooms_are_kept_to(made: Library) -> Cases:
    """Rooms of all sizes around that of a text: it is written whole, or not at all, and nothing is written behind it."""
    job, due = job_of(PLAIN), example_report(PLAIN).encode("ascii")
    for room in [*range(40), *range(len(due) - 40, len(due) + 40), 1 << 20]:
        status, size, after = made.run(b"run\n", job, room)
        untouched = b"\xa5" * room + BEHIND
        good = status == (0 if room >= len(due) else NO_ROOM) and size == len(due) and after == (due + untouched[len(due):] if status == 0 else untouched)
        yield f"a room of {room} bytes", None if good else f"{status} {size} {after[:100]!r}"


def facts_are_told(made: Library) -> Cases:
    """Facts of jobs, decks, faults, and of what is none of them: the status, and some members of what is told."""
    tell = library.loaded(str(made.folder / "libkdf9.so"), library.FACTS)
    for words, job, status, due in FACTS:
        answer = tell(words, job_of(job) if isinstance(job, str) else job)
        told = json.loads(answer.text)
        given = {name: told.get(name) for name in due}
        yield f"facts of {words} over {job[:20]!r}", None if (answer.status, given) == (status, due) else f"{answer.status} {given}"


def rooms_of_facts_are_kept_to(made: Library) -> Cases:
    """Rooms around the size of facts: they are written whole, or not at all, and nothing is written behind them."""
    job = job_of(PLAIN)
    status, wanted, _ = made.run(b"run\n", job, 0, library.FACTS)
    yield "no room for facts", None if status == NO_ROOM and wanted else f"{status} {wanted}"
    for room in (1, wanted - 1, wanted, wanted + 1, 1 << 16):
        status, size, after = made.run(b"run\n", job, room, library.FACTS)
        untouched = b"\xa5" * room + BEHIND
        good = after[size:] == untouched[size:] and after[:1] == b"{" if room >= wanted else after == untouched
        yield f"a room of {room} bytes for facts", None if good and (status, size) == (0 if room >= wanted else NO_ROOM, wanted) else f"{status} {size} {after[:100]!r}"
    for words, text in ((None, None), (b"", b""), (b"\xff\n", job)):
        status, size, after = made.run(words, text, 4096, library.FACTS)
        yield f"facts of the words {words!r}", None if status == USAGE and json.loads(after[:size])["kind"] == "usage" else f"{status} {after[:100]!r}"


def programs_tell_facts(made: Library) -> Cases:
    """The programs for C, Python and Node that tell facts."""
    folder = made.folder
    with tempfile.TemporaryDirectory() as place:
        built = done(["cc", "-std=c99", "-Wall", "-Wextra", "-Werror", "-I", folder, EMBED / "facts.c", folder / "libkdf9.a", "-o", pathlib.Path(place, "facts")])
        yield "facts.c is compiled", None if built == Run(0, "", "") else f"{built}"
        run = done([pathlib.Path(place, "facts")], job_of(PLAIN))
        yield "facts.c", None if run.status == 0 and json.loads(run.out) == library.facts(job_of(PLAIN)) else f"{run}"
    env = {**ENVIRONMENT, "PYTHONPATH": str(ROOT / "tools"), "KDF9_LIBRARY": str(folder / "libkdf9.so")}
    run = done([sys.executable, EMBED / "facts.py"], job_of(PLAIN), env=env)
    yield "facts.py", None if run == Run(0, "slot 0 of 7 calls: 7 running, 0 ready, 0 held up\n", "") else f"{run}"
    if shutil.which("node"):
        version = int(done(["node", "--version"]).out.lstrip("v").split(".")[0])
        run = done(["node", *([OPTION] if version < WITHOUT_OPTION else []), EMBED / "facts.mjs", folder], job_of("adds-cards-while-a-tape-is-copied"))
        yield "facts.mjs", None if run.status == 0 and run.out.count("device ") == run.out.count("\n") > 0 else f"{run}"


def facts_have_types(_: Library) -> Cases:
    """Facts of every example and case become those with types, and the types are those of the schema."""
    types = told.Transfer.__annotations__
    due = {"slot": int, "ended": Optional[int], "at": Optional[Tuple[int, int]], "statement": Optional[told.Statement]}
    yield "the types of a transfer", None if {name: types.get(name) for name in due} == due and told.Run.__annotations__["transfers"] == List[told.Transfer] else f"{types}"
    for path in [path for folder in ("examples", "tests/cases") for path in sorted((ROOT / folder).glob("*.job"))]:
        yield f"the facts of {path.stem} with types", None if is_typed(path.read_bytes()) else "have others"


def is_typed(job: bytes) -> bool:
    """Whether the facts of a job, or of its fault, are those that JSON has, by some numbers of the run and of the first deck."""
    plain = library.facts(job)
    try:
        run, deck = kdf9.facts(job), kdf9.listing(job, 0)
    except kdf9.Refused as why:
        return plain["kind"] == "fault" and (why.name, why.line, why.sentence) == (plain["name"], plain.get("line", 0), plain.get("sentence", ""))
    told_too = [[vars(entry)[name] for name in one] for entry, one in zip(run.entries, plain["entries"])]
    return (run.made, told_too) == (plain["made"], [[*one.values()] for one in plain["entries"]]) and len(deck.words) >= 0


def threads_may_call_at_once(made: Library) -> Cases:
    """Several threads, each with little stack, run jobs at once."""
    job, due = job_of("adds-cards-while-a-tape-is-copied"), example_report("adds-cards-while-a-tape-is-copied").encode("ascii")
    threading.stack_size(STACK)
    try:
        with ThreadPoolExecutor(8) as pool:
            runs = list(pool.map(lambda _: made.run(b"run\n", job, 1 << 16), range(200)))
    finally:
        threading.stack_size(0)
    wrong = [(status, size) for status, size, room in runs if (status, room[:size]) != (0, due)]
    yield "calls in eight threads", f"{wrong[:3]}" if wrong else None


def exceptions_have_fields(_: Library) -> Cases:
    """What Python programs are told of a fault."""
    for name, due in ((FAULTY, (3, "ReferenceMissing", 7, 3, "J2", 0, 47)), (None, (2, "Header", 1, 1, "no job", None, None))):
        try:
            kdf9.run(job_of(name) if name else "no job\n")
            yield f"Refused for {name}", "wasn't raised"
        except kdf9.Refused as why:
            given = (why.status, why.name, why.line, why.column, why.subject, why.slot, why.offset)
            yield f"Refused for {name}", None if given == due else f"{given}"
    for words, raised in ((["walk"], kdf9.Refused), (["run\n"], ValueError)):
        try:
            kdf9.run("", *words)
            yield f"the words {words}", "weren't refused"
        except raised as why:
            yield f"the words {words}", None if type(why) is raised else f"{why!r}"
    text = kdf9.run(job_of(PLAIN), "alone", "0")
    yield "another command", None if text.startswith("KDF9 ALONE 0\n") or "STATE ENDED" in text else text


    yield "a slot as a number", None if kdf9.run(job_of(PLAIN), "alone", 0) == text else "the answer differs"


# Calls that a program may make by a slip, what is raised, and what that says.
SLIPS = [
    (lambda job: kdf9.run(None), TypeError, "a job is its text, a str or bytes, and not of the type NoneType"), (lambda job: kdf9.facts(7), TypeError, "not of the type int"),
    (lambda job: kdf9.listing(job, 7), kdf9.Refused, "USAGE kdf9 run"), (lambda job: kdf9.listing(job, "first"), kdf9.Refused, "USAGE kdf9 run"),
    (lambda job: kdf9.facts(job).program(3), ValueError, "the job has no slot 3"),
]


def slips_are_said(_: Library) -> Cases:
    """What Python programs are told of a call that can't be answered; and which names the package says that it has."""
    for number, (call, raised, part) in enumerate(SLIPS, 1):
        try:
            call(job_of(PLAIN))
            yield f"slip {number}", "nothing was raised"
        except Exception as why:  # pylint: disable=broad-except
            yield f"slip {number}", None if type(why) is raised and part in str(why) else f"{why!r}"
    yield "the names of the package", None if set(kdf9.__all__) <= set(dir(kdf9)) else f"{dir(kdf9)}"


def program_stands_in(_: Library) -> Cases:
    """Where there is no library, the program is started."""

    def none() -> str:
        raise library.NoLibrary("there is none")

    kept, library.library_file = library.library_file, none
    library.machine.cache_clear()
    try:
        for name in (PLAIN, FAULTY):
            given, due = library.answer_to(["run"], job_of(name)), as_recorded(ROOT / "examples" / name)
            yield f"{name} without a library", None if given == due else f"{given}"
    finally:
        library.library_file = kept
        library.machine.cache_clear()


def document_is_true(_: Library) -> Cases:
    """The programs that docs/LIBRARY.md shows are those of examples/embed."""
    shown = re.findall(r"^```(?:c|python|js)\n(.*?)^```$", document("LIBRARY.md"), re.MULTILINE | re.DOTALL)
    for name in ("run.c", "facts.c", "run.py", "facts.py", "run.mjs", "facts.mjs"):
        yield f"{name} in docs/LIBRARY.md", None if (EMBED / name).read_text(encoding="utf-8") in shown else "is another"


SUITES = (
    files_are_written, programs_of_c_run, programs_of_python_run, programs_of_node_run, answers_are_those_of_the_program, odd_calls_are_answered, rooms_are_kept_to,
    facts_are_told, rooms_of_facts_are_kept_to, programs_tell_facts, facts_have_types, threads_may_call_at_once, exceptions_have_fields, slips_are_said, program_stands_in, document_is_true,
)


def main() -> int:
    os.environ.setdefault("KDF9", str(ROOT / "crates" / "kdf9" / "out" / "kdf9"))
    with tempfile.TemporaryDirectory() as folder:
        place = pathlib.Path(folder, "library")
        run = done([ROOT / "kdf9", "lib", place])
        if run.status:
            print(f"library: {run.err.strip()}")
            return 1
        cases = [case for suite in SUITES for case in suite(Library(place))]
    faults = [(what, why) for what, why in cases if why]
    for what, why in faults:
        print(f"library: {what}: {why}")
    print(f"library: {len(cases) - len(faults)} passed, {len(faults)} failed")
    return 1 if faults else 0


if __name__ == "__main__":
    sys.exit(main())
