"""Tries how the tools begin and end: what they say of themselves, wrong arguments, input that is no text of theirs, and streams that fail."""
import json
import os
import pathlib
import re
import signal
import subprocess
import sys
import tempfile
import time
from typing import Iterator, List, Optional, Tuple

from toolkit import ENVIRONMENT, HEAD, ROOT, TAIL, Run, document, kdf9, refused, side_by_side

sys.path.insert(0, str(ROOT / "tools"))
from building.engine import is_current  # noqa: E402
from building.rooms import read_crates  # noqa: E402
from kdf9.tools import TOOLS  # noqa: E402

Cases = Iterator[Tuple[str, Optional[str]]]

# The tools that read a report or JSON from standard input, and those that read nothing; the others read the file that their first argument names.
READS_INPUT, READS_NOTHING = ("picture", "json", "report"), ("page", "proofs", "clean", "package", "lib", "mark", "quiz")

# The tools that serve an editor: tests/editors tries what they read.
SERVES = ("lsp", "dap")
READS_FILE = tuple(name for name in TOOLS if name not in (*READS_INPUT, *READS_NOTHING, *SERVES))

# These need the machine for other programs, which tests/page and tests/library make.
NEEDS_ENGINE = ("page", "replay", "lib")

# Wrong arguments, and what is said of them.
WRONG_WORDS = [
    (["explain"], "required: JOB"), (["explain", "-", "save"], "COMMAND"), (["explain", "-", "resume", "check"], "check"), (["explain", "-", "--check"], "--check"),
    (["explain", "-", "--str"], "--str"),
    (["steps"], "required: JOB"), (["steps", "-", "4"], "SLOT: has to be a number from 0 to 3, and 4 isn't one"), (["steps", "-", "-1"], "SLOT"),
    (["steps", "-", "0", "0"], "FROM: has to be a number from 1 to 20000000, and 0 isn't one"), (["steps", "-", "0", "5", "4"], "TO has to be 5 or more"),
    (["steps", "-", "0", "1", "2", "3"], "3"), (["steps", "-", "0", "--at"], "--at"), (["steps", "-", "0", "--at", "1", "--at", "1"], "--at can be given only once"),
    (["steps", "-", "--watch"], "--watch"), (["steps", "-", "9" * 5000], "SLOT"), (["steps", "-", "²"], "SLOT"),
    (["listing", "-", "x"], "SLOT: has to be a number from 0 to 3, and x isn't one"), (["listing", "-", ""], "and an empty word isn't one"),
    (["schedule"], "required: JOB;"), (["schedule", "-", "--after"], "--after"), (["schedule", "-", "--every", "0"], "--every: has to be a number from 1"),
    (["schedule", "-", "16=3"], "DEVICE=N: has to be a number from 0 to 15, and 16 isn't one"), (["schedule", "-", "3"], "DEVICE=N: has to be the number of a device"),
    (["schedule", "-", "--speed", "3=5"], "--speed: has to be the number of a device, =, a number of calls, + and a number"), (["schedule", "-", "--speed", "3=5+"], "an empty word isn't one"),
    (["schedule", "-", "--speed", "16=1+1"], "--speed: has to be a number from 0 to 15"), (["schedule", "-", "--speeds", "fast"], "(choose from 'kdf9')"), (["schedule", "-", "--speed"], "--speed"),
    (["explore"], "required: JOB"), (["explore", "-", "--calls", "0"], "--calls: has to be a number from 1 to 10000"), (["explore", "-", "--runs", "x"], "--runs"),
    (["explore", "-", "--mode", "best"], "--mode"), (["explore", "-", "--out"], "--out"), (["explore", "-", "x"], "x"),
    (["stats"], "required: JOB;"), (["stats", "-", "--json", "--csv"], "not allowed with"), (["stats", "-", "-"], "- is given twice"),
    (["study"], "required: PLAN"), (["study", "-", "--part", "3/2"], "--part: has to be I/N"), (["study", "-", "--out"], "--out"),
    (["mark"], "required: COURSE"), (["mark", "machine"], "HAND-INS is missing"), (["mark", "machine", "x", "--try"], "there are no HAND-INS"),
    (["mark", "machine", "x", "--seeds", "3"], "--seeds needs --try"), (["mark", "machine", "x", "--csv", "--json"], "not allowed with"), (["mark", "machine", "--hand-out"], "--hand-out"),
    (["quiz"], "required: KIND"), (["quiz", "chess"], "KIND"), (["quiz", "nest", "--seed", "x"], "--seed: has to be a number from 0 to 999999"), (["quiz", "nest", "--html", "--json"], "not allowed with"),
    (["same"], "required: JOB"), (["same", "-", "-"], "can't both be standard input"), (["same", "-", "a", "b"], "b"),
    (["picture", "--svg"], "--svg"), (["json", "-"], "-"), (["report", "-"], "-"), (["page", "x"], "x"), (["proofs", "x"], "x"), (["replay"], "required: JOB"),
    (["clean", "x"], "x"), (["lsp", "x"], "x"), (["lsp", "--faults"], "--faults"), (["dap", "x"], "x"),
    (["lib"], "required: FOLDER"), (["lib", "a", "b"], "b"),
]

# What is no text of a tool: its name and its bytes.
NO_TEXTS = [
    ("an empty file", b""), ("a newline", b"\n"), ("no UTF-8", b"\xff\xfe\x00K\x00D\x00F\x009"), ("letters of another alphabet", "Жобф 1\n".encode()),
    ("5 MB", b"x" * 5000000), ("5 MB of lines", b"\n" * 5000000), ("5 MB after the first line of a job", b"KDF9 JOB 1\n" + b"x\n" * 2500000), ("a job with zeros", b"KDF9 JOB 1\n\x00\x00\n"),
]

# A job that runs for some seconds, and the tools that take as long over it.
LONG = HEAD.replace("1; J1", "SET 7; SET 5; 1; SHAD+47; SHAD-47; J1") + "SCHEDULE\nORDERS 20000000\nENDJOB\n"
SLOW = [["explain", "-"], ["steps", "-", "0", "19999999"], ["schedule", "-"], ["same", "-"]]

# Arguments with which a tool writes, and what it reads from standard input.
JOB, REPORT = "examples/adds-5-and-7.job", "examples/adds-5-and-7.report"
GOOD = [([name, "-"], JOB) for name in READS_FILE if name not in ("replay", "study")] + [(["picture"], REPORT), (["picture", "--text"], REPORT), (["json"], REPORT)]

# For how many seconds texts of chance are tried.
FUZZED = 60

# In the background of a script, SIGINT is ignored, and so it would be by all that is started here.
if signal.getsignal(signal.SIGINT) is signal.SIG_IGN:
    signal.signal(signal.SIGINT, signal.default_int_handler)


def said_of(name: str, run: Run, part: str) -> Optional[str]:
    """What is wrong with how a tool refused its arguments: with status 2, no output, and one line that has this part and the usage; or None."""
    good = run.status == 2 and not run.out and run.err.count("\n") == 1 and run.err.startswith(f"kdf9 {name}: ")
    return None if good and part in run.err and f"; usage: {TOOLS[name].usage}" in run.err else f"{run} without {part!r}"


def tools_say_what_they_are_for() -> Cases:
    runs = [([name, *words], columns) for name in TOOLS for words in (["-h"], ["--help"], ["x", "--help"]) for columns in ("20", "120")]
    for words, columns in runs:
        tool, run = TOOLS[words[0]], started(words, env={**ENVIRONMENT, "COLUMNS": columns})
        lines = run.out.split("\n")
        good = (run.status, run.err) == (0, "") and lines[0] == f"usage: {tool.usage}" and tool.does in lines and lines[-3:] == ["example:", f"  {tool.example}", ""]
        yield f"{' '.join(words)} in {columns} columns", None if good else f"{run}"


def examples_of_tools_work() -> Cases:
    """Each example is run as --help prints it, in a folder where ./kdf9 and the examples are."""
    with tempfile.TemporaryDirectory() as folder:
        for name in ("kdf9", "examples"):
            pathlib.Path(folder, name).symlink_to(ROOT / name)
        for tool in TOOLS.values():
            if tool.name not in NEEDS_ENGINE or is_current():
                done = subprocess.run(["bash", "-c", tool.example], cwd=folder, env=ENVIRONMENT, capture_output=True, check=False)
                written = done.stdout or pathlib.Path(folder, "kdf9.html").read_bytes()
                yield f"the example {tool.example}", None if done.returncode == 0 and written else f"{done}"


def tools_are_listed() -> Cases:
    """The table of the tools has those that the launcher starts, docs/TOOLS.md lists them as it does, and says how many crates a build has."""
    launcher, names = (ROOT / "kdf9").read_text(encoding="utf-8"), list(TOOLS)
    listed = re.search(r'^tools="(.*)"$', launcher, re.MULTILINE)[1].split(", ")
    begun = [name for names in re.findall(r"^  ([a-z |]+)\) .*become_tool", launcher, re.MULTILINE) for name in names.split(" | ")]
    yield "the tools of ./kdf9", None if listed == names else f"{listed} in place of {names}"
    yield "the tools that ./kdf9 begins", None if sorted(begun) == sorted(names) else f"{begun} in place of {names}"
    rows = re.findall(r"^\| `(\./kdf9 [a-z]+ .*?)` \| (.*) \|$", document("TOOLS.md"), re.MULTILINE)
    due = [(tool.usage, tool.does) for tool in TOOLS.values()]
    yield "the list of docs/TOOLS.md", None if rows == due else f"{rows} in place of {due}"
    built = re.findall(r"building the program: (\d+) crates|is proved: 1 of (\d+) ", document("TOOLS.md"))
    yield "the crates of docs/TOOLS.md", None if {int(one or other) for one, other in built} == {len(read_crates())} else f"are {built}"
    there = {path.name for path in (ROOT / "tools").iterdir() if path.is_file() and os.access(path, os.X_OK)}
    yield "the files of the tools", None if there == {*TOOLS, "about", "build", "editors", "first", "kit_line", "manual", "shipped"} else f"{there}"


def wrong_words_are_refused() -> Cases:
    for (words, part), run in zip(WRONG_WORDS, side_by_side([(words, "") for words, _ in WRONG_WORDS])):
        yield f"wrong words {' '.join(words)[:40]}", said_of(words[0], run, part)


def no_texts_are_refused() -> Cases:
    cases = [([name, *([] if name in READS_INPUT else ["-"])], what, text) for name in (*READS_FILE, *READS_INPUT) if name != "replay" for what, text in NO_TEXTS]
    for (words, what, _), run in zip(cases, side_by_side([(words, text.decode("latin-1")) for words, _, text in cases])):
        good = refused(run) or words[0] == "explain" and run.status in (2, 4) and "Traceback" not in run.err
        yield f"{what} for {' '.join(words)}", None if good and len(run.err) < 400 else f"{run.status} {run.out[:60]!r} {run.err[:400]!r}"


def names_of_no_files_are_refused() -> Cases:
    with tempfile.TemporaryDirectory() as folder:
        closed = pathlib.Path(folder, "closed")
        closed.write_text(HEAD + TAIL, encoding="ascii")
        closed.chmod(0)
        files = [("no/such/file", "No such file"), (folder, "Is a directory"), (f"{closed}/x", "Not a directory"), ("a\nb", "No such file"), ("x" * 300, "too long")]
        files += [] if os.access(closed, os.R_OK) else [(str(closed), "Permission denied")]
        for name in READS_FILE:
            for file, why in files:
                run = started([name, file])
                yield f"{name} of {file!r:.40}", None if refused(run) and why in run.err else f"{run}"
        stdin = os.open(folder, os.O_RDONLY)
        for name in READS_INPUT:
            run = started([name], stdin=stdin)
            yield f"{name} of a folder", None if refused(run) and run.err == "-: Is a directory\n" else f"{run}"
        os.close(stdin)


def names_are_written_as_they_are() -> Cases:
    """Names of files and folders are written as they are on the disk, also those that aren't ASCII, have a space, or are no UTF-8."""
    with tempfile.TemporaryDirectory() as folder:
        for name in (b"\xc3\xa9t\xc3\xa9 \xe6\x97\xa5", b"\xe9t\xe9"):
            own = os.path.join(os.fsencode(folder), name)
            os.mkdir(own)
            job = os.path.join(own, b"job")
            plan = json.dumps({"job": str(ROOT / JOB), "values": {"after": [1]}, "measures": ["calls"]}).encode("ascii")
            for words in (["stats", "-"], ["stats", "-", "--csv"], ["explore", JOB, "--out"], ["study", "-", "--out"], ["mark", "machine", "--hand-out"], ["lsp", "--faults"]):
                given = pathlib.Path(os.fsdecode(os.path.join(own, words[0].encode("ascii"))))
                if words[0] in ("stats", "lsp"):
                    given = pathlib.Path(os.fsdecode(job))
                    given.write_text((HEAD if words[0] == "stats" else HEAD.replace("J1", "ADD")) + TAIL, encoding="ascii")
                whole = [ROOT / "kdf9", *words, given]
                text = plan if words[0] == "study" else (HEAD + TAIL).encode("ascii")
                done = subprocess.run(whole, cwd=ROOT, env=ENVIRONMENT, input=text, capture_output=True, check=False)
                good = (done.returncode, done.stderr) == (0, b"") and os.fsencode(given) in done.stdout
                yield f"{' '.join(words)} with the name {name!r}", None if good else f"{done}"


def streams_that_fail_are_said() -> Cases:
    for words, file in GOOD:
        with open(ROOT / file, "rb") as stdin, open("/dev/full", "wb") as full:
            run = started(words, stdin=stdin, stdout=full)
        yield f"{words[0]} to a full disk", None if run == Run(1, "", "standard output: No space left on device\n") else f"{run}"
        with open(ROOT / file, "rb") as stdin, open("/dev/full", "wb") as full:
            runs = started(words, stdin=stdin, stderr=full), started([words[0], "--x"], stdin=stdin, stderr=full)
        yield f"{words[0]} with a full disk for what is wrong", None if [run.status for run in runs] == [0, 2] else f"{runs}"
        with open(ROOT / file, "rb") as stdin:
            run = started(words, stdin=stdin, stdout=pipe_that_nobody_reads())
        yield f"{words[0]} to a pipe that nobody reads", None if run == Run(1, "", "") else f"{run}"
        shut = subprocess.run(["bash", "-c", f"./kdf9 {' '.join(words)} < {file} >&-"], cwd=ROOT, env=ENVIRONMENT, stderr=subprocess.PIPE, check=False)
        yield f"{words[0]} without an output", None if (shut.returncode, shut.stderr) == (1, b"standard output is closed\n") else f"{shut}"
        shut = subprocess.run(["bash", "-c", f"./kdf9 {' '.join(words)} <&-"], cwd=ROOT, env=ENVIRONMENT, capture_output=True, check=False)
        yield f"{words[0]} without an input", None if (shut.returncode, shut.stderr) == (1, b"-: Bad file descriptor\n") else f"{shut}"
    long = "walks-over-a-table"
    done = subprocess.run(["bash", "-c", f"./kdf9 listing examples/{long}.job | head -1"], cwd=ROOT, env=ENVIRONMENT, capture_output=True, check=False)
    yield "listing | head -1", None if done.stdout.count(b"\n") == 1 and not done.stderr else f"{done}"


def want_of_memory_is_said() -> Cases:
    """A long report is more than some tools have room for; how much they have is limited as by the shell."""
    rounds = "RAN 0 1\nRAN 1 1\n" * 300000
    report = f"KDF9 REPORT 1\n{rounds}SLOT 0\nSTATE LIVE\nORDERS 1\nAT 1 0\nFLAGS 0 0\nNEST 0\nLINKS 0\nENDREPORT\n"
    for kilobytes in (60000, 100000):
        whole = ["bash", "-c", f"ulimit -v {kilobytes}; exec {sys.executable} -S tools/json > /dev/null"]
        done = subprocess.run(whole, cwd=ROOT, env=ENVIRONMENT, input=report.encode("ascii"), stderr=subprocess.PIPE, check=False)
        good = (done.returncode, done.stderr) == (1, b"kdf9 json: this takes more memory than there is\n")
        yield f"json with {kilobytes} kB of memory", None if good else f"{done.returncode} {done.stderr[-600:]}"


def interrupts_are_silent() -> Cases:
    """Ctrl-C ends a tool at once, whenever it comes, and says nothing."""
    with tempfile.TemporaryDirectory() as folder:
        pathlib.Path(folder, "long").write_text(LONG, encoding="ascii")
        for words in SLOW:
            for seconds in (0.03, 0.1, 0.2, 0.4):
                with open(pathlib.Path(folder, "long"), "rb") as stdin:
                    streams = {"stdin": stdin, "stdout": subprocess.DEVNULL, "stderr": subprocess.PIPE}
                    process = subprocess.Popen([ROOT / "kdf9", *words], env=ENVIRONMENT, start_new_session=True, **streams)
                interrupt(process, seconds)
                _, err = process.communicate()
                good = process.returncode in (-signal.SIGINT, 128 + signal.SIGINT) and not err
                yield f"{words[0]}, interrupted after {seconds} s", None if good else f"{process.returncode} {err[:400]}"


def interrupt(process: subprocess.Popen, seconds: float) -> None:
    """Interrupts a process after this time, and again for as long as it goes on: while Python starts, it takes no interrupt."""
    time.sleep(seconds)
    while process.poll() is None:
        os.killpg(process.pid, signal.SIGINT)
        time.sleep(0.1)


def pipe_that_nobody_reads() -> int:
    """The end of a pipe to which one writes, when the other is closed."""
    ours, theirs = os.pipe()
    os.close(ours)
    return theirs


def started(words: List[str], **how: object) -> Run:
    """A run of ./kdf9 by these words, with these streams."""
    streams = {"stdin": subprocess.DEVNULL, "stdout": subprocess.PIPE, "stderr": subprocess.PIPE, "env": ENVIRONMENT, **how}
    done = subprocess.run([ROOT / "kdf9", *words], cwd=ROOT, check=False, **streams)
    if isinstance(how.get("stdout"), int):
        os.close(how["stdout"])
    return Run(done.returncode, (done.stdout or b"").decode("latin-1"), (done.stderr or b"").decode("utf-8"))


def fuzz_finds_nothing() -> Cases:
    """As many texts that chance makes as there is time for (fuzz_tools.py)."""
    done = subprocess.run([sys.executable, "tests/fuzz_tools.py", "--seconds", str(FUZZED)], cwd=ROOT, env=ENVIRONMENT, capture_output=True, text=True, check=False)
    yield "tools over texts that chance makes", None if done.returncode == 0 else done.stdout + done.stderr


# What writes lines, and how many of them are the head. With --json there is an object for each of the others.
LINES = [
    (["steps", "examples/reads-tape.job", "0", "1", "5"], 1), (["steps", "examples/adds-cards-while-a-tape-is-copied.job", "--run"], 1), (["steps", "examples/stops-at-a-loop.job", "--at", "1"], 2),
    (["same", "examples/adds-cards-while-a-tape-is-copied.job"], 0),
]


def lines_are_json_too() -> Cases:
    """With --json a tool that writes lines or a table writes an object for each, with the same in it."""
    for words, head in LINES:
        lines, made = kdf9(words, "").out.splitlines()[head:], json.loads(kdf9([*words, "--json"], "").out)
        last = list(made[-1].values())
        said = last[-1] if isinstance(last[-1], str) else last[1]
        good = len(lines) == len(made) and all(str(part) in lines[-1] for part in (last[0], said) if not isinstance(part, list))
        yield f"{' '.join(words)} --json", None if good else f"{made} in place of {lines}"
    words = ["listing", "examples/walks-over-a-table.job"]
    made, text = json.loads(kdf9([*words, "--json"], "").out), kdf9(words, "").out
    lines = {f"{it['line']:>6}  {it['at']:>6}  {it['image']:<17}  {it['statement']};" for it in made["statements"]}
    yield "listing --json", None if made["slot"] == 0 and made["names"] and lines <= set(text.splitlines()) and len(lines) > 9 else f"{made}"
    made = json.loads(kdf9(["clean", "--show", "--json"], "").out)
    yield "clean --show --json", None if set(made) == {"given_back", "folders", "kept"} and made["given_back"] is False else f"{made}"


SUITES = (lines_are_json_too, 
    tools_say_what_they_are_for, examples_of_tools_work, tools_are_listed, wrong_words_are_refused, no_texts_are_refused, names_of_no_files_are_refused, names_are_written_as_they_are,
    streams_that_fail_are_said, want_of_memory_is_said, interrupts_are_silent, fuzz_finds_nothing,
)
