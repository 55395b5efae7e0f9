"""Tries ./kdf9 in a folder of its own, where a stand-in for rt builds a program that shows its source, its arguments and its input."""
import fcntl
import os
import pathlib
import pty
import re
import shutil
import signal
import subprocess
import sys
import tempfile
import time

ROOT = pathlib.Path(__file__).resolve().parent.parent
MAIN, WORD, NEST, QSTORE = (f"crates/{name}" for name in ("kdf9/src/main.rt", "kdf_word/src/lib.rt", "kdf_nest/src/lib.rt", "kdf_qstore/src/lib.rt"))
PROGRAM, TIMES = "crates/kdf9/out/kdf9", "tools/build-times.txt"
LIST = "kdf9: kdf_nest kdf_qstore\nkdf_nest: kdf_word arrayvec\nkdf_qstore: kdf_word\nkdf_word:\n"

# All commands that ./kdf9 may use, but for rt and python3.
COMMANDS = (
    "bash", "cat", "chmod", "diff", "dirname", "find", "flock", "grep", "head", "mkdir", "mv", "readlink", "sed", "sha256sum", "sleep", "sort",
    "touch", "true", "xargs",
)


class Checkout:
    """A folder with ./kdf9, its sources, and commands with or without rt."""

    def __init__(self, folder):
        self.folder = pathlib.Path(folder)
        rt = f"#!{sys.executable}\n{(ROOT / 'tests/stand_in_rt.py').read_text()}"
        for name, text in (("crates.txt", LIST), (MAIN, "first\n"), (WORD, "\n"), (NEST, "\n"), (QSTORE, "\n"), (TIMES, "# seconds\nkdf9 7\n"), ("commands/rt", rt)):
            self.write(name, text)
        (self.folder / "commands/rt").chmod(0o755)
        for command in COMMANDS:
            (self.folder / "commands" / command).symlink_to(shutil.which(command))
        (self.folder / "commands/python3").symlink_to(sys.executable)
        shutil.copy(ROOT / "kdf9", self.folder)
        shutil.copy(ROOT / "tools/build", self.folder / "tools")
        shutil.copytree(ROOT / "tools/building", self.folder / "tools/building", ignore=shutil.ignore_patterns("__pycache__"))
        shutil.copytree(ROOT / "tools/kdf9", self.folder / "tools/kdf9", ignore=shutil.ignore_patterns("__pycache__"))
        for tool in ("about", "clean", "first"):
            shutil.copy(ROOT / "tools" / tool, self.folder / "tools")
        shutil.copy(ROOT / "CHANGELOG.md", self.folder)
        self.write("docs/PROOFS.md", "# Proofs\n\nProved with `a kit that stands in` (and so on).\n")

    def write(self, name, text):
        """Writes a file, which is newer than the program then, as by an editor some time later."""
        path = self.folder / name
        path.parent.mkdir(parents=True, exist_ok=True)
        path.write_text(text)
        self.date(name, 10)

    def date(self, name, seconds):
        """Makes a file this many seconds newer than the program, and than all that its build left, which may have taken long."""
        program = self.folder / PROGRAM
        if program.exists():
            at = max(program.stat().st_mtime, time.time()) + seconds
            os.utime(self.folder / name, (at, at))

    def build_by_hand(self):
        """Another program, which is newer than all sources."""
        with open(self.folder / PROGRAM, "a", encoding="ascii") as program:
            program.write("# built by hand\n")
        self.date(PROGRAM, 20)

    def without(self, command):
        (self.folder / "commands" / command).unlink()

    def builds(self):
        """How often the program was built."""
        return self.log().count("builds")

    def log(self):
        """What rt did, in a line each."""
        log = self.folder / "log"
        return log.read_text().splitlines() if log.exists() else []

    def begin(self, *words, variables=(), **streams):
        """A start of ./kdf9 by these words."""
        pipes = {"stdin": subprocess.DEVNULL, "stdout": subprocess.PIPE, "stderr": subprocess.PIPE, **streams}
        variables = {"PATH": str(self.folder / "commands"), "KDF9_JOBS": "2", "KDF9_DISK": "0", "KDF9_PROVED": "1", **dict(variables)}
        # Named as a program, the copy can't be started while a process that another thread begins has it open still.
        return subprocess.Popen([shutil.which("bash"), self.folder / "kdf9", *words], env=variables, text=True, **pipes)

    def start(self, *words, text=""):
        """What a start by these words over this text wrote, and its status."""
        return ended(self.begin(*words, stdin=subprocess.PIPE), text)


def ended(process, text=None):
    """The status of a process, its output and what it wrote to standard error."""
    out, err = process.communicate(text)
    return process.returncode, out, err


def differs(run, status, out, *parts):
    """How a start differs from this status, this output and one line on standard error for each of these parts; or None."""
    lines = run[2].splitlines()
    alike = run[:2] == (status, out) and len(lines) == len(parts) and all(part in line for part, line in zip(parts, lines))
    return None if alike else f"{run} in place of {(status, out, *parts)}"


BUILDING = "kdf9: building the program"


def built(crates=4):
    """The lines of a build of this number of crates."""
    return (f"{BUILDING}: {crates} crates, 2 at a time", *(f"is proved: {n} of {crates} after" for n in range(1, crates + 1)), "is built, after")


def builds_once(checkout):
    yield differs(checkout.start("run", "a b", "", text="job\n"), 42, "<first><run><a b><>job\n", *built())
    yield differs(checkout.start("make", "7", text="job"), 42, "<first><make><7>job")


def proves_side_by_side(checkout):
    checkout.write(NEST, "kdf_qstore\n")
    checkout.write(QSTORE, "kdf_nest\n")
    yield differs(checkout.start("make", "0"), 42, "<first><make><0>", *built())
    log = checkout.log()
    in_order = log[:2] == ["begins kdf_word", "proves kdf_word"] and log[-3:] == ["begins kdf9", "proves kdf9", "builds"]
    yield None if in_order and len(log) == 9 else f"{log}"


def proves_in_turn_without_python(checkout):
    checkout.without("python3")
    yield differs(checkout.start("make", "0"), 42, "<first><make><0>", f"{BUILDING}; the first time this can take an hour")
    checkout.write(MAIN, "faulty\n")
    yield differs(checkout.start("make", "0"), 1, "", BUILDING, "could not be built")


def shows_the_end_of_a_check_that_failed(checkout):
    checkout.write(NEST, "faulty\n")
    checkout.write(QSTORE, "endless\n")
    end = ("  fn kdf_nest::first: proved", "  fn kdf_nest::last: not proved")
    yield differs(checkout.start("run"), 1, "", BUILDING, "kdf_word is proved: 1 of 4", "kdf_nest isn't proved, so the program could not be built", *end)
    yield None if "last: not proved" in (checkout.folder / "crates/kdf_nest/out/check.log").read_text() else "no log is kept"
    checkout.write(NEST, "\n")
    checkout.write(QSTORE, "\n")
    yield differs(checkout.start("run"), 42, "<first><run>", *built())
    yield None if checkout.log().count("begins kdf_word") == 1 and "goes on with kdf_nest" in checkout.log() else f"{checkout.log()}"


def carries_on_where_it_was_stopped(checkout):
    checkout.write(QSTORE, "endless\n")
    for end, status, line in ((signal.SIGINT, 130, "begins kdf_qstore"), (signal.SIGKILL, -signal.SIGKILL, "goes on with kdf_qstore")):
        start = checkout.begin("make", "0", start_new_session=True)
        is_proved = any("kdf_nest is proved" in said for said in start.stderr)
        while is_proved and start.poll() is None and line not in checkout.log():
            time.sleep(0.1)
        if start.poll() is None:
            os.killpg(start.pid, end)
        yield differs(ended(start), status, "", *["isn't built yet"] * (end == signal.SIGINT))
        wait_for_group(start.pid)
    checkout.write(QSTORE, "\n")
    yield differs(checkout.start("make", "0"), 42, "<first><make><0>", *built())
    log = checkout.log()
    yield None if [log.count(f"begins {name}") for name in ("kdf_word", "kdf_nest", "kdf_qstore")] == [1, 1, 1] else f"{log}"


def wait_for_group(group):
    """Waits until no process of a group is left, ten seconds at most: while one dies it still has the folders of crates for itself."""
    for _ in range(100):
        try:
            os.killpg(group, 0)
        except ProcessLookupError:
            return
        time.sleep(0.1)


def draws_a_bar_on_a_terminal(checkout):
    ours, theirs = pty.openpty()
    start = checkout.begin("make", "0", stderr=theirs)
    os.close(theirs)
    drawn = b""
    while b"is built, after" not in drawn:
        drawn += os.read(ours, 1024)
    os.close(ours)
    bar = re.search(rb"\r\x1b\[Kkdf9: \[#*\.*\] (\d) of 4, \d:\d\d, .* more: kdf_", drawn)
    yield None if bar else f"{drawn}"
    start.communicate()


def writes_down_how_long_crates_took(checkout):
    checkout.write(WORD, "word\n")
    words = [sys.executable, "tools/build", "--times"]
    variables = {"PATH": str(checkout.folder / "commands"), "KDF9_DISK": "0"}
    for _ in range(2):
        subprocess.run(words, cwd=checkout.folder, env=variables, stderr=subprocess.PIPE, check=True)
        yield None if (checkout.folder / TIMES).read_text() == "# seconds\nkdf9 1\nkdf_nest 1\nkdf_qstore 1\nkdf_word 1\n" else "other times"
        yield None if (checkout.folder / "crates/kdf_word/out/proof-seconds").read_text() == "1\n" else "other notes"


def says_that_there_is_no_rt(checkout):
    checkout.without("rt")
    yield differs(checkout.start("run"), 1, "", "isn't built, and there is no rt")


def builds_what_has_changed(checkout):
    checkout.start("make", "0")
    for name, text, crates in ((MAIN, "second\n", 4), ("crates.txt", "kdf9: kdf_word\nkdf_word:\n", 2), ("crates/kdf_word/src/more.rt", "", 2)):
        checkout.write(name, text)
        yield differs(checkout.start("make", "0"), 42, "<second><make><0>", *built(crates))


def builds_nothing_for_a_date(checkout):
    checkout.start("make", "0")
    checkout.date(WORD, 10)
    yield differs(checkout.start("make", "0"), 42, "<first><make><0>")


def sees_what_changed_while_it_built(checkout):
    checkout.write(MAIN, "slow\n")
    checkout.start("make", "0")
    yield differs(checkout.start("make", "0"), 42, "<changed><make><0>", *built())


def names_the_source_that_is_newer(checkout):
    checkout.start("make", "0")
    checkout.without("rt")
    checkout.date(MAIN, 10)
    checkout.write(WORD, "another\n")
    yield differs(checkout.start("make", "0"), 1, "", f"older than {WORD}, and there is no rt")


def starts_in_a_copy(checkout):
    checkout.start("make", "0")
    checkout.without("rt")
    for path in checkout.folder.rglob("*.rt"):
        os.utime(path)
    checkout.date(PROGRAM, -1000)
    yield differs(checkout.start("make", "0"), 42, "<first><make><0>")


def goes_by_dates_where_another_built(checkout):
    checkout.start("make", "0")
    checkout.write(MAIN, "second\n")
    checkout.build_by_hand()
    yield differs(checkout.start("make", "0"), 42, "<first><make><0>")
    checkout.build_by_hand()
    checkout.without("rt")
    checkout.date(WORD, 10)
    yield differs(checkout.start("make", "0"), 1, "", f"older than {WORD}, and there is no rt")
    (checkout.folder / f"{PROGRAM}.sums").unlink()
    yield differs(checkout.start("make", "0"), 1, "", f"older than {WORD}, and there is no rt")
    checkout.date(WORD, -10)
    yield differs(checkout.start("make", "0"), 42, "<first><make><0>")


def starts_in_a_copy_of_what_another_built(checkout):
    checkout.start("make", "0")
    checkout.build_by_hand()
    checkout.start("make", "0")
    checkout.without("rt")
    checkout.date(WORD, 10)
    yield differs(checkout.start("make", "0"), 42, "<first><make><0>")


def waits_for_another_start(checkout):
    runs = [ended(start) for start in [checkout.begin("make", "0") for _ in range(2)]]
    runs.sort(key=lambda run: BUILDING in run[2])
    yield differs(runs[0], 42, "<first><make><0>", "another start is building the program; this one waits")
    yield differs(runs[1], 42, "<first><make><0>", *built())
    yield None if checkout.builds() == 1 else f"{checkout.builds()} builds"


def starts_no_program_that_is_being_built(checkout):
    checkout.start("make", "0")
    folder = os.open(checkout.folder / "crates", os.O_RDONLY)
    fcntl.flock(folder, fcntl.LOCK_EX)
    start = checkout.begin("make", "0")
    waits = start.stderr.readline()
    os.close(folder)
    yield differs((*ended(start)[:2], waits), 42, "<first><make><0>", "this one waits")


def says_how_a_job_is_handed_in(checkout):
    checkout.start("make", "0")
    for words, said in (([], "./kdf9 run < FILE; ./kdf9 --help lists"), (["run", "my.job"], "./kdf9 run < my.job")):
        yield differs(checkout.start(*words), 42, "<first>" + "".join(f"<{word}>" for word in words), said)
    for command, text in (("save", "a job"), ("resume", "a snapshot"), ("check", "a job with its report")):
        yield differs(checkout.start(command, "my.job"), 42, f"<first><{command}><my.job>", f"{text} is read from standard input: ./kdf9 {command} < my.job")
    yield differs(checkout.start("alone", "0", "my job"), 42, "<first><alone><0><my job>", "./kdf9 alone 0 < my\\ job")
    yield differs(checkout.start("watch", "0", "2", "my job"), 42, "<first><watch><0><2><my job>", "./kdf9 watch 0 2 < my\\ job")
    for words in (["run"], ["save"], ["resume"], ["check"], ["alone", "0"], ["asm", "3"], ["watch", "0", "2"], ["make", "0"], ["run", "--json"], ["check", "--json"]):
        yield differs(checkout.start(*words), 42, "<first>" + "".join(f"<{word}>" for word in words))


    for word, shown in (("sum", "sum"), ("explian", "explian"), ("a b", "a\\ b")):
        yield differs(checkout.start(word), 42, f"<first><{word}>", f"{shown} is no command and no tool; ./kdf9 --help lists them")


def says_what_there_is_without_a_program(checkout):
    for words, part in ((["--help"], "tools, where JOB is"), (["-h"], "commands, which"), (["run", "--help"], "usage: ./kdf9 run < JOB\n"), (["alone", "0", "-h"], "alone K < JOB"), (["--help", "run"], "usage: ./kdf9 run < JOB\n")):
        run = checkout.start(*words)
        yield None if run[0] == 0 and part in run[1] and not run[2] else f"{run}"
    for words in (["walk", "--help"], ["--help", "walk"]):
        yield differs(checkout.start(*words), 2, "", "walk is no command and no tool; ./kdf9 --help lists them")
    checkout.without("python3")
    yield differs(checkout.start("run", "--help"), 1, "", "--help needs python3, which isn't on this machine")
    yield None if not checkout.builds() else "a program was built"


def says_which_program_it_is(checkout):
    yield version_differs(checkout, "not built yet")
    checkout.start("make", "0")
    yield version_differs(checkout, "proved and built on this machine, on ", ", with a kit that stands in\n")
    checkout.write(NEST, "kdf_word\n")
    yield version_differs(checkout, f"older than {NEST}; the next start")
    checkout.start("make", "0")
    yield version_differs(checkout, "proved and built on this machine")
    (checkout.folder / "crates/kdf_word/out/proved-here").write_text("another kit")
    checkout.write(MAIN, "second\n")
    checkout.start("make", "0")
    yield version_differs(checkout, "built on this machine, on ", "; 3 of its 4 crates were proved by that, and the others were proved before")
    record = checkout.folder / f"{PROGRAM}.proved"
    lines = record.read_text().splitlines()
    record.write_text("\n".join([lines[0], "another machine", *lines[2:]]))
    yield version_differs(checkout, "built on another machine, and not proved on this machine")
    checkout.build_by_hand()
    yield version_differs(checkout, "there is no record of its build")
    record.write_text("x\n")
    yield version_differs(checkout, "there is no record of its build")


def version_differs(checkout, *parts):
    """What is wrong with what --version says: its four lines, and these parts of what it says of the program; or None."""
    run = checkout.start("--version")
    good = re.fullmatch(r"kdf9 \d+\.\d+\.\d+\ncommit: .+\nkit: a kit that stands in\nprogram: .+\n", run[1])
    return None if good and run[0] == 0 and not run[2] and all(part in run[1] for part in parts) else f"{run} without {parts}"


def says_that_a_terminal_is_read(checkout):
    checkout.start("make", "0")
    yield differs(at_terminal(checkout, "alone", "0"), 42, "<first><alone><0>job\n", "from the terminal")
    yield differs(at_terminal(checkout, "watch", "3", "8191"), 42, "<first><watch><3><8191>job\n", "reading a job from the terminal")
    yield differs(at_terminal(checkout, "check"), 42, "<first><check>job\n", "reading a job with its report from the terminal")
    yield differs(at_terminal(checkout), 42, "<first>job\n", "./kdf9 run < FILE")


def at_terminal(checkout, *words):
    """A start whose standard input is a terminal, where a line and Ctrl-D are typed."""
    ours, theirs = pty.openpty()
    start = checkout.begin(*words, stdin=theirs)
    os.close(theirs)
    os.write(ours, b"job\n\x04")
    run = ended(start)
    os.close(ours)
    return run


CASES = (
    builds_once, proves_side_by_side, proves_in_turn_without_python, shows_the_end_of_a_check_that_failed, carries_on_where_it_was_stopped,
    draws_a_bar_on_a_terminal, writes_down_how_long_crates_took, says_that_there_is_no_rt, builds_what_has_changed, builds_nothing_for_a_date,
    sees_what_changed_while_it_built, names_the_source_that_is_newer, starts_in_a_copy, goes_by_dates_where_another_built,
    starts_in_a_copy_of_what_another_built, waits_for_another_start, starts_no_program_that_is_being_built, says_how_a_job_is_handed_in,
    says_what_there_is_without_a_program, says_which_program_it_is, says_that_a_terminal_is_read,
)


def launcher_starts():
    """Each start of ./kdf9 that is tried: what it shows, and what is wrong with it or None."""
    for case in CASES:
        with tempfile.TemporaryDirectory() as folder:
            for why in case(Checkout(folder)):
                yield f"the launcher {case.__name__.replace('_', ' ')}", why
