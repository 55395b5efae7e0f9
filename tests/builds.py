"""Tries what a build says before and while it goes on, and what it keeps: the disk that it wants, how long the rest takes, and `./kdf9 clean`."""
import contextlib
import fcntl
import os
import pathlib
import pty
import random
import struct
import subprocess
import sys
import tempfile
import termios
from typing import Dict, Iterator, List, Optional, Tuple

from launcher import BUILDING, NEST, WORD, Checkout, built, differs, ended
from toolkit import ROOT

sys.path.insert(0, str(ROOT / "tools"))
from building.forecast import Forecast  # noqa: E402
from building.plan import Plan, speed  # noqa: E402
from building.rooms import read_crates  # noqa: E402

Cases = Iterator[Tuple[str, Optional[str]]]

# How much longer each crate takes on a machine than the table says, and how many processors it has.
MACHINES = [(1, 4), (3, 4), (0.4, 4), (2, 1), (1.5, 2)]

# A forecast may be wrong by a quarter of the time left, or by so many seconds. It has to be right from this part of the build on.
SLACK, BEGINS = 10, 0.15


def forecast_is_right() -> Cases:
    """On a machine of any pace the time left is told within a quarter, from an early moment to the end."""
    crates = read_crates()
    times = {name: random.Random(name).randint(10, 400) for name in crates}
    for pace, at_once in MACHINES:
        told = simulated(crates, times, {name: pace * seconds for name, seconds in times.items()}, at_once)
        whole = len(told)
        wrong = [(at, left) for at, left in enumerate(told) if at > BEGINS * whole and abs(left - (whole - at)) > max((whole - at) / 4, SLACK)]
        yield f"the forecast at a pace of {pace} on {at_once} processors", f"of {whole} seconds: {wrong[:3]}" if wrong else None
    last = list(crates)[-1]
    told = simulated(crates, times, {name: seconds * (2 if name == last else 1) for name, seconds in times.items()}, 4)
    late = int(times[last] / speed(4) / 2)
    yield "the forecast where the last crate takes twice as long", None if told[-late] > late / 4 else f"{told[-late]} in place of {late} seconds"


def simulated(crates: Dict[str, List[str]], times: Dict[str, float], due: Dict[str, float], at_once: int) -> List[float]:
    """A build in which each crate takes what is due: what is forecast in each of its seconds."""
    plan = Plan(crates, times, at_once)
    forecast, left, proved = Forecast(plan, []), plan.in_order(), set()
    jobs: Dict[str, int] = {}
    rest, told = dict(due), []
    while left or jobs:
        begun = plan.begins(left, jobs, proved)
        left = [it for it in left if it not in begun]
        jobs.update(begun)
        told.append(forecast.seconds_left(left, jobs, proved))
        share = min(1, at_once / sum(jobs.values()))
        forecast.goes_on(1, jobs)
        for name in list(jobs):
            rest[name] -= speed(jobs[name]) * share
            if rest[name] <= 0:
                forecast.ends(name)
                proved.add(name)
                del jobs[name]
    return told


def disk_is_checked() -> Cases:
    """A build says what disk it wants, and doesn't begin where that isn't free."""
    with tempfile.TemporaryDirectory() as folder:
        checkout = Checkout(folder)
        run = ended(checkout.begin("make", "0", variables={"KDF9_DISK": "90000000"}))
        yield "a build that wants too much disk", differs(run, 1, "", "the build wants about 9e+07 GB of disk, and ")
        yield "a build that wants none", differs(checkout.start("make", "0"), 42, "<first><make><0>", *built())
        checkout.write("crates/kdf9/src/main.rt", "second\n")
        run = ended(checkout.begin("make", "0", variables={"KDF9_DISK": "90000000"}))
        yield "one whose last crate wants disk", differs(run, 1, "", "the build wants about ")
        run = ended(checkout.begin("make", "0"))
        good = run[2].startswith(BUILDING) and "it wants about 0 bytes of disk, and 3 GB of memory" in run[2].splitlines()[0]
        yield "what a build wants", None if good else f"{run}"


def kept_is_little() -> Cases:
    """What proofs keep is given back, the largest first, until little is kept; and by ./kdf9 clean all of it is."""
    with tempfile.TemporaryDirectory() as folder:
        checkout = Checkout(folder)
        checkout.start("make", "0")
        fill(checkout, {"kdf_word": 400000, "kdf_nest": 900000, "kdf9": 100000})
        done = in_folder(checkout, "from building import disk; print(disk.trim(700000))")
        yield "what is given back after a build", None if done == "['kdf_nest']\n" else done
        run = checkout.start("clean", "--show")
        yield "clean --show", None if run[0] == 0 and "crates/kdf_word/out/incremental\n" in run[1] and is_kept(checkout, "kdf_word") else f"{run}"
        lock = os.open(checkout.folder / "crates/kdf_nest", os.O_RDONLY)
        fcntl.flock(lock, fcntl.LOCK_EX)
        yield "clean beside a proof", differs(checkout.start("clean"), 1, "", "crates/kdf_nest: a build or a proof is going on there")
        fcntl.flock(lock, fcntl.LOCK_UN)
        os.close(lock)
        run = checkout.start("clean")
        good = run[0] == 0 and not run[2] and "given back: " in run[1] and not any(is_kept(checkout, it) for it in ("kdf_word", "kdf9"))
        yield "clean", None if good else f"{run}"
        yield "a start after clean", differs(checkout.start("make", "0"), 42, "<first><make><0>")
        yield "clean again", differs(checkout.start("clean")[::2] + ("",), 0, "")
        checkout.write(NEST, "kdf_word\n")
        proves = checkout.start("make", "0")
        yield "a build after clean", differs(proves, 42, "<first><make><0>", *built())


# Says which libraries of the program are to be built before another thing can be made of them.
CHANGED = "from building import engine; engine.CRATE = 'kdf9'; print(engine.unbuilt(), engine.changed())"


def changed_libraries_are_found() -> Cases:
    """A library is built anew whose text, or that of one below it, has changed since it was built."""
    with tempfile.TemporaryDirectory() as folder:
        checkout = Checkout(folder)
        checkout.start("make", "0")
        for name in ("kdf_word", "kdf_nest", "kdf_qstore"):
            (checkout.folder / f"crates/{name}/out/rlib/{name}.rlib").touch()
        for changed, due in ((None, []), (NEST, ["kdf_nest"]), (WORD, ["kdf_word", "kdf_nest", "kdf_qstore"])):
            if changed:
                checkout.write(changed, "another\n")
            done = in_folder(checkout, CHANGED)
            yield f"the libraries to build after a change of {changed}", None if done == f"[] {due}\n" else done


# Proves the machine for other programs, where the first FAIL proofs of it fail, and says what is built for it.
PROVED = """
from building import engine
engine.CRATE, engine.hindrance, engine.build = "kdf9", lambda: None, lambda wanted: print("builds", *wanted)
class Room:
    fail = FAIL
    def prove(self):
        self.fail -= 1
        if self.fail >= 0:
            raise engine.NoEngine("no proof")
        print("proves")
try:
    engine.build_libraries()
    engine.prove(Room())
except engine.NoEngine as why:
    print(why)
"""


def libraries_without_a_stamp_are_used() -> Cases:
    """Where `rt ci` proved all crates, each library is a folder with no stamp beside it, and none is built again, unless a text changes or a proof over them fails."""
    with tempfile.TemporaryDirectory() as folder:
        checkout = Checkout(folder)
        checkout.start("make", "0")
        names = ("kdf_word", "kdf_nest", "kdf_qstore")
        for name in names:
            (checkout.folder / f"crates/{name}/out/rlib/stamp").unlink()
            checkout.write(f"crates/{name}/out/rlib/{name}.rlib/format", "\n")
        builds = f"builds {' '.join(names)}\n"
        for fail, due in ((0, "proves\n"), (1, f"{builds}proves\n"), (2, f"{builds}no proof\n")):
            done = in_folder(checkout, PROVED.replace("FAIL", str(fail)))
            yield f"libraries without a stamp where {fail} proofs fail", None if done == due else done
        for name in names:
            checkout.write(f"crates/{name}/out/rlib/stamp", "\n")
        done = in_folder(checkout, PROVED.replace("FAIL", "1"))
        yield "libraries with a stamp where a proof fails", None if done == "no proof\n" else done
        checkout.date(NEST, 20)
        done = in_folder(checkout, PROVED.replace("FAIL", "0"))
        yield "a library older than its text", None if done == "builds kdf_nest\nproves\n" else done


# Has a room of the page run two tools that take a while, and one that fails.
STAGES = """
import pathlib, sys
from building import engine
folder = pathlib.Path(sys.argv[1])
engine.LOG, engine.ROOT = folder / "log", folder
with open(engine.LOG, "w") as log:
    room = engine.Room(folder, folder, log)
    room.show.begins(engine.PROVING)
    room.run("bash", "-c", "echo so far: 3 of 41 functions checked; sleep 1.5")
    room.show.begins(engine.COMPILING)
    room.run("sleep", "1.5")
    room.show.ends()
    try:
        room.run("false")
    except engine.NoEngine as why:
        print(why)
"""


def read_whole(ours: int) -> bytes:
    """All that was written to a terminal whose other end is closed: the system hands it on piece by piece, and then says that there is none."""
    pieces = []
    with contextlib.suppress(OSError):
        while piece := os.read(ours, 65536):
            pieces.append(piece)
    os.close(ours)
    return b"".join(pieces)


def page_shows_its_stages() -> Cases:
    """While the page is made, each stage has a line; on a terminal it is drawn each second."""
    lines = ["its calls are proved, 1 of 2", "it is compiled, 2 of 2"]
    with tempfile.TemporaryDirectory() as folder:
        words = [sys.executable, "-c", STAGES, folder]
        done = subprocess.run(words, cwd=ROOT / "tools", capture_output=True, text=True, check=False)
        told = [f"kdf9: the machine for other programs: {line}" for line in lines]
        good = done.stdout == "the machine could not be made: see log\n" and done.stderr.splitlines()[:-1] == told
        yield "the stages of the page", None if good and "is made, after 0:0" in done.stderr else f"{done}"
        ours, theirs = pty.openpty()
        fcntl.ioctl(theirs, termios.TIOCSWINSZ, struct.pack("HHHH", 24, 132, 0, 0))
        subprocess.run(words, cwd=ROOT / "tools", stdout=subprocess.DEVNULL, stderr=theirs, check=False)
        os.close(theirs)
        drawn = read_whole(ours).decode("ascii")
        due = [f"\r\x1b[Kkdf9: the machine for other programs: {line}, 0:0" for line in lines]
        good = all(line in drawn for line in due) and ", 3 of 41 functions" in drawn.split(lines[1])[0] and "functions" not in drawn.split(lines[1])[1]
        yield "the stages of the page on a terminal", None if good else f"{drawn!r}"


def fill(checkout: Checkout, sizes: Dict[str, int]) -> None:
    """Has the proofs of these crates keep so many bytes."""
    for name, size in sizes.items():
        kept = checkout.folder / "crates" / name / "out/incremental"
        kept.mkdir(parents=True, exist_ok=True)
        (kept / "kept").write_bytes(os.urandom(size))


def is_kept(checkout: Checkout, name: str) -> bool:
    """Whether the folder is there in which a proof of this crate keeps what makes the next one shorter."""
    return (checkout.folder / "crates" / name / "out/incremental").exists()


def in_folder(checkout: Checkout, script: str) -> str:
    """What a script of Python says that has the tools of a checkout."""
    done = subprocess.run([sys.executable, "-c", script], cwd=pathlib.Path(checkout.folder, "tools"), capture_output=True, text=True, check=False)
    return done.stdout + done.stderr


SUITES = (forecast_is_right, disk_is_checked, kept_is_little, changed_libraries_are_found, libraries_without_a_stamp_are_used, page_shows_its_stages)
