"""The crates of the repository, and the rooms in which they are proved.

`rt` keeps the folder of a crate, and those of all crates below it, for itself, so in one folder it proves one crate at a time. A room has a copy of the sources of
a crate and of the libraries below it. What the check kept goes back to the crate's own folder when it has ended, or when the next build begins.
"""
import fcntl
import os
import pathlib
import shutil
import subprocess
from typing import NamedTuple

from building.progress import say

ROOT = pathlib.Path(__file__).resolve().parents[2]
CRATES = ROOT / "crates"
LIST = ROOT / "crates.txt"
PROGRAM = "kdf9"
ROOMS = CRATES / PROGRAM / "out" / "rooms"
SOURCES = ("src", "specs", "proofs")

# What a check keeps for the next one: how far it came, and what it proved.
KEPT = ("incremental", pathlib.Path("rlib", "stamp"))

# What a check says goes to this file in the crate's folder.
LOG = pathlib.Path("out", "check.log")


def read_list():
    """The lines of the list of crates, by the crates that they name."""
    lines = [line.partition("#")[0] for line in LIST.read_text(encoding="utf-8").splitlines()]
    return {line.partition(":")[0].split()[0]: line for line in lines if line.strip()}


def read_crates(top=PROGRAM):
    """The crates that the program uses, or another crate, each after those that it uses itself, and that one last, with the names of all crates below each."""
    uses = {name: line.partition(":")[2].split() for name, line in read_list().items()}
    below = {}

    def visit(name):
        if name not in below:
            own = [it for it in uses[name] if it in uses]
            for it in own:
                visit(it)
            below[name] = list(dict.fromkeys(each for it in own for each in [*below[it], it]))

    visit(top)
    return below


def crates_below(top):
    """The names of all crates below a crate, each after those that it uses itself."""
    return read_crates(top)[top]


def stamp_of(name):
    """The file by which rt knows of what the library of a crate was made."""
    return CRATES / name / "out" / "rlib" / "stamp"


def files_of(name):
    """The sources of a crate, with the folders that they are in."""
    return [it for part in SOURCES for it in (CRATES / name / part).rglob("*")]


def kept_crates(crates):
    """The crates that are proved already, by the dates of their files and of those below; rt looks at the files themselves."""
    found = set()
    for name, below in crates.items():
        stamp = stamp_of(name)
        if found.issuperset(below) and stamp.is_file():
            if all(it.stat().st_mtime <= stamp.stat().st_mtime for it in files_of(name)):
                found.add(name)
    return found


def link(source, target):
    """Gives a file a second name, or copies it where that can't be. rt writes such a file never anew, but makes another in its place."""
    try:
        os.link(source, target)
    except OSError:
        shutil.copyfile(source, target)


def move_kept(source, target):
    """Moves what a check kept, if there is anything, into the place of what is there."""
    if source.is_dir():
        shutil.rmtree(target, ignore_errors=True)
        target.parent.mkdir(parents=True, exist_ok=True)
        source.rename(target)


def clear_rooms():
    """Gives each crate back what a check kept in its room, and removes the rooms."""
    if ROOMS.is_dir():
        for room in sorted(ROOMS.iterdir()):
            move_kept(room / "crates" / room.name / "out", CRATES / room.name / "out")
    shutil.rmtree(ROOMS, ignore_errors=True)


class Check(NamedTuple):
    """A check that is running: its crate, its process and how many processors that has, where its lines go, whether nothing was kept for it here,
    and the lock on the crate's own folder, which keeps every other rt out.
    """

    name: str
    process: subprocess.Popen
    jobs: int
    log: pathlib.Path
    is_anew: bool
    lock: int


def make_room(name, below):
    """Makes the room of a crate: the crates that it uses, as they were proved, and the crate with what an earlier check kept."""
    room = ROOMS / name / "crates"
    for each in [*below, name]:
        for part in SOURCES:
            if (CRATES / each / part).is_dir():
                shutil.copytree(CRATES / each / part, room / each / part)
    for each in below:
        shutil.copytree(CRATES / each / "out" / "rlib", room / each / "out" / "rlib", copy_function=link)
    lines = [f"{line}\n" for crate, line in read_list().items() if crate in [*below, name]]
    (ROOMS / name / LIST.name).write_text("".join(lines), encoding="utf-8")
    move_kept(CRATES / name / "out", room / name / "out")
    return room / name


def begin_check(name, below, jobs):
    """Begins the check of a crate in its room; that of the program, which builds it, is the last one and needs none."""
    own = CRATES / name
    lock = os.open(own, os.O_RDONLY)
    words = ["run", "--jobs", str(jobs), "--", "make", "0"]
    is_anew = not any((own / "out" / kept).exists() for kept in KEPT)
    folder = own
    if name != PROGRAM:
        wait_for_folder(lock, name)
        words = ["lib", "--jobs", str(jobs)]
        folder = make_room(name, below)
    log = folder / LOG
    log.parent.mkdir(exist_ok=True)
    with open(log, "w", encoding="utf-8") as lines:
        process = subprocess.Popen(["rt", *words], cwd=folder, stdin=subprocess.DEVNULL, stdout=lines, stderr=subprocess.STDOUT)
    return Check(name, process, jobs, log, is_anew, lock)


def wait_for_folder(lock, name):
    """Waits until no other rt works in the crate's folder, and keeps it."""
    try:
        fcntl.flock(lock, fcntl.LOCK_EX | fcntl.LOCK_NB)
    except BlockingIOError:
        say(f"waiting for another rt to finish in crates/{name}")
        fcntl.flock(lock, fcntl.LOCK_EX)


def leave_room(check):
    """Gives a crate what the check kept, and removes its room."""
    if check.name != PROGRAM:
        move_kept(ROOMS / check.name / "crates" / check.name / "out", CRATES / check.name / "out")
        shutil.rmtree(ROOMS / check.name)
    os.close(check.lock)
