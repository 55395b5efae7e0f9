"""Where the program was proved. Each crate that is proved from nothing has a mark that names the machine and the kit, and the program a record of its build.

A folder can be copied to another machine with all that was proved in it. So a mark counts only on the machine that it names.
"""
import datetime
import hashlib
import pathlib
import platform
import subprocess
from typing import Iterable, NamedTuple, Optional

from building.rooms import CRATES, PROGRAM

MARK = pathlib.Path("out", "proved-here")
RECORD = CRATES / PROGRAM / "out" / f"{PROGRAM}.proved"
MACHINE = pathlib.Path("/etc/machine-id")


class Record(NamedTuple):
    """What is known of the build of a program: its checksum, the machine, the kit and the day, how many crates it has, and how many of them were proved
    from nothing on this machine by this kit.
    """

    program: str
    machine: str
    kit: str
    day: str
    crates: int
    here: int

    def words(self, here: str = "on this machine") -> str:
        """Whether the program was proved here, in words."""
        if self.machine != machine():
            return f"built on another machine, and not proved {here}"
        if self.here == self.crates:
            return f"proved and built {here}, on {self.day}, with {self.kit}"
        return f"built {here}, on {self.day}; {self.here} of its {self.crates} crates were proved by that, and the others were proved before, perhaps elsewhere"


def sum_of(file: pathlib.Path) -> str:
    """The checksum of a file."""
    return hashlib.sha256(file.read_bytes()).hexdigest()


def machine() -> str:
    """A name of this machine, which says nothing else of it."""
    own = MACHINE.read_text(encoding="ascii") if MACHINE.is_file() else ""
    return hashlib.sha256(f"kdf9 {own.strip()} {platform.node()}".encode("utf-8")).hexdigest()[:16]


def kit() -> str:
    """The kit that proves on this machine."""
    return subprocess.run(["rt", "version"], stdin=subprocess.DEVNULL, capture_output=True, text=True, check=False).stdout.strip() or "a kit without a name"


def mark(name: str, is_from_nothing: bool, own: str) -> None:
    """Marks a crate that was proved just now. One that went on from what was kept has a mark only if that had the same."""
    file = CRATES / name / MARK
    if is_from_nothing:
        file.write_text(own, encoding="utf-8")
    elif file.is_file() and file.read_text(encoding="utf-8") != own:
        file.unlink()


def write_record(crates: Iterable[str], own: str) -> None:
    """Writes the record of a program that was built just now."""
    names = list(crates)
    marks = [CRATES / name / MARK for name in names]
    here = sum(it.is_file() and it.read_text(encoding="utf-8") == own for it in marks)
    name, _, kit_line = own.partition(" ")
    lines = [sum_of(CRATES / PROGRAM / "out" / PROGRAM), name, kit_line, datetime.date.today().isoformat(), str(len(names)), str(here)]
    RECORD.write_text("".join(f"{line}\n" for line in lines), encoding="utf-8")


def read_record() -> Optional[Record]:
    """The record of the last build, or None if there is none that can be read."""
    try:
        program, own, kit_line, day, crates, here = RECORD.read_text(encoding="utf-8").splitlines()
        return Record(program, own, kit_line, day, int(crates), int(here))
    except (OSError, ValueError):
        return None
