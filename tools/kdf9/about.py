"""What `./kdf9 --help` and `./kdf9 --version` say: the commands and the tools, from their tables, and which program this is."""
import pathlib
import re
import shutil
import subprocess
from typing import Iterable, List, NamedTuple, Optional

from building.first import is_building
from building.record import read_record, sum_of
from kdf9.commands import COMMANDS
from kdf9.program import ROOT
from kdf9.tools import NAME, TOOLS, Tool

CHANGES, PROOFS = ROOT / "CHANGELOG.md", ROOT / "docs" / "PROOFS.md"

# What a package says of the program in it.
PACKAGED = ROOT / "packaged"

# What begins a version in CHANGELOG.md, and what names the kit in docs/PROOFS.md.
VERSION = re.compile(r"^## (\d+\.\d+\.\d+)$", re.MULTILINE)
KIT = re.compile(r"^Proved with `([^`]*)`", re.MULTILINE)

# What `./kdf9` takes besides commands and tools.
OPTIONS = {
    "--help": "Lists the commands and the tools; after the name of one, it says more of that.",
    "--version": "Says the version, the commit, the kit, and whether this program was proved on this machine.",
    "--proved": "Before a command: waits until the program is proved and built, where something else would answer first; by itself it says --version then.",
}

FIRST = f"{NAME} run < examples/adds-5-and-7.job"


class State(NamedTuple):
    """What `./kdf9` knows of its program: whether there is one, and a source that is newer, if there is one."""

    is_there: bool
    newer: str


def rows(tools: Iterable[Tool]) -> List[str]:
    """Two lines for each: how it is used, and what it does."""
    return [line for tool in tools for line in (f"  {tool.usage}", f"      {tool.does}")]


def help_of_all() -> str:
    """All commands, tools and options, and an example."""
    lines = [
        f"usage: {NAME} COMMAND .., {NAME} TOOL .., or one of the options below", "",
        "commands, which read from standard input:", *rows(COMMANDS.values()), "",
        "tools, where JOB is a file, or - for standard input:", *rows(TOOLS.values()), "",
        "options:", *(f"  {option:<10} {does}" for option, does in OPTIONS.items()), "",
        "example:", f"  {FIRST}",
    ]
    return "".join(f"{line}\n" for line in lines)


def help_of(command: Tool) -> str:
    """How one command is used, what it does, and an example."""
    return f"usage: {command.usage}\n\n{command.does}\n\nexample:\n  {command.shown_example}\n"


def version() -> str:
    """The version, which is that of the newest entry of CHANGELOG.md."""
    return VERSION.search(CHANGES.read_text(encoding="utf-8"))[1]


def kit() -> str:
    """The kit with which all of this was proved, as docs/PROOFS.md names it."""
    return KIT.search(PROOFS.read_text(encoding="utf-8"))[1]


def packaged(what: str) -> Optional[str]:
    """What the package says of this, or None if this is no package."""
    if not PACKAGED.is_file():
        return None
    lines = dict(line.split(" ", 1) for line in PACKAGED.read_text(encoding="utf-8").splitlines())
    return lines[what]


def git(*words: str) -> Optional[str]:
    """What git says of this folder, or None if it says nothing."""
    if not (ROOT / ".git").exists() or not shutil.which("git"):
        return None
    done = subprocess.run(["git", "--no-optional-locks", "-C", str(ROOT), *words], capture_output=True, text=True, check=False)
    return None if done.returncode else done.stdout.strip()


def commit() -> str:
    """The commit that this is, in words."""
    if packaged("commit"):
        return packaged("commit")
    name = git("rev-parse", "--short=12", "HEAD")
    if not name:
        return "not known, since this folder is no clone, or git isn't on this machine"
    return f"{name}, with changes that aren't committed" if git("status", "--porcelain", "--untracked-files=no") else name


def proof(program: pathlib.Path, state: State) -> str:
    """Whether the program was proved on this machine, in words. It isn't called proved here unless the record of its build says so."""
    said = packaged("program")
    if said is not None:
        return f"from a package, which proves nothing; where that was made, {f'it was {said}' if said else 'nobody wrote down where it was proved'}"
    if not state.is_there:
        return f"not built yet; {'a build of it is going on' if is_building() else 'the next start of a command builds it'}"
    if state.newer:
        return f"older than {state.newer}; the next start of a command builds it again"
    record = read_record()
    if record is None or record.program != sum_of(program):
        return "there is no record of its build, so it isn't known where it was proved"
    return record.words()


def version_lines(program: pathlib.Path, state: State) -> str:
    """What --version says."""
    return f"kdf9 {version()}\ncommit: {commit()}\nkit: {kit()}\nprogram: {proof(program, state)}\n"
