"""How long the crates take to be proved from nothing: what tools/build-times.txt says, and what builds here took."""
import pathlib
from typing import Dict, Iterable

from building.rooms import CRATES, ROOT

TABLE = ROOT / "tools" / "build-times.txt"

# What a crate took the last time that it was proved from nothing here, in the crate's folder.
NOTE = pathlib.Path("out", "proof-seconds")


def rounded(seconds: float) -> int:
    """Seconds as they are written down."""
    return max(round(seconds), 1)


def known() -> Dict[str, int]:
    """The seconds of one processor that the table has."""
    rows = [line.split() for line in TABLE.read_text(encoding="utf-8").splitlines() if not line.startswith("#")]
    return {name: int(seconds) for name, seconds in rows}


def read_times(crates: Iterable[str]) -> Dict[str, float]:
    """The seconds of one processor that each crate takes; one that isn't in the table takes as long as the others on average."""
    table = known()
    average = sum(table.values()) / max(len(table), 1)
    return {name: table.get(name, average) for name in crates}


def write_times(crates: Iterable[str], measured: Dict[str, float]) -> None:
    """Puts what was measured in the place of what the table has; crates that are gone leave it."""
    head = [line for line in TABLE.read_text(encoding="utf-8").splitlines() if line.startswith("#")]
    table = {**known(), **{name: rounded(seconds) for name, seconds in measured.items()}}
    lines = [*head, *(f"{name} {table[name]}" for name in sorted(crates) if name in table)]
    TABLE.write_text("".join(f"{line}\n" for line in lines), encoding="utf-8")


def note(name: str, seconds: float) -> None:
    """Notes what a crate took that was proved from nothing just now."""
    (CRATES / name / NOTE).write_text(f"{rounded(seconds)}\n", encoding="utf-8")


def noted() -> Dict[str, int]:
    """What each crate took the last time, as far as builds here noted it."""
    files = sorted(CRATES.glob(f"*/{NOTE}"))
    return {file.parent.parent.name: int(file.read_text(encoding="utf-8")) for file in files}
