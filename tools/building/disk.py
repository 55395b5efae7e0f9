"""What disk a build wants, what it keeps, and what of that can be given back."""
import os
import pathlib
import shutil
from typing import Dict, Iterable, List

from building import engine
from building.rooms import CRATES

# What a build from nothing has on the disk at most, and what is kept after a build at most.
WANTED, KEPT = 8_000_000_000, 2_000_000_000


def free() -> int:
    """The bytes that are free on the disk with the crates."""
    return shutil.disk_usage(CRATES).free


def wanted(times: Dict[str, float], kept: Iterable[str]) -> int:
    """The bytes that a build wants, by the part of its work that isn't done yet; the variable KDF9_DISK may say how many GB one from nothing wants."""
    said = os.environ.get("KDF9_DISK", "")
    whole = int(said) * 10**9 if said.isascii() and said.isdigit() else WANTED
    done = sum(times[it] for it in kept)
    return int(whole * (1 - done / sum(times.values())))


def size_of(folder: pathlib.Path) -> int:
    """The bytes that a folder has on the disk. A file with two names counts once."""
    found = {}
    for at, _, names in os.walk(folder):
        for name in names:
            try:
                status = os.lstat(os.path.join(at, name))
            except FileNotFoundError:
                continue
            found[status.st_dev, status.st_ino] = 512 * status.st_blocks
    return sum(found.values())


def kept_by_proofs() -> Dict[pathlib.Path, int]:
    """The folders in which a proof keeps what only makes the next one shorter, the largest first, each with its bytes."""
    folders = [*CRATES.glob("*/out/incremental"), engine.KEPT]
    sizes = {it: size_of(it) for it in folders if it.is_dir()}
    return dict(sorted(sizes.items(), key=lambda it: -it[1]))


def kept_in_all() -> int:
    """The bytes of all that was built and kept."""
    return sum(size_of(it) for it in CRATES.glob("*/out"))


def trim(most: int) -> List[str]:
    """Gives back what proofs kept, the largest first, until no more than this is kept in all. Returns the crates whose next proof begins from nothing."""
    whole, given = kept_in_all(), []
    for folder, size in kept_by_proofs().items():
        if whole <= most:
            break
        shutil.rmtree(folder, ignore_errors=True)
        whole -= size
        given.append(folder.parent.parent.name)
    return given


def bytes_in_words(size: int) -> str:
    """So many bytes, about."""
    for unit, name in ((10**9, "GB"), (10**6, "MB"), (10**3, "kB")):
        if size >= unit:
            return f"{round(size / unit, 1 if size < 10 * unit else None):g} {name}"
    return f"{size} bytes"


def put(source: pathlib.Path, target: pathlib.Path) -> None:
    """Copies a file into a place in which there is never half of it. What was there stays as it is for a program that has loaded it."""
    half = target.with_name(f"{target.name}.{os.getpid()}")
    try:
        shutil.copy(source, half)
        half.replace(target)
    finally:
        if half.exists():
            half.unlink()
