"""The rows of a study, in a folder. Each is a line of JSON that is added as soon as its run is through, so a study that was stopped goes on behind them."""
import contextlib
import csv
import itertools
import json
import os
import pathlib
import re
from array import array
from io import FileIO
from typing import Dict, Iterable, Iterator, List

from kdf9.program import BadInput, make_folder

PLAN, ROWS, TABLE, ALL = "plan.json", "rows*.jsonl", "rows.csv", "rows.jsonl"
RUN = re.compile(rb'\{"run": (\d+)')


def name_of_part(which: int, parts: int) -> str:
    """The name of the file with the rows of a part of a study."""
    return ALL if parts == 1 else f"rows-{which}-of-{parts}.jsonl"


class Rows:
    """The rows of a plan with some checksum, in a folder that is new or has rows of the same plan. `name` is that of the file that takes new ones."""

    def __init__(self, folder: str, plan: str, name: str) -> None:
        self._folder = pathlib.Path(folder)
        make_folder(self._folder)
        if not has_rows_of(self._folder, plan):
            new = self._folder / f"{PLAN}.{os.getpid()}"
            new.write_text(text_of_plan(plan), encoding="ascii")
            new.replace(self._folder / PLAN)
        self.file = self._folder / name
        self._rows = open(self.file, "ab", buffering=0)  # pylint: disable=consider-using-with
        keep_for_this(self._rows, self.file)
        drop_half_row(self._rows)

    def close(self) -> None:
        """Ends the file."""
        self._rows.close()

    def add(self, row: dict) -> None:
        """Adds a row. Where the disk is full, no half row stays."""
        size, left = os.fstat(self._rows.fileno()).st_size, json.dumps(row).encode("ascii") + b"\n"
        try:
            while left:
                left = left[self._rows.write(left):]
        except OSError as why:
            os.truncate(self.file, size)
            raise OSError(why.errno, why.strerror, str(self.file)) from why

    def there(self) -> "There":
        """The rows of all files of the folder."""
        return There([self._folder])

    def write_table(self) -> pathlib.Path:
        """Writes all rows as CSV, by the numbers of their runs; its name."""
        path = self._folder / TABLE
        new = self._folder / f"{TABLE}.{os.getpid()}"
        with open(new, "w", encoding="utf-8", errors="surrogateescape", newline="") as text:
            self.there().write(text)
        new.replace(path)
        return path


class There:
    """The rows that some folders have, by the numbers of their runs; each run counts once. The last line of a file that another start writes may be a half one.
    Only where each row is is kept, in some bytes a run.
    """

    def __init__(self, folders: Iterable[pathlib.Path]) -> None:
        self._names = [path for folder in folders for path in sorted(folder.glob(ROWS))]
        self._file, self._offset = array("i"), array("q")
        for number, path in enumerate(self._names):
            offset = 0
            with open(path, "rb") as rows:
                for line in rows:
                    found = RUN.match(line)
                    if found and line.endswith(b"\n"):
                        self._take(int(found[1]), number, offset)
                    offset += len(line)

    def _take(self, run: int, file: int, offset: int) -> None:
        """Takes the row of a run, if it is the first."""
        more = run + 1 - len(self._file)
        if more > 0:
            self._file.extend(itertools.repeat(-1, more))
            self._offset.extend(itertools.repeat(0, more))
        if self._file[run] < 0:
            self._file[run], self._offset[run] = file, offset

    def has(self, run: int) -> bool:
        """Whether there is a row of the run of this number."""
        return run < len(self._file) and self._file[run] >= 0

    def rows(self) -> Iterator[dict]:
        """The rows by their numbers."""
        with contextlib.ExitStack() as stack:
            files = [stack.enter_context(open(path, "rb")) for path in self._names]
            for run, file in enumerate(self._file):
                if file >= 0:
                    files[file].seek(self._offset[run])
                    yield json.loads(files[file].readline())

    def write(self, text) -> None:
        """Writes the rows as CSV to a file of text."""
        columns: Dict[str, None] = {}
        for row in self.rows():
            columns.update(dict.fromkeys(row))
        table = csv.DictWriter(text, list(columns), lineterminator="\n")
        table.writeheader()
        table.writerows(self.rows())


def text_of_plan(plan: str) -> str:
    """What says in a folder of which plan it has rows."""
    return json.dumps({"plan": plan}) + "\n"


def has_rows_of(folder: pathlib.Path, plan: str) -> bool:
    """Whether a folder has rows of this plan; if not, it has to be empty."""
    there = folder / PLAN
    if there.exists():
        if there.read_text(encoding="ascii") != text_of_plan(plan):
            raise BadInput(f"{folder}: this folder has the rows of another plan, or of another job; name a new one")
        return True
    if any(not path.name.startswith(PLAN) for path in folder.iterdir()):
        raise BadInput(f"{folder}: this folder isn't empty, and has no study; name a new one")
    return False


def joined(folders: List[str], plan: str) -> There:
    """The rows of this plan that some folders have."""
    paths = list(map(pathlib.Path, folders))
    for path in paths:
        if not path.is_dir() or not has_rows_of(path, plan):
            raise BadInput(f"{path}: this folder has no rows of the plan")
    return There(paths)


def keep_for_this(rows: FileIO, path: pathlib.Path) -> None:
    """Keeps a file for this start alone, where the system can do that."""
    try:
        import fcntl  # pylint: disable=import-outside-toplevel
    except ImportError:
        return
    try:
        fcntl.flock(rows, fcntl.LOCK_EX | fcntl.LOCK_NB)
    except OSError as why:
        raise BadInput(f"{path}: another start of the same study is writing this file; wait for it, or name a part by --part") from why


def drop_half_row(rows: FileIO) -> None:
    """Cuts off what comes after the last whole row, which was being written when a study was stopped."""
    size = os.fstat(rows.fileno()).st_size
    with open(rows.name, "rb") as text:
        end = size
        while end:
            first = max(0, end - (1 << 16))
            text.seek(first)
            found = text.read(end - first).rfind(b"\n")
            if found >= 0:
                end = first + found + 1
                break
            end = first
    if end < size:
        os.truncate(rows.name, end)
