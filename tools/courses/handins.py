"""What a class handed in: of each student a folder, a zip file or a file of links. Whatever is in there, it costs nobody but that student."""
import base64
import json
import os
import pathlib
import re
import stat
import zipfile
import zlib
from typing import Dict, Iterator, List, NamedTuple, Optional, Sequence, Tuple

from courses.exercise import Exercise
from kdf9.program import ENCODING, BadInput
from kdf9.words import count

# What a hand-in may have: bytes of a deck or job, bytes of a zip file, files of a student, and folders in each other.
MOST_BYTES, MOST_PACKED, MOST_FILES, MOST_DEPTH = 1 << 16, 1 << 22, 400, 3

# The most bytes that the work of a link may have: that of all exercises.
MOST_WORK = 1 << 20

# How a link has its job, as web/link.js packs it, or all work at a course, as web/coursework.js does.
LINK = re.compile(r"(?:(\d{1,3})[.:]?\s+)?(\S*#(job|work)=(\S*))")

# The number of an exercise.
NUMBER = re.compile(r"[0-9]{1,3}")

DAMAGED_LINK = "this link is damaged: copy all of it, to its last letter"

# Files that systems leave behind.
LEFTOVERS = re.compile(r"\..*|__MACOSX|desktop\.ini|Thumbs\.db", re.IGNORECASE)

# The ways to pack an entry of a zip file that are read; others can take any amount of memory.
PACKINGS = (zipfile.ZIP_STORED, zipfile.ZIP_DEFLATED)


class HandIn(NamedTuple):
    """What was handed in for an exercise: its text; or why there is none."""

    text: Optional[str]
    why: str = ""


class Student(NamedTuple):
    """A student: the name of what was handed in, and where it is."""

    name: str
    path: pathlib.Path


class Damaged(Exception):
    """Something can't be read; this says why."""


def students(name: str) -> List[Student]:
    """The students of a class, by their names. BadInput if the folder isn't one, or has none."""
    folder = pathlib.Path(name)
    try:
        entries = sorted((entry.name, entry) for entry in os.scandir(folder) if not LEFTOVERS.fullmatch(entry.name))
    except OSError as why:
        raise BadInput(f"{name}: {why.strerror}") from why
    found = [Student(shown(stem(entry)), pathlib.Path(entry.path)) for _, entry in entries]
    if not found:
        raise BadInput(f"{name}: nothing was handed in: this folder has no folders, zip files or files of links")
    seen: Dict[str, Student] = {}
    for student in found:
        if student.name in seen:
            raise BadInput(f"{name}: {shown(seen[student.name].path.name)} and {shown(student.path.name)} are one student; keep one of them")
        seen[student.name] = student
    return found


def stem(entry: os.DirEntry) -> str:
    """The name of a student: that of the folder, or of the file without .zip or .txt."""
    return entry.name if entry.is_dir(follow_symlinks=False) else re.sub(r"\.\w{1,6}\Z", "", entry.name) or entry.name


def shown(name: str) -> str:
    """A name in characters that can be printed."""
    return "".join(character if character.isprintable() and not 0xD800 <= ord(character) < 0xE000 else "?" for character in name)[:80]


def of_student(student: Student, exercises: Sequence[Exercise]) -> Dict[int, HandIn]:
    """What a student handed in, by the numbers of the exercises."""
    try:
        return sorted_out(list(files_of(student.path)), exercises)
    except Damaged as why:
        return {exercise.number: HandIn(None, str(why)) for exercise in exercises}


def sorted_out(files: List[Tuple[str, HandIn]], exercises: Sequence[Exercise]) -> Dict[int, HandIn]:
    """The hand-ins of some files by the numbers of the exercises for which they are. A file of links may have several."""
    found: Dict[int, List[Tuple[str, HandIn]]] = {}
    for name, handed in files:
        number = number_of(name, exercises)
        links = links_of(handed.text) if handed.text is not None else None
        for which, each in links if links is not None else [(None, handed)]:
            if which or number:
                found.setdefault(which or number or 0, []).append((name, each))
    told = {}
    for number, several in found.items():
        names = " and ".join(sorted({shown(name) for name, _ in several}))
        told[number] = several[0][1] if len(several) == 1 else HandIn(None, f"{count(len(several), 'text')} for this exercise, in {names}; one is wanted")
    return told


def number_of(name: str, exercises: Sequence[Exercise]) -> Optional[int]:
    """The number of the exercise for which a file is, by its name: the name of the exercise, or the first number in it; None if there is none."""
    base = re.split(r"[/\\]", name)[-1]
    number = re.search(r"\d{1,3}(?!\d)", base)
    exact = [exercise.number for exercise in exercises if base.rpartition(".")[0] in (exercise.name, exercise.name.partition("-")[2])]
    return exact[0] if exact else int(number[0]) if number else None


def links_of(text: str) -> Optional[List[Tuple[Optional[int], HandIn]]]:
    """The jobs of a file of links, each with the number of its exercise if it stands before it; None if the text has other lines."""
    lines = [line.strip() for line in text.split("\n") if line.strip()]
    found = [LINK.fullmatch(line) for line in lines]
    if not found or not all(found):
        return None
    told: List[Tuple[Optional[int], HandIn]] = []
    for link in found:
        if link and link[3] == "work":
            told += work_of_link(link[4])
        elif link:
            told.append((int(link[1]) if link[1] else None, job_of_link(link[4])))
    return told


def job_of_link(packed: str) -> HandIn:
    """The job that the end of a link has."""
    try:
        return of_bytes(unpacked_link(packed, MOST_BYTES))
    except (ValueError, zlib.error):
        return HandIn(None, DAMAGED_LINK)


def unpacked_link(packed: str, most: int) -> bytes:
    """The bytes that the end of a link has, and one more than `most` if there are more. ValueError or zlib.error if it is damaged."""
    data = base64.b64decode(packed.replace("-", "+").replace("_", "/") + "=" * (-len(packed) % 4), validate=True)
    unpacking = zlib.decompressobj(31)
    text = unpacking.decompress(data, most + 1)
    if len(text) <= most and not unpacking.eof:
        raise ValueError
    return text


def work_of_link(packed: str) -> List[Tuple[Optional[int], HandIn]]:
    """The jobs of all exercises that the end of a link has, each with the number of its exercise. Damaged if it can't be read."""
    try:
        text = unpacked_link(packed, MOST_WORK)
        if len(text) > MOST_WORK:
            raise Damaged(f"this link has more than {MOST_WORK} bytes")
        work = json.loads(text.decode("utf-8"))["work"]
        return [(int(number), of_bytes(each["job"].encode("utf-8"))) for number, each in work.items() if NUMBER.fullmatch(number)]
    except (ValueError, zlib.error, LookupError, TypeError, AttributeError, RecursionError) as why:
        raise Damaged(DAMAGED_LINK) from why


def too_large() -> HandIn:
    """What is said of a text that has too many bytes."""
    return HandIn(None, f"this has more than {MOST_BYTES} bytes, and no deck of a course needs as many")


def files_of(path: pathlib.Path) -> Iterator[Tuple[str, HandIn]]:
    """The files of a student, each with its name, in the order of their names."""
    try:
        mode = path.lstat().st_mode
        if stat.S_ISLNK(mode):
            raise Damaged("this is a symbolic link, which isn't followed")
        if stat.S_ISDIR(mode):
            yield from files_in(path, "", 0)
        elif not stat.S_ISREG(mode):
            raise Damaged("this is neither a folder nor a file")
        elif zipfile.is_zipfile(path) or path.suffix.lower() == ".zip":
            yield from files_packed(path)
        else:
            yield "", HandIn(text_of(path))
    except OSError as why:
        raise Damaged(f"this can't be read: {why.strerror}") from why


def files_in(folder: pathlib.Path, before: str, depth: int) -> Iterator[Tuple[str, HandIn]]:
    """The files of a folder and of the folders in it. Nothing is read but plain files."""
    entries = sorted(os.scandir(folder), key=lambda entry: entry.name)
    if len(entries) > MOST_FILES:
        raise Damaged(f"the folder has more than {MOST_FILES} files")
    for entry in entries:
        name = before + entry.name
        if LEFTOVERS.fullmatch(entry.name):
            continue
        if entry.is_symlink():
            yield name, HandIn(None, "this is a symbolic link, which isn't followed")
        elif entry.is_dir(follow_symlinks=False):
            if depth < MOST_DEPTH:
                yield from files_in(pathlib.Path(entry.path), f"{name}/", depth + 1)
        elif entry.is_file(follow_symlinks=False):
            yield name, read(pathlib.Path(entry.path))


def read(path: pathlib.Path) -> HandIn:
    """The text of a file, if it isn't too large."""
    try:
        with open(path, "rb") as file:
            return of_bytes(file.read(MOST_BYTES + 1))
    except OSError as why:
        return HandIn(None, f"this can't be read: {why.strerror}")


def text_of(path: pathlib.Path) -> str:
    """The text of the only file of a student."""
    handed = read(path)
    if handed.text is None or links_of(handed.text) is None:
        raise Damaged(handed.why or "this is neither a folder, nor a zip file, nor a file of links with the number of its exercise before each")
    return handed.text


def of_bytes(data: bytes) -> HandIn:
    """The hand-in of these bytes."""
    return too_large() if len(data) > MOST_BYTES else HandIn(data.decode(ENCODING))


def files_packed(path: pathlib.Path) -> Iterator[Tuple[str, HandIn]]:
    """The files of a zip file. Nothing is written anywhere, and no more is unpacked than a hand-in may have."""
    if path.stat().st_size > MOST_PACKED:
        raise Damaged(f"this zip file has more than {MOST_PACKED} bytes")
    try:
        with zipfile.ZipFile(path) as packed:
            entries = [entry for entry in packed.infolist() if not entry.is_dir()]
            if len(entries) > MOST_FILES:
                raise Damaged(f"this zip file has more than {MOST_FILES} files")
            for entry in sorted(entries, key=lambda each: each.filename):
                if not any(LEFTOVERS.fullmatch(part) for part in entry.filename.split("/") if part != ".."):
                    yield entry.filename, unpacked(packed, entry)
    except (zipfile.BadZipFile, NotImplementedError, ValueError, EOFError) as why:
        raise Damaged("this zip file is damaged") from why


def unpacked(packed: zipfile.ZipFile, entry: zipfile.ZipInfo) -> HandIn:
    """The text of an entry of a zip file."""
    if entry.filename.startswith(("/", "\\")) or ".." in re.split(r"[/\\]", entry.filename):
        return HandIn(None, "its name in the zip file leads out of it")
    if entry.external_attr >> 16 and stat.S_ISLNK(entry.external_attr >> 16):
        return HandIn(None, "this is a symbolic link, which isn't followed")
    if entry.compress_type not in PACKINGS or entry.flag_bits & 1:
        return HandIn(None, "this is packed in a way that isn't read here: use a plain zip file without a password")
    try:
        with packed.open(entry) as file:
            return of_bytes(file.read(MOST_BYTES + 1))
    except (zipfile.BadZipFile, zlib.error, EOFError, OSError, RuntimeError, NotImplementedError, ValueError):
        return HandIn(None, "this file is damaged in its zip file")
