"""What a tool is handed, and the program that it asks."""
import os
import pathlib
import signal
import subprocess
from typing import NamedTuple

ROOT = pathlib.Path(__file__).resolve().parents[2]

# A text has one character for each of its bytes, so that offsets in it are those that the program reports.
ENCODING = "latin-1"

# The status with which the program refuses a text for its length, and what is said of one that a tool made.
LARGE, TOO_LARGE = 4, "with what this tool adds to it, the job has more than {} bytes"


class BadInput(Exception):
    """The tool can't use its input; the text of this exception is the one line that says where and why."""


class Answer(NamedTuple):
    """What the program wrote, and the status with which it ended."""

    status: int
    text: str


def make_folder(path):
    """Makes a folder, with those that it is in, where there is none."""
    try:
        path.mkdir(parents=True, exist_ok=True)
    except FileExistsError as why:
        raise BadInput(f"{path}: this is a file, and no folder; name another one") from why


def written_name(name):
    """The name of a file for a text that is written with a byte for each character: the bytes that it has on the disk."""
    return os.fsencode(name).decode(ENCODING)


def read_text(name):
    """The text of the file of this name, or of standard input for `-`."""
    try:
        with open(0 if name == "-" else name, "rb", closefd=name != "-") as source:
            return source.read().decode(ENCODING)
    except OSError as why:
        raise BadInput(f"{name}: {why.strerror}") from why


def ask(words, job):
    """What the machine answers to these words and this job. It is the program that the variable KDF9 names, if KDF9_LIBRARY names no library; or else the library
    within this process, where it is made; or else the program of this folder. What comes of a job is the same.
    """
    if os.environ.get("KDF9") and not os.environ.get("KDF9_LIBRARY"):
        return started(words, job)
    from kdf9 import library  # pylint: disable=import-outside-toplevel

    return library.machine()(words, job.encode(ENCODING))


def started(words, job):
    """What the program answers that the variable KDF9 names, or the one of this folder. It is started."""
    name = os.environ.get("KDF9") or str(ROOT / "kdf9")
    try:
        done = subprocess.run([name, *words], input=job.encode(ENCODING), stdout=subprocess.PIPE, check=False)
    except OSError as why:
        raise BadInput(f"{name}: {why.strerror}") from why
    return Answer(done.returncode, done.stdout.decode(ENCODING))


def answer_to(words, job):
    """The text that the machine answers to a job in which it found no fault."""
    return text_without_fault(ask(words, job))


def text_without_fault(answer):
    """The text of an answer to a job in which no fault was found."""
    if answer.status == LARGE:
        raise BadInput(TOO_LARGE.format(answer.text.split()[1]))
    if answer.status:
        raise BadInput(f"{how_ended(answer)}: {answer.text.strip()}" if answer.text else how_ended(answer))
    return answer.text


def how_ended(answer):
    """How the program ended that found no fault and didn't answer, in words."""
    if answer.status < 0:
        return f"the program was stopped by {signal.strsignal(-answer.status) or 'a signal'}, signal {-answer.status}"
    return f"the program ended with status {answer.status}"
