"""The machine for Python programs: `import kdf9; kdf9.run(job)` and `kdf9.facts(job)`.

It calls libkdf9.so, which `./kdf9 lib` makes, within this process. Where there is none, or it is older than the sources, `run` starts the program instead: what
comes of a job is the same. `facts` has the library made then. Threads may call it at once.
"""
import functools
import json
import os
import signal
from typing import Any, Callable, Dict, Optional, Sequence, Union

from kdf9.program import ENCODING, Answer, BadInput, how_ended, started

# The version of the calls that this module makes, the calls, and the status of a text that the room is too small for, and of want of memory.
VERSION = 1
RUN, FACTS = "kdf9_run", "kdf9_facts"
NO_ROOM, NO_MEMORY = 6, 7

# The bytes of the room for a text: as many as nearly every text has at most, so that its call is made once; what isn't written to takes no memory. Only where there
# is no room for so many, as under a limit, there are few.
FIRST_ROOM, LEAST_ROOM = 1 << 28, 1 << 20

# What is said before the library is made.
MADE_NOW = "facts come from the machine as a library, which is made now, this once; that takes about a minute where the program was built here"

Text = Union[str, bytes]

# A word of a command. The number of a slot may be an int.
Word = Union[str, int]


class Refused(ValueError):
    """The program refuses a job, or these words. Its text is the line that the program writes.

    `status` is the number of the program's status, and `text` that line. Where a line of the text or a deck is at fault, `name` is the name of the fault, `line`
    and `column` say where it is, from 1, `subject` is the text there, and `sentence` says what is wrong. The fault of a deck also has its `slot`, and `offset` in
    the deck, from 0. Where the library isn't made, only what the line has is known.
    """

    def __init__(self, answer: Answer, fault: Any = None) -> None:
        """With what the machine tells of the fault (`kdf9.told.Fault`), if it is known."""
        super().__init__(answer.text.strip())
        self.status, self.text = answer
        kind, *words = answer.text.split()
        is_known, is_of_deck = kind in ("JOB", "SNAPSHOT", "DECK"), kind == "DECK"
        self.name: Optional[str] = words[is_of_deck] if is_known else None
        self.line: Optional[int] = fault.line if fault else int(words[1]) if is_known and not is_of_deck else None
        self.column: Optional[int] = fault and fault.column
        self.subject: Optional[str] = fault and fault.subject
        self.sentence: Optional[str] = fault and fault.sentence
        self.slot: Optional[int] = int(words[0]) if is_of_deck else None
        self.offset: Optional[int] = int(words[2]) if is_of_deck else None


class NoLibrary(BadInput):
    """Why the library can't be used."""


def run(job: Text, *words: Word) -> str:
    """The text that a command of the program makes of a job: `run` if there are no words. A job that is a `str` is taken in UTF-8.

    Raises Refused where the job has a fault or the words are no command, and MemoryError where there is no memory.
    """
    asked = tuple(map(str, words)) or ("run",)
    answer = answer_to(asked, job)
    if answer.status == NO_MEMORY:
        raise MemoryError("the machine got no memory")
    if answer.status and not answer.text:
        raise BadInput(how_ended(answer))
    if answer.status:
        raise Refused(answer, fault_of(answer, as_bytes(job).decode(ENCODING), asked))
    return answer.text


def fault_of(answer: Answer, job: str, words: Sequence[str]) -> Any:
    """What the machine tells of the fault that the words of a command answered, if it is one and the library is there."""
    try:
        library_file()
    except NoLibrary:
        return None
    from kdf9 import fault  # pylint: disable=import-outside-toplevel

    return fault.fault_of(job, *words) if answer.text.split(" ")[0] in ("JOB", "SNAPSHOT", "DECK") else None


def facts(job: Text, words: Sequence[str] = ("run",)) -> Dict[str, Any]:
    """What there is to know of a job: the facts that the words of a command ask for, with the fields of docs/schema/facts.json. A job that is a `str` is taken
    in UTF-8.

    Where a line or a deck has a fault, the facts are those of the fault, of the kind `fault`. Raises NoLibrary where there is no library and none can be made,
    and MemoryError where there is no memory.
    """
    answer = teller()(words, as_bytes(job))
    if answer.status == NO_MEMORY:
        raise MemoryError("the machine got no memory")
    told: Dict[str, Any] = json.loads(answer.text)
    return told


def answer_to(words: Sequence[str], job: Text) -> Answer:
    """The status and the text that the program answers to the words of a command and a job, whatever they are."""
    return machine()(words, as_bytes(job))


def as_bytes(job: Text) -> bytes:
    """The bytes of a job."""
    if not isinstance(job, (str, bytes, bytearray, memoryview)):
        raise TypeError(f"a job is its text, a str or bytes, and not of the type {type(job).__name__}")
    return job.encode("utf-8") if isinstance(job, str) else bytes(job)


@functools.lru_cache(maxsize=None)
def machine() -> Callable[[Sequence[str], bytes], Answer]:
    """What answers: the library, or the program."""
    try:
        return loaded(library_file())
    except NoLibrary:
        return lambda words, job: started(list(words), job.decode(ENCODING))


@functools.lru_cache(maxsize=None)
def teller() -> Callable[[Sequence[str], bytes], Answer]:
    """What tells facts: the library, which is made if it isn't there."""
    return loaded(made_library(), FACTS)


def library_file() -> str:
    """The file of the library: the one that the variable KDF9_LIBRARY names, or else the one that `./kdf9 lib` keeps."""
    named = os.environ.get("KDF9_LIBRARY")
    if named:
        return named
    from building import engine  # pylint: disable=import-outside-toplevel

    if not engine.is_current(engine.SHARED):
        raise NoLibrary("it isn't made from these sources")
    return str(engine.SHARED)


def made_library() -> str:
    """The file of the library, which is made if it isn't there."""
    from building import engine, progress  # pylint: disable=import-outside-toplevel

    try:
        return library_file()
    except NoLibrary:
        if not engine.hindrance():
            progress.say(MADE_NOW)
    kept = signal.getsignal(signal.SIGINT)
    if kept is signal.SIG_DFL:
        signal.signal(signal.SIGINT, signal.default_int_handler)
    try:
        return str(engine.shared())
    except engine.NoEngine as why:
        raise NoLibrary(f"kdf9: facts need the library: {why}") from why
    finally:
        signal.signal(signal.SIGINT, kept)


def loaded(file: str, name: str = RUN) -> Callable[[Sequence[str], bytes], Answer]:
    """What answers by a call of the library of this file."""
    import ctypes  # pylint: disable=import-outside-toplevel

    calls = ctypes.CDLL(file)
    if calls.kdf9_version() != VERSION or not hasattr(calls, name):
        raise OSError(f"{file} has version {calls.kdf9_version()} of its calls, and this is for version {VERSION} with {name}")
    piece = [ctypes.c_char_p, ctypes.c_uint64]
    call = getattr(calls, name)
    call.argtypes = [*piece, *piece, *piece, ctypes.POINTER(ctypes.c_uint64)]
    call.restype = ctypes.c_uint32

    def answer(words: Sequence[str], job: bytes) -> Answer:
        asked, size, room = lines_of(words), ctypes.c_uint64(), first_room()
        while True:
            status = call(asked, len(asked), job, len(job), room, len(room), ctypes.byref(size))
            if status != NO_ROOM:
                return Answer(status, str(memoryview(room)[:size.value], ENCODING))
            room = room_of(size.value)

    return answer


def first_room() -> Any:
    """The room that is tried first for a text."""
    try:
        return room_of(FIRST_ROOM)
    except MemoryError:
        return room_of(LEAST_ROOM)


def room_of(most: int) -> Any:
    """A room of so many bytes, as a call takes it. What isn't written to takes no memory."""
    import ctypes  # pylint: disable=import-outside-toplevel
    import mmap  # pylint: disable=import-outside-toplevel

    try:
        return (ctypes.c_char * most).from_buffer(mmap.mmap(-1, most, mmap.MAP_PRIVATE | mmap.MAP_ANONYMOUS))
    except OSError as why:
        raise MemoryError(f"there is no memory for a text of {most} bytes") from why


def lines_of(words: Sequence[str]) -> bytes:
    """The words of a command as the library takes them: each on a line of its own."""
    if any("\n" in word or "\r" in word for word in words):
        raise ValueError("a word of a command has no end of a line in it")
    return "".join(f"{word}\n" for word in words).encode("utf-8")
