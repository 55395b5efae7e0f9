"""What courses and quizzes ask of the machine: the only place of theirs that starts it. If the library is made, it answers in this process."""
import functools
from typing import Dict, List

from kdf9 import library, measures, program, told
from kdf9.job import lone_job, Slot
from kdf9.machine import sound_facts
from kdf9.report import Section, read_section
from kdf9.spent import facts_of
from kdf9.tables import lines, table
from outcomes import runs

LARGEST_STORE, MOST_SLOTS = lines()["STORE"]["numbers"][0][1], table("job")["most"]["slots"]


def answer_here() -> None:
    """Lets the library answer in this process whatever the tools ask the program, if it is made."""
    try:
        answers = library.loaded(library.library_file())
    except (library.NoLibrary, OSError):
        return
    program.ask = lambda words, job: answers(words, job.encode(program.ENCODING))


def keep_to_one_processor() -> None:
    """Lets a search start no further processes: this one has its share of the processors."""
    runs.processors = lambda: 1


def ask(words: List[str], job: str) -> program.Answer:
    """What the program answers to these words and this job."""
    return program.ask(words, job)


@functools.lru_cache(maxsize=None)
def word_of(constant: str) -> int:
    """The word that a constant of Usercode is; ValueError where it is none."""
    listing = told.told_in(lone_job(Slot(0, LARGEST_STORE, 5, f"PROGRAM V0;\nV0 = {constant};\nFINISH;\n", []), 0), "asm", "0")
    if told.is_fault(listing) or ";" in constant:
        raise ValueError(constant)
    return int(listing.words[1], 8)


@functools.lru_cache(maxsize=4)
def measures_of(job: str) -> Dict[str, object]:
    """The measures of the run of a job, by the names that docs/STUDY.md gives them."""
    return measures.by_name(facts_of(sound_facts(job)))


@functools.lru_cache(maxsize=16)
def section(text: str, slot: int) -> Section:
    """The section of a slot in a report."""
    return read_section(text, slot)


def sections(text: str) -> List[Section]:
    """The sections of a report, of which nothing else is read."""
    return [section(text, slot) for slot in range(MOST_SLOTS) if f"\nSLOT {slot}\n" in text]
