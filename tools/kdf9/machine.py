"""What the machine tells tools that run jobs of their own: the facts of a job without a fault, as they are in the JSON."""
import os
from typing import Any, Dict

from kdf9 import library
from kdf9.program import ENCODING, TOO_LARGE, BadInput


def sound_facts(job: str, *words: str) -> Dict[str, Any]:
    """The facts that the words of a command, or else `run`, ask for over a job in which the machine finds no fault, as the JSON has them; BadInput says what it
    found otherwise.
    """
    told = library.facts(job.encode(ENCODING), words or ("run",))
    if told["kind"] == "fault":
        raise BadInput(TOO_LARGE.format(told["limit"]) if told["of"] == "text" else f"line {told['line']} of the job: {told['sentence']}")
    return told


def processors() -> int:
    """How many processors this process may use."""
    return len(os.sched_getaffinity(0)) if hasattr(os, "sched_getaffinity") else os.cpu_count() or 1
