"""What the machine knows of a text: its faults, statements and addresses."""
import functools

from kdf9 import library
from kdf9.program import ENCODING


@functools.lru_cache(maxsize=64)
def facts_of(text: str, slot: int) -> dict:
    """The facts of the deck of a slot, or of the first fault, of the text of a job with a character for each byte."""
    return library.facts(text.encode(ENCODING), ["asm", str(slot)])
