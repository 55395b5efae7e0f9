"""What the tools share: the text of a job, a deck next to its image, a report, faults and where they are, and the program that answers.

What a statement became, and what a program did, is told by the machine itself (kdf9/told.py): nothing is assembled or obeyed here.

For other programs, `kdf9.run(job)` is the machine, and `kdf9.facts(job)` tells what there is to know of a run (docs/LIBRARY.md).
"""
from typing import TYPE_CHECKING, List

from kdf9.library import NoLibrary, Refused, run

if TYPE_CHECKING:
    from kdf9.told import facts, listing

__all__ = ["NoLibrary", "Refused", "facts", "listing", "run"]

# What of kdf9/told.py users call by the name of the package. It is loaded when it is first asked for, since many tools do without it.
TOLD = ("facts", "listing")


def __dir__() -> List[str]:
    """The names of the package, with those of what is loaded late."""
    return sorted({*globals(), *TOLD})


def __getattr__(name: str) -> object:
    """What is loaded late."""
    if name not in TOLD:
        raise AttributeError(f"module {__name__!r} has no attribute {name!r}")
    from kdf9 import told  # pylint: disable=import-outside-toplevel

    return getattr(told, name)
