"""How a tool begins and ends: its arguments, what it says of itself, and what becomes of an error. No error shows a traceback.

A tool calls `main` with its name, a function `arguments` that adds what it takes to a `Parser`, and a function `run` that does what the arguments say and returns
the status. Those two raise BadWords or BadInput where they can't go on; the text of that says what is wrong, and where.
"""
import argparse
import gc
import os
import pathlib
import signal
import sys
from typing import Callable, List, NoReturn

from kdf9.program import ENCODING, BadInput
from kdf9.tools import NAME, TOOLS

# The status for bad input, and for output that can't be written; and the status for wrong arguments.
BAD_INPUT, BAD_WORDS = 1, 2

# What JOB is in the arguments of a tool, and what SLOT is.
A_JOB = "a file with a job, or - for standard input"
A_SLOT = "the number of a slot, 0 to 3; if it is left out, the first slot of the job"

# No number in the arguments has more digits.
MOST_DIGITS = 18

# From here on Ctrl-C ends a tool at once, by its signal, as it ends the program; so it interrupts no line that is being written. While Python starts, ./kdf9
# has it ignored, and says so by this variable; in the background of a script it is ignored, and stays so.
if os.environ.pop("KDF9_STARTING", None) or signal.getsignal(signal.SIGINT) is signal.default_int_handler:
    signal.signal(signal.SIGINT, signal.SIG_DFL)


class BadWords(Exception):
    """The tool doesn't take these arguments; the text of this exception says why."""


class Parser(argparse.ArgumentParser):
    """The arguments of the tool of this name. For --help it shows the tool's line of the table, and ends."""

    def __init__(self, name: str) -> None:
        tool = TOOLS[name]
        super().__init__(
            prog=f"{NAME} {name}", usage=tool.usage, description=tool.does, epilog=f"example:\n  {tool.shown_example}", add_help=False, allow_abbrev=False,
            formatter_class=argparse.RawDescriptionHelpFormatter,
        )
        self._positionals.title, self._optionals.title = "arguments", "options"
        self.add_argument("-h", "--help", action="help", help="says this, and ends")

    def described(self) -> List[argparse.Action]:
        """The arguments and the options, in the order in which the tool adds them, and first of all --help."""
        return list(self._actions)

    def error(self, message: str) -> NoReturn:
        """Refuses arguments that are wrong in this way. Python also calls those required that there may be any number of, none too."""
        for action in self._actions:
            if action.nargs == "*":
                message = message.replace(f", {action.metavar}", "")
        raise BadWords(message)


def number(least: int, most: int) -> Callable[[str], int]:
    """The type of an argument that is a number from `least` to `most`."""

    def read(word: str) -> int:
        if word.isascii() and word.isdigit() and len(word) <= MOST_DIGITS and least <= int(word) <= most:
            return int(word)
        raise argparse.ArgumentTypeError(f"has to be a number from {least} to {most}, and {word or 'an empty word'} isn't one")

    return read


def no_arguments(_parser: Parser) -> None:
    """The arguments of a tool that takes none."""


def main(name: str, arguments: Callable[[Parser], None], run: Callable[[argparse.Namespace], int]) -> NoReturn:
    """Runs the tool of this name on the arguments that were typed, and ends with its status. The garbage collector is off: a large text becomes
    millions of small objects, which are all needed to the end.
    """
    gc.disable()
    sys.exit(status_of(name, arguments, run, sys.argv[1:]))


def status_of(name: str, arguments: Callable[[Parser], None], run: Callable[[argparse.Namespace], int], words: List[str]) -> int:
    """The status with which a tool ends on these arguments; where they ask for it, it only says how it is used."""

    def work() -> int:
        parser = Parser(name)
        arguments(parser)
        try:
            return run(parser.parse_intermixed_args(words))
        except SystemExit:
            return 0

    return guarded(name, work)


def guarded(name: str, work: Callable[[], int]) -> int:
    """The status of this work, which is done under this name. Bad input, and whatever else keeps it from its end, is said in one line."""
    try:
        return ended(name, work)
    except MemoryError:
        pass
    # Only here is the memory free again that the tool took: until then, the error still has all of its values.
    tell(f"kdf9 {name}: this takes more memory than there is")
    return BAD_INPUT


def ended(name: str, work: Callable[[], int]) -> int:
    """The status of work that ends in any way but for want of memory, with all that it wrote handed over."""
    try:
        if sys.stdout is None:
            raise BadInput("standard output is closed")
        sys.stdout.reconfigure(encoding=ENCODING, errors="replace")
        status = work()
        sys.stdout.flush()
        return status
    except BadWords as why:
        tell(f"kdf9 {name}: {why}; usage: {TOOLS[name].usage} (--help says more)")
        return BAD_WORDS
    except BadInput as why:
        tell(str(why))
    except BrokenPipeError:
        drop(1)
    except OSError as why:
        drop(1)
        tell(f"{why.filename or 'standard output'}: {why.strerror or why}")
    except KeyboardInterrupt:
        return 128 + signal.SIGINT
    except MemoryError:
        raise
    except Exception as why:  # pylint: disable=broad-except
        tell(f"kdf9 {name}: {slip(why)}")
    return BAD_INPUT


def slip(why: Exception) -> str:
    """What is said of an error that no tool should come to: what it is and where, for those who mend the tool."""
    at = why.__traceback__
    while at is not None and at.tb_next is not None:
        at = at.tb_next
    place = f" in {pathlib.Path(at.tb_frame.f_code.co_filename).name}:{at.tb_lineno}" if at else ""
    return f"this is a slip of the tool, not of what it was given: {type(why).__name__}{place}: {why}"


def tell(*lines: str) -> None:
    """Writes lines to standard error, if anything can be written there. A character that isn't printed, such as a newline in the name of a file, is a `?`."""
    try:
        for line in lines:
            if sys.stderr is not None:
                print("".join(character if character.isprintable() else "?" for character in line), file=sys.stderr)
    except OSError:
        drop(2)


def drop(stream: int) -> None:
    """Discards what isn't written yet to standard output, 1, or standard error, 2, because writing has already failed."""
    os.dup2(os.open(os.devnull, os.O_WRONLY), stream)
