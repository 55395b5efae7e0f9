"""Writes the page to standard output, or says why it can't be made."""
import signal
import sys

from building.engine import NoEngine, engine
from building.progress import say
from kdf9.program import BadInput
from web.bundle import page


def write_page(command, job=None, course=None):
    """Writes the page and returns the status. If there is a job, it runs when the page opens; if there is a course, its exercises are in the page. `command` is what was
    typed.
    """
    if sys.stdout.isatty():
        raise BadInput(f"kdf9: the page is a file: {command} > kdf9.html")
    if signal.getsignal(signal.SIGINT) is signal.SIG_DFL:
        signal.signal(signal.SIGINT, signal.default_int_handler)
    try:
        sys.stdout.buffer.write(page(engine(), job, course).encode("utf-8"))
    except NoEngine as why:
        raise BadInput(f"kdf9: {why}") from why
    except KeyboardInterrupt:
        say("the page isn't made; the next start goes on from what is proved")
        return 128 + signal.SIGINT
    return 0
