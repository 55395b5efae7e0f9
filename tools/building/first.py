"""What answers a command before the program is proved on this machine: the module of the page that is shipped, by Node, or the kit, which runs the sources.

Neither was proved here, and a line on standard error says which of them answers. Both answer as the program does: the same text, and the same status.
"""
import base64
import fcntl
import gzip
import hashlib
import os
import pathlib
import re
import shutil
import subprocess
import tempfile
from typing import Callable, List, NamedTuple, Optional

from building import engine
from building.rooms import CRATES, PROGRAM, ROOT

PAGE, SUMS = ROOT / "dist" / "kdf9.html", ROOT / "dist" / "kdf9.sums"

# The module in the page.
MODULE = re.compile(rb'<script type="text/plain" id="module">([A-Za-z0-9+/=]+)</script>')

# Where the module finds the rest of the machine, by the names that Node takes for modules.
ANSWER, SCRIPTS = pathlib.Path(__file__).with_name("answer.mjs"), ("machine", "narrow")

# The status by which the module says that it has no room for so long a text.
TOO_LONG = 6

# The last line of a run by the kit that came to its end, and the seconds that such a run may take.
ENDED = re.compile(rb"^run=ended status=(\d+) .*proved=no\n\Z", re.MULTILINE)
SECONDS = "3600"


class Answer(NamedTuple):
    """The status and the text that a command came to."""

    status: int
    text: bytes


class Way(NamedTuple):
    """A way to an answer: what the user is told of it, why it can't be gone for these words, if it can't, and the answer to words over a text, or None where it gives
    none.
    """

    told: str
    lacks: Callable[[List[str]], Optional[str]]
    answer: Callable[[List[str], bytes], Optional[Answer]]


def sums_of_page() -> str:
    """What dist/kdf9.sums has to have: the checksum of the page, and that of the sources of which its module was made."""
    return f"page {hashlib.sha256(PAGE.read_bytes()).hexdigest()}\nsources {engine.sums()}\n"


def page_lacks(words: List[str]) -> Optional[str]:
    """Why the module of the page can't answer to these words, or None."""
    if not shutil.which("node"):
        return "there is no node to run the module of dist/kdf9.html"
    try:
        page, sources = SUMS.read_text(encoding="ascii").splitlines()
        of_page, of_sources = sums_of_page().splitlines()
    except (OSError, ValueError):
        return "dist/ has no page with its checksums"
    if page != of_page:
        return "dist/kdf9.html isn't the page of its checksum in dist/kdf9.sums"
    if sources != of_sources:
        return "the module of dist/kdf9.html was made of other sources than these"
    return "the module takes no word with the end of a line in it" if any(set("\r\n") & set(word) for word in words) else None


def answer_of_page(words: List[str], text: bytes) -> Optional[Answer]:
    """What the module of the page answers."""
    with tempfile.TemporaryDirectory(prefix="kdf9-") as folder:
        module = gzip.decompress(base64.b64decode(MODULE.search(PAGE.read_bytes())[1]))
        pathlib.Path(folder, "kdf9.wasm").write_bytes(module)
        for name in SCRIPTS:
            shutil.copy(ROOT / "web" / f"{name}.js", f"{folder}/{name}.mjs")
        done = subprocess.run(["node", "--no-warnings", ANSWER, folder, *words], input=text, stdout=subprocess.PIPE, stderr=subprocess.PIPE, check=False)
    return None if done.stderr or done.returncode < 0 or done.returncode == TOO_LONG else Answer(done.returncode, done.stdout)


def kit_lacks(_words: List[str]) -> Optional[str]:
    """Why the kit can't answer, or None."""
    return None if shutil.which("rt") else "there is no rt to run the sources"


def answer_of_kit(words: List[str], text: bytes) -> Optional[Answer]:
    """What the kit answers, which runs the sources of the program with checks and without a proof."""
    done = subprocess.run(
        ["rt", "try", "--seconds", SECONDS, "--", *words], cwd=CRATES / PROGRAM, input=text, stdout=subprocess.PIPE, stderr=subprocess.PIPE, check=False,
    )
    ended = ENDED.search(done.stderr)
    return ended and Answer(int(ended[1]), done.stdout)


WAYS = (
    Way("the page's module in dist/, which was built elsewhere and isn't proved on this machine", page_lacks, answer_of_page),
    Way("`rt try`, which runs the sources and proves nothing; each time this takes a minute or two", kit_lacks, answer_of_kit),
)


def is_building() -> bool:
    """Whether a build is going on: it has the folder of all crates for itself."""
    folder = os.open(CRATES, os.O_RDONLY)
    try:
        fcntl.flock(folder, fcntl.LOCK_SH | fcntl.LOCK_NB)
        return False
    except BlockingIOError:
        return True
    finally:
        os.close(folder)
