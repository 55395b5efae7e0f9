"""Tries the completions in the shells themselves: keys are typed, and what the shell hands to kdf9 is compared."""
import os
import pathlib
import pty
import select
import shutil
import subprocess
import tempfile
import time
from typing import Dict, Iterator, List, Optional, Tuple

from toolkit import ROOT

Cases = Iterator[Tuple[str, Optional[str]]]

# What is typed, with a tab where the shell completes, and the words that kdf9 is handed.
TYPED = [
    ("kdf9 expla\texamples/adds-5\t", "explain examples/adds-5-and-7.job"), ("kdf9 wat\t3 4", "watch 3 4"), ("kdf9 --v\t", "--version"),
    ("kdf9 steps examples/adds-5-and-7.job \t", "steps examples/adds-5-and-7.job 0"), ("kdf9 listing --h\t", "listing --help"),
    ("kdf9 explain x re\t", "explain x resume"), ("kdf9 same x examples/asks-the\t", "same x examples/asks-the-service.job"),
    ("kdf9 schedule --after 7 examples/adds-cards-w\t", "schedule --after 7 examples/adds-cards-while-a-tape-is-copied.job"), ("kdf9 explain x --st\t", "explain x --strict"),
    ("kdf9 steps examples/two-parts.job --at P\t", "steps examples/two-parts.job --at P3"),
]

# What stands before the cursor, and all that fish offers there.
OFFERED = [
    ("kdf9 s", ["same", "save", "schedule", "stats", "steps", "study"]), ("./kdf9 expla", ["explain"]), ("kdf9 alone ", ["0", "1", "2", "3"]), ("kdf9 --v", ["--version"]),
    ("kdf9 listing examples/adds-cards-while-a-tape-is-copied.job ", ["0", "1"]), ("kdf9 explain x re", ["resume"]), ("kdf9 steps x 0 --w", ["--watch"]),
    ("kdf9 steps x --at 1 ", ["0", "1", "2", "3"]), ("kdf9 explain x run --s", ["--strict"]), ("kdf9 make ", []),
    ("kdf9 steps examples/lists-parts-stores-and-references.job --at ", ["7", "9", "P3", "2P3", "4P3"]), ("kdf9 steps examples/adds-cards-while-a-tape-is-copied.job 1 --at ", ["1", "2"]),
]

# For so many seconds an answer is waited for.
PATIENCE = 60

# Shows the words that kdf9 is handed.
SHOWS = 'kdf9() { echo "handed<$*>"; }'


class Terminal:
    """A shell on a terminal of its own."""

    def __init__(self, *words: str) -> None:
        self.shell, self.end = pty.fork()
        if self.shell == 0:
            os.chdir(ROOT)
            os.execvpe(words[0], words, {**os.environ, "TERM": "dumb", "HOME": "/nonexistent", "PS1": "$ "})
        self.seen = ""

    def type(self, text: str) -> None:
        """Types a line."""
        os.write(self.end, f"{text}\n".encode("utf-8"))

    def shows(self, text: str) -> bool:
        """Whether the terminal shows this, which is waited for. The rest of what it shows is kept."""
        ends = time.monotonic() + PATIENCE
        while text not in self.seen and time.monotonic() < ends:
            if select.select([self.end], [], [], 0.1)[0]:
                self.seen += os.read(self.end, 65536).decode("utf-8", "replace")
        return text in self.seen

    def close(self) -> None:
        """Ends the shell."""
        os.close(self.end)
        os.waitpid(self.shell, 0)


def typed_in(shell: str, words: List[str], setup: str) -> Cases:
    """What comes of the typed lines in a shell."""
    terminal = Terminal(*words)
    # The shell says that it is ready in a word that isn't in what is typed.
    terminal.type(f"{setup}; {SHOWS}; echo rea''dy")
    if not terminal.shows("ready"):
        yield f"{shell} starts", terminal.seen[-300:]
    for line, due in TYPED:
        terminal.seen = ""
        terminal.type(line)
        yield f"{line!r} in {shell}", None if terminal.shows(f"handed<{due}>") else f"{terminal.seen!r} in place of {due}"
    terminal.close()


def bash_completes() -> Cases:
    yield from typed_in("bash", ["bash", "--norc", "--noprofile", "-i"], "source install/kdf9.bash")


def zsh_completes() -> Cases:
    with tempfile.TemporaryDirectory() as folder:
        pathlib.Path(folder, "_kdf9").write_text((ROOT / "install/kdf9.zsh").read_text(encoding="utf-8"), encoding="utf-8")
        yield from typed_in("zsh", ["zsh", "-f", "-i"], f"fpath=({folder} $fpath); autoload -Uz compinit; compinit -u -D")


def fish_completes() -> Cases:
    for line, due in OFFERED:
        whole = ["fish", "--no-config", "-c", f"source install/kdf9.fish; complete -C '{line}'"]
        done = subprocess.run(whole, cwd=ROOT, capture_output=True, text=True, check=False)
        offered = [it.split("\t")[0] for it in done.stdout.splitlines()]
        yield f"{line!r} in fish", None if sorted(offered) == sorted(due) and not done.stderr else f"{offered} {done.stderr} in place of {due}"
    done = subprocess.run(["fish", "--no-config", "-c", "source install/kdf9.fish; complete -C 'kdf9 explain examples/adds-5'"], cwd=ROOT, capture_output=True, text=True, check=False)
    yield "the first job in fish", None if done.stdout.startswith("examples/adds-5-and-7.job") else f"{done}"


# Each by the shell that it needs.
SHELLS: Dict[str, object] = {"bash": bash_completes, "zsh": zsh_completes, "fish": fish_completes}


def shells() -> Cases:
    """The completions, each where its shell is; what is left out is said."""
    for shell, cases in SHELLS.items():
        if shutil.which(shell):
            yield from cases()
        else:
            print(f"install: {shell} isn't on this machine, so its completion isn't tried")
