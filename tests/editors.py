"""Tries what editors are given: the grammars by a tokenizer and in Vim, Neovim and Emacs, the language server, and the debug adapter."""
import sys

from editors_debug import SUITES as DEBUG
from editors_eglot import SUITES as EGLOT
from editors_grammar import SUITES as GRAMMAR
from editors_inside import LEFT_OUT
from editors_inside import SUITES as INSIDE
from editors_server import SUITES as SERVER

SUITES = (*GRAMMAR, *INSIDE, *SERVER, *EGLOT, *DEBUG)


def main() -> int:
    """The status: 0 if every case passed."""
    cases = [case for suite in SUITES for case in suite()]
    faults = [(what, why) for what, why in cases if why]
    for what, why in faults:
        print(f"editors: {what}: {why}")
    for editor in LEFT_OUT:
        print(f"editors: {editor} isn't on this machine, so nothing is tried in it")
    print(f"editors: {len(cases) - len(faults)} passed, {len(faults)} failed" + (f", {len(LEFT_OUT)} left out" if LEFT_OUT else ""))
    return 1 if faults else 0


if __name__ == "__main__":
    sys.exit(main())
