"""Packages that aren't Python's own: where they are installed, a tool that starts without looking for any finds them all the same."""
import importlib
import site
import sys

from kdf9.program import BadInput


def imported(name: str, option: str, package: str):
    """The package of this name, which an option needs. Without it, one line says what to install."""
    site.main()
    try:
        return importlib.import_module(name)
    except ImportError as why:
        python = ".".join(map(str, sys.version_info[:2]))
        raise BadInput(f"kdf9 study: {option} needs {name}, which this Python {python} hasn't; Debian's package is {package}, and pip's {name}") from why
