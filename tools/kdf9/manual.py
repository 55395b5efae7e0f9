"""The manual page, made of the tables: the commands, the tools with their arguments, the options, and the exit statuses of docs/TOOLS.md."""
import re
from typing import Iterable, List

from kdf9.about import OPTIONS, version
from kdf9.commands import COMMANDS
from kdf9.entries import Described, Entry, entries
from kdf9.program import ROOT

NAME = "runs jobs of a proved computer modelled on the English Electric KDF9"

# A row of the table of exit statuses in docs/TOOLS.md.
STATUS = re.compile(r"^\| ([0-9, or]+) \| (.*?) \| .* \| .* \|$", re.MULTILINE)


def roff(text: str) -> str:
    """A text as the page has it: a program that is installed is called by its name alone."""
    plain = text.replace("./kdf9", "kdf9").replace("`", "").replace("\\", "\\e").replace("-", "\\-")
    return f"\\&{plain}" if plain[:1] in (".", "'") else plain


def item(head: str, *texts: str) -> List[str]:
    """An item of a list: its head in bold, and what is said of it."""
    return [".TP", f".B {roff(head)}", *map(roff, texts)]


def described(parts: Iterable[Described]) -> List[str]:
    """The arguments or options of a tool, below what is said of it."""
    lines = [line for it in parts for line in item(it.written, f"{it.does[:1].upper()}{it.does[1:]}.")]
    return [".RS", *lines, ".RE"] if lines else []


def section_of(entry: Entry) -> List[str]:
    """What is said of a command or a tool. That it has --help is said once for all."""
    parts = entry.arguments + [it for it in entry.options if it.written != "--help"]
    return item(entry.tool.usage, entry.tool.does) + described(parts)


def statuses() -> List[str]:
    """The exit statuses, by the table of docs/TOOLS.md."""
    table = (ROOT / "docs" / "TOOLS.md").read_text(encoding="utf-8")
    return [line for status, when in STATUS.findall(table) for line in item(status, f"{when[:1].upper()}{when[1:]}.")]


def page() -> str:
    """The text of the manual page."""
    found = entries()
    commands, tools = found[:len(COMMANDS)], found[len(COMMANDS):]
    lines = [
        '.\\" Written by tools/manual from the tables of commands and tools.',
        f'.TH KDF9 1 "" "kdf9 {version()}" "User Commands"',
        ".SH NAME", f"kdf9 \\- {NAME}",
        ".SH SYNOPSIS", ".B kdf9", ".I COMMAND", "\\&..", ".br", ".B kdf9", ".I TOOL", "\\&..", ".br", ".B kdf9 \\-\\-help", "|", ".B \\-\\-version",
        ".br", ".B kdf9 \\-\\-proved", ".I COMMAND", "\\&..",
        ".SH DESCRIPTION", "A job has up to four programs in Usercode, what they share, and a schedule. A command reads it from standard input.",
        "A tool asks the program, or reads what it wrote; JOB is a file, or \\- for standard input.",
        ".SH COMMANDS", *(line for it in commands for line in section_of(it)),
        ".SH TOOLS", *(line for it in tools for line in section_of(it)),
        ".SH OPTIONS", *(line for name, does in OPTIONS.items() for line in item(name, does)),
        ".SH EXIT STATUS", *statuses(),
        ".SH EXAMPLES", *(line for it in found for line in item(it.tool.example, it.tool.does)),
        ".SH SEE ALSO", "The documents that come with it: README.md, and docs/TOUR.md for a first hour.",
    ]
    return "".join(f"{line}\n" for line in lines)
