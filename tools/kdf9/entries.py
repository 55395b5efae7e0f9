"""What each command and each tool takes: the places of its words and its options. The manual page and the completions are made of these."""
import importlib.machinery
import importlib.util
from argparse import Action
from types import ModuleType
from typing import List, NamedTuple

from kdf9.command import Parser
from kdf9.commands import COMMANDS
from kdf9.program import ROOT
from kdf9.tools import TOOLS, Tool

# What stands in a place that is a job, a slot or a folder, by its name in the usage.
JOB, SLOT, FOLDER = "job", "slot", "folder"
KINDS = {"JOB": JOB, "OTHER": JOB, "SLOT": SLOT, "K": SLOT, "FOLDER": FOLDER}


class Described(NamedTuple):
    """An argument or an option: how it is written, what it is, and whether an option has a word after it."""

    written: str
    does: str
    has_word: bool = False


class Entry(NamedTuple):
    """A command or a tool, what may stand in each place after its name, and its arguments and options. In a place there is a job, a slot, a folder, one
    of some words, with spaces between them, or else nothing that can be listed.
    """

    tool: Tool
    places: List[str]
    arguments: List[Described]
    options: List[Described]


def module_of(name: str) -> ModuleType:
    """The tool of this name as a module."""
    loader = importlib.machinery.SourceFileLoader(f"tool_{name}", str(ROOT / "tools" / name))
    module = importlib.util.module_from_spec(importlib.util.spec_from_loader(loader.name, loader))
    loader.exec_module(module)
    return module


def parser_of(name: str) -> Parser:
    """The arguments of the tool of this name, as the tool itself adds them."""
    parser = Parser(name)
    module_of(name).arguments(parser)
    return parser


def place(action: Action) -> str:
    """What may stand in the place of an argument."""
    return " ".join(action.choices) if action.choices else KINDS.get(str(action.metavar), "")


def option(action: Action) -> Described:
    """An option, by its longest name."""
    name = max(action.option_strings, key=len)
    return Described(f"{name} {action.metavar}" if action.metavar else name, action.help or "", bool(action.metavar))


def entry_of_tool(tool: Tool) -> Entry:
    """What a tool takes."""
    actions = parser_of(tool.name).described()
    arguments = [it for it in actions if not it.option_strings]
    described = [Described(str(it.metavar), it.help or "") for it in arguments]
    return Entry(tool, [place(it) for it in arguments], described, [option(it) for it in actions if it.option_strings])


def entry_of_command(command: Tool) -> Entry:
    """What a command takes. Like a tool it says how it is used."""
    words = command.arguments.partition("<")[0].split()
    return Entry(command, [KINDS.get(it, "") for it in words], [], [Described("--help", "says how it is used, and ends")])


def entries() -> List[Entry]:
    """The commands, and then the tools."""
    return [entry_of_command(it) for it in COMMANDS.values()] + [entry_of_tool(it) for it in TOOLS.values()]
