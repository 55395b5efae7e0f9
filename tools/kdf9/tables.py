"""The tables of the folder tables/: each is read once, when it is first asked for. The page has the same ones (web/tables.js)."""
import functools
import json
from typing import Any, Callable, Dict, List

from kdf9.program import ROOT


@functools.lru_cache(maxsize=None)
def table(name: str) -> Any:
    """The table of this name."""
    return json.loads((ROOT / "tables" / f"{name}.json").read_text(encoding="utf-8"))


def hint(name: str, /, **values: object) -> str:
    """The hint of this name, with these values in the places of their names."""
    return table("hints")[name].format(**values)


def forms() -> List[str]:
    """Every form of a statement whose operands are numbers, with a 0 for each of them."""
    orders = table("orders")
    return [form for order in orders["orders"] for form in order["forms"]] + [row["form"] for row in orders["statements"]]


@functools.lru_cache(maxsize=None)
def names_of_forms() -> Dict[str, str]:
    """The name of the order that each form of a statement is, with a 0 for each number."""
    return {form: order["name"] for order in table("orders")["orders"] for form in order["forms"]}


def lines() -> Dict[str, dict]:
    """The rows of the lines of a job by the word with which each begins."""
    return {row["word"]: row for row in table("job")["lines"]}


def kinds() -> Dict[str, dict]:
    """The rows of the kinds of devices by their names in a job."""
    return {row["kind"]: row for row in table("job")["kinds"]}


def faults(what: str) -> Dict[str, dict]:
    """The rows of the faults of a job, a snapshot or a deck by their names."""
    return {row["name"]: row for row in table("faults")[what]}


def check_made(folder: str, texts: Dict[str, Callable[[], str]], tool: str, words: List[str]) -> int:
    """Whether the files of a folder have the texts that are made of the tables, as a status. With the word --write they are written first."""
    status = 0
    for name, made in texts.items():
        file, text = ROOT / folder / name, made()
        if words == ["--write"]:
            file.write_text(text, encoding="utf-8")
        if not file.is_file() or file.read_text(encoding="utf-8") != text:
            print(f"{folder}/{name} isn't made of the tables as they are now: {tool} --write writes it")
            status = 1
    return status


def byte_13():
    """The hint on bytes 13, with what to do about them on a terminal."""
    return f"{hint('byte_13')}; remove them with tr -d '\\r'"
