"""docs/SPEED.md, made of the figures that are written down."""
from typing import Any, Dict, Iterable, List, Sequence, Tuple

from counting import shown
from jobs import LOOPS, TRANSFERS

Figures = Dict[str, float]

PAGE = """# How fast it is

`bench/speed --write` wrote this page and `bench/figures.json` on {day}. It took {minutes} minutes, at a load of {load} (other processes that were working or waiting).

A busy machine takes more seconds, but not more instructions. So `bench/speed` counts instructions, by valgrind's callgrind, and measures memory. It ends with status 1 if anything takes over a tenth more
than `bench/figures.json` has, or if this page has other figures. Nothing depends on seconds. It needs Linux, Python 3, valgrind, and gcc or clang, and the program has to be built.

Each part is a script of its own, which compares two programs too:

```
bench/orders                    # counts the program, beside the figures that are written down
bench/orders NEW OLD            # counts both: how many times as many OLD takes
bench/orders --seconds NEW OLD  # times both in turn: how many times as long OLD takes, by the least of nine rounds
```

A job is counted twice, once with twice as many of what is counted, and the difference is divided. The jobs are in `bench/jobs.py`.

## An order

`bench/orders` counts loops. `bench/plain` obeys them in a plain C program too, `bench/plain.c`. It has only the orders of these loops, but it decodes each from the packed store, keeps every check of a shared machine, and comes to the same
section. The last columns say how many times as long as it the program takes, when they are run in turn, by the least of nine rounds.

{orders}

In these rounds `run` obeyed {fastest} million jumps a second, and {slowest} million orders of the slowest loop.

{transfers}## Programs that share the machine

`bench/sharing` counts, with `run` where nothing else is named:

{sharing}

## Decks

`bench/decks` counts a byte of a deck that is read and assembled:

{decks}

## The other commands

`bench/commands` counts:

{commands}

## Memory

`bench/peaks` measures the peak of the program's own memory. Tapes, decks and cards have 4,000,000 bytes, and snapshots some 20,000,000. Besides the tenth, a run may take half a megabyte more.

{peaks}

{goals}

## A build

A build forecasts its end by `tools/build-times.txt`, and notes what each crate took. `bench/build` compares the two.

## The machine

{processors} processors ({model}); {valgrind}; {compiler}, with `-O2`.
"""


def table(head: Sequence[str], rows: Iterable[Sequence[str]]) -> str:
    """A table of Markdown."""
    return "\n".join(f"| {' | '.join(row)} |" for row in [head, ["---"] * len(head), *rows])


def parted(figures: Figures) -> List[Tuple[str, str, float]]:
    """What is counted, its command, and the figure."""
    names = {name: name.rpartition(": ") for name in figures}
    return [(one, command, figures[name]) for name, (one, _, command) in names.items()]


def listed(figures: Figures, unit: str) -> str:
    """A table with a row for each figure, which names the command where that isn't `run`."""
    return table(["one", unit], [[one if command == "run" else f"{one}, by `{command}`", shown(figure)] for one, command, figure in parted(figures)])


def crossed(figures: Figures) -> str:
    """A table with a row for what is counted, and a column for each command."""
    cells = {(one, command.split()[0]): shown(figure) for one, command, figure in parted(figures)}
    ones, commands = (list(dict.fromkeys(keys)) for keys in zip(*cells))
    return table(["one", *(f"`{it}`" for it in commands)], [[one, *(cells.get((one, it), "") for it in commands)] for one in ones])


def loops(head: str, ones: Iterable[str], figures: Figures) -> str:
    """A table of what one of these takes, and of how long it takes beside the C program."""
    columns = {"plain C": "plain C", "`alone 0`": "alone 0", "`run`": "run", "times as long, `alone 0`": "times as long, alone 0", "times as long, `run`": "times as long, run"}
    return table([head, *columns], [[one, *(f"{figures.get(f'{one}: {it}', '')}" for it in columns.values())] for one in ones])


def transfers(ones: Sequence[str], figures: Figures) -> str:
    """What is said of loops of transfers, once they are counted."""
    if not ones:
        return ""
    told = "A transfer is counted with the jump back to it. In `run` two lines of the schedule belong to it, and the block of a printer is written to the section."
    return f"{told}\n\n{loops('a transfer of this loop', ones, figures)}\n\n"


def goals(figures: Figures, most: Figures) -> str:
    """What is said of runs that are to take no more than a goal."""
    over = [name.rpartition(": ")[0] for name, goal in most.items() if figures[name] > goal]
    rest = f" Today more is taken by {' and by '.join(over)}: there the bar is a tenth above the figure." if over else ""
    return f"A tape of such blocks and a deck of `*` are to take {max(most.values()):g} bytes at most, which is their bar.{rest}"


def page(figures: Dict[str, Dict[str, Any]], most: Figures) -> str:
    """The page with these figures, and with these goals of peaks."""
    speeds, beside = [figures["plain"][f"{name}: millions a second"] for name in LOOPS], {**figures["orders"], **figures["plain"]}
    ones = list(dict.fromkeys(one for one, _, _ in parted(figures["orders"])))
    return PAGE.format(
        orders=loops("an order of this loop", [one for one in ones if one not in TRANSFERS], beside), fastest=speeds[0], slowest=min(speeds),
        transfers=transfers([one for one in ones if one in TRANSFERS], beside), sharing=listed(figures["sharing"], "instructions"),
        decks=listed(figures["decks"], "instructions"), commands=crossed(figures["commands"]), peaks=listed(figures["peaks"], "bytes"),
        goals=goals(figures["peaks"], most), **figures["measured"],
    )
