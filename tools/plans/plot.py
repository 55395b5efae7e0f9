"""Plots of the rows of a study, as SVG by matplotlib: a measure up, a parameter across, and a line for each value of another parameter.

Where a plot has several rows for one point, the point is at their mean, and a band reaches from the least to the greatest.
"""
import pathlib
import re
from typing import Dict, Iterator, List, NamedTuple, Optional, Tuple

from kdf9.program import BadInput
from plans.package import imported
from plans.plan import Plan, Plot, Value
from plans.rows import There

# What makes the same SVG of the same rows: the salt of its names, and no date. Texts stay texts.
SETTINGS = {"svg.hashsalt": "kdf9", "svg.fonttype": "none", "font.size": 11, "axes.spines.top": False, "axes.spines.right": False}
SIZE = (7.0, 3.8)

# Up to how many places across are named one by one.
MOST_TICKS = 12


class Point(NamedTuple):
    """A point of a line: its place across, and the least, the mean and the greatest of its values."""

    across: Value
    least: float
    mean: float
    most: float


Lines = Dict[Optional[Value], List[Point]]


def lines_of(plan: Plan, plot: Plot, there: There) -> Lines:
    """The points of a plot by the value of the parameter that its lines have; a plot without it has one line."""
    values: Dict[Tuple[Optional[Value], Value], List[float]] = {}
    only = plot.get("only", {}).items()
    for row in there.rows():
        value = row.get(plot["up"], "")
        if isinstance(value, (int, float)) and all(row[name] == wanted for name, wanted in only):
            values.setdefault((row[plot["lines"]] if "lines" in plot else None, row[plot["across"]]), []).append(value)
    if not values:
        raise BadInput(f"no row has a number for {plot['up']!r}, so there is nothing to plot")
    names: List[Optional[Value]] = list(plan.parameters[plot["lines"]]) if "lines" in plot else [None]
    return {name: [point(at, values[name, at]) for at in plan.parameters[plot["across"]] if (name, at) in values] for name in names}


def point(across: Value, values: List[float]) -> Point:
    """The point of some values."""
    return Point(across, min(values), sum(values) / len(values), max(values))


def drawer(plan: Plan):
    """What draws the plots of a plan. A plan without plots, and a Python that can't draw, are bad input."""
    if not plan.plots:
        raise BadInput("the plan has no plots; its key plots takes a list such as [{\"across\": \"programs\", \"up\": \"share running\"}]")
    return imported("matplotlib", "--plot", "python3-matplotlib")


def write_plots(plan: Plan, there: There, folder: str) -> Iterator[pathlib.Path]:
    """Draws the plots of a plan into a folder; their names."""
    matplotlib = drawer(plan)
    matplotlib.use("Agg")
    for number, plot in enumerate(plan.plots, 1):
        path = pathlib.Path(folder) / f"plot-{number}-{re.sub('[^a-z0-9]+', '-', plot['up'].lower()).strip('-')}.svg"
        draw(matplotlib, plot, lines_of(plan, plot, there), path)
        yield path


def draw(matplotlib, plot: Plot, lines: Lines, path: pathlib.Path) -> None:
    """Draws a plot. Numbers across are to scale; other values stand side by side."""
    from matplotlib import pyplot  # pylint: disable=import-outside-toplevel,import-error

    with matplotlib.rc_context(SETTINGS):
        figure, axes = pyplot.subplots(figsize=SIZE)
        for name, points in lines.items():
            across = [each.across for each in points]
            line = axes.plot(across, [each.mean for each in points], marker="o", label=None if name is None else f"{plot['lines']} {name}")[0]
            if any(each.least < each.most for each in points):
                axes.fill_between(across, [each.least for each in points], [each.most for each in points], color=line.get_color(), alpha=0.15, linewidth=0)
        axes.set(xlabel=plot["across"], ylabel=plot["up"], title=plot.get("title", ""))
        axes.set_ylim(bottom=0)
        axes.ticklabel_format(axis="y", style="plain", useOffset=False)
        places = list(dict.fromkeys(each.across for points in lines.values() for each in points))
        if len(places) <= MOST_TICKS:
            axes.set_xticks(places, places)
        if any(name is not None for name in lines):
            axes.legend(frameon=False)
        figure.tight_layout()
        figure.savefig(path, format="svg", metadata={"Date": None})
        pyplot.close(figure)
