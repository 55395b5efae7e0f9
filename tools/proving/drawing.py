"""The pictures of the page: which crate stands on which, and the steps of the theorem."""
import html
import re
from typing import Dict, List, NamedTuple, Set, Tuple

# The sizes of a picture: of a node, and between nodes and rows; and how many nodes stand beside each other.
WIDTH, HEIGHT, BESIDE, BELOW, EDGE = 124, 42, 14, 46, 12
MOST_BESIDE = 7
STEP_WIDTH, STEP_HEIGHT, STEP_BELOW = 300, 52, 26


class Crate(NamedTuple):
    """A crate: its name, those that it stands on, and whether it is proved, tested or trusted."""

    name: str
    needs: List[str]
    state: str


def crates(listed: str, tested: Set[str], own: Set[str]) -> Dict[str, Crate]:
    """The crates of crates.txt, and those of the kit that they stand on."""
    found = {}
    for name, needs in re.findall(r"^(\w+)(?: staticlib)?:(.*)$", listed, re.MULTILINE):
        found[name] = Crate(name, needs.split(), "tested" if name in tested else "proved")
    for name in sorted({need for crate in found.values() for need in crate.needs} - set(found)):
        found[name] = Crate(name, [], "trusted")
    if not own <= set(found):
        raise ValueError(f"crates.txt has no {', '.join(own - set(found))}")
    return found


def rows_of(all_crates: Dict[str, Crate]) -> List[List[str]]:
    """The crates in rows: each above all that it stands on."""
    heights: Dict[str, int] = {}

    def height(name: str) -> int:
        if name not in heights:
            own = [need for need in all_crates[name].needs if all_crates[need].state != "trusted"]
            heights[name] = 0 if all_crates[name].state == "trusted" else 1 + max(map(height, own), default=0)
        return heights[name]

    for each in all_crates:
        height(each)
    rows = [[name for name in all_crates if heights[name] == row] for row in range(max(heights.values()) + 1)]
    # Crates of one height don't stand on each other, so a long row may be two.
    return [part for row in rows for half in [(len(row) + 1) // 2 if len(row) > MOST_BESIDE else len(row)] for part in (row[:half], row[half:]) if part]


def few(all_crates: Dict[str, Crate]) -> List[Tuple[str, str]]:
    """From each crate to those that it stands on, without what goes through others anyway."""
    below: Dict[str, Set[str]] = {}

    def under(name: str) -> Set[str]:
        if name not in below:
            below[name] = set()
            for need in all_crates[name].needs:
                below[name] |= {need} | under(need)
        return below[name]

    return [(name, need) for name, crate in all_crates.items() for need in crate.needs
            if not any(need in under(other) for other in crate.needs if other != need)]


def placed(rows: List[List[str]], edges: List[Tuple[str, str]]) -> Dict[str, Tuple[float, float]]:
    """Where each crate stands: the rows from below, and in a row near what it stands on."""
    width = max(map(len, rows)) * (WIDTH + BESIDE)
    places: Dict[str, Tuple[float, float]] = {}
    for number, row in enumerate(rows):
        y = EDGE + (len(rows) - 1 - number) * (HEIGHT + BELOW)

        def near(name: str) -> float:
            below = [places[need][0] for of, need in edges if of == name and need in places]
            return sum(below) / len(below) if below else width / 2

        ordered = sorted(row, key=near) if number else row
        step = width / len(row)
        for at, name in enumerate(ordered):
            places[name] = (EDGE + step * (at + .5) - WIDTH / 2, y)
    return places


def node(name: str, state: str, x: float, y: float, size: Tuple[int, int], target: str) -> str:
    """A node: a box with a name and a state, which is a link if it leads somewhere."""
    width, height = size
    box = (f'<rect class="{state}" x="{x:.0f}" y="{y:.0f}" width="{width}" height="{height}" rx="6"/>'
           f'<text class="name" x="{x + width / 2:.0f}" y="{y + height / 2 - 3:.0f}">{html.escape(name)}</text>'
           f'<text class="state" x="{x + width / 2:.0f}" y="{y + height / 2 + 13:.0f}">{state}</text>')
    return f'<a href="#{html.escape(target)}" aria-label="{html.escape(name)}: {state}">{box}</a>' if target else f"<g>{box}</g>"


def picture_of_crates(all_crates: Dict[str, Crate]) -> str:
    """The crates as SVG."""
    rows, edges = rows_of(all_crates), few(all_crates)
    places = placed(rows, edges)
    width, height = 2 * EDGE + max(map(len, rows)) * (WIDTH + BESIDE), 2 * EDGE + len(rows) * (HEIGHT + BELOW) - BELOW
    lines = []
    for of, need in edges:
        (x, y), (u, v) = places[of], places[need]
        x, u, y = x + WIDTH / 2, u + WIDTH / 2, y + HEIGHT
        lines.append(f'<path class="edge" d="M{x:.0f} {y:.0f}C{x:.0f} {y + BELOW / 2:.0f} {u:.0f} {v - BELOW / 2:.0f} {u:.0f} {v:.0f}"/>')
    nodes = [node(name, crate.state, *places[name], (WIDTH, HEIGHT), name if crate.state != "trusted" else "trusted") for name, crate in all_crates.items()]
    return (f'<svg viewBox="0 0 {width} {height}" width="{width}" height="{height}" role="group" aria-label="The crates, each above those that it stands on">'
            f'{"".join(lines)}{"".join(nodes)}</svg>')


def picture_of_steps(steps: List[Tuple[str, str, str]]) -> str:
    """The steps of the theorem as SVG, the last one on top: the name of each, its state, and where it leads."""
    height = 2 * EDGE + len(steps) * (STEP_HEIGHT + STEP_BELOW) - STEP_BELOW
    width = 2 * EDGE + STEP_WIDTH
    parts = []
    for number, (name, state, target) in enumerate(steps):
        y = EDGE + number * (STEP_HEIGHT + STEP_BELOW)
        if number + 1 < len(steps):
            parts.append(f'<path class="edge" d="M{width / 2:.0f} {y + STEP_HEIGHT}v{STEP_BELOW}"/>')
        parts.append(node(name, state, EDGE, y, (STEP_WIDTH, STEP_HEIGHT), target))
    return f'<svg viewBox="0 0 {width} {height}" width="{width}" height="{height}" role="group" aria-label="The steps to the theorem, each on those below it">{"".join(parts)}</svg>'
