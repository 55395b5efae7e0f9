"""A chart as an SVG picture."""
from contextlib import contextmanager
from html import escape

from kdf9.journal import RAN, groups
from kdf9.said import (MOST_SIGNS, SAYS, description, exchanges_in_all, held_calls, label_of_device, said_of_device, said_of_exchanges, said_of_lending,
                       said_of_slot, state_of, sums_of_slot, title_of, transfers_and_moves, waiting_calls)
from kdf9.tables import table
from kdf9.words import count

# What it looks like. The page draws with the same table (web/picture.js).
STYLE = table("picture")
SHADES, LEGEND, SIZES, LOOKS = STYLE["shades"], STYLE["legend"], STYLE["sizes"], STYLE["signs"]
COLOURS, TINTS, DIGITS = ([slot[what] for slot in STYLE["slots"]] for what in ("shade", "tint", "ink"))

# Where things are, in pixels.
LEFT, WIDTH, RIGHT, TOP = (SIZES[name] for name in ("left", "width", "right", "top"))
SLOT_HEIGHT, DEVICE_HEIGHT, GAP, LINE = (SIZES[name] for name in ("slot", "device", "gap", "line"))

# The width in pixels of a character of the slots after the sign of an exchange, and of the sign itself.
CHARACTER, SIGN = 9, 12

HEAD = """<svg xmlns="http://www.w3.org/2000/svg" viewBox="0 0 {width} {height}" width="{width}" height="{height}" \
font-family="sans-serif" font-size="14" role="img" aria-labelledby="title desc">
<title id="title">{title}</title>
<desc id="desc">{desc}</desc>
<defs>{patterns}</defs>
<rect width="100%" height="100%" fill="#fff"/>
<text x="{left}" y="20" font-size="16">{title}</text>"""


class Drawing:
    """The lines of an SVG picture of a chart, with the place of each lane."""

    def __init__(self, chart):
        self.chart = chart
        self.columns = chart.columns
        self.scale = WIDTH / chart.columns.number
        self.lines = []
        self.y = TOP
        for number, lane in chart.slot_lanes.items():
            self.slot(number, lane)
        for number, lane in chart.device_lanes.items():
            self.device(number, lane)
        self.idle()
        self.clock()
        self.exchanges()
        self.axis()
        self.legend()

    def x(self, stretch):
        """Where a stretch begins, in pixels from the left."""
        return LEFT + stretch * self.scale

    def text(self, x, y, words, rest=""):
        self.lines.append(f'<text x="{x:g}" y="{y:g}"{rest}>{escape(words)}</text>')

    def titled(self, title, shapes):
        """Shapes of which a title is shown where the pointer rests."""
        self.lines.append(f"<g><title>{escape(title)}</title>{''.join(shapes)}</g>")

    @contextmanager
    def lane(self, height, before, after):
        """A lane, with the text before it and the text after it."""
        self.text(8, self.y + height / 2 + 5, before)
        self.text(LEFT + WIDTH + 22, self.y + height / 2 + 5, after)
        yield
        self.y += height + GAP

    def when(self, first, end):
        """The calls of some stretches in words, counted from 1."""
        begins, ends = self.columns.starts[first] + 1, self.columns.starts[end]
        return SAYS["several" if begins < ends else "one"].format(first=begins, last=ends)

    def box(self, first, end, y, height, fill):
        """A rectangle over some stretches. Its sides are whole, so that no seam is seen between neighbours."""
        left = round(self.x(first))
        return rectangle(left, y, max(1, round(self.x(end)) - left), height, fill)

    def stack(self, first, end, height, parts):
        """Boxes one on the other from the bottom of the lane, each as high as its share of the calls, for pairs of calls and fill."""
        whole = self.columns.starts[end] - self.columns.starts[first]
        bottom, boxes = self.y + height, []
        for calls, fill in parts:
            if calls:
                part = max(SIZES["least_part"], height * calls / whole)
                bottom = max(self.y, bottom - part)
                boxes.append(self.box(first, end, bottom, part, fill))
        return boxes

    def digit(self, number, first, end, height, fill=None):
        """The digit of a slot in a bar, where there is room for it."""
        if self.x(end) - self.x(first) >= SIZES["bar_of_digit"]:
            x, y, fill = (self.x(first) + self.x(end)) / 2, self.y + height / 2 + 5, fill or DIGITS[number]
            yield f'<text x="{x:.1f}" y="{y:g}" text-anchor="middle" fill="{fill}">{number}</text>'

    def slot(self, number, lane):
        """The lane of a program."""
        section, ready = self.chart.sections[number], SIZES["ready"]
        with self.lane(SLOT_HEIGHT, f"slot {number}: {state_of(section)}", sums_of_slot(section, lane)):
            for first, end, calls, _ in groups(lane):
                waits = waiting_calls(calls)
                parts = [(calls[RAN], COLOURS[number]), (held_calls(calls) - waits, SHADES["held"]), (waits, SHADES["waits"])]
                boxes = self.stack(first, end, SLOT_HEIGHT, parts) or [self.box(first, end, self.y + SLOT_HEIGHT - ready, ready, SHADES["ready"])]
                if 2 * calls[RAN] > sum(calls.values()):
                    boxes += self.digit(number, first, end, SLOT_HEIGHT)
                self.titled(f"slot {number}, {self.when(first, end)}: {said_of_slot(self.chart, calls)}", boxes)
            for stretch, (at, failure) in lane.happened():
                x, said = self.x(stretch + 1) + 2, SAYS["failed" if failure else "ended"].format(call=at, failure=failure)
                ended = f'<rect x="{x:.1f}" y="{self.y + 10}" width="10" height="10" fill="#000"/>'
                self.titled(f"slot {number} {said}", [sign("failed", x, self.y + 9) if failure else ended])

    def device(self, number, lane):
        """The lane of a device. If there are too many transfers to see each one, their beginnings are only counted."""
        name, transfers = label_of_device(self.chart, number), self.chart.transfers[number]
        with self.lane(DEVICE_HEIGHT, name, transfers_and_moves(self.chart, number)):
            if number in self.chart.pool:
                self.lendings(name, self.chart.lent_lanes[number], lane)
            for first, end, calls, events in groups(lane):
                boxes = self.stack(first, end, DEVICE_HEIGHT, [(calls[slot], COLOURS[slot]) for slot in sorted(calls)])
                if len(calls) == 1:
                    boxes += self.digit(*calls, first, end, DEVICE_HEIGHT)
                if events and (transfers <= MOST_SIGNS or not boxes):
                    boxes.append(f'<path d="M{self.x(first):.1f} {self.y - 2}v{DEVICE_HEIGHT + 4}" stroke="#000" stroke-width="1"/>')
                self.titled(f"{name}, {self.when(first, end if calls else first + 1)}: {said_of_device(calls, events)}", boxes)
            self.moves(name, self.chart.move_lanes[number])

    def lendings(self, name, lane, transfers):
        """To whom a device of the pool is lent, in a light shade below its transfers."""
        for first, end, calls, _ in groups(lane):
            boxes = self.stack(first, end, DEVICE_HEIGHT, [(calls[slot], TINTS[slot]) for slot in sorted(calls)])
            if len(calls) == 1 and not any(transfers.calls[first:end]):
                boxes += self.digit(*calls, first, end, DEVICE_HEIGHT, "#000")
            if boxes:
                self.titled(f"{name}, {self.when(first, end)}: {said_of_lending(calls)}", boxes)

    def moves(self, name, lane):
        """The signs of words that were moved early."""
        shape, left = ("move", 3) if lane.number_of_events() <= MOST_SIGNS else ("small_move", 0)
        for first, _, _, words in groups(lane):
            said = SAYS["moved"].format(words=count(sum(words), "word"), moves=count(len(words), "MOVE"))
            self.titled(f"{name}, {self.when(first, first + 1)}: {said}", [sign(shape, self.x(first) - left, self.y)])

    def idle(self):
        """The lane of the calls that found every live program held up."""
        with self.lane(DEVICE_HEIGHT, "idle", count(self.chart.idle.total()["idle"], "call")):
            for first, end, calls, _ in groups(self.chart.idle):
                said = SAYS["idle"].format(calls=count(calls["idle"], "call"))
                self.titled(f"{self.when(first, end)}: {said}", self.stack(first, end, DEVICE_HEIGHT, [(calls["idle"], SHADES["idle"])]))

    def clock(self):
        """The lane of the clock, if it was ever set."""
        if self.chart.times:
            with self.lane(DEVICE_HEIGHT, "clock", f"set {count(self.chart.times, 'time')}"):
                for first, _, _, times in groups(self.chart.clock):
                    span = f"{times[0]}, and then up to {times[-1]}" if len(times) > 1 else str(times[0])
                    self.titled(f"{self.when(first, first + 1)}: {SAYS['clock'].format(times=span)}", [sign("clock", self.x(first), self.y + 2)])

    def exchanges(self):
        """The lane of the exchanges of priorities, if there are any. The slots follow the sign of an exchange, if there is room."""
        marked = list(groups(self.chart.exchanges))
        if not marked:
            return
        with self.lane(DEVICE_HEIGHT, "priorities", exchanges_in_all(self.chart)):
            nexts = [self.x(first) for first, _, _, _ in marked[1:]] + [LEFT + WIDTH + RIGHT]
            for (first, _, _, exchanges), following in zip(marked, nexts):
                x, slots = self.x(first), ", ".join(f"{p} {q}" for (p, q), _ in exchanges)
                shapes = [exchange_sign(x, self.y + 2)]
                if x + SIGN + CHARACTER * len(slots) + SIGN <= following:
                    shapes.append(f'<text x="{x + SIGN:.1f}" y="{self.y + 12}">{slots}</text>')
                self.titled(f"{self.when(first, first + 1)}: {said_of_exchanges(self.chart, exchanges)}", shapes)

    def axis(self):
        """The calls at the bottom, with lines through all lanes in the background."""
        lines = []
        for calls in self.numbers_of_axis():
            x = self.x(self.columns.place(calls))
            lines.append(f'<path d="M{x:.1f} {TOP - 6}V{self.y + 4}" stroke="{SHADES["axis"]}"/>')
            self.text(x, self.y + 18, str(calls), ' text-anchor="middle"')
        self.text(8, self.y + 18, "calls made")
        for stretch in sorted(self.columns.folds):
            if stretch - 1 not in self.columns.folds:
                self.fold(stretch)
        self.lines[:0] = lines
        self.y += 44

    def numbers_of_axis(self):
        """The numbers on the axis; there are none where a long idle stretch is folded."""
        starts, shown = self.columns.starts, [at for at in range(self.columns.number) if at not in self.columns.folds]
        step = step_of_axis(sum(starts[at + 1] - starts[at] for at in shown))
        for at in shown:
            yield from range(-(-starts[at] // step) * step, starts[at + 1], step)
        if self.columns.total % step == 0:
            yield self.columns.total

    def fold(self, stretch):
        """The sign that a long idle stretch is folded, from this column on."""
        end = next(at for at in range(stretch, self.columns.number + 1) if at not in self.columns.folds)
        x, step = (self.x(stretch) + self.x(end)) / 2, (self.y - TOP) / 2
        calls = count(self.columns.starts[end] - self.columns.starts[stretch], "call")
        shape = f'<path d="M{x - 4:.1f} {TOP - 6}l4 {step:.1f}l-4 0l4 {step:.1f}" fill="none" stroke="#000" stroke-dasharray="5 3"/>'
        self.titled(f"{self.when(stretch, end)}: {calls}, folded", [shape])

    def legend(self):
        """What the shades and signs mean, in three columns."""
        holders = sorted({slot for lane in self.chart.lent_lanes.values() for _, slot in lane.happened()})
        shades = [(COLOURS[slot], LEGEND["slot"].format(slot=slot)) for slot in self.chart.sections]
        shades += [(TINTS[slot], LEGEND["lent"].format(slot=slot)) for slot in holders]
        shades += [(SHADES[name], LEGEND[name]) for name in (["waits"] if self.chart.pool else []) + ["held", "idle"]]
        keys = [(rectangle(0, 0, 22, 12, fill), words) for fill, words in shades] + [
            (f'<rect width="22" height="{SIZES["ready"]}" y="9" fill="{SHADES["ready"]}"/>', LEGEND["ready"]), ('<path d="M11 0v13" stroke="#000"/>', LEGEND["begun"]),
            (sign("move", 8, 4), LEGEND["move"]), ('<rect x="6" y="1" width="10" height="10"/>', LEGEND["ended"]),
            (sign("failed", 5, 0), LEGEND["failed"]), (sign("clock", 11, 0), LEGEND["clock"]),
        ]
        if self.chart.exchanges.number_of_events():
            keys.append((exchange_sign(11, 0), LEGEND["exchange"]))
        for index, (shape, words) in enumerate(keys):
            x, y = 8 + SIZES["key"] * (index % 3), self.y + LINE * (index // 3)
            self.lines.append(f'<g transform="translate({x} {y})">{shape}</g>')
            self.text(x + 30, y + 11, words)
        self.y += LINE * -(-len(keys) // 3)
        notes = [LEGEND["columns"].format(calls=self.columns.length)] if self.columns.length > 1 else []
        for note in notes + ([LEGEND["folds"]] if self.columns.folds else []):
            self.text(8, self.y + 12, note)
            self.y += LINE


def rectangle(left, y, width, height, fill):
    """A rectangle, in the form that is put together with others."""
    return f'<rect x="{left}" y="{y:.1f}" width="{width}" height="{height:.1f}" fill="{fill}" shape-rendering="crispEdges"/>'


def sign(name, x, y):
    """The sign of this name at a place."""
    look = " ".join(f'{key}="{value}"' for key, value in LOOKS[name].items() if key != "path")
    return f'<path d="M{x:.1f} {y}{LOOKS[name]["path"]}" {look}/>'


def exchange_sign(x, y):
    """An arrow up and one down, with x between them and y at their top."""
    look = LOOKS["exchange"]
    return f'<path d="M{x - 4:.1f} {y + 12}{look["path"]}M{x + 4:.1f} {y}{look["other"]}" fill="{look["fill"]}" stroke="{look["stroke"]}"/>'


def step_of_axis(total):
    """The distance of the numbers of the axis: 1, 2 or 5 with zeros, so that there are at most twelve."""
    power = 1
    while total > 60 * power:
        power *= 10
    return next(step for step in (power, 2 * power, 5 * power) if total <= 12 * step)


def svg(chart):
    """The lines of the picture."""
    drawing, patterns = Drawing(chart), STYLE["patterns"]
    head = HEAD.format(
        width=LEFT + WIDTH + RIGHT, height=drawing.y + 10, left=8, title=title_of(chart), desc=escape(description(chart)),
        patterns=patterns["held"] + (patterns["waits"] if chart.pool else ""),
    )
    return [head, *drawing.lines, "</svg>"]
