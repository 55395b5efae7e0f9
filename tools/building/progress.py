"""What is said of a build on standard error: lines, or a bar where that is a terminal."""
import os
import sys
import time

# The length of a bar, and what clears the line of the terminal.
BAR = 30
CLEARED = "\r\x1b[K"


def say(line):
    """Says a line on standard error, in the place of a bar, if there is one."""
    print(f"{CLEARED if sys.stderr.isatty() else ''}kdf9: {line}", file=sys.stderr, flush=True)


def draw(line):
    """Draws a line of the terminal in the place of the one before, as far as it fits."""
    print(CLEARED, f"kdf9: {line}"[:os.get_terminal_size(2).columns - 1], sep="", end="", file=sys.stderr, flush=True)


def clock(seconds):
    """Minutes and seconds."""
    return f"{int(seconds) // 60}:{int(seconds) % 60:02}"


def about(seconds):
    """So many minutes, about."""
    minutes = round(seconds / 60)
    return "less than a minute" if seconds < 45 else f"about {minutes} minute{'s' * (minutes != 1)}"


class Lines:
    """Tells a build in a line for each crate."""

    def proved(self, build, name):
        say(f"{name} is proved: {len(build.proved)} of {len(build.plan.crates)} after {clock(build.elapsed())}, {about(build.seconds_left())} more")

    def goes_on(self, build):
        pass


class Bar:
    """Tells a build in one line of the terminal, which is drawn again each second."""

    def __init__(self):
        self.drawn = -1

    def proved(self, build, name):
        self.drawn = -1

    def goes_on(self, build):
        now = int(build.elapsed())
        if now != self.drawn:
            self.drawn = now
            left = build.seconds_left()
            full = int(BAR * now / max(now + left, 1))
            names = ", ".join(it.name for it in build.running)
            draw(f"[{'#' * full:.<{BAR}}] {len(build.proved)} of {len(build.plan.crates)}, {clock(now)}, {about(left)} more: {names}")


class Stages:
    """Tells work of a few stages in a line for each, and on a terminal in one line, which is drawn again each second."""

    def __init__(self, what, number):
        self.what, self.number, self.at, self.name = what, number, 0, ""
        self.began, self.drawn = time.monotonic(), -1

    def begins(self, name):
        """The next stage begins."""
        self.at, self.name, self.drawn = self.at + 1, name, -1
        if not sys.stderr.isatty():
            say(f"{self.what}: {self.name}, {self.at} of {self.number}")

    def goes_on(self, more=""):
        """The stage goes on, and this much more is known of it."""
        now = int(time.monotonic() - self.began)
        if sys.stderr.isatty() and now != self.drawn:
            self.drawn = now
            draw(f"{self.what}: {self.name}, {self.at} of {self.number}, {clock(now)}{more and f', {more}'}")

    def ends(self):
        """All of it is done."""
        say(f"{self.what} is made, after {clock(time.monotonic() - self.began)}")
