"""Draws the pictures of docs/EDITORS.md: what Neovim, Vim and Emacs show in a terminal, and what the grammar tells apart. It needs tmux and the editors.

    python3 tests/editors_pictures.py

Each editor runs in a terminal of tmux, keys are typed, and the screen is written as an SVG with its colours.
"""
import html
import pathlib
import re
import subprocess
import sys
import time
from typing import Dict, List, NamedTuple, Optional, Tuple

from editors_client import command_in, in_folder
from editors_grammar import Grammar
from toolkit import ROOT

WIDTH, HEIGHT = 104, 26
CELL, LINE, MARGIN = 8.4, 18, 10

# The 16 colours of a terminal on a light ground.
BASIC = [
    "#24292f", "#b3261e", "#1a7f37", "#8a5a00", "#0550ae", "#8250df", "#0e7490", "#6e7781", "#57606a", "#cf222e", "#2da44e", "#9a6700", "#0969da", "#a475f9", "#1b7c83", "#8c959f",
]
INK, GROUND = "#24292f", "#ffffff"

# How the picture of the grammar shows a scope, by how this begins.
SCOPES = [
    ("comment", "#6e7781"), ("keyword.control.jump", "#8250df"), ("keyword", "#b3261e"), ("entity.name", "#8a5a00"), ("variable", "#0550ae"), ("support", "#1a7f37"),
    ("string", "#0e7490"), ("constant", "#0e7490"), ("invalid", "#ffffff"),
]


class Style(NamedTuple):
    """How a character is shown: the colours of ink and ground, and whether it is bold, underlined or reversed."""

    ink: str = INK
    ground: str = GROUND
    bold: bool = False
    underlined: bool = False
    reversed: bool = False


def colour(number: int) -> str:
    """One of the 256 colours of a terminal."""
    if number < 16:
        return BASIC[number]
    if number < 232:
        parts = [(number - 16) // each % 6 for each in (36, 6, 1)]
        return "#" + "".join(f"{55 + 40 * part if part else 0:02x}" for part in parts)
    return "#" + f"{8 + 10 * (number - 232):02x}" * 3


def restyled(style: Style, codes: List[int]) -> Style:
    """A style after the codes of an escape sequence."""
    at = 0
    while at < len(codes):
        code = codes[at]
        if code == 0:
            style = Style()
        elif code in (38, 48):
            is_plain = codes[at + 1] == 5
            told = colour(codes[at + 2]) if is_plain else "#" + "".join(f"{part:02x}" for part in codes[at + 2:at + 5])
            style = style._replace(**{"ink" if code == 38 else "ground": told})
            at += 2 if is_plain else 4
        elif code in (1, 22):
            style = style._replace(bold=code == 1)
        elif code in (4, 24):
            style = style._replace(underlined=code == 4)
        elif code in (7, 27):
            style = style._replace(reversed=code == 7)
        elif 30 <= code <= 37 or 90 <= code <= 97:
            style = style._replace(ink=BASIC[code - 30 if code < 40 else code - 82])
        elif 40 <= code <= 47 or 100 <= code <= 107:
            style = style._replace(ground=BASIC[code - 40 if code < 50 else code - 92])
        elif code in (39, 49):
            style = style._replace(**{"ink" if code == 39 else "ground": INK if code == 39 else GROUND})
        at += 1
    return style


def cells(screen: str) -> List[List[Tuple[str, Style]]]:
    """The characters of a screen with their styles, line by line."""
    lines, style = [], Style()
    for line in screen.split("\n"):
        found = []
        for codes, character in re.findall(r"\x1b\[([\d;:]*)m|(.)", line):
            if character:
                found.append((character, style))
            else:
                style = restyled(style, [int(code) for code in re.split("[;:]", codes) if code] or [0])
        lines.append(found)
    return lines


def drawn(lines: List[List[Tuple[str, Style]]], says: str) -> str:
    """The lines as SVG."""
    width, height = MARGIN * 2 + CELL * WIDTH, MARGIN * 2 + LINE * len(lines)
    parts = [
        f'<svg xmlns="http://www.w3.org/2000/svg" viewBox="0 0 {width:g} {height:g}" width="{width:g}" height="{height:g}" font-family="monospace" font-size="14" role="img" aria-label="{html.escape(says)}">',
        f'<rect width="100%" height="100%" fill="{GROUND}" stroke="#d0d7de"/>',
    ]
    for number, line in enumerate(lines):
        at = 0
        while at < len(line):
            end = next((each for each in range(at, len(line)) if line[each][1] != line[at][1]), len(line))
            parts += run("".join(character for character, _ in line[at:end]), line[at][1], at, number)
            at = end
    return "\n".join([*parts, "</svg>", ""])


def run(text: str, style: Style, column: int, line: int) -> List[str]:
    """A row of characters of one style."""
    ink, ground = (style.ground, style.ink) if style.reversed else (style.ink, style.ground)
    x, y, wide = MARGIN + CELL * column, MARGIN + LINE * line, CELL * len(text)
    parts = [f'<rect x="{x:g}" y="{y:g}" width="{wide:g}" height="{LINE}" fill="{ground}"/>'] if ground != GROUND else []
    if text.strip():
        more = (' font-weight="bold"' if style.bold else "") + (' text-decoration="underline"' if style.underlined else "")
        parts.append(f'<text x="{x:g}" y="{y + 13.5:g}" fill="{ink}" textLength="{wide:g}" lengthAdjust="spacingAndGlyphs" xml:space="preserve"{more}>{html.escape(text)}</text>')
    return parts


class Terminal:
    """A terminal of tmux in which a command runs."""

    def __init__(self, folder: str, words: List[str]) -> None:
        self._head = ["tmux", "-S", f"{folder}/tmux", "-f", "/dev/null"]
        self._folder = folder
        self._do("new-session", "-d", "-x", str(WIDTH), "-y", str(HEIGHT), "env", "TERM=screen-256color", f"HOME={folder}", *words)

    def _do(self, *words: str) -> str:
        return subprocess.run([*self._head, *words], cwd=self._folder, capture_output=True, text=True, check=True).stdout

    def type(self, *keys: str) -> None:
        """Types keys."""
        for key in keys:
            self._do("send-keys", key)

    def screen(self, shows: str, again: Tuple[str, ...] = ()) -> str:
        """The screen with its escape sequences, as soon as this is on it and it is at rest; until then, some keys are typed again and again."""
        before = ""
        for turn in range(1, 200):
            time.sleep(0.3)
            if turn % 30 == 0:
                self.type(*again)
            screen = self._do("capture-pane", "-p", "-e")
            if shows in re.sub("\x1b\\[[\\d;]*m", "", screen) and screen == before:
                return screen.rstrip("\n")
            before = screen
        raise TimeoutError(f"{shows!r} isn't on the screen:\n{before}")

    def close(self) -> None:
        """Ends the terminal."""
        self._do("kill-server")


def picture(name: str, words: List[str], typed: List[Tuple[str, List[str]]], shows: str, says: str, files: Dict[str, str]) -> None:
    """Draws what an editor shows: after each text that it shows, keys are typed."""
    with in_folder() as folder:
        command = command_in(folder)
        for file, text in files.items():
            pathlib.Path(folder, file).write_text(text.replace("COMMAND", command).replace("ROOT", str(ROOT)), encoding="utf-8")
        terminal = Terminal(folder, words)
        try:
            for shown, keys in typed:
                terminal.screen(shown)
                terminal.type(*keys)
            screen = terminal.screen(shows, tuple(typed[-1][1]))
        finally:
            terminal.close()
    (ROOT / "docs" / f"editors-{name}.svg").write_text(drawn(cells(screen), says), encoding="utf-8")


def of_grammar(name: str, job: str, says: str) -> None:
    """Draws what the grammar tells apart in a job of the examples."""
    text = (ROOT / "examples" / f"{job}.job").read_text(encoding="ascii")
    styles = [Style()] * len(text)
    for start, end, scope in Grammar().tokens("source.kdf9-job", text):
        ink = next(ink for begins, ink in SCOPES if scope.startswith(begins))
        styles[start:end] = [Style(ink, BASIC[1] if scope.startswith("invalid") else GROUND, scope.startswith("keyword"))] * (end - start)
    lines: List[List[Tuple[str, Style]]] = [[]]
    for character, style in zip(text.rstrip("\n"), styles):
        if character == "\n":
            lines.append([])
        else:
            lines[-1].append((character, style))
    (ROOT / "docs" / f"editors-{name}.svg").write_text(drawn(lines, says), encoding="utf-8")


def main() -> Optional[int]:
    """Draws all pictures."""
    job = (ROOT / "examples" / "walks-over-a-table.job").read_text(encoding="ascii")
    faulty = job.replace("J1C1NZ", "J2C1NZ")
    vimrc = 'set nocompatible rtp^=ROOT/editors/vim\nlet g:kdf9 = "COMMAND"\nfiletype plugin on\nsyntax on\nset background=light nobackup noswapfile number ruler\n'
    setup = vimrc + "lua vim.diagnostic.config({virtual_text = false})\nnnoremap K :lua vim.lsp.buf.hover()<CR>\nnnoremap gl :lua vim.diagnostic.open_float()<CR>\n"
    picture(
        "nvim", ["nvim", "-u", "vimrc", "-i", "NONE", "table.job"], [("ENDJOB", ["10G", "4|", "K"])], "MkMq", "Neovim shows what the order M0M1Q is and where it stands in the store",
        {"vimrc": setup, "table.job": job},
    )
    picture(
        "nvim-fault", ["nvim", "-u", "vimrc", "-i", "NONE", "table.job"], [("ENDJOB", ["10G", "14|", "g", "l"])], "hint: ", "Neovim shows a fault with its hint", {"vimrc": setup, "table.job": faulty},
    )
    picture(
        "vim", ["vim", "-Nu", "vimrc", "-i", "NONE", "table.job"], [("ENDJOB", [":silent make | copen 6 | cc | redraw!", "Enter"])], "Quickfix", "Vim has gone to the fault after :make",
        {"vimrc": vimrc, "table.job": faulty},
    )
    picture(
        "emacs", ["emacs", "-nw", "-Q", "-l", "init.el", "table.job"], [("ENDJOB", ["M-x"]), ("M-x", ["kdf9-show", "Enter"])], "ReferenceMissing", "Emacs has gone to the fault after compile",
        {
            "init.el": '(load "ROOT/editors/emacs/kdf9.el")\n(setq kdf9-command "COMMAND" compilation-read-command nil inhibit-startup-screen t make-backup-files nil frame-background-mode (quote light))\n(frame-set-background-mode (selected-frame))\n(menu-bar-mode -1)\n'
            '(defun kdf9-show () (interactive) (let ((b (compile compile-command))) (while (process-live-p (get-buffer-process b)) (accept-process-output nil 0.1)) (next-error)))\n', "table.job": faulty,
        },
    )
    of_grammar("textmate", "walks-over-a-table", "What the grammar tells apart in a job")
    return None


if __name__ == "__main__":
    sys.exit(main())
