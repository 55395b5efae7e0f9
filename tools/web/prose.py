"""The prose of an exercise as the page draws it: a list of elements, each with its name and what is in it."""
import re
from typing import List, Optional, Union

# The blocks of an exercise that aren't prose, and the headings under which nothing is.
NO_PROSE, OTHER_CHAPTERS = ("job", "rules", "case"), ("Hints",)

FENCE = re.compile(r"(`{3,}|~{3,})\s*(\S*).*")
INLINE = re.compile(r"`([^`]+)`|\*\*([^*]+)\*\*")

# A heading of the second level is one of the fourth in the page, below that of the exercise.
HEADING = "h4"

# A text, or an element: its name, and a list of what is in it.
Node = Union[str, list]


def elements(text: str) -> List[Node]:
    """The elements of some prose in Markdown, without its title."""
    lines, is_told = text.split("\n"), True
    found: List[Optional[list]] = []
    while lines:
        line = lines.pop(0)
        fence = FENCE.fullmatch(line)
        if fence:
            end = next((at for at, each in enumerate(lines) if each.rstrip() == fence[1]), len(lines))
            if is_told and fence[2] not in NO_PROSE:
                found.append(["pre", ["\n".join(lines[:end])]])
            del lines[:end + 1]
        elif line.startswith("## "):
            is_told = line[3:].strip() not in OTHER_CHAPTERS
            if is_told:
                found.append([HEADING, inline(line[3:].strip())])
        elif line.startswith("# ") or not is_told or not line.strip():
            found.append(None)
        else:
            add(found, line)
    return [each for each in found if each]


def add(found: List[Optional[list]], line: str) -> None:
    """Adds a line of prose to the elements: it begins an item of a list or a paragraph, or goes on with one."""
    item = re.match(r"[-*] +(.*)", line)
    if item and found and found[-1] and found[-1][0] == "ul":
        found[-1][1].append(["li", inline(item[1])])
    elif item:
        found.append(["ul", [["li", inline(item[1])]]])
    elif found and found[-1] and found[-1][0] == "p":
        found[-1][1] += [" ", *inline(line.strip())]
    elif found and found[-1] and found[-1][0] == "ul":
        found[-1][1][-1][1] += [" ", *inline(line.strip())]
    else:
        found.append(["p", inline(line.strip())])


def inline(text: str) -> List[Node]:
    """A line as texts and elements."""
    parts: List[Node] = []
    at = 0
    for mark in INLINE.finditer(text):
        parts += [text[at:mark.start()]] if mark.start() > at else []
        parts.append(["code", [mark[1]]] if mark[1] else ["strong", [mark[2]]])
        at = mark.end()
    return [*parts, *([text[at:]] if text[at:] else [])]
