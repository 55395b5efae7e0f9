"""What the page has of the documents: their paragraphs, lists and tables as HTML, the sections that modules state, and what is said of the theorem."""
import html
import pathlib
import re
from typing import Callable, Dict, Iterator, List, NamedTuple, Tuple

FENCE = re.compile(r"```(\S*)(?: .*)?")
ITEM = re.compile(r"(?:[-*]|\d+\.) +(.*)")
INLINE = re.compile(r"`([^`]+)`(?= of `(\w+)`)?|\*\*((?:[^*`]|`[^`]*`)+)\*\*|\\([*<|_\\])")
HEADING = re.compile(r"(#+) (.*)")

# A picture of a document, which this page doesn't show: the text says what is in it.
PICTURE = re.compile(r"!\[[^\]]*\]\([^)]*\)")

# Makes a link of a word of the code in a document, if it means an entry of the page; or leaves it as it is. A crate may be named with the word.
Linked = Callable[[str, str], str]


def plain(word: str, _of: str = "") -> str:
    """A word of the code that is no link."""
    return f"<code>{html.escape(word)}</code>"


def inline(text: str, linked: Linked = plain) -> str:
    """A line of a document as HTML."""
    found, at = [], 0
    for mark in INLINE.finditer(text):
        found.append(html.escape(text[at:mark.start()], quote=False))
        if mark[1] is not None:
            found.append(linked(mark[1], mark[2] or ""))
        elif mark[3] is not None:
            found.append(f"<strong>{inline(mark[3], linked)}</strong>")
        else:
            found.append(html.escape(mark[4], quote=False))
        at = mark.end()
    return "".join([*found, html.escape(text[at:], quote=False)])


def cells(line: str) -> List[str]:
    """The cells of a row of a table."""
    return [cell.strip() for cell in re.split(r"(?<!\\)\|", line.strip()[1:-1])]


def table(lines: List[str], linked: Linked) -> str:
    """A table as HTML."""
    head, *rows = [cells(line) for number, line in enumerate(lines) if number != 1]
    heads = "".join(f'<th scope="col">{inline(cell, linked)}</th>' for cell in head)
    body = "".join("<tr>" + "".join(f"<td>{inline(cell, linked)}</td>" for cell in row) + "</tr>" for row in rows)
    return f'<div class="wide" tabindex="0" role="region" aria-label="Table"><table><thead><tr>{heads}</tr></thead><tbody>{body}</tbody></table></div>'


def prose(text: str, linked: Linked = plain, level: int = 4) -> str:
    """Some paragraphs, lists, tables and blocks of a document as HTML."""
    found: List[str] = []
    lines = [line for line in text.strip("\n").split("\n") if not PICTURE.fullmatch(line.strip())]
    while lines:
        line = lines.pop(0)
        fence, heading, item = FENCE.fullmatch(line), HEADING.fullmatch(line), ITEM.match(line)
        if fence:
            end = lines.index("```") if "```" in lines else len(lines)
            found.append("<pre>" + html.escape("\n".join(lines[:end]), quote=False) + "</pre>")
            del lines[:end + 1]
        elif heading:
            found.append(f"<h{level}>{inline(heading[2], linked)}</h{level}>")
        elif line.startswith("|"):
            rows = [line]
            while lines and lines[0].startswith("|"):
                rows.append(lines.pop(0))
            found.append(table(rows, linked))
        elif item:
            kind, items = ("ol" if line[0].isdigit() else "ul"), [item[1]]
            while lines and (ITEM.match(lines[0]) or lines[0].startswith("  ")):
                more = ITEM.match(lines[0])
                if more:
                    items.append(more[1])
                else:
                    items[-1] += " " + lines[0].strip()
                lines.pop(0)
            found.append(f"<{kind}>" + "".join(f"<li>{inline(each, linked)}</li>" for each in items) + f"</{kind}>")
        elif line.strip() and not line.startswith("<!--"):
            part = [line]
            while lines and lines[0].strip() and not lines[0].startswith(("|", "```", "#", "- ")):
                part.append(lines.pop(0))
            found.append(f"<p>{inline(' '.join(part), linked)}</p>")
    return "".join(found)


def section(text: str, name: str) -> str:
    """The text below the heading of this name, up to the next heading of its level or above."""
    heading = next((match for match in re.finditer(r"^(#+) (.*)$", text, re.MULTILINE) if match[2] == name), None)
    if not heading:
        raise ValueError(f"there is no heading {name}")
    behind = re.compile(rf"^#{{1,{len(heading[1])}}} ", re.MULTILINE).search(text, heading.end())
    return text[heading.end():behind.start() if behind else None].strip("\n")


def own_part(text: str, name: str) -> str:
    """The text below a heading, up to the next heading of any level."""
    return re.split(r"^#+ ", section(text, name), flags=re.MULTILINE)[0].strip("\n")


class Clauses(NamedTuple):
    """Clauses of a contract in plain words."""

    says: str
    names: List[str]


NAMED = re.compile(r" ?\(((?:`\w+`(?:, )?)+)\)")
ITEMS = re.compile(r"\n(?=- )")


def clauses_in_words(proofs: str) -> List[Clauses]:
    """What docs/PROOFS.md says of each clause of the top call: each paragraph and each item of a list that names clauses in brackets, and the list of one that ends with a colon."""
    found: List[Clauses] = []
    parts = own_part(proofs, "The top call").split("\n\n")[1:]
    for number, part in enumerate(parts):
        for item in ITEMS.split(part):
            names = [name for named in NAMED.findall(item) for name in re.findall(r"\w+", named)]
            if names:
                says = NAMED.sub("", item.removeprefix("- ")).strip()
                found.append(Clauses(f"{says}\n\n{parts[number + 1]}" if says.endswith(":") else says, names))
    return found


def paragraph(text: str, begins: str) -> str:
    """The paragraph, or the item of a list, that begins so."""
    for part in re.split(r"\n\n|\n(?=- )", text):
        said = re.sub(r"^- ", "", part)
        if said.startswith(begins):
            return " ".join(said.split())
    raise ValueError(f"no paragraph begins with {begins}")


def first_sentence(text: str) -> str:
    """The first sentence of a paragraph."""
    return text.partition(". ")[0].rstrip(".:") + "."


def laws(proofs: str) -> str:
    """The laws that say in a sentence each what the theorem is worth, and what their words mean."""
    return own_part(proofs, "Three laws")


def headline(readme: str) -> Tuple[str, str]:
    """The theorem in a sentence, and the paragraph after it."""
    parts = re.split(r"\n\n", readme)
    at = next(number for number, part in enumerate(parts) if part.startswith("**Whatever the schedule"))
    return parts[at].strip("*"), " ".join(parts[at + 1].split())


def rules(root: pathlib.Path, table_of: Dict[str, str], linked: Linked) -> Iterator[Tuple[str, str, str]]:
    """The sections that modules state, each with its file, its heading and its text as HTML."""
    for rule in dict.fromkeys(table_of.values()):
        path, _, name = rule.partition(": ")
        yield path, name, prose(own_part((root / path).read_text(encoding="utf-8"), name), linked)


# What docs/PROOFS.md says of what isn't proved: the heading of each part, and what it is called on the page.
UNPROVED = (
    ("What is only tested", "tested", "What is only tested"), ("What is neither", "neither", "What is neither proved nor tested"), ("What is trusted", "trusted", "What is trusted"),
)


def unproved(proofs: str, linked: Linked) -> Iterator[Tuple[str, str, str]]:
    """What isn't proved, as HTML: the title and the kind of each part."""
    for name, kind, title in UNPROVED:
        yield title, kind, prose(section(proofs, name), linked)
