"""The definitions of a module of `specs/`: what each is, as the file has it, with the comment in front of it."""
import pathlib
import re
from typing import Dict, List, NamedTuple, Tuple

USE = re.compile(r"^ *(?:ghost |pub )?use ([\w.]+?)(?:\.\{([^}]*)\})?(?: as ([\w«»]+))?;?[ \t]*$", re.MULTILINE)
DEFINITION = re.compile(r"(?:abbrev |unfoldable |opaque )?(?:pub )?(record |data )?(◌?[\w'◌|>=+&<-]+◌?)(?= )")
BEGINS = re.compile(r"(?:abbrev|unfoldable|opaque|pub (?:record|data)|record|data)\b|(?:pub )?[\w'-]+ : ")
HEADING = re.compile(r"-- -+ (.*)")
PART = re.compile(r"^  (?:pub )?([\w']+)((?: [\w']+)*) : ", re.MULTILINE)


class Import(NamedTuple):
    """A line that brings words: the module with the words, if they are listed, and the name that the module has here, if it has one."""

    module: str
    words: List[Tuple[str, str]]
    alias: str


class Definition(NamedTuple):
    """A definition: its name, whether it is a record, a data type or a word, what its comment says, the definition in front of which that stands, its text, and its
    first line.
    """

    name: str
    kind: str
    says: str
    said_of: str
    text: str
    line: int

    def parts(self) -> List[Tuple[str, int]]:
        """The fields of a record, or the forms of a data type, each with its place in the text."""
        if self.kind == "word":
            return []
        found = []
        for match in PART.finditer(self.text):
            at = match.start(1)
            for name in [match[1], *match[2].split()]:
                found.append((name, self.text.index(name, at)))
        return found


class Module(NamedTuple):
    """A module: its crate, its name, its file, what its first comment says, what it brings, and its definitions."""

    crate: str
    name: str
    path: str
    says: str
    imports: List[Import]
    definitions: List[Definition]


def imports(text: str) -> List[Import]:
    """What the lines at the front of a file bring."""
    found = []
    for module, words, alias in USE.findall(text):
        if not module.startswith(("Rattle.", "lib.")):
            continue
        pairs = [tuple((each.strip().split(" as ") * 2)[:2]) for each in words.split(",") if each.strip()]
        found.append(Import(short(module), [(a, b if len(each) else a) for each in pairs for a, b in [each]], alias))
    return found


def short(module: str) -> str:
    """A module without the words that the checker puts into each name."""
    parts = [part for part in module.split(".") if part not in ("Rattle", "specs", "declared", "TheVariants", "TheConstants", "TheInside")]
    return ".".join(parts)


def comment(lines: List[str], at: int) -> str:
    """What the comment says that ends above a line."""
    first = at
    while first and lines[first - 1].startswith("--") and not HEADING.match(lines[first - 1]):
        first -= 1
    return " ".join(line.lstrip("- ") for line in lines[first:at])


def definitions(text: str) -> List[Definition]:
    """The definitions of a file. One without a comment of its own comes after another, whose comment speaks of it too."""
    lines, found, said, said_of = text.split("\n"), [], "", ""
    starts = [at for at, line in enumerate(lines) if BEGINS.match(line)] + [len(lines)]
    for at, behind in zip(starts, starts[1:]):
        above = at - lines[at - 1].startswith("infix") if at else 0
        heads = [HEADING.match(line) for line in lines[max(0, above - 2):above]]
        heading = next((head[1] for head in heads if head), "")
        own = comment(lines, above) or heading
        end = at + 1
        while end < behind and (not lines[end].strip() or lines[end].startswith((" ", "\t")) or not lines[end].startswith(("--", "infix", "use", "syntax"))):
            end += 1
        match = DEFINITION.match(lines[at])
        if not match:
            raise ValueError(f"no definition: {lines[at]}")
        if own:
            said, said_of = own, match[2]
        found.append(Definition(match[2], (match[1] or "word").strip(), said, said_of, "\n".join(lines[at:end]).rstrip(), at + 1))
    return found


def module(root: pathlib.Path, path: pathlib.Path) -> Module:
    """The module that a file is."""
    text = path.read_text(encoding="utf-8")
    lines = text.split("\n")
    head = next((at for at, line in enumerate(lines) if not line.startswith("--")), len(lines))
    crate, _, *inner = path.relative_to(root / "crates").with_suffix("").parts
    return Module(crate, ".".join(inner), str(path.relative_to(root)), comment(lines, head), imports(text), definitions(text))


def modules(root: pathlib.Path) -> Dict[str, Module]:
    """All modules of definitions, by crate and name."""
    found = {}
    for path in sorted((root / "crates").glob("*/specs/**/*.antt")):
        if path.stem != "Lib":
            each = module(root, path)
            found[f"{each.crate}.{each.name}"] = each
    return found
