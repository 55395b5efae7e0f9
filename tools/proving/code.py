"""What a file of the code declares: its types, constants and traits, and its functions with their contracts."""
import pathlib
import re
from typing import Dict, Iterator, List, NamedTuple, Optional, Tuple

from proving.antt import Import, imports

ITEM = re.compile(
    r"^(?P<indent> *)(?P<public>pub(?P<within>\([^)]*\))? +)?(?:const +|unsafe +)?"
    r"(?:(?P<fn>(?:extern \"C\" +)?fn) +(?P<name>\w+)|(?P<type>struct|enum|trait) +(?P<of>\w+)|const +(?P<constant>[A-Z_0-9]+):|type +(?P<alias>\w+))",
    re.MULTILINE,
)
CONSTANT = re.compile(r"^ *(?:pub(?:\([^)]*\))? +)?const +([A-Z_0-9]+):", re.MULTILINE)
IMPL = re.compile(r"^impl\b([^{]*)\{", re.MULTILINE)
TRAIT = re.compile(r"^(?:pub(?:\([^)]*\))? )?trait (\w+)[^{]*\{", re.MULTILINE)
CLAUSE = re.compile(r"\s*(requires|ensures)\*?\s*([a-z_]\w*)?\s*(?=\{)")
GHOST = re.compile(r"\s*ghost\s+(\w+):\s*(?=\{)")
SPACE = re.compile(r"(?:\s+|//[^\n]*)*")
SKIPPED = re.compile(r'"(?:[^"\\]|\\[\s\S])*"|\'(?:[^\'\\]|\\.[^\']*)\'|//[^\n]*')
SKIPPED_OR_BRACKET = re.compile(SKIPPED.pattern + r"|[(){}\[\]]")
VALUE = re.compile(r"ghost Value = (?=\{)")
REEXPORT = re.compile(r"^pub use (?:crate::)?([\w:]+?)(?:::\{([^}]*)\})?;", re.MULTILINE)
MODULE = re.compile(r"^(pub )?mod (\w+);", re.MULTILINE)
PRIVATE = re.compile(r"^ {4}(?:pub(?:\([^)]*\))? )?(\w+): ", re.MULTILINE)


class Clause(NamedTuple):
    """A clause of a contract: what it is for, its name, its text, the comment in front of it, and its line."""

    kind: str
    name: str
    text: str
    says: str
    line: int


class Function(NamedTuple):
    """A function: the type or trait that it is of, its head, contract and body, and whether it is a law or an example, which does nothing."""

    of: str
    name: str
    head: str
    clauses: List[Clause]
    body: str
    says: str
    line: int
    is_public: bool
    inside: List[Import]
    impl: str


class Declared(NamedTuple):
    """A type, a trait or a constant: its name, what it is, its text, what is said of it, its line, and its fields or variants with their types."""

    name: str
    kind: str
    text: str
    says: str
    line: int
    parts: List[Tuple[str, List[Tuple[str, str]]]]
    generics: List[str]
    is_public: bool


class File(NamedTuple):
    """A file of the code: its crate, its module, what is said of it, what its clauses bring, what it declares, its functions, and what contracts see of its types."""

    crate: str
    module: str
    path: str
    says: str
    imports: List[Import]
    declared: List[Declared]
    functions: List[Function]
    models: Dict[str, str]
    uses: List[Tuple[str, str]]


def closed(text: str, start: int) -> int:
    """The place behind the bracket that closes the one here."""
    depth = 0
    for mark in SKIPPED_OR_BRACKET.finditer(text, start):
        if len(mark[0]) == 1:
            depth += 1 if mark[0] in "({[" else -1
            if not depth:
                return mark.end()
    raise ValueError(f"a bracket isn't closed: {text[start:start + 60]!r}")


def until(text: str, at: int, mark: str) -> int:
    """The place of the next such mark that stands in no bracket and no string."""
    while text[at] != mark:
        skipped = SKIPPED.match(text, at)
        at = skipped.end() if skipped else closed(text, at) if text[at] in "([{" else at + 1
    return at


def said_above(text: str, at: int) -> str:
    """What the comment for readers says that ends above this place; lines of attributes may stand between."""
    lines = text[:at].split("\n")[:-1]
    while lines and re.match(r" *#\[.*\]$", lines[-1]):
        lines.pop()
    said: List[str] = []
    while lines and re.match(r" *///? ?", lines[-1]) and not lines[-1].lstrip().startswith("//!"):
        said.insert(0, re.sub(r"^ *///? ?", "", lines.pop()))
    return "\n".join(said).strip()


def line_of(text: str, at: int) -> int:
    """The number of the line here."""
    return text.count("\n", 0, at) + 1


def dedented(text: str, indent: int) -> str:
    """A text without the space at the beginning of its lines that its first line has."""
    return re.sub(rf"^ {{0,{indent}}}", "", text, flags=re.MULTILINE)


def head_end(text: str, at: int) -> int:
    """The place where the head of a function ends: at its first clause, its body, or what ends it."""
    while at < len(text):
        if text[at] in "([":
            at = closed(text, at)
        elif text[at] in "{;" or re.match(r"\s+(?:requires|ensures)\b|\s+//|\s+ghost \w+:|\s+where\b", text[at:at + 200]):
            return at
        else:
            at += 1
    return at


def contract(text: str, at: int) -> Tuple[List[Clause], int]:
    """The clauses from this place on, and the place behind them."""
    found: List[Clause] = []
    while True:
        space = SPACE.match(text, at)
        start = space.end() if space else at
        said = " ".join(re.findall(r"// ?([^\n]*)", text[at:start])).strip()
        match = CLAUSE.match(text, start)
        ghost = GHOST.match(text, start)
        if ghost:
            end = closed(text, ghost.end())
            found.append(Clause("ghost", ghost[1], text[ghost.end() + 1:end - 1].strip(), said, line_of(text, ghost.end())))
            at = end
            continue
        if not match:
            return found, start
        end = closed(text, match.end())
        inner = text[match.end() + 1:end - 1]
        line = line_of(text, match.end())
        column = match.start(1) - text.rfind("\n", 0, match.start(1)) - 1
        found.append(Clause(match[1], match[2] or "", dedented(inner, column + 4).strip(), said, line))
        at = end


def function(text: str, match: "re.Match[str]", of: str, within: bool) -> Function:
    """The function that begins here."""
    end = head_end(text, match.end())
    head = dedented(text[match.start():end], len(match["indent"])).strip()
    clauses, at = contract(text, end)
    body = ""
    if text[at:at + 1] == "{":
        body = dedented(text[at:closed(text, at)], len(match["indent"]))
    public = bool(match["public"]) and not match["within"] or within
    return Function(of, match["name"], head, clauses, body, said_above(text, match.start()), line_of(text, match.start("fn")), public, [], "")


def fields(text: str) -> List[Tuple[str, str]]:
    """The fields of a struct, or of a variant, with their types; those that have only places have numbers."""
    text = re.sub(r"//[^\n]*|#\[[^\]]*\]|\bpub(?:\([^)]*\))? ", "", text)
    found = []
    for number, each in enumerate(cut(text)):
        name, colon, kind = each.partition(":")
        found.append((name.strip(), kind.strip()) if colon and re.fullmatch(r"\s*\w+\s*", name) else (str(number), each.strip()))
    return found


def cut(text: str) -> List[str]:
    """A text, cut at the commas that stand in no bracket."""
    parts, depth = [""], 0
    for at, char in enumerate(text):
        depth += (char in "([{<") - (char in ")]}" or char == ">" and text[at - 1] != "-")
        if char == "," and not depth:
            parts.append("")
        else:
            parts[-1] += char
    return [part for part in parts if part.strip()]


def declared(text: str, match: "re.Match[str]") -> Declared:
    """The type, trait or constant that begins here."""
    name = match["of"] or match["constant"] or match["alias"]
    kind = match["type"] or ("const" if match["constant"] else "type")
    at = match.end()
    end = until(text, at, ";") if kind in ("const", "type") else at
    if kind not in ("const", "type"):
        while text[at] not in "{;(":
            at += 1
        end = closed(text, at) if text[at] in "{(" else at
    generics = re.findall(r"\b([A-Z]\w*)\b(?=[:,>])", text[match.end():at].partition(">")[0] + ">") if text[match.end():match.end() + 1] == "<" else []
    inner, parts = text[at + 1:end - 1], []
    if kind == "struct":
        parts = [(field, [(field, of)]) for field, of in fields(re.sub(r"\bghost \w+: *\{[^{}]*\}(?: by \{[^}]*\})?,?", "", inner))]
    elif kind == "enum":
        for each in cut(re.sub(r"//[^\n]*|#\[[^\]]*\]", "", inner)):
            variant = re.match(r"\s*(\w+)\s*(?:[({](.*)[)}])?", each, re.DOTALL)
            if variant:
                parts.append((variant[1], fields(variant[2] or "")))
    elif kind == "trait":
        parts = [(ghost, []) for ghost in re.findall(r"^ {4}ghost (\w+):", inner, re.MULTILINE)]
        generics = re.findall(r"\w+", text[match.end():at].partition(":")[2])
    whole = text[match.start():end + (text[end:end + 1] == ";")]
    return Declared(name, kind, whole, said_above(text, match.start()), line_of(text, match.start()), parts, generics, bool(match["public"]) and not match["within"])


def owners(text: str) -> List[Tuple[int, int, str, bool]]:
    """The stretches of a file that are an `impl` or a trait: from where to where, of which type, and whether what is in it is public with its type. A type that has
    another name in the file is called by that.
    """
    found, others = [], {of: name for name, of in re.findall(r"^pub type (\w+) = (.*);$", text, re.MULTILINE)}
    for match in IMPL.finditer(text):
        head = re.sub(r"<[^<>]*(?:<[^<>]*>[^<>]*)*>", "", match[1].replace("->", ""))
        of = (head.split(" for ")[-1]).strip().split("::")[-1].split()[0]
        found.append((match.start(), closed(text, match.end() - 1), others.get(match[1].strip(), of), " for " in head))
    for match in TRAIT.finditer(text):
        found.append((match.start(), closed(text, match.end() - 1), match[1], True))
    return found


def read(root: pathlib.Path, path: pathlib.Path) -> File:
    """The file of the code here."""
    text = path.read_text(encoding="utf-8")
    crate, _, *inner = path.relative_to(root / "crates").with_suffix("").parts
    name = ".".join(inner)
    spans = owners(text)
    found: List[Declared] = []
    functions: List[Function] = []
    ended = 0
    for match in ITEM.finditer(text):
        if match.start() < ended:
            continue
        span = next((span for span in spans if span[0] <= match.start() < span[1]), None)
        if match["fn"]:
            each = function(text, match, span[2] if span else "", bool(span and span[3]))
            inside = imports(text[span[0]:span[1]]) if span else []
            functions.append(each._replace(inside=inside, impl=text[span[0]:text.index("{", span[0])] if span else ""))
            ended = match.start() + 1
        elif not match["indent"]:
            found.append(declared(text, match))
    models = {}
    for start, end, of, _ in spans:
        value = VALUE.search(text, start, end)
        if value:
            models[of] = text[value.end() + 1:closed(text, value.end()) - 1].strip()
    said = " ".join(re.findall(r"^//! ?(.*)$", text, re.MULTILINE))
    uses = list(brought(text))
    return File(crate, name, str(path.relative_to(root)), said, imports(text), found, functions, models, uses)


def brought(text: str) -> Iterator[Tuple[str, str]]:
    """The names of the code that the lines `use` bring, each with its path."""
    for path, names in re.findall(r"^(?:pub )?use ([\w:]+?)(?:::\{([^}]*)\})?(?: as \w+)?;", text, re.MULTILINE):
        for name in re.findall(r"\w+(?: as \w+)?", names) if names else [path.split("::")[-1]]:
            own, _, other = name.partition(" as ")
            yield other or own, f"{path}::{own}" if names else path


def files(root: pathlib.Path) -> Dict[str, File]:
    """All files of the code, by crate and module."""
    found = {}
    for path in sorted((root / "crates").glob("*/src/**/*.rt")):
        each = read(root, path)
        found[f"{each.crate}.{each.module}"] = each
    return found


def surface(root: pathlib.Path, crate: str) -> Optional[set]:
    """The names and modules that a crate gives to others."""
    source = root / "crates" / crate / "src"
    given = set()

    def visit(path: pathlib.Path, module: List[str]) -> None:
        text = path.read_text(encoding="utf-8")
        given.add((".".join(module), "*"))
        for within, names in REEXPORT.findall(text):
            for name in re.findall(r"\w+(?: as \w+)?", names) if names else [within.split("::")[-1]]:
                parts = within.split("::") if names else within.split("::")[:-1]
                given.add((".".join([*module, *parts]), name.split(" as ")[0]))
        for public, name in MODULE.findall(text):
            inner = source.joinpath(*module, f"{name}.rt")
            if public and inner.is_file():
                visit(inner, [*module, name])

    root_file = source / "lib.rt"
    if not root_file.is_file():
        return None
    visit(root_file, [])
    return given
