"""The words of a clause or a definition, and how brackets put them together."""
import re
from typing import Any, List, NamedTuple, Optional

TOKEN = re.compile(
    r"""(?P<space>\s+)
    |(?P<comment>--[^\n]*|//[^\n]*)
    |(?P<string>"(?:[^"\\]|\\.)*")
    |(?P<number>0[xob][0-9a-fA-F_]+|[0-9][0-9_]*)
    |(?P<field>\.(?:[0-9]+|[A-Za-z_«][\w'»]*))
    |(?P<name>\[\]|[A-Za-z_«ℕℤ⊥][\w'»₀-₉ℕℤ]*(?:-[A-Za-z_][\w']*)*)
    |(?P<qualified>⟦<[^⟧]*>⟧\.\w+)
    |(?P<open>[({\[])
    |(?P<close>[)}\]])
    |(?P<mark>[,;:=.|](?![=>|]))
    |(?P<sign>λ|[^\w\s(){}\[\],;"λ]+ℤ?)""",
    re.VERBOSE,
)

# What a sign, or a name that is one, parts a term into.
KEYWORDS = {"if", "then", "else", "let", "in", "record", "elim", "as", "where", "Type", "data", "refl"}
PAIRS = {"(": ")", "{": "}", "[": "]"}


class Token(NamedTuple):
    """A word of a text: its kind, itself, and where it stands."""

    kind: str
    text: str
    at: int


class Group(NamedTuple):
    """What stands between brackets, or a whole text where there are none."""

    open: str
    inner: list
    at: int

    @property
    def kind(self) -> str:
        """What a group is among the words: never one of them."""
        return "group"


# A word, or what stands between brackets.
Item = Any


def tokens(text: str, start: int = 0, end: Optional[int] = None) -> List[Token]:
    """The words of a text from one place to another, without the space between them and without comments."""
    found, at, end = [], start, len(text) if end is None else end
    while at < end:
        match = TOKEN.match(text, at, end)
        if not match:
            raise ValueError(f"no word begins at {text[at:at + 40]!r}")
        kind = match.lastgroup or ""
        # A point that no word stands directly in front of begins no field.
        if kind == "field" and not (found and found[-1].at + len(found[-1].text) == at and found[-1].kind in ("name", "close", "field")):
            found.append(Token("mark", ".", at))
            at += 1
            continue
        if kind not in ("space", "comment"):
            found.append(Token(kind, match[0], at))
        at = match.end()
    return found


def grouped(words: List[Token]) -> Group:
    """The words, put together by their brackets."""
    stack = [Group("", [], words[0].at if words else 0)]
    for word in words:
        if word.kind == "open":
            stack.append(Group(word.text, [], word.at))
        elif word.kind == "close":
            if len(stack) == 1 or PAIRS[stack[-1].open] != word.text:
                raise ValueError(f"a bracket {word.text} closes none")
            done = stack.pop()
            stack[-1].inner.append(done)
        else:
            stack[-1].inner.append(word)
    if len(stack) != 1:
        raise ValueError(f"the bracket {stack[-1].open} isn't closed")
    return stack[0]


def split(items: List[Item], marks: str) -> List[List[Item]]:
    """The items, cut at these words, which are left out."""
    parts: List[List[Item]] = [[]]
    for item in items:
        if isinstance(item, Token) and item.text in marks.split() and item.kind in ("mark", "sign", "name"):
            parts.append([])
        else:
            parts[-1].append(item)
    return parts


def binder(item: Item) -> Optional[int]:
    """How many names stand in front of the colon, if this group brings names with their type."""
    if not isinstance(item, Group) or item.open not in "({" or not item.open:
        return None
    for at, each in enumerate(item.inner):
        if isinstance(each, Token) and each.text == ":" and at:
            return at
        if not isinstance(each, Token) or each.kind != "name":
            return None
    return None
