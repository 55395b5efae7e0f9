"""What each word of a definition means: of its type, and of each equation of it, whose left side binds words."""
from typing import Dict, List

from proving.antt import DEFINITION, PART
from proving.linking import LOCAL, Link, Scope, Walk
from proving.terms import Group, Item, Token, binder, grouped, split, tokens
from proving.types import LIST, Type, matched, substituted


class Equations(Walk):
    """A walk through the text of a definition."""

    # ---- patterns

    def pattern(self, item: Item, kind: Type, scope: Scope) -> None:
        """Walks through what stands for an argument in front of the equals sign."""
        kind = self.world.unfolded(kind)
        if isinstance(item, Group):
            self.patterns(item.inner, kind, scope)
        elif item.kind == "name" and item.text != "_":
            if self.is_constructor(item):
                self.link(item, self.global_name(item) or f"notation.{item.text}")
            else:
                self.link(item, LOCAL)
                scope[item.text] = kind

    def patterns(self, items: List[Item], kind: Type, scope: Scope) -> None:
        """Walks through a pattern of several words."""
        pair = split(items, ",")
        if len(pair) > 1:
            kinds = kind[1] if kind and kind[0] == "prod" and len(kind[1]) == len(pair) else [None] * len(pair)
            for part, inner in zip(pair, kinds):
                self.patterns(part, inner, scope)
            return
        parts = split(items, "∷")
        if len(parts) > 1:
            for item in items:
                if isinstance(item, Token) and item.text == "∷":
                    self.sign(item)
            inner = kind[2][0] if kind and kind[0] == "con" and kind[1] == LIST and kind[2] else None
            for number, part in enumerate(parts):
                self.patterns(part, kind if number == len(parts) - 1 else inner, scope)
            return
        atoms = self.atoms(items)
        head, fields = atoms[0]
        if len(atoms) == 1 and not fields:
            self.pattern(head, kind, scope)
            return
        if isinstance(head, Group):
            for each, _ in atoms:
                self.pattern(each, None, scope)
            return
        key = self.env.get(head.text, "")
        if fields and key.startswith("module "):
            named = self.world.member(key[7:], fields[0].text[1:])
            if named:
                self.links.append(Link(head.at, fields[0].at + len(fields[0].text), named))
        else:
            named = self.global_name(head)
            if named:
                self.link(head, named)
        if not named:
            self.lacks(head, "no import brings it")
        of = self.world.type_of(named) if named else None
        wanted: List[Type] = []
        for _ in atoms[1:]:
            wanted.append(of[1] if of and of[0] == "fn" else None)
            of = of[2] if of and of[0] == "fn" else None
        values: Dict[str, Type] = {}
        matched(of, kind, values)
        for (each, more), inner in zip(atoms[1:], wanted):
            self.patterns([each, *more], substituted(inner, values), scope)

    # ---- texts

    def definition(self, key: str) -> None:
        """Walks through a definition."""
        text = self.world.texts[key].text
        if self.world.texts[key].kind != "word":
            self.declared(key, text)
            return
        head = "\n".join(self.world.head_lines(text))
        colon = head.index(" : ") + 2
        self.name_in_front(text, key)
        self.term(grouped(tokens(head, colon + 1)).inner, {})
        lines, at = text[len(head):].split("\n"), len(head)
        starts = []
        for line in lines:
            if line and not line.startswith((" ", "\t", "--", "infix", "}", ")", "]")):
                starts.append(at)
            at += len(line) + 1
        for start, end in zip(starts, [*starts[1:], len(text)]):
            self.clause(text, start, end, key)

    def name_in_front(self, text: str, key: str) -> None:
        """Notes the name that a definition gives, which means itself."""
        name = self.world.texts[key].name
        match = DEFINITION.match(text)
        at = match.start(2) if match else 0
        self.links.append(Link(at, at + len(name), key))

    def clause(self, text: str, start: int, end: int, key: str) -> None:
        """Walks through a clause of a definition."""
        words = grouped(tokens(text, start, end)).inner
        equals = next(at for at, item in enumerate(words) if isinstance(item, Token) and item.text == "=" and item.kind == "mark")
        kind = self.world.type_of(key)
        scope: Scope = {}
        name = self.world.texts[key].name.strip("◌")
        atoms = self.atoms(words[:equals])
        for head, fields in atoms:
            if isinstance(head, Token) and head.text == name:
                self.link(head, key)
                continue
            if isinstance(head, Group) and head.open == "{":
                self.named_argument(head, scope) if len(head.inner) > 1 else scope.update({head.inner[0].text: ("var", head.inner[0].text)})
                for each in head.inner[:1]:
                    self.link(each, LOCAL)
                continue
            self.patterns([head, *fields], kind[1] if kind and kind[0] == "fn" else None, scope)
            kind = kind[2] if kind and kind[0] == "fn" else None
        self.term(words[equals + 1:], scope, kind)

    def declared(self, key: str, text: str) -> None:
        """Walks through a record or a data type."""
        self.name_in_front(text, key)
        scope: Scope = {}
        parts = self.world.texts[key].parts()
        first = parts[0][1] if parts else len(text)
        head = text.rfind("\n", 0, first)
        for item in grouped(tokens(text, self.links[-1].end, head if head > 0 else None)).inner:
            if binder(item):
                self.bind(item, scope)
            elif isinstance(item, Group):
                self.term(item.inner, scope)
            elif item.text == "Type":
                self.link(item, "notation.Type")
        is_record = self.world.texts[key].kind == "record"
        matches = list(PART.finditer(text))
        for match, behind in zip(matches, [*matches[1:], None]):
            for part in [match[1], *match[2].split()]:
                at = text.index(part, match.start(1))
                self.links.append(Link(at, at + len(part), f"{key}.{part}"))
            words = grouped(tokens(text, match.end(), behind.start() if behind else None)).inner
            self.term(words, scope)
            if is_record:
                for part in [match[1], *match[2].split()]:
                    scope[part] = self.world.part_type(key, part)
