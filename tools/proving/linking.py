"""What each word of a term means: a walk through its text that knows which words are bound where, and of which type they are."""
import re
from typing import Dict, List, NamedTuple, Optional, Tuple

from proving.code import closed
from proving.terms import Group, Item, Token, binder, grouped, split, tokens
from proving.types import KIND, LIST, NUMBER, TRUTH, Type, matched, substituted
from proving.world import Env, World

Scope = Dict[str, Type]

# Signs that make a statement, a truth value or a number of what stands beside them.
STATEMENTS, TRUTHS, SUMS = {"≡", "≢", "<", "≤", "→", "×", "⊎", "↔", "≤ℤ", "<ℤ"}, {"==", "&&", "||"}, {"+", "-", "*", "/", "%", "^"}
MOMENTS = {"now", "old", "new", "entry"}
CONSTRUCTORS = {"Some", "None", "true", "false", "[]", "∷", "Ok", "Err", "zero", "suc", "pos", "negsuc", "tt", "refl"}
LOCAL = ""

# Words that each contract has without binding them.
OF_CALLS = ("result", "self")


class Link(NamedTuple):
    """A word of a text: where it stands, and the key of what it means; or none, if it is bound in the text itself."""

    at: int
    end: int
    key: str


class Missing(NamedTuple):
    """A word of which nobody knows what it means."""

    at: int
    word: str
    why: str


class Walk:
    """A walk through one text."""

    def __init__(self, world: World, env: Env, text: str):
        self.world, self.env, self.text = world, env, text
        self.links: List[Link] = []
        self.missing: List[Missing] = []
        # The traits of whose members a clause speaks by their names alone.
        self.traits: List[str] = []

    # ---- words

    def link(self, word: Token, key: str, skip: int = 0) -> None:
        """Notes what a word means."""
        self.links.append(Link(word.at + skip, word.at + len(word.text), key))

    def lacks(self, word: Token, why: str) -> None:
        """Notes that a word means nothing that is known."""
        self.missing.append(Missing(word.at, word.text, why))

    def global_name(self, word: Token) -> Optional[str]:
        """The key of a word that isn't bound in the text."""
        key = self.env.get(word.text)
        if key and not key.startswith("module "):
            return key
        if word.text in CONSTRUCTORS and word.text in self.world.library:
            return f"std.Prelude.{word.text}"
        return f"notation.{word.text}" if word.text in self.world.notation else None

    def is_constructor(self, word: Token) -> bool:
        """Whether a word of a pattern means something already, and so isn't bound there."""
        key = self.env.get(word.text)
        return word.text in CONSTRUCTORS or bool(key and not key.startswith("module ") and self.world.named[key].kind == "form")

    # ---- terms

    def term(self, items: List[Item], scope: Scope, expected: Type = None) -> Type:
        """Walks through a term, and returns its type, if that is known."""
        scope, spine, signs, found = dict(scope), [], [], []
        at = 0

        def flush() -> None:
            if spine:
                found.append(self.spine(list(spine), scope, expected if not signs else None))
                spine.clear()

        while at < len(items):
            item = items[at]
            count = binder(item)
            if isinstance(item, Token) and item.text == "λ":
                flush()
                self.link(item, "notation.λ")
                found.append(self.function(items[at + 1:], scope, expected))
                break
            if count is not None:
                flush()
                self.bind(item, scope)
            elif isinstance(item, Token) and item.text == "let":
                flush()
                found.append(self.let(items[at:], scope))
                break
            elif isinstance(item, Token) and item.text == "do":
                flush()
                found.append(self.steps(items[at:], scope))
                break
            elif isinstance(item, Token) and item.text == "if":
                flush()
                found.append(self.choice(items[at:], scope, expected))
                break
            elif isinstance(item, Token) and (item.kind == "sign" or self.is_infix(item)):
                flush()
                signs.append(item.text)
                self.sign(item)
            else:
                spine.append(item)
            at += 1
        flush()
        return self.result(signs, found)

    def is_infix(self, word: Token) -> bool:
        """Whether a name stands between what it is of."""
        key = self.env.get(word.text, "")
        return word.kind == "name" and key in self.world.texts and self.world.texts[key].name.startswith("◌")

    def sign(self, word: Token) -> None:
        """Notes what a sign means."""
        key = self.global_name(word)
        if key:
            self.link(word, key)
        else:
            self.lacks(word, "no import brings it")

    @staticmethod
    def result(signs: List[str], found: List[Type]) -> Type:
        """The type of what stands beside signs."""
        known = [each for each in found if each]
        if not signs:
            return found[0] if found else None
        if STATEMENTS & set(signs):
            return KIND
        if TRUTHS & set(signs):
            return TRUTH
        if "∷" in signs:
            last = next((each for each in reversed(known) if each[0] == "con" and each[1] == LIST and each[2][0] and each[2][0][0] != "var"), None)
            return last or (("con", LIST, (found[0],)) if found and found[0] else None)
        if "++" in signs:
            return known[0] if known else None
        return NUMBER if SUMS & set(signs) else known[-1] if known else None

    def bind(self, group: Group, scope: Scope) -> None:
        """Brings the names of a group with their type."""
        count = binder(group) or 0
        self.term(group.inner[count + 1:], scope)
        kind = self.world.type_in(group.inner[count + 1:], self.env, scope)
        for name in group.inner[:count]:
            self.link(name, LOCAL)
            scope[name.text] = ("var", name.text) if kind == KIND else kind

    def function(self, items: List[Item], scope: Scope, expected: Type) -> Type:
        """Walks through a function without a name, from behind its sign on."""
        scope, kinds = dict(scope), []
        at = 0
        while at < len(items) and not (isinstance(items[at], Token) and items[at].text == "."):
            item = items[at]
            wanted = expected[1] if expected and expected[0] == "fn" else None
            if binder(item):
                self.bind(item, scope)
                kinds.append(scope[item.inner[0].text])
            elif isinstance(item, Token):
                self.link(item, LOCAL)
                scope[item.text] = wanted
                kinds.append(wanted)
            expected = expected[2] if expected and expected[0] == "fn" else None
            at += 1
        result = self.term(items[at + 1:], scope, expected)
        for kind in reversed(kinds):
            result = ("fn", kind, result)
        return result

    def let(self, items: List[Item], scope: Scope) -> Type:
        """Walks through what has a name for a while."""
        self.link(items[0], "notation.let")
        depth, end = 0, len(items)
        for at, item in enumerate(items):
            if isinstance(item, Token) and item.text in ("let", "in"):
                depth += 1 if item.text == "let" else -1
                if not depth:
                    end = at
                    break
        equals = next(at for at, item in enumerate(items) if isinstance(item, Token) and item.text == "=")
        name = items[1]
        kind = None
        if equals > 2:
            self.term(items[3:equals], scope)
            kind = self.world.type_in(items[3:equals], self.env, scope)
        value = self.term(items[equals + 1:end], scope, kind)
        self.link(name, LOCAL)
        self.link(items[end], "notation.let")
        return self.term(items[end + 1:], {**scope, name.text: kind or value})

    def steps(self, items: List[Item], scope: Scope) -> Type:
        """Walks through steps, one to a line, each of which may give what it finds a name."""
        scope = dict(scope)
        self.link(items[0], "notation.do")
        starts = [at for at, item in enumerate(items) if at and not self.text[self.text.rfind("\n", 0, item.at) + 1:item.at].strip()]
        indent = min((items[at].at - self.text.rfind("\n", 0, items[at].at) for at in starts), default=0)
        starts = [at for at in starts if items[at].at - self.text.rfind("\n", 0, items[at].at) == indent]
        kind: Type = None
        for start, end in zip(starts, [*starts[1:], len(items)]):
            name, arrow = items[start], items[start + 1] if start + 1 < end else None
            if isinstance(arrow, Token) and arrow.text == "←":
                kind = self.term(items[start + 2:end], scope)
                self.link(arrow, "notation.do")
                self.link(name, LOCAL)
                scope[name.text] = kind[2][0] if kind and kind[0] == "con" and kind[2] else None
            else:
                kind = self.term(items[start:end], scope)
        return kind

    def choice(self, items: List[Item], scope: Scope, expected: Type) -> Type:
        """Walks through a choice."""
        marks: List[int] = []
        depth = 0
        for at, item in enumerate(items):
            if isinstance(item, Token) and item.text == "if":
                depth += 1
            if isinstance(item, Token) and item.text in ("if", "then", "else") and depth == 1:
                marks.append(at)
            if isinstance(item, Token) and item.text == "else":
                depth -= 1
                if not depth:
                    break
        for at in marks:
            self.sign(items[at])
        parts = [items[one + 1:other] for one, other in zip(marks, [*marks[1:], len(items)])]
        kinds = [self.term(part, scope, expected if number else TRUTH) for number, part in enumerate(parts)]
        return next((kind for kind in kinds[1:] if kind), None)

    def spine(self, items: List[Item], scope: Scope, expected: Type) -> Type:
        """Walks through a word with what it is applied to."""
        atoms = self.atoms(items)
        head, fields = atoms[0]
        if isinstance(head, Token) and head.text == "record":
            return self.record(atoms[1:], head, scope, expected)
        kind = self.atom(head, fields, scope, expected if len(atoms) == 1 else None)
        return self.applied(kind, atoms[1:], scope, expected)

    def applied(self, kind: Type, args: List[Tuple[Item, List[Token]]], scope: Scope, expected: Type) -> Type:
        """Walks through what a word is applied to: first what isn't a function without a name, since its type then says that of such a function's variables."""
        wanted: List[Type] = []
        explicit = []
        result = self.unlent(kind)
        for head, fields in args:
            if isinstance(head, Group) and head.open == "{":
                self.named_argument(head, scope)
                continue
            explicit.append((head, fields))
            result = self.world.unfolded(result) if result and result[0] == "con" else result
            is_function = bool(result and result[0] == "fn")
            wanted.append(result[1] if is_function else None)
            result = result[2] if is_function else None
        values: Dict[str, Type] = {}
        if expected:
            matched(result, expected, values)
        late = [self.is_function(head) for head, _ in explicit]
        for turn in (False, True):
            for (head, fields), each, is_late in zip(explicit, wanted, late):
                if is_late == turn:
                    given = self.atom(head, fields, scope, substituted(each, values))
                    matched(each, self.unlent(given), values)
        return substituted(result, values)

    @staticmethod
    def unlent(kind: Type) -> Type:
        """The type of what is lent, where it stands for itself."""
        return kind[1] if kind and kind[0] == "lent" else kind

    def named_argument(self, group: Group, scope: Scope) -> None:
        """Walks through an argument that is given by its name."""
        parts = split(group.inner, "=")
        if len(parts) == 2:
            for name in parts[0]:
                self.link(name, LOCAL)
        self.term(parts[-1], scope)

    @staticmethod
    def is_function(item: Item) -> bool:
        """Whether this is a function without a name."""
        return isinstance(item, Group) and bool(item.inner) and isinstance(item.inner[0], Token) and item.inner[0].text == "λ"

    @staticmethod
    def atoms(items: List[Item]) -> List[Tuple[Item, List[Token]]]:
        """The items, each with the fields that are taken of it."""
        found: List[Tuple[Item, List[Token]]] = []
        for item in items:
            if isinstance(item, Token) and item.kind == "field" and found:
                found[-1][1].append(item)
            elif not (isinstance(item, Token) and item.kind == "mark"):
                found.append((item, []))
        return found

    def atom(self, item: Item, fields: List[Token], scope: Scope, expected: Type = None) -> Type:
        """Walks through a word or what stands in brackets, with the fields that are taken of it."""
        if isinstance(item, Group):
            if item.open == "{":
                self.term(item.inner, scope)
                return None
            parts = split(item.inner, ",")
            kinds = [self.term(part, scope, expected if len(parts) == 1 else None) for part in parts]
            kind: Type = kinds[0] if len(kinds) == 1 else ("prod", tuple(kinds))
        elif item.kind == "qualified":
            kind = self.qualified(item)
        elif item.kind in ("number", "string"):
            kind = NUMBER if item.kind == "number" else None
        else:
            kind, fields = self.word(item, fields, scope, expected)
        for field in fields:
            kind = self.field(kind, field)
        return kind

    def word(self, word: Token, fields: List[Token], scope: Scope, expected: Type) -> Tuple[Type, List[Token]]:
        """Walks through a word, and returns its type and the fields that aren't part of its name."""
        if word.text in scope:
            self.link(word, f"notation.{word.text}" if word.text in OF_CALLS else LOCAL)
            return self.bound(word, fields, scope)
        key = self.env.get(word.text, "")
        if fields and (key.startswith("module ") or key in self.world.types):
            inner = self.world.member(key[7:], fields[0].text[1:]) if key.startswith("module ") else f"{key}{fields[0].text}"
            if inner and inner in self.world.named:
                self.links.append(Link(word.at, fields[0].at + len(fields[0].text), inner))
                return self.world.type_of(inner), fields[1:]
        ghost = next((each for each in self.traits if f"{each}.{word.text}" in self.world.named), None)
        if ghost:
            self.link(word, f"{ghost}.{word.text}")
            return self.ghost_type(ghost, word.text, "Self"), fields
        named = self.global_name(word)
        if not named:
            self.lacks(word, "no import brings it")
            return None, fields
        self.link(word, named)
        kind = self.world.type_of(named)
        return kind, fields

    def qualified(self, word: Token) -> Type:
        """Notes what a member of a trait is that is named with its type and its trait."""
        match = re.fullmatch(r"⟦<(\w+).* as (\w+)>⟧\.(\w+)", word.text)
        key = match and self.env.get(match[2])
        if not match or not key or f"{key}.{match[3]}" not in self.world.named:
            self.lacks(word, "no trait has it")
            return None
        self.link(word, f"{key}.{match[3]}")
        return self.ghost_type(key, match[3], match[1])

    def bound(self, word: Token, fields: List[Token], scope: Scope) -> Tuple[Type, List[Token]]:
        """The type of a word that is bound in the text, at the moment that its field names, if it is lent."""
        kind = scope[word.text]
        if fields and fields[0].text[1:] in MOMENTS and (kind is None or kind[0] in ("lent", "var")):
            self.link(fields[0], f"notation.{fields[0].text[1:]}", 1)
            return self.unlent(kind), fields[1:]
        if kind and kind[0] == "trait" and fields:
            ghost = next((key for key in kind[1] if f"{key}{fields[0].text}" in self.world.named), None)
            name = f"{ghost}{fields[0].text}" if ghost else f"notation.{fields[0].text[1:]}"
            if ghost or fields[0].text[1:] in self.world.notation:
                self.link(fields[0], name, 1)
                return self.ghost_type(ghost, fields[0].text[1:], word.text) if ghost else None, fields[1:]
        return kind, fields

    def ghost_type(self, trait: str, name: str, of: str) -> Type:
        """The type of what a trait has for contracts alone."""
        declared = self.world.types[trait]
        file = self.world.files[self.world.named[trait].module]
        match = re.search(rf"ghost {name}:\s*(?=\{{)", declared.text)
        if not match:
            return None
        text = declared.text[match.end() + 1:closed(declared.text, match.end()) - 1]
        return self.world.type_in(grouped(tokens(text)).inner, self.world.env_of_code(file, None), {"Self": ("var", of)})

    def field(self, kind: Type, word: Token) -> Type:
        """Notes what a field is, and returns its type."""
        name = word.text[1:]
        kind = self.unlent(kind)
        if name.isdigit():
            kind = self.world.unfolded(kind)
            if kind and kind[0] == "prod" and int(name) < len(kind[1]):
                self.link(word, "notation.×", 1)
                return kind[1][int(name)]
            found = self.world.field(kind, name)
            self.link(word, found[0] if found else "notation.×", 1)
            return found[1] if found else None
        found = self.world.field(kind, name)
        if found:
            self.link(word, found[0], 1)
            return found[1]
        if name in self.world.notation:
            self.link(word, f"notation.{name}", 1)
            return kind if name in MOMENTS else NUMBER
        self.lacks(word, f"no field of {kind[1]}" if kind and kind[0] == "con" else "a field of what has no known type")
        return None

    def record(self, args: List[Tuple[Item, List[Token]]], head: Token, scope: Scope, expected: Type) -> Type:
        """Walks through a record that is written out, or one with other fields."""
        self.link(head, "notation.record")
        kind: Type = None
        if len(args) > 1:
            kind = self.atom(args[0][0], args[0][1], scope)
        group = args[-1][0]
        parts = [part for part in split(group.inner, ";") if part]
        labels = [part[0].text for part in parts]
        kind = kind or self.of_labels(labels, expected)
        for part in parts:
            found = self.world.field(kind, part[0].text) or self.kit_field(part[0].text)
            if found:
                self.link(part[0], found[0])
            else:
                self.lacks(part[0], "no record has these fields")
            self.term(part[2:], scope, found[1] if found else None)
        return kind

    def kit_field(self, name: str) -> Optional[Tuple[str, Type]]:
        """A field of a record of the kit."""
        return (f"{self.world.library[name]['in']}.{name}", None) if name in self.world.library else None

    def of_labels(self, labels: List[str], expected: Type) -> Type:
        """The type of a record with these fields."""
        expected = self.world.unfolded(self.unlent(expected))
        if expected and expected[0] == "con" and all(f"{expected[1]}.{label}" in self.world.named for label in labels):
            return expected
        near = [set(self.world.named[key].of for key in self.world.parts.get(label, []) if self.world.named[key].kind == "field") for label in labels]
        both = sorted(set.intersection(*near)) if near else []
        seen = [key for key in both if key in self.env.values()] or both
        exact = [key for key in seen if len(labels) == self.count(key)] or seen
        return ("con", exact[0], tuple(("var", name) for name, _ in self.world.parameters(exact[0])) if exact[0] in self.world.texts else ()) if exact else None

    def count(self, key: str) -> int:
        """How many fields something has."""
        return len(self.world.texts[key].parts()) if key in self.world.texts else len(self.world.types[key].parts)
