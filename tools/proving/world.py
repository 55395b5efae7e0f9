"""All that has a name in the sources: definitions, types of the code, constants, traits, functions and the words of the library, with their types."""
import pathlib
from typing import Dict, Iterator, List, NamedTuple, Optional, Tuple

from proving import antt, code
from proving.terms import Group, Item, Token, binder, grouped, split, tokens
from proving.types import HOLDERS, KIND, LIST, NUMBER, NUMBERS, SIGNED, TRUTH, Type, substituted

# The words that a file brings, each with its key.
Env = Dict[str, str]


class Named(NamedTuple):
    """Something with a name: the key by which it is cited, its kind, its own name, what it is part of, and its module."""

    key: str
    kind: str
    name: str
    of: str
    module: str


class World:
    """Everything that a word of a clause may mean."""

    def __init__(self, root: pathlib.Path, library: Dict[str, dict], notation: Dict[str, str]):
        self.root, self.library, self.notation = root, library, notation
        self.modules, self.files = antt.modules(root), code.files(root)
        self.named: Dict[str, Named] = {}
        self.parts: Dict[str, List[str]] = {}
        self.texts: Dict[str, antt.Definition] = {}
        self.types: Dict[str, code.Declared] = {}
        self.by_crate: Dict[Tuple[str, str], str] = {}
        self.functions: Dict[str, Tuple[code.File, code.Function]] = {}
        self._surfaces: Dict[str, Optional[set]] = {}
        self._envs: Dict[str, Env] = {}
        self._kinds: Dict[str, Type] = {}
        self._parameters: Dict[str, List[Tuple[str, List[Item]]]] = {}
        self._part_types: Dict[Tuple[str, str], Type] = {}
        self._models: Dict[str, Env] = {}
        self._add_all()

    # ---- what there is

    def _add(self, key: str, kind: str, name: str, of: str, module: str) -> None:
        """Adds a name, and if it is part of something, to the parts of this name."""
        self.named.setdefault(key, Named(key, kind, name, of, module))
        if of:
            self.parts.setdefault(name, []).append(key)

    def _add_all(self) -> None:
        """Adds all names."""
        for word in self.notation:
            self._add(f"notation.{word}", "notation", word, "", "notation")
        for word, row in self.library.items():
            self._add(f"{row['in']}.{word}", "library", word, "", row["in"])
        for name, module in self.modules.items():
            for each in module.definitions:
                key = f"{name}.{each.name}"
                self._add(key, {"record": "record", "data": "data", "word": "definition"}[each.kind], each.name, "", name)
                self.texts[key] = each
                for part, _ in each.parts():
                    self._add(f"{key}.{part}", "field" if each.kind == "record" else "form", part, key, name)
        for name, file in self.files.items():
            self._add_code(name, file)

    def _add_code(self, name: str, file: code.File) -> None:
        """Adds what a file of the code declares."""
        for each in file.declared:
            key = f"{name}.{each.name}"
            self._add(key, each.kind, each.name, "", name)
            self.types[key] = each
            if each.kind != "const":
                self.by_crate.setdefault((file.crate, each.name), key)
            for part, _ in each.parts:
                self._add(f"{key}.{part}", {"struct": "field", "enum": "form", "trait": "ghost"}[each.kind], part, key, name)
        for function in file.functions:
            key = f"{name}.{function.of}::{function.name}" if function.of else f"{name}.{function.name}"
            self.functions.setdefault(key, (file, function))
            self._add(key, "function", function.name, "", name)

    def is_public(self, file: code.File, function: code.Function) -> bool:
        """Whether other crates can call a function, or whether it is one of a trait that they can name."""
        if file.crate not in self._surfaces:
            self._surfaces[file.crate] = code.surface(self.root, file.crate)
        given = self._surfaces[file.crate]
        if given is None or not function.is_public:
            return False
        if not function.of:
            return (file.module, "*") in given or (file.module, function.name) in given
        # A method may stand in another file than its type.
        owner = self.code_named(file, function.of, dict(file.uses).get(function.of, f"crate::{function.of}"))
        module = self.named[owner].module.partition(".")[2] if owner else file.module
        return (module, "*") in given or (module, function.of) in given

    # ---- what words mean in a file

    def member(self, module: str, word: str) -> Optional[str]:
        """What a module calls so."""
        key = f"{module}.{word}"
        if key in self.named:
            return key
        if module in self.modules:
            for each in self.modules[module].definitions:
                if each.kind == "data" and f"{module}.{each.name}.{word}" in self.named:
                    return f"{module}.{each.name}.{word}"
            # A module may give on what it brings.
            for brings in self.modules[module].imports:
                for own, other in brings.words:
                    if other == word and brings.module != module:
                        return self.member(brings.module, own)
        if module in self.named and word in (module.rpartition(".")[2], "Inside"):
            return module
        if module.startswith(("std.", "lib.")):
            return f"{self.library[word]['in']}.{word}" if word in self.library else None
        return None

    def env_of(self, brings: List[antt.Import]) -> Env:
        """The words that these lines bring, each with its key; a word that stands for a module has `module ` in front of it."""
        found: Env = {}
        for each in brings:
            for own, other in each.words:
                key = self.member(each.module, own)
                if key:
                    found[other.strip("◌") if other.count("◌") == 2 else other] = key
            if each.alias:
                found[each.alias] = f"module {each.module}"
            elif not each.words:
                found[each.module.rpartition(".")[2]] = f"module {each.module}"
        if "if◌then◌else◌" in found:
            found.update({word: found["if◌then◌else◌"] for word in ("if", "then", "else")})
        return found

    def env(self, name: str) -> Env:
        """The words of a module of definitions."""
        if name not in self._envs:
            module = self.modules[name]
            found = self.env_of(module.imports)
            for each in module.definitions:
                found[each.name.strip("◌")] = f"{name}.{each.name}"
                if each.kind == "data":
                    found.update({part: f"{name}.{each.name}.{part}" for part, _ in each.parts()})
            self._envs[name] = found
        return self._envs[name]

    def env_of_code(self, file: code.File, function: Optional[code.Function]) -> Env:
        """The words of a clause in a file of the code."""
        found = {each.name: f"{file.crate}.{file.module}.{each.name}" for each in file.declared}
        for name, path in file.uses:
            key = self.code_named(file, name, path)
            if key:
                found[name] = key
        found.update(self.env_of(file.imports))
        found.update(self.env_of(function.inside if function else []))
        return found

    def code_named(self, file: code.File, name: str, path: str) -> Optional[str]:
        """The type of the code that a path means."""
        crate = path.split("::")[0]
        crate = file.crate if crate in ("crate", "self", "super") else crate
        own = path.rpartition("::")[2]
        if (crate, own) in self.by_crate:
            return self.by_crate[crate, own]
        constant = next((key for key, each in self.types.items() if each.kind == "const" and each.name == own and key.startswith(f"{crate}.")), None)
        return constant

    # ---- types

    def type_in(self, items: List[Item], env: Env, bound: Dict[str, Type]) -> Type:
        """The type that some words write."""
        arrows = split(items, "→")
        if len(arrows) > 1:
            bound = dict(bound)
            found: List[Type] = []
            for part in arrows[:-1]:
                groups = [each for each in part if binder(each)]
                if groups and len(groups) == len(part):
                    for group in groups:
                        count = binder(group) or 0
                        kind = self.type_in(group.inner[count + 1:], env, bound)
                        for name in group.inner[:count]:
                            bound[name.text] = ("var", name.text) if kind == KIND else kind
                            if group.open == "(":
                                found.append(kind)
                elif part:
                    found.append(self.type_in(part, env, bound))
            result = self.type_in(arrows[-1], env, bound)
            for each in reversed(found):
                result = ("fn", each, result)
            return result
        parts = split(items, "×")
        if len(parts) > 1:
            return ("prod", tuple(self.type_in(part, env, bound) for part in parts if part))
        items = [item for item in items if not (isinstance(item, Group) and item.open == "{")]
        if not items:
            return None
        if len(items) == 1 and isinstance(items[0], Group):
            return self.type_in(items[0].inner, env, bound)
        head = items[0]
        if not isinstance(head, Token):
            return None
        if head.text == "Type":
            return KIND
        if head.text in bound:
            return bound[head.text] if bound[head.text] and bound[head.text][0] == "var" else None
        key = env.get(head.text)
        if key is None:
            return ("var", head.text) if len(head.text) <= 2 and head.text[0].isupper() else None
        if key.startswith("module ") and len(items) > 1 and isinstance(items[1], Token) and items[1].kind == "field":
            key = self.member(key[7:], items[1].text[1:]) or key
            items = [head, *items[2:]]
        return ("con", key, tuple(self.type_in([each], env, bound) for each in items[1:]))

    def type_of(self, key: str) -> Type:
        """The type of what has this key."""
        if key not in self._kinds:
            self._kinds[key] = None
            self._kinds[key] = self._type_of(key)
        return self._kinds[key]

    def _type_of(self, key: str) -> Type:
        """The type of what has this key, which nobody has asked for yet."""
        named = self.named[key]
        if named.kind == "library":
            text = self.library[named.name].get("type", "")
            return self.type_in(grouped(tokens(text)).inner, {word.strip("◌"): f"{row['in']}.{word}" for word, row in self.library.items()}, {}) if text else None
        if named.kind == "definition":
            return self.type_in(self.signature(key), self.env(named.module), {})
        if named.kind == "form" and named.of in self.texts:
            return self.part_type(named.of, named.name)
        if named.kind == "form":
            file = self.files[named.module]
            declared = self.types[named.of]
            result: Type = ("con", named.of, ())
            for _, kind in reversed(dict(declared.parts)[named.name]):
                result = ("fn", self.seen(kind, file, declared.generics), result)
            return result
        if named.kind == "const":
            kind = self.types[key].text.partition(":")[2].partition("=")[0]
            return self.seen(kind, self.files[named.module], [])
        return None

    def signature(self, key: str) -> List[Item]:
        """The words of the type of a definition."""
        text = self.texts[key].text
        head = "\n".join(self.head_lines(text))
        return grouped(tokens(head, head.index(" : ") + 3)).inner

    @staticmethod
    def head_lines(text: str) -> Iterator[str]:
        """The lines of the type of a definition."""
        for at, line in enumerate(text.split("\n")):
            if at and line and not line.startswith((" ", "\t")):
                return
            yield line

    def parameters(self, key: str) -> List[Tuple[str, List[Item]]]:
        """The parameters of a record or a data type, each with the words of its type."""
        if key not in self._parameters:
            text = self.texts[key].text
            head = text[:text.index(" where")] if " where" in text else text
            found: List[Tuple[str, List[Item]]] = []
            for item in grouped(tokens(head)).inner:
                count = binder(item)
                if count:
                    found += [(name.text, item.inner[count + 1:]) for name in item.inner[:count]]
            self._parameters[key] = found
        return self._parameters[key]

    def part_items(self, key: str, part: str) -> List[Item]:
        """The words of the type of a field or a form."""
        text = self.texts[key].text
        for match in antt.PART.finditer(text):
            if part in [match[1], *match[2].split()]:
                following = antt.PART.search(text, match.end())
                return grouped(tokens(text, match.end(), following.start() if following else None)).inner
        return []

    def part_type(self, key: str, part: str) -> Type:
        """The type of a field, or of a form, with variables for what the record or the data type is of."""
        if (key, part) not in self._part_types:
            bound: Dict[str, Type] = {name: ("var", name) for name, _ in self.parameters(key)}
            self._part_types[key, part] = self.type_in(self.part_items(key, part), self.env(self.named[key].module), bound)
        return self._part_types[key, part]

    def unfolded(self, kind: Type) -> Type:
        """A type whose name only stands for another, as that other."""
        for _ in range(9):
            if not kind or kind[0] != "con" or kind[1] not in self.texts or self.texts[kind[1]].kind != "word":
                return kind
            text = self.texts[kind[1]].text
            lines = list(self.head_lines(text))
            body = text[len("\n".join(lines)):].strip()
            before, equals, behind = body.partition(" =")
            if not equals:
                return kind
            names = [word.text for word in tokens(before)[1:]]
            bound: Dict[str, Type] = {name: ("var", name) for name in names}
            result = self.type_in(grouped(tokens(behind)).inner, self.env(self.named[kind[1]].module), bound)
            if not result:
                return kind
            kind = substituted(result, dict(zip(names, kind[2])))
        return kind

    def field(self, kind: Type, name: str) -> Optional[Tuple[str, Type]]:
        """The key and the type of a field of a value of this type."""
        kind = self.unfolded(kind)
        if not kind or kind[0] != "con":
            return None
        key = f"{kind[1]}.{name}"
        if kind[1].startswith("holder."):
            holder = kind[1].partition(".")[2]
            if name == HOLDERS.get(holder):
                return f"std.Code.{name}", kind[2][0]
            return (f"std.Code.{name}", NUMBER) if name in self.library else None
        if key not in self.named:
            return None
        if kind[1] in self.texts:
            names = [each for each, _ in self.parameters(kind[1])]
            return key, substituted(self.part_type(kind[1], name), dict(zip(names, kind[2])))
        declared = self.types[kind[1]]
        types = dict(of for _, parts in declared.parts for of in parts)
        seen = self.seen(types.get(name, ""), self.files[self.named[kind[1]].module], declared.generics)
        return key, substituted(seen, dict(zip(declared.generics, kind[2])))

    def seen(self, text: str, file: code.File, generics: List[str]) -> Type:
        """How contracts see a value of a type of the code."""
        text = text.strip()
        if text.startswith("&"):
            inner = text.lstrip("&").strip()
            inner = inner[inner.index(" ") + 1:] if inner.startswith("'") else inner
            return ("lent", self.seen(inner[4:] if inner.startswith("mut ") else inner, file, generics))
        if text in NUMBERS or text == "char":
            return NUMBER
        if text in SIGNED:
            return ("con", "std.Prelude.ℤ", ())
        if text == "bool":
            return TRUTH
        if text in generics:
            return ("var", text)
        if text.startswith("["):
            return ("con", LIST, (self.seen(code.cut(text[1:-1].partition(";")[0])[0], file, generics),))
        if text.startswith("("):
            parts = code.cut(text[1:-1])
            return ("prod", tuple(self.seen(part, file, generics) for part in parts)) if parts else None
        head, _, inner = text.partition("<")
        args = [self.seen(each, file, generics) for each in code.cut(inner.rstrip()[:-1])] if inner else []
        if head in ("Option", "Result"):
            return ("con", f"std.Prelude.{head}", tuple(args))
        if head in HOLDERS and args:
            inner_kind = args[-1] if head == "CircularBuffer" else args[0]
            return ("con", f"holder.{head}", (inner_kind if HOLDERS[head] == "value" else ("con", LIST, (inner_kind,)),))
        own = f"{file.crate}.{file.module}.{head}"
        key = own if own in self.types else self.code_named(file, head, dict(file.uses).get(head, f"crate::{head}"))
        return self.model(key, args) if key else None

    def model(self, key: str, args: List[Type]) -> Type:
        """How contracts see a value of a type with this key: as what it is another name of, as another value, if it says so, or else by its fields."""
        named = self.named[key]
        file = self.files[named.module]
        if named.kind == "type":
            return self.seen(self.types[key].text.partition("=")[2].rstrip(";"), file, [])
        if named.name in file.models:
            inside = next((each.inside for each in file.functions if each.of == named.name), [])
            env = {**self.env_of_code(file, None), **self.env_of(inside), **self.model_env(file)}
            return self.type_in(grouped(tokens(file.models[named.name])).inner, env, {})
        return ("con", key, tuple(args))

    def model_env(self, file: code.File) -> Env:
        """The words that the file brings anywhere, also within what says how contracts see a type."""
        if file.path not in self._models:
            self._models[file.path] = self.env_of(antt.imports((self.root / file.path).read_text(encoding="utf-8")))
        return self._models[file.path]
