"""What the page has of the sources: an entry for each name, with its text as pieces between which its words are links."""
import re
from typing import Any, Dict, Iterator, List, Optional, Set, Tuple

from proving.code import Declared, File
from proving.equations import Equations
from proving.heads import scope_of, traits_of
from proving.linking import LOCAL, Link, Missing, Walk
from proving.terms import grouped, tokens
from proving.world import World

Entry = Dict[str, Any]

# What stands in front of a word that is bound in its own text.
BOUND = "\ue000"

# The call of which the page is.
TOP = "kdf_top.top_call.run_with"

# The files whose functions do nothing: laws of the definitions, and examples that are computed from them.
LAW, EXAMPLE = re.compile(r"laws(\.|$)"), re.compile(r"(^|\.)(examples|worked)(\.|$)")

# The modules of definitions that are for examples alone.
HELPER = re.compile(r"\.(?:\w*Examples|Worked)$")

WORD_OF_CODE = re.compile(r"//[^\n]*|\"(?:[^\"\\]|\\.)*\"|[A-Za-z_]\w*")
EMPTY = re.compile(r"\{\s*\}")


class Reader:
    """Makes the entries, each once, and those that they cite."""

    def __init__(self, world: World):
        self.world = world
        self.entries: List[Entry] = []
        self.numbers: Dict[str, int] = {}
        self.missing: List[Tuple[str, Missing]] = []
        self.cites: Dict[str, List[str]] = {}
        self.waiting: List[str] = []

    def number(self, key: str) -> int:
        """The number of an entry, which is made later if it isn't yet."""
        if key not in self.numbers:
            self.numbers[key] = len(self.entries)
            self.entries.append({"k": key, "n": self.world.named[key].name, "t": self.world.named[key].kind})
            self.waiting.append(key)
        return self.numbers[key]

    def read_all(self) -> None:
        """Makes the entries of all definitions and public functions, and of what they cite."""
        for key in [TOP, *self.public(), *self.world.texts]:
            self.number(key)
        while self.waiting:
            self.make(self.waiting.pop(0))

    def public(self) -> Iterator[str]:
        """The keys of the functions that other crates can call and that have contracts."""
        for key, (file, function) in self.world.functions.items():
            if function.clauses and self.world.is_public(file, function):
                yield key

    def make(self, key: str) -> None:
        """Makes an entry."""
        named, entry = self.world.named[key], self.entries[self.numbers[key]]
        if named.of:
            entry["p"] = self.number(named.of)
            self.cites[key] = [named.of]
            return
        if key in self.world.texts:
            self.definition(key, entry)
        elif key in self.world.functions:
            self.function(key, entry)
        elif key in self.world.types:
            self.declared(key, entry)
        elif named.kind == "library":
            row = self.world.library[named.name]
            entry.update({"s": row["says"], "m": row["in"]})
            if row.get("type"):
                self.library(key, entry, f"{named.name} : {row['type']}")
        else:
            entry.update({"s": self.world.notation[named.name], "m": "notation"})

    # ---- entries

    def definition(self, key: str, entry: Entry) -> None:
        """An entry of a definition."""
        text, module = self.world.texts[key], self.world.modules[self.world.named[key].module]
        walk = Equations(self.world, self.world.env(self.world.named[key].module), text.text)
        walk.definition(key)
        entry.update({"s": text.says or module.says, "m": self.world.named[key].module, "f": [module.path, text.line], "x": self.pieces(text.text, walk.links)})
        if text.said_of != text.name:
            entry["o"] = text.said_of
        self.note(key, walk)

    def library(self, key: str, entry: Entry, text: str) -> None:
        """The type of a word of the library."""
        env = {word.strip("◌"): f"{row['in']}.{word}" for word, row in self.world.library.items()}
        links = []
        for token in tokens(text):
            if token.kind in ("name", "sign") and (token.text in env or token.text in self.world.notation):
                links.append(Link(token.at, token.at + len(token.text), env.get(token.text) or f"notation.{token.text}"))
        entry["x"] = self.pieces(text, [link for link in links if link.at])
        self.cites[key] = [link.key for link in links]

    def function(self, key: str, entry: Entry) -> None:
        """An entry of a function with its contract."""
        file, function = self.world.functions[key]
        scope, env = scope_of(self.world, file, function), self.world.env_of_code(file, function)
        head = self.code_links(file, function.head, key, function.name)
        head += [Link(*match.span(1), LOCAL) for match in re.finditer(r"(?<![\w:])(\w+)(?=: )", function.head) if match[1] in scope]
        cites = [link.key for link in head]
        clauses = []
        for clause in function.clauses:
            walk = Walk(self.world, env, clause.text)
            walk.traits = traits_of(self.world, file, function)
            walk.term(grouped(tokens(clause.text)).inner, scope)
            row = {"k": clause.kind, "x": self.pieces(clause.text, walk.links), "l": clause.line}
            row.update({name: value for name, value in (("n", clause.name), ("s", clause.says)) if value})
            clauses.append(row)
            self.note(f"{key}: {clause.name}", walk)
            cites += [link.key for link in walk.links if link.key]
        kind = "law" if LAW.match(file.module) else "example" if EXAMPLE.search(file.module) and EMPTY.fullmatch(function.body or "") else "function"
        entry.update({"t": kind, "s": function.says, "m": f"{file.crate}.{file.module}", "f": [file.path, function.line], "h": self.pieces(function.head, head), "c": clauses})
        if not EMPTY.fullmatch(function.body or "{}"):
            entry["b"] = function.body
        if function.of:
            entry["n"] = f"{function.of}::{function.name}"
        self.cites[key] = list(dict.fromkeys(cites))

    def declared(self, key: str, entry: Entry) -> None:
        """An entry of a type, a trait or a constant of the code."""
        declared, file = self.world.types[key], self.world.files[self.world.named[key].module]
        entry.update({"s": declared.says, "m": self.world.named[key].module, "f": [file.path, declared.line]})
        model = file.models.get(declared.name)
        if model:
            env = {**self.world.env_of_code(file, None), **self.world.model_env(file)}
            walk = Walk(self.world, env, model)
            walk.term(grouped(tokens(model)).inner, {name: ("trait", ()) for name in declared.generics})
            entry["v"] = self.pieces(model, walk.links)
            self.note(key, walk)
            return
        text = declared.text if declared.kind != "trait" else ghosts(declared)
        links = self.code_links(file, text, key, declared.name)
        if declared.kind == "trait":
            links += self.clause_links(file, text, key)
        entry["x"] = self.pieces(text, links)
        self.cites[key] = [link.key for link in links if link.key]

    def clause_links(self, file: File, text: str, key: str) -> List[Link]:
        """What the words of what a trait has for contracts alone mean."""
        found = []
        for match in re.finditer(r"ghost (\w+): \{([^}]*)\}", text):
            found.append(Link(match.start(1), match.end(1), f"{key}.{match[1]}"))
            walk = Walk(self.world, {**self.world.env_of_code(file, None), "Self": "notation.Self"}, text)
            above = [self.world.code_named(file, each, f"crate::{each}") for each in self.world.types[key].generics]
            walk.traits = [key, *filter(None, above)]
            walk.term(grouped(tokens(text, match.start(2), match.end(2))).inner, {"Self": ("trait", tuple(walk.traits))})
            self.note(key, walk)
            found += walk.links
        return found

    def note(self, key: str, walk: Walk) -> None:
        """Keeps what a walk has found."""
        self.missing += [(key, each) for each in walk.missing]
        self.cites.setdefault(key, [])
        self.cites[key] += [link.key for link in walk.links if link.key and link.key != key]

    # ---- texts

    def code_links(self, file: File, text: str, key: str, name: str) -> List[Link]:
        """What the names of types mean in a text of the code, and the fields or variants that it declares."""
        own = {each for each, _ in self.world.types[key].parts} if key in self.world.types else set()
        uses, found, seen = dict(file.uses), [], set()
        for match in WORD_OF_CODE.finditer(text):
            word = match[0]
            if word[0] in "/\"":
                continue
            if word in own and word not in seen and re.match(r"\s*(?:[:,({]|\}|$)", text[match.end():]) and self.world.types[key].kind != "trait":
                seen.add(word)
                found.append(Link(match.start(), match.end(), f"{key}.{word}"))
            elif word == name:
                found.append(Link(match.start(), match.end(), key))
            elif word[0].isupper() or word in self.world.notation:
                target = self.type_named(file, word, uses)
                if target:
                    found.append(Link(match.start(), match.end(), target))
        return found

    def type_named(self, file: File, word: str, uses: Dict[str, str]) -> Optional[str]:
        """The key of a type of the code, or of one of the library."""
        own = f"{file.crate}.{file.module}.{word}"
        if own in self.world.types:
            return own
        if word in ("Option", "Result", "String"):
            return f"std.Prelude.{word}"
        declared = self.world.code_named(file, word, uses.get(word, f"crate::{word}"))
        if declared:
            return declared
        return f"notation.{word}" if word in self.world.notation else None

    def pieces(self, text: str, links: List[Link]) -> List[Any]:
        """A text as pieces, between which stand the numbers of the entries that its words mean; a word that isn't the name of its entry stands with the number."""
        found: List[Any] = []
        at, plain = 0, ""
        for link in sorted(set(links)):
            if link.at < at:
                continue
            plain += text[at:link.at]
            word = text[link.at:link.end]
            if link.key == LOCAL:
                plain += BOUND + word
            else:
                number = self.number(link.key)
                found += [plain, number if word == self.world.named[link.key].name else [number, word]]
                plain = ""
            at = link.end
        return [*found, plain + text[at:]]


def ghosts(declared: Declared) -> str:
    """What a trait has for contracts alone."""
    head = declared.text[:declared.text.index("{")]
    parts = re.findall(r"(?: {4}//[^\n]*\n)*? {4}ghost \w+: \{[^}]*\}[^;]*;", declared.text)
    return f"{head}{{\n" + "\n".join(parts) + "\n}"


def reached(reader: Reader, start: str) -> Set[str]:
    """The keys of all that a text cites, and that what it cites does, and so on."""
    found, ahead = {start}, [key for name, keys in reader.cites.items() if name == start or name.startswith(f"{start}: ") for key in keys]
    while ahead:
        key = ahead.pop()
        if key in found or key not in reader.world.named:
            continue
        found.add(key)
        ahead += reader.cites.get(key, [])
    return found


def definition_order(reader: Reader, keys: Set[str], crates: List[str]) -> List[str]:
    """Definitions in the sequence in which they can be read: crate by crate, each module after those that its definitions cite, and in a module as they stand
    there.
    """
    world = reader.world
    modules: Dict[str, List[str]] = {}
    for key in world.texts:
        if key in keys:
            modules.setdefault(world.named[key].module, []).append(key)
    done: List[str] = []

    def visit(module: str, within: Set[str]) -> None:
        if module in done or module in within:
            return
        near = {world.named[each].module for key in modules[module] for each in reader.cites.get(key, []) if each in world.named}
        for other in sorted((near & set(modules)) - {module}, key=list(modules).index):
            visit(other, within | {module})
        done.append(module)

    for module in sorted(modules, key=lambda name: (crates.index(name.partition(".")[0]), name)):
        visit(module, set())
    done.sort(key=lambda name: crates.index(name.partition(".")[0]))
    return [key for module in done for key in modules[module]]


def examples(reader: Reader) -> Dict[int, List[Tuple[int, int]]]:
    """The clauses of examples in which each definition stands, by the numbers of their entries."""
    found: Dict[int, List[Tuple[int, int]]] = {}
    for number, entry in enumerate(reader.entries):
        if entry["t"] == "example":
            for place, clause in enumerate(entry["c"]):
                for target in sorted(worked(reader, clause["x"], set())):
                    found.setdefault(target, []).append((number, place))
    return found


def worked(reader: Reader, pieces: List[Any], helpers: Set[int]) -> Set[int]:
    """The definitions on which an example is worked: those that stand in it, and in place of what is defined for examples alone, those that stand there."""
    found: Set[int] = set()
    for piece in pieces[1::2]:
        target = piece if isinstance(piece, int) else piece[0]
        target = reader.entries[target].get("p", target)
        entry = reader.entries[target]
        if entry["t"] not in ("definition", "record", "data") or target in helpers:
            continue
        if HELPER.search(entry["m"]):
            helpers.add(target)
            found |= worked(reader, entry["x"], helpers)
        else:
            found.add(target)
    return found


def orders(reader: Reader, names: List[str]) -> Dict[str, str]:
    """The definitions that say what each order does, by a remark with its name: by the name of the order, and by that as the remark has it."""
    written = {short: name for name in names for short in (re.sub("q$", "", name), name.replace("Jr", "J", 1), name)}
    found: Dict[str, str] = {}
    for key, text in reader.world.texts.items():
        for remark in re.findall(r" -- (\S+)$", text.text, re.MULTILINE):
            if remark in written:
                found.setdefault(written[remark], key)
    return found
