"""What the head of a function binds for the clauses of its contract."""
import re
from typing import List, Tuple

from proving.code import File, Function, closed, cut
from proving.linking import Scope
from proving.terms import grouped, tokens
from proving.types import Type
from proving.world import World


def scope_of(world: World, file: File, function: Function) -> Scope:
    """The words that the contract of a function has from its head."""
    generics = {**dict(_generics(function.impl.replace("impl", "fn impl", 1))), **dict(_generics(function.head))}
    scope: Scope = {}
    for name, bounds in generics.items():
        keys = tuple(key for bound in bounds for key in [world.code_named(file, bound, dict(file.uses).get(bound, f"crate::{bound}"))] if key)
        above = [world.code_named(file, each, f"crate::{each}") for key in keys for each in world.types[key].generics]
        scope[name] = ("trait", (*keys, *filter(None, above)))
    names = [name for name, kind in scope.items()]
    start = function.head.index("(", _behind_generics(function.head))
    end = closed(function.head, start)
    owner = _owner(world, file, function)
    for each in cut(function.head[start + 1:end - 1]):
        name, colon, kind = each.strip().partition(":")
        name = name.replace("mut ", "").strip()
        if not colon and name.endswith("self"):
            scope["self"] = ("lent", owner) if name.startswith("&") else owner
        elif colon:
            scope[name] = world.seen(kind, file, names)
    scope["Self"] = ("trait", tuple(traits_of(world, file, function)))
    for clause in function.clauses:
        if clause.kind == "ghost":
            scope[clause.name] = world.type_in(grouped(tokens(clause.text)).inner, world.env_of_code(file, function), {})
    arrow = function.head.find("->", end)
    result = function.head[arrow + 2:].strip() if arrow >= 0 else ""
    scope["result"] = owner if result == "Self" else world.seen(result, file, names) if result else None
    return scope


def _owner(world: World, file: File, function: Function) -> Type:
    """How contracts see the type that a function is of."""
    if not function.of:
        return None
    key = f"{file.crate}.{file.module}.{function.of}"
    if key not in world.types:
        key = world.code_named(file, function.of, dict(file.uses).get(function.of, f"crate::{function.of}")) or ""
    if not key or world.types[key].kind == "trait":
        return None
    return world.model(key, [("var", name) for name in world.types[key].generics])


def _behind_generics(head: str) -> int:
    """The place behind the types that a function is generic in."""
    match = re.search(r"\bfn \w+", head)
    at, depth = match.end() if match else 0, 0
    if head[at:at + 1] != "<":
        return at
    while True:
        depth += (head[at] in "<(") - (head[at] in ")" or head[at] == ">" and head[at - 1] != "-")
        at += 1
        if not depth:
            return at


def _generics(head: str) -> List[Tuple[str, List[str]]]:
    """The types that a function is generic in, with their bounds."""
    match = re.search(r"\bfn \w+<", head)
    if not match:
        return []
    found = []
    for each in cut(head[match.end():_behind_generics(head) - 1]):
        name, _, bounds = each.partition(":")
        found.append((name.strip(), re.findall(r"\w+", bounds.partition("(")[0])))
    return found


def traits_of(world: World, file: File, function: Function) -> List[str]:
    """The trait that a function is of, if it is of one: its clauses speak of what it has for contracts by the names alone."""
    own = f"{file.crate}.{file.module}.{function.of}"
    if own not in world.types or world.types[own].kind != "trait":
        return []
    above = [world.code_named(file, each, f"crate::{each}") for each in world.types[own].generics]
    return [own, *filter(None, above)]
