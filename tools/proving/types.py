"""Types, as far as fields need them: what a word of a clause is a value of."""
from typing import Dict, Optional

# A type, as far as fields need it: a constructor with its arguments, a function, a product, a variable; or what isn't known.
Type = Optional[tuple]

NUMBER, TRUTH, LIST, KIND = ("con", "std.Prelude.ℕ", ()), ("con", "std.Prelude.Bool", ()), "std.Prelude.List", ("con", "notation.Type", ())
NUMBERS = {"u8", "u16", "u32", "u64", "u128", "usize"}
SIGNED = {"i8", "i16", "i32", "i64", "i128", "isize"}

# How contracts see the types of the library and of the kit's crates: the words of such a value.
HOLDERS = {"Vec": "items", "ArrayVec": "items", "CircularBuffer": "items", "Box": "value", "Rc": "value"}


def substituted(kind: Type, values: Dict[str, Type]) -> Type:
    """A type with types in place of its variables."""
    if not kind:
        return None
    if kind[0] == "var":
        return values.get(kind[1], kind)
    if kind[0] == "con":
        return ("con", kind[1], tuple(substituted(each, values) for each in kind[2]))
    if kind[0] == "fn":
        return ("fn", substituted(kind[1], values), substituted(kind[2], values))
    if kind[0] == "prod":
        return ("prod", tuple(substituted(each, values) for each in kind[1]))
    return ("lent", substituted(kind[1], values)) if kind[0] == "lent" else kind


def matched(wanted: Type, given: Type, values: Dict[str, Type]) -> None:
    """Finds what the variables of one type have to be for it to be the other."""
    if not wanted or not given:
        return
    if wanted[0] == "var":
        values.setdefault(wanted[1], given)
    elif wanted[0] == given[0] == "con" and len(wanted[2]) == len(given[2]):
        for one, other in zip(wanted[2], given[2]):
            matched(one, other, values)
    elif wanted[0] == given[0] == "fn":
        matched(wanted[1], given[1], values)
        matched(wanted[2], given[2], values)
    elif wanted[0] == given[0] == "prod" and len(wanted[1]) == len(given[1]):
        for one, other in zip(wanted[1], given[1]):
            matched(one, other, values)
