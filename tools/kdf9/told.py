"""What there is to know of a job and of its run: `kdf9.facts(job)` tells it as a Run, and `kdf9.listing(job, slot)` as a Listing.

The machine itself tells all of it. The classes are dataclasses with types: Run, Listing and Fault, and what they have in them. They are made of
docs/schema/facts.json, which says what each field means, when the first of them is needed. A field that doesn't apply is None. The faults of all kinds are one
class, with a `subject`: what stands at the fault, as a terminal can show it.
"""
from __future__ import annotations

import copy
import functools
import json
from typing import Any, Callable, Dict, List, Optional, Tuple

from kdf9 import library
from kdf9.deck import written
from kdf9.library import Refused, Text
from kdf9.program import ENCODING, ROOT, Answer
from kdf9.report import STATUSES
from kdf9.words import shown

# The names of classes, by the definitions and members that they are of, where these aren't called so themselves.
NAMES = {
    "use of a device": "Device", "calls of a program": "Calls", "calls": "Spent", "holders": "Holder", "statements": "Line", "references": "Reference",
    "parts": "Part", "stores": "Store", "slot of a job": "Slot",
}
KINDS_OF_VALUES = {"integer": int, "string": str, "boolean": bool}

Reader = Callable[[Any], Any]


def subject(fault: Any) -> str:
    """What stands at a fault, as a terminal can show it."""
    if fault.text is None:
        return f"the {'text' if fault.of == 'snapshot' else 'job'} ends here"
    if fault.of == "deck":
        return f"byte {ord(fault.text)}" if fault.name == "BadByte" else written(fault.text)
    return shown(fault.text)


def program(run: Any, slot: int) -> Any:
    """How the program of a slot is at the end."""
    found = next((each for each in run.programs if each.slot == slot), None)
    if found is None:
        raise ValueError(f"the job has no slot {slot}")
    return found


def of_members(made: type, told: Dict[str, Any]) -> Any:
    """An object of this class with these members, which are its own from now on: a large job has millions of objects, and to set each member takes long."""
    new = object.__new__(made)
    object.__setattr__(new, "__dict__", told)
    return new


# What classes have besides their fields.
BESIDES = {"Fault": {"subject": property(subject)}, "Run": {"program": program}}


class Classes:
    """The classes by their names."""

    def __init__(self) -> None:
        self.schema = json.loads((ROOT / "docs" / "schema" / "facts.json").read_text(encoding="utf-8"))["definitions"]
        self.known: Dict[str, Tuple[type, Reader]] = {}
        faults = [one["properties"] for name, one in self.schema.items() if name.startswith("fault of a ")]
        fault = {"properties": {member: one for fault in faults for member, one in fault.items()}, "required": []}
        self.kinds = {"Run": self.schema["run"], "Listing": self.schema["listing"], "Fault": fault}

    def of(self, name: str) -> Tuple[type, Reader]:
        """The class of this name, and what makes it of an object. It is made when it is first needed."""
        for kind in [name] if name in self.kinds else self.kinds:
            if kind not in self.known:
                self.class_of(kind, self.kinds[kind])
        return self.known[name]

    def class_of(self, name: str, schema: Dict[str, Any]) -> Tuple[type, Reader]:
        """The class of this name for the objects of a schema, and what makes it of such an object."""
        from dataclasses import field, make_dataclass  # pylint: disable=import-outside-toplevel

        required, others, readers = [], [], {}
        for member, one in schema["properties"].items():
            if member != "format" and (member != "kind" or "const" not in one):
                kind, read = self.typed(member, one)
                if member in schema["required"]:
                    required.append((member, kind))
                else:
                    others.append((member, Optional[kind], field(default=None)))
                if read:
                    readers[member] = read
        made = make_dataclass(name, required + others, frozen=True, namespace={**BESIDES.get(name, {}), "__module__": __name__})
        made.__doc__ = schema.get("description", made.__doc__)

        def read_all(told: Dict[str, Any]) -> Any:
            for member, read in readers.items():
                if told.get(member) is not None:
                    told[member] = read(told[member])
            return of_members(made, told)

        self.known[name] = made, read_all if readers else functools.partial(of_members, made)
        return self.known[name]

    def typed(self, member: str, schema: Dict[str, Any]) -> Tuple[Any, Optional[Reader]]:
        """The type of a member with this schema, and what makes it of a value, if that doesn't stay as it is."""
        if "$ref" in schema:
            member = schema["$ref"].rpartition("/")[2]
            schema = self.schema[member]
        name, types = NAMES.get(member, member.capitalize()), schema.get("type", "string")
        if "object" in types:
            kind, read = self.known.get(name) or self.class_of(name, schema)
        elif "array" in types:
            inner, each = self.typed(member, schema["items"])
            is_pair = schema.get("minItems") == schema.get("maxItems") == 2
            kind, read = (Tuple[inner, inner], tuple) if is_pair else (List[inner], each and (lambda told: [each(one) for one in told]))
        else:
            kind, read = next(KINDS_OF_VALUES[name] for name in KINDS_OF_VALUES if name in types), None
        return (Optional[kind] if "null" in types else kind), read


classes = functools.lru_cache(maxsize=None)(Classes)


def __getattr__(name: str) -> type:
    """The class of this name."""
    try:
        return classes().of(name)[0]
    except KeyError:
        raise AttributeError(f"module {__name__!r} has no attribute {name!r}") from None


def told_of(job: Text, *words: str) -> Any:
    """What the machine tells of a job by these words, which are `run`, or `asm` and a slot: a Run or a Listing, or a Fault."""
    told = library.facts(job, words)
    if told["kind"] == "usage":
        raise Refused(library.answer_to(words, job))
    del told["format"]
    return classes().of(told.pop("kind").capitalize())[1](told)


def fault_in(facts: Dict[str, Any]) -> Any:
    """The fault that these facts are."""
    return classes().of("Fault")[1](copy.deepcopy({member: value for member, value in facts.items() if member not in ("format", "kind")}))


def is_fault(told: Any) -> bool:
    """Whether facts are those of a fault."""
    return hasattr(told, "sentence")


def told_in(text: str, *words: str) -> Any:
    """The same of a text that has a character for each byte of a job."""
    return told_of(text.encode(ENCODING), *words)


def sound(job: Text, *words: str) -> Any:
    """What the machine tells of a job by these words. Raises Refused where the job has a fault."""
    told = told_of(job, *words)
    if is_fault(told):
        line = {"job": f"JOB {told.name} {told.line}", "deck": f"DECK {told.slot} {told.name} {told.offset}", "text": f"LARGE {told.limit}"}[told.of]
        raise Refused(Answer(STATUSES[line.split(" ")[0]], line + "\n"), told)
    return told


def facts(job: Text) -> Run:
    """The facts of the run of a job. Raises Refused where the job has a fault."""
    return sound(job, "run")


def listing(job: Text, slot: int) -> Listing:
    """The facts of the deck of a slot. Raises Refused where the job has a fault. A slot that the job hasn't has no words."""
    return sound(job, "asm", str(slot))
