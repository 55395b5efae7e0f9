"""Whether a JSON value is as a JSON Schema says: just the keywords that the schemas of docs/schema use."""
import re

# What the names of types stand for. A boolean is no integer.
TYPES = {
    "object": lambda value: isinstance(value, dict),
    "array": lambda value: isinstance(value, list),
    "string": lambda value: isinstance(value, str),
    "integer": lambda value: isinstance(value, int) and not isinstance(value, bool),
    "boolean": lambda value: isinstance(value, bool),
    "null": lambda value: value is None,
}

# Keywords that say nothing of a value.
SILENT = {"$schema", "title", "description", "definitions"}


class Schema:
    """A schema with its definitions."""

    def __init__(self, schema):
        self.schema = schema
        self.definitions = schema.get("definitions", {})

    def faults(self, value):
        """What is wrong with a value, each with its place."""
        return list(self._faults(self.schema, value, "$"))

    def _faults(self, schema, value, place):
        for keyword, wanted in schema.items():
            if keyword not in SILENT:
                yield from getattr(self, KEYWORDS[keyword])(schema, wanted, value, place)

    def _ref(self, _schema, wanted, value, place):
        yield from self._faults(self.definitions[wanted[len("#/definitions/"):]], value, place)

    def _type(self, _schema, wanted, value, place):
        names = [wanted] if isinstance(wanted, str) else wanted
        if not any(TYPES[name](value) for name in names):
            yield f"{place}: {value!r} isn't of type {' or '.join(names)}"

    def _const(self, _schema, wanted, value, place):
        if value != wanted:
            yield f"{place}: {value!r} isn't {wanted!r}"

    def _enum(self, _schema, wanted, value, place):
        if value not in wanted:
            yield f"{place}: {value!r} is none of {wanted}"

    def _least(self, _schema, wanted, value, place):
        if TYPES["integer"](value) and value < wanted:
            yield f"{place}: {value} is below {wanted}"

    def _most(self, _schema, wanted, value, place):
        if TYPES["integer"](value) and value > wanted:
            yield f"{place}: {value} is above {wanted}"

    def _fewest(self, _schema, wanted, value, place):
        if isinstance(value, list) and len(value) < wanted:
            yield f"{place}: there are {len(value)} items, fewer than {wanted}"

    def _longest(self, _schema, wanted, value, place):
        if isinstance(value, list) and len(value) > wanted:
            yield f"{place}: there are {len(value)} items, more than {wanted}"

    def _pattern(self, _schema, wanted, value, place):
        if isinstance(value, str) and not re.search(wanted, value):
            yield f"{place}: {value!r} hasn't the form {wanted}"

    def _items(self, _schema, wanted, value, place):
        if isinstance(value, list):
            for at, item in enumerate(value):
                yield from self._faults(wanted, item, f"{place}[{at}]")

    def _properties(self, _schema, wanted, value, place):
        if isinstance(value, dict):
            for name, item in value.items():
                if name in wanted:
                    yield from self._faults(wanted[name], item, f"{place}.{name}")

    def _required(self, _schema, wanted, value, place):
        if isinstance(value, dict):
            yield from (f"{place}: {name} is missing" for name in wanted if name not in value)

    def _additional(self, schema, wanted, value, place):
        if isinstance(value, dict) and wanted is False:
            yield from (f"{place}: nothing is said of {name}" for name in value if name not in schema.get("properties", {}))

    def _one_of(self, _schema, wanted, value, place):
        found = [list(self._faults(each, value, place)) for each in wanted]
        if sum(not faults for faults in found) != 1:
            yield from min(found, key=len) or [f"{place}: more than one kind fits"]


KEYWORDS = {
    "$ref": "_ref", "type": "_type", "const": "_const", "enum": "_enum", "minimum": "_least", "maximum": "_most", "minItems": "_fewest",
    "maxItems": "_longest", "pattern": "_pattern", "items": "_items", "properties": "_properties", "required": "_required",
    "additionalProperties": "_additional", "oneOf": "_one_of",
}
