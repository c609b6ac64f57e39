"""Whether a value of JSON is of a schema, for the keywords that `results.schema.json` uses; any other keyword is an error of the schema."""
from __future__ import annotations

import json
import os
import re
from typing import Any, Callable, Dict, Optional

_TYPES: Dict[str, Callable[[Any], bool]] = {
    "null": lambda value: value is None,
    "object": lambda value: isinstance(value, dict),
    "array": lambda value: isinstance(value, list),
    "string": lambda value: isinstance(value, str),
    "integer": lambda value: isinstance(value, int) and not isinstance(value, bool),
    "number": lambda value: isinstance(value, (int, float)) and not isinstance(value, bool),
}
_WORDS = frozenset(("$schema", "$defs", "title", "required", "additionalProperties", "items"))


def load() -> dict:
    """The schema of the results."""
    with open(os.path.join(os.path.dirname(os.path.abspath(__file__)), "results.schema.json"), encoding="ascii") as file:
        return json.load(file)


def fault(value: Any, schema: dict) -> Optional[str]:
    """The first place at which a value is not of a schema, and why; none where it is.

    >>> fault({"n": [1, "x"]}, {"type": "object", "properties": {"n": {"type": "array", "items": {"type": "integer"}}}})
    '/n/1: not integer'
    """
    return _Schema(schema).fault(value, schema, "")


class _Schema:
    def __init__(self, whole: dict) -> None:
        self._definitions = whole.get("$defs", {})

    def fault(self, value: Any, schema: dict, at: str) -> Optional[str]:
        for keyword, given in schema.items():
            if keyword in _WORDS:
                continue
            found = getattr(self, "_" + keyword.lstrip("$"))(value, given, schema, at)
            if found is not None:
                return found
        return None

    def _ref(self, value: Any, given: str, schema: dict, at: str) -> Optional[str]:
        return self.fault(value, self._definitions[given[len("#/$defs/") :]], at)

    def _type(self, value: Any, given: Any, schema: dict, at: str) -> Optional[str]:
        names = [given] if isinstance(given, str) else given
        if not any(_TYPES[name](value) for name in names):
            return f"{at}: not {' or '.join(names)}"
        if isinstance(value, list) and "items" in schema:
            found = (self.fault(item, schema["items"], f"{at}/{place}") for place, item in enumerate(value))
            return next((words for words in found if words is not None), None)
        return None

    def _properties(self, value: Any, given: dict, schema: dict, at: str) -> Optional[str]:
        if not isinstance(value, dict):
            return None
        for key in schema.get("required", ()):
            if key not in value:
                return f"{at}: {key} is missing"
        for key in value:
            if key not in given:
                if schema.get("additionalProperties") is False:
                    return f"{at}: {key!a} is no key of it"
                continue
            found = self.fault(value[key], given[key], f"{at}/{key}")
            if found is not None:
                return found
        return None

    def _const(self, value: Any, given: Any, schema: dict, at: str) -> Optional[str]:
        return self._enum(value, [given], schema, at)

    def _enum(self, value: Any, given: list, schema: dict, at: str) -> Optional[str]:
        return None if any(type(value) is type(one) and value == one for one in given) else f"{at}: not one of {', '.join(map(str, given))}"

    def _anyOf(self, value: Any, given: list, schema: dict, at: str) -> Optional[str]:
        found = [self.fault(value, one, at) for one in given]
        return None if None in found else found[-1]

    def _pattern(self, value: Any, given: str, schema: dict, at: str) -> Optional[str]:
        return f"{at}: not as {given}" if isinstance(value, str) and not re.search(given.replace("$", r"\Z"), value) else None

    def _minimum(self, value: Any, given: float, schema: dict, at: str) -> Optional[str]:
        return f"{at}: below {given}" if _TYPES["number"](value) and not value >= given else None

    def _maximum(self, value: Any, given: float, schema: dict, at: str) -> Optional[str]:
        return f"{at}: above {given}" if _TYPES["number"](value) and not value <= given else None

    def _minItems(self, value: Any, given: int, schema: dict, at: str) -> Optional[str]:
        return f"{at}: empty" if isinstance(value, list) and len(value) < given else None
