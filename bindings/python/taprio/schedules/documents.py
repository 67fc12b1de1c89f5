"""JSON documents, whose parts know their path."""

from __future__ import annotations

import json
from collections.abc import Iterator

from ..faults import BadSchedule
from .model import fault

__all__ = ["Node", "load"]


class _Fraction(str):
    """A number with a fraction or an exponent, as it stands in the document."""


def _object(pairs: list[tuple[str, object]]) -> dict[str, object]:
    found: dict[str, object] = {}
    for name, value in pairs:
        if name in found:
            fault("JSON", "each member of an object once", f"{name!r} twice")
        found[name] = value
    return found


def load(text: str) -> Node:
    """The document of a text."""
    try:
        return Node(json.loads(text, object_pairs_hook=_object, parse_float=_Fraction, parse_constant=_Fraction), "")
    except json.JSONDecodeError as wrong:
        found = repr(text[wrong.pos : wrong.pos + 20]) if wrong.pos < len(text) else "the end"
        raise BadSchedule(f"line {wrong.lineno}, column {wrong.colno}", f"JSON ({wrong.msg})", found) from None
    except BadSchedule:
        raise
    except (ValueError, RecursionError) as wrong:
        raise BadSchedule("JSON", "numbers and nesting of a sensible size", type(wrong).__name__) from None


def local(name: str) -> str:
    """A name without the prefix of its module."""
    return name.rpartition(":")[2]


def shown(value: object) -> str:
    """A value as an error shows it, on one line."""
    if isinstance(value, _Fraction):
        return str(value)
    text = "an object" if isinstance(value, dict) else "a list" if isinstance(value, list) else json.dumps(value)
    return text if len(text) <= 60 else text[:57] + "..."


class Node:
    """A part of a document, with its path."""

    def __init__(self, value: object, path: str) -> None:
        self.value = value
        self.path = path

    @property
    def place(self) -> str:
        """The path, or a word for the whole."""
        return self.path or "/"

    def wrong(self, expected: str) -> BadSchedule:
        """The exception that says what should stand here."""
        return BadSchedule(self.place, expected, shown(self.value))

    def members(self) -> dict[str, Node]:
        """The members of an object, by their names without prefixes."""
        if not isinstance(self.value, dict):
            raise self.wrong("an object")
        found: dict[str, Node] = {}
        for name, value in self.value.items():
            if local(name) in found:
                raise BadSchedule(f"{self.path}/{name}", f"{local(name)} once", "it with and without its prefix")
            found[local(name)] = Node(value, f"{self.path}/{name}")
        return found

    def get(self, name: str) -> Node | None:
        """A member, or None where there is none."""
        if not isinstance(self.value, dict):
            raise self.wrong("an object")
        names = [it for it in self.value if local(it) == name]
        if len(names) > 1:
            raise BadSchedule(f"{self.path}/{names[1]}", f"{name} once", f"{names[0]} too")
        return Node(self.value[names[0]], f"{self.path}/{names[0]}") if names else None

    def need(self, name: str) -> Node:
        """A member that has to be there."""
        found = self.get(name)
        if found is None:
            raise BadSchedule(f"{self.path}/{name}", "a value", "none")
        return found

    def items(self, key: str | None = None) -> list[Node]:
        """The items of a list. Those with a key are called by it."""
        if not isinstance(self.value, list):
            raise self.wrong("a list")
        found = []
        for number, value in enumerate(self.value):
            name = f"[{number}]"
            if key is not None and isinstance(value, dict):
                of_key = next((value[member] for member in value if local(member) == key), None)
                name = f"[{key}={shown(of_key)}]" if of_key is not None else name
            found.append(Node(value, f"{self.path}{name}"))
        return found

    def text(self) -> str:
        """A text."""
        if not isinstance(self.value, str) or isinstance(self.value, _Fraction):
            raise self.wrong("a text")
        return self.value

    def truth(self) -> bool:
        """True or false."""
        if not isinstance(self.value, bool):
            raise self.wrong("true or false")
        return self.value

    def whole(self, least: int, most: int, unit: str = "") -> int:
        """A whole number within limits. A text of digits is one too: so RFC 7951 writes numbers of 64 bits."""
        value = self.value
        if (
            isinstance(value, str)
            and not isinstance(value, _Fraction)
            and value.isascii()
            and value.isdigit()
            and len(value) <= 20
        ):
            value = int(value)
        if isinstance(value, bool) or not isinstance(value, int) or not least <= value <= most:
            raise self.wrong(f"a whole number from {least} to {most}{unit}")
        return value

    def hexadecimal(self, most: int) -> int:
        """A hexadecimal number as `tc` writes it, such as "0x1"; or a plain number."""
        if isinstance(self.value, str):
            try:
                value = int(self.value, 16)
            except ValueError:
                raise self.wrong(f'a mask such as "0x1", at most {most:#x}') from None
            if not 0 <= value <= most:
                raise self.wrong(f'a mask such as "0x1", at most {most:#x}')
            return value
        return self.whole(0, most)

    def walk(self) -> Iterator[tuple[list[Node], Node]]:
        """Each object of the document with those that it lies in, outermost first."""
        ahead: list[tuple[list[Node], Node]] = [([], self)]
        while ahead:
            above, node = ahead.pop()
            if isinstance(node.value, dict):
                yield above, node
                children = [Node(value, f"{node.path}/{name}") for name, value in node.value.items()]
                ahead += [([*above, node], child) for child in reversed(children)]
            elif isinstance(node.value, list):
                ahead += [(above, child) for child in reversed(node.items("name"))]
