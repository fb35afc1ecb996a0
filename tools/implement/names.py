"""Names, lists and patterns in the text that is written."""

from __future__ import annotations

import re
from typing import Any, Callable

from .layouts import of_type, size_of
from .types import Type, Variant

# How many parts a tuple has at most.
GROUP = 5
NAME = re.compile(r"[A-Za-z_]\w*")


def bound(names: list[str], taken: str = "visitor self tally is") -> list[str]:
    """Names for the parts of fields: their own where these are names that are not taken, else letters."""
    if all(NAME.fullmatch(name) and name not in taken.split() for name in names):
        return names
    return lettered(len(names))


def lettered(count: int) -> list[str]:
    """So many letters."""
    return [chr(ord("a") + at) if at < 23 else f"a{at}" for at in range(count)]


def joined(parts: list[Any], join: Callable[[list[Any]], Any]) -> Any:
    """Parts joined in groups of five at most, and these in the same way."""
    while len(parts) > GROUP:
        parts = [join(parts[at : at + GROUP]) for at in range(0, len(parts), GROUP)]
    return join(parts)


def tuple_of(parts: list[str]) -> str:
    return parts[0] if len(parts) == 1 else f"({', '.join(parts)})"


def in_angles(parts: list[str]) -> str:
    return f"<{', '.join(parts)}>" if parts else ""


def one_word(text: str) -> str:
    """A text as one argument."""
    return f"({text})" if " " in text else text


def size_in_clause(kind: str) -> str:
    """The declared size of a type."""
    return size_of(of_type(kind)).clause


def holds(kind: Type, parameter: str) -> bool:
    """Whether values of a parameter stand in those of a type."""
    if kind.name == "PhantomData":
        return False
    return kind.path == (parameter,) or any(holds(part, parameter) for part in kind.parts)


def pattern_of(variant: Variant, names: list[str]) -> str:
    """What stands behind a variant's name in a pattern."""
    pairs = list(zip(variant.members, names))
    if variant.bracket != "{":
        inside = ", ".join(name if each.is_read or name[0] == "_" else "_" for each, name in pairs)
        return f"({inside})" if variant.bracket else ""
    pairs = [each for each in pairs if each[0].is_read or each[1][0] == "_"]
    fields = [name if each.name == name else f"{each.name}: {name}" for each, name in pairs]
    fields += [".."] if len(fields) < len(variant.members) else []
    return f" {{ {', '.join(fields)} }}" if fields else " {}"


def all_bound(variant: Variant) -> list[str]:
    """Names for all fields of a variant, of which those that are not read begin with `_`."""
    return [name if each.is_read else f"_{name}" for each, name in zip(variant.members, bound(variant.names))]
