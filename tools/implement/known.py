"""Which types can be shown, of the library's and of the crate."""

from __future__ import annotations

import re
from functools import cache
from typing import Callable, Container, Iterable, Iterator

from .library import BEFORE_HASHER, NUMBERS, PRELUDE, TYPES
from .types import Definition, Module, Type, type_of

# Traits with their paths, of which `Ord` alone implies another that a key needs.
TRAITS = set("std cmp hash fmt Allocative Described Drop Clone Copy Debug PartialEq PartialOrd Eq Ord Hash".split())
DYNAMIC = ("dyn ", "fn(", "unsafe fn", "extern ", "unsafe extern")
# A name that stands alone, and not in a path.
NAME = re.compile(r"(?<![\w:'])[A-Za-z_]\w*(?!\w|::)")
Path = tuple[str, ...]


class Scope:
    """What is known where types stand: their module, those that are written now, what other files say."""

    def __init__(
        self,
        module: Module,
        wanted: Iterable[str],
        outside: Callable[[Path], str],
        declared: Callable[[str], Definition | None],
    ) -> None:
        self.module = module
        self.wanted = set(wanted)
        # Why a type of another file cannot be shown, and its definition.
        self.outside, self.declared = outside, declared
        self.strict: set[str] = set()
        self.tallied: set[str] = set()
        self.inlined: dict[str, int] = {}
        self.constants = {name for each in module.types.values() for name in each.names("const")}
        self.reason, self.dynamic = cache(self.reason), cache(self.dynamic)

    def own(self, kind: Type) -> Definition | None:
        """The definition of a type of the module itself."""
        is_own = len(kind.path) == 1 or (len(kind.path) == 2 and kind.path[0] == "self")
        return self.module.types.get(kind.name) if is_own else None

    def holds(self, kind: Type, names: Container[str]) -> bool:
        """Whether a type names one of some types of the module."""
        return any(each.name in names and self.own(each) for each in self.real(kind).all())

    def real(self, kind: Type) -> Type:
        """The type with the types themselves in it, where names of the module stand for them."""
        aliases = self.module.aliases
        for _ in aliases:
            kind = type_of(NAME.sub(lambda found: aliases[found[0]].text if found[0] in aliases else found[0], kind.text))
        return kind

    def path(self, kind: Type) -> Path:
        """The path of a name, from the `use` that brings it in."""
        return self.module.uses.get(kind.path[0], kind.path[:1]) + kind.path[1:] if kind.path else ()

    def reason(self, kind: Type, parameters: Path) -> str:
        """Why a field of a type cannot be shown, or nothing."""
        kind = self.real(kind)
        if kind.form == "reference":
            return "" if is_lasting(kind) else f"`{kind.text}` is a reference"
        if kind.form == "other":
            return f"`{kind.text}` is no type that is read"
        if kind.form == "tuple" and len(kind.parts) > 8:
            return f"`{kind.text}` has more than eight parts"
        if kind.form == "path":
            if len(kind.path) == 1 and (kind.name in parameters or self.is_constant(kind)):
                return ""
            reason = self.path_reason(kind)
            if reason or kind.name == "PhantomData":
                return reason
        shown, hashers = split_at_hasher(kind)
        whys = [self.reason(part, parameters) for part in shown]
        for part in hashers:
            is_own = self.own(part) and "Described" in self.module.implemented.get(part.name, ())
            is_known = is_own or (self.path(part)[:1] == ("std",) and part.name == "RandomState")
            whys += [] if is_known else [f"`{part.text}` makes hashers, and is no type that is described"]
        return next(filter(None, whys), "")

    def path_reason(self, kind: Type) -> str:
        """Why a type that is named by a path cannot be shown, whatever its arguments are."""
        definition, path = self.own(kind), self.path(kind)
        if definition:
            return self.own_reason(definition)
        if path[0] not in ("crate", "super", "self"):
            if self.is_of_library(kind):
                return ""
            if len(path) == 1:
                return f"`{kind.text}` is neither declared nor imported in this file"
        return self.outside(path)

    def is_constant(self, kind: Type) -> bool:
        """Whether a type stands for a const parameter."""
        return len(kind.path) == 1 and kind.name in self.constants and self.own(kind) is None

    def is_of_library(self, kind: Type) -> bool:
        """Whether a type is one of those that the library implements."""
        path, known = self.path(kind), TYPES.get(kind.name)
        if len(path) == 1:
            return kind.name in PRELUDE or bool(known and self.module.globs)
        return known is not None and path[:1] == (known.crate,)

    def has(self, kind: Type, word: str) -> bool:
        """Whether a type of the library has a word."""
        return kind.name in TYPES and word in TYPES[kind.name].words

    def own_reason(self, definition: Definition) -> str:
        traits = self.module.implemented.get(definition.name, set())
        if not definition.variants:
            return f"`{definition.name}` has no value to show"
        if definition.names("lifetime"):
            return f"`{definition.name}` has a lifetime, so it declares no size"
        if definition.name in self.wanted or {"Allocative", "Described"} <= traits:
            return ""
        if "Allocative" in traits:
            return f"`{definition.name}` has `impl Allocative` and no `impl Described`"
        return f"`{definition.name}` of this file is not among the types that are named"

    def refusals(self, kind: Type, definition: Definition) -> Iterator[str]:
        """Why the checker refuses a field of a type, also if it is not shown."""
        kind = self.real(kind)
        held = self.dynamic(kind)
        if held:
            what = "the checker states no type that holds a trait object or a function pointer"
            yield f"`{held}`: {what}: hold an enum of what it may be, or a type parameter, as crates/example_types/src/sinks.rt does"
            return
        if kind.name == "SmallVec" and any(part.name in definition.names("type") for part in kind.all()):
            yield f"the checker does not bound the size of `{kind.text}` over a type parameter: write a `Vec`"
        asks = TYPES[kind.name].asks if kind.name in TYPES and kind.parts else []
        for part in kind.parts[0].all() if asks else ():
            if not set(asks) <= self.traits(part, definition):
                yield f"`{kind.text}` asks `{part.text}: {' + '.join(asks)}`: write that bound, or derive it"
        for part in kind.parts:
            yield from self.refusals(part, definition)

    def dynamic(self, kind: Type) -> str:
        """A trait object or a function pointer that values of a type hold, also in types of the crate, or nothing. What one
        of the types that are written holds is told there.
        """
        passed, waiting = {""}, [kind]
        for each in (part for kind in waiting for part in self.real(kind).all()):
            if each.form == "other" and each.text.startswith(DYNAMIC):
                return each.text
            is_near = self.path(each)[:1] in (("crate",), ("super",), ("self",))
            own = self.own(each) or (self.declared(each.name) if is_near else None)
            is_told = self.own(each) is not None and each.name in self.wanted
            waiting += [member.type for member in own.members] if own and not is_told and own.name not in passed else []
            passed.add(own.name if own else "")
        return ""

    def inline(self, kind: Type) -> int:
        """About how many fields a value has in itself, and not behind a pointer, with those of its fields."""
        kind = self.real(kind)
        if kind.text not in self.inlined:
            self.inlined[kind.text] = 0
            own, known = self.own(kind), kind.name in TYPES and self.has(kind, "pointer")
            parts = [member.type for member in own.members] if own else () if known else kind.parts
            inner = 40 if kind.name in BEFORE_HASHER else 0 if own or kind.name in NUMBERS else 10
            self.inlined[kind.text] = inner + sum(1 + self.inline(part) for part in parts)
        return self.inlined[kind.text]

    def traits(self, kind: Type, definition: Definition) -> set[str]:
        """The traits that a type in a definition is seen to have; of a type that is not judged here all."""
        own = self.own(kind)
        if own:
            return own.derives | self.module.implemented.get(own.name, set())
        if kind.path and kind.name in definition.names("type"):
            bounds = [each.bounds for each in definition.parameters if each.name == kind.name]
            bounds += re.findall(rf"\b{kind.name}\s*:([^,]*)", definition.where)
            found = set(re.findall(r"\w+", " ".join(bounds)))
            return found | ({"Eq"} if "Ord" in found else set()) if found <= TRAITS else TRAITS
        if kind.text in ("f32", "f64"):
            return TRAITS - {"Eq", "Ord", "Hash"}
        return TRAITS - {"Copy"} if kind.name in TYPES and not self.has(kind, "copy") else TRAITS

    def flags(self, kind: Type, parameters: Path) -> set[str]:
        """The flags on which it depends whether a type is strict; none if it is."""
        kind = self.real(kind)
        if kind.form in ("lifetime", "constant", "reference") or kind.name == "PhantomData":
            return set()
        found: set[str] = set()
        if kind.form == "path" and self.path(kind) == kind.path and kind.name in parameters:
            found = {f"{kind.name}.is_strict"}
        elif self.is_constant(kind):
            return set()
        elif kind.form == "path":
            definition = self.own(kind)
            is_known = kind.name in TYPES and not self.has(kind, "loose")
            if not is_known and not (definition and definition.name in self.strict):
                return {f"⟦<{kind.text} as Allocative>⟧.is_strict"}
        return found.union(*(self.flags(part, parameters) for part in split_at_hasher(kind)[0]))

    def find_strict(self) -> None:
        """Finds which types without type parameters are strict, of those that get implementations now."""
        types = [each for name, each in self.module.types.items() if name in self.wanted and not each.names("type")]
        kinds = {each.name: [member.type for member in each.shown if member.is_whole] for each in types}
        found, self.strict = set(kinds), set()
        while found != self.strict:
            self.strict, flags = found, cache(self.flags)
            found = {name for name in found if not any(flags(kind, ()) for kind in kinds[name])}
        self.flags = cache(self.flags)


def split_at_hasher(kind: Type) -> tuple[tuple[Type, ...], tuple[Type, ...]]:
    """The parts of a type that are shown, and what makes its hashers, if that is written."""
    end = BEFORE_HASHER.get(kind.name, len(kind.parts))
    return kind.parts[:end], kind.parts[end:]


def is_lasting(kind: Type) -> bool:
    """Whether a reference is `&'static` to a text or a type of a known size."""
    return re.match(r"&'static (?!mut )", kind.text) is not None and kind.parts[0].form != "other"
