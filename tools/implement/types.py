"""The types that a source declares, and the names that it uses: structs and enums with their fields."""

from __future__ import annotations

import re
from dataclasses import dataclass, field
from functools import cache
from typing import TYPE_CHECKING, Iterator, NamedTuple

from .tokens import Directive, Fault, Tokens

if TYPE_CHECKING:
    from .foreign import Foreign

EDGE = re.compile(r"->|[(<\[{)>\]},;]")
USE_EDGE = re.compile(r"[{},]")
SAYS = re.compile(r"skip|size\s+(\d{1,20})")
IMPLEMENTED = re.compile(r"\b(\w+)(?:<.*>)?\s+for\s+(?:\w+\s*::\s*)*(\w+)", re.DOTALL)
LOOSE_AFTER = re.compile(r" ?(::|[<(\[&*!]) ?")
LOOSE_BEFORE = re.compile(r" ([>)\],;])")
REFERENCE = re.compile(r"&('\w+)? ?(mut\b)? ?(.*)", re.DOTALL)
PATH = re.compile(r"((?:::)?[^\W\d]\w*(?:::[^\W\d]\w*)*)(?:(?:::)?<(.*)>)?")
NO_PATH = ("dyn", "impl", "fn", "unsafe", "extern", "for", "_")


class Type(NamedTuple):
    """The type of a field. `form` is path, tuple, array, reference, lifetime, constant or other."""

    form: str
    text: str
    path: tuple[str, ...] = ()
    parts: tuple[Type, ...] = ()

    @property
    def name(self) -> str:
        """The last name of a path."""
        return self.path[-1] if self.path else ""

    def all(self) -> Iterator[Type]:
        """The type and each type in it."""
        yield self
        for part in self.parts:
            yield from part.all()


def split(text: str, comma: str = ",", edge: re.Pattern[str] = EDGE) -> list[str]:
    """A text cut at the commas outside brackets."""
    parts, depth, at = [], 0, 0
    for found in edge.finditer(text) if comma in text else ():
        letter = found.group()
        if letter == comma and depth == 0:
            parts.append(text[at : found.start()].strip())
            at = found.end()
        depth += (letter in "(<[{") - (letter in ")>]}")
    return [part for part in (*parts, text[at:].strip()) if part]


@cache
def type_of(text: str) -> Type:
    """The type that a text writes; `other` if it is none of the forms that are read."""
    first, last = text[:1], text[-1:]
    if first == "'":
        return Type("lifetime", text)
    if text.isdigit() or first in ("{", "-") or text in ("true", "false"):
        return Type("constant", text)
    if first == "&":
        lifetime, mutable, kind = REFERENCE.fullmatch(text).groups("")
        part = type_of(kind)
        return Type("reference", "&" + " ".join(filter(None, (lifetime, mutable, part.text))), (), (part,))
    if first == "(" and last == ")":
        parts = tuple(map(type_of, split(text[1:-1])))
        if len(parts) == 1 and not text.endswith(",)"):
            return parts[0]
        comma = "," if len(parts) == 1 else ""
        return Type("tuple", f"({', '.join(part.text for part in parts)}{comma})", (), parts)
    if first == "[" and last == "]":
        kind, *length = split(text[1:-1], ";") or [""]
        part = type_of(kind)
        return Type("array" if length else "other", f"[{'; '.join((part.text, *length))}]", (), (part,))
    found = PATH.fullmatch(text)
    if not found or text.split("::")[0] in NO_PATH:
        return Type("other", text)
    parts = tuple(map(type_of, split(found[2] or "")))
    arguments = f"<{', '.join(part.text for part in parts)}>" if parts else ""
    return Type("path", found[1] + arguments, tuple(found[1].strip(":").split("::")), parts)


class Member(NamedTuple):
    """A field: its name or number, type and offset; whether it is passed over, shown by its size alone, or foreign."""

    name: str
    type: Type
    at: int
    is_skipped: bool = False
    size: int | None = None
    foreign: Foreign | None = None

    @property
    def is_whole(self) -> bool:
        """Whether the value is shown as its type says."""
        return not self.is_skipped and self.size is None and self.foreign is None

    @property
    def is_read(self) -> bool:
        """Whether what is shown depends on the value."""
        return self.is_whole or bool(self.foreign and self.foreign.length)


class Parameter(NamedTuple):
    """A parameter of a type: `kind` is lifetime, const or type; `bounds` is what stands behind its colon."""

    kind: str
    name: str
    bounds: str


class Variant(NamedTuple):
    """A variant of an enum, or the fields of a struct."""

    name: str
    members: tuple[Member, ...] = ()
    # The bracket of its fields, or nothing.
    bracket: str = ""

    @property
    def names(self) -> list[str]:
        return [member.name for member in self.members]

    @property
    def is_entry(self) -> bool:
        """Whether a variant has an entry of its own, with its fields inside it."""
        return len(self.members) > 1 or (self.bracket == "{" and bool(self.members))


class Definition(NamedTuple):
    """A struct or an enum, from the offset of its keyword to that of its end."""

    is_enum: bool
    name: str
    parameters: tuple[Parameter, ...]
    where: str
    variants: tuple[Variant, ...]
    at: int
    end: int
    derives: set[str]
    cycle: str

    @property
    def members(self) -> list[Member]:
        """The fields of all variants."""
        return [member for variant in self.variants for member in variant.members]

    @property
    def shown(self) -> list[Member]:
        """The fields that are not passed over."""
        return [member for member in self.members if not member.is_skipped]

    def names(self, kind: str) -> tuple[str, ...]:
        """The names of the parameters of a kind."""
        return tuple(parameter.name for parameter in self.parameters if parameter.kind == kind)


@dataclass
class Module:
    """What stands in a module: its types, what they implement, and the names that it uses."""

    types: dict[str, Definition] = field(default_factory=dict)
    implemented: dict[str, set[str]] = field(default_factory=dict)
    uses: dict[str, tuple[str, ...]] = field(default_factory=dict)
    globs: list[tuple[str, ...]] = field(default_factory=list)
    ghost_uses: set[str] = field(default_factory=set)
    aliases: dict[str, Type] = field(default_factory=dict)
    inner: dict[str, Module] = field(default_factory=dict)
    names: set[str] = field(default_factory=set)
    faults: list[Fault] = field(default_factory=list)

    def all(self) -> Iterator[Module]:
        """The module and each module in it."""
        yield self
        for inner in self.inner.values():
            yield from inner.all()


class Reader:
    """Reads items out of tokens. `at` is the place that is read next."""

    def __init__(self, tokens: Tokens) -> None:
        self.tokens = tokens
        self.words = tokens.words
        self.at = 0
        # What `Self` stands for in the fields that are read.
        self.own = "Self"

    # ---- tokens
    def word(self, ahead: int = 0) -> str:
        return self.words[self.at + ahead]

    def fault(self, what: str) -> Fault:
        """A fault of the next token."""
        return Fault(self.tokens.starts[self.at], what)

    def take(self, word: str) -> bool:
        """Whether the next token is a word; it is passed then."""
        is_next = self.words[self.at] == word
        self.at += is_next
        return is_next

    def name(self, of_what: str) -> str:
        """The next token, which has to be a name."""
        word = self.word()
        if word.startswith("r#"):
            raise self.fault(f"{of_what} with the raw name `{word}`: Rattle has none; rename it")
        if not word.isidentifier():
            raise self.fault(f"`{word}` stands where the name of {of_what} is expected")
        self.at += 1
        return word

    def open(self) -> int:
        """Passes an opening bracket, and returns the place of its other."""
        self.at += 1
        return self.tokens.behind[self.at - 1] - 1

    def find(self, ends: str, end: int, has_angles: bool = True) -> int:
        """The place of the first token outside brackets, also `<>`, that is one of some, or the end."""
        place, depth, words, behind = self.at, 0, self.words, self.tokens.behind
        while place < end:
            word = words[place]
            if depth == 0 and word in ends:
                return place
            if has_angles and word in "<>":
                depth = depth + 1 if word == "<" else max(depth - 1, 0)
            place = behind[place]
        return end

    def until(self, end: int) -> str:
        """The source up to a token, which is read next."""
        first, self.at = self.at, end
        return self.tokens.text[self.tokens.starts[first] : self.tokens.end(end - 1)] if first < end else ""

    def type(self, end: int) -> Type:
        """The type that stands from here to an end."""
        words, self.at = " ".join(self.own if word == "Self" else word for word in self.words[self.at : end]), end
        return type_of(LOOSE_BEFORE.sub(r"\1", LOOSE_AFTER.sub(r"\1", words)) if " " in words else words)

    def entries(self, close: int) -> Iterator[int]:
        """Goes through a list up to a place: the end of each entry, which stands before a comma."""
        while self.at < close:
            end = self.find(",", close)
            yield end
            self.at = end
            self.take(",")

    def attributes(self) -> list[list[str]]:
        """Passes the attributes and the visibility that stand here. Returns the words of each attribute."""
        found = []
        while self.words[self.at] == "#":
            self.at += 2 if self.word(1) == "!" else 1
            behind = self.tokens.behind[self.at]
            found.append(self.words[self.at + 1 : behind - 1])
            self.at = behind
        if self.take("pub") and self.word() == "(" and self.word(1) in ("crate", "super", "self", "in"):
            self.at = self.tokens.behind[self.at]
        return found

    # ---- structs and enums
    def definition(self, attributes: list[list[str]]) -> Definition:
        """The struct or the enum whose keyword stands here."""
        is_enum, at = self.word() == "enum", self.tokens.starts[self.at]
        self.at += 1
        name = self.name("a type")
        try:
            parameters = self.parameters()
            arguments = ", ".join(parameter.name for parameter in parameters)
            self.own = f"{name}<{arguments}>" if arguments else name
            where = self.where()
            if is_enum and self.word() != "{":
                raise self.fault("an enum without `{`: write its variants in braces")
            variants = self.variants() if is_enum else (self.fields(name),)
            where = where or self.where()
            if not is_enum:
                self.take(";")
        except Fault as fault:
            raise Fault(fault.at, f"{name}: {fault.what}") from None
        derives = {word for words in attributes if words[:1] == ["derive"] for word in words}
        cycle = "".join([[], *(words[2:3] for words in attributes if words[:1] == ["cycle"])][-1])
        end = self.tokens.end(self.at - 1)
        return Definition(is_enum, name, parameters, where, variants, at, end, derives, cycle)

    def parameters(self) -> tuple[Parameter, ...]:
        """The parameters between `<` and `>`, if they stand here."""
        if not self.take("<"):
            return ()
        found = []
        for end in self.entries(self.find(">;", self.tokens.count)):
            kind = "lifetime" if self.word().startswith("'") else "const" if self.take("const") else "type"
            name = self.name("a parameter") if kind != "lifetime" else self.word()
            self.at += kind == "lifetime"
            bounds = self.until(self.find("=", end)) if self.take(":") else ""
            found.append(Parameter(kind, name, " ".join(bounds.split())))
        if not self.take(">"):
            raise self.fault("the parameters of this type have no end: close `<` by `>`")
        return tuple(found)

    def where(self) -> str:
        """The conditions of a clause `where`, if it stands here."""
        conditions = self.until(self.find("{;", self.tokens.count)) if self.take("where") else ""
        return " ".join(conditions.rstrip(",").split())

    def fields(self, name: str) -> Variant:
        """The fields in braces or parentheses that stand here, or none."""
        if self.word() not in ("{", "("):
            return Variant(name)
        bracket = self.word()
        is_named, close = bracket == "{", self.open()
        members: list[Member] = []
        for end in self.entries(close):
            if self.word() != "ghost" or self.word(2) != ":":
                members.append(self.member(str(len(members)), is_named, end))
        self.refuse_directive(close)
        self.at = close + 1
        return Variant(name, tuple(members), bracket)

    def member(self, name: str, is_named: bool, end: int) -> Member:
        """The field that stands here, with what a comment above it says."""
        before = self.tokens.end(self.at - 1)
        self.attributes()
        at = self.tokens.starts[self.at]
        if is_named:
            name = self.name("a field")
            if not self.take(":"):
                raise Fault(at, f"the field {name} has no type: write `{name}: TYPE`")
        member = Member(name, self.type(end), at)
        said = self.tokens.said_between(before, at)
        return directed(member, said) if said else member

    def refuse_directive(self, place: int) -> None:
        """Refuses a comment that speaks of a field and stands above none, right before a token."""
        said = self.tokens.said_between(self.tokens.end(self.at - 1), self.tokens.starts[place])
        if said:
            what = "stands above no field: write it on a line of its own above one"
            raise Fault(said.start, f"`// allocative: {said.says}` {what}")

    def variants(self) -> tuple[Variant, ...]:
        """The variants in the braces that stand here."""
        close, found = self.open(), []
        for end in self.entries(close):
            before = self.tokens.end(self.at - 1)
            self.attributes()
            said = self.tokens.said_between(before, self.tokens.starts[self.at])
            if self.at >= close:
                break
            found.append(self.fields(self.name("a variant")))
            if said:
                found[-1] = directed_variant(found[-1], said)
            if self.word() != "=" and self.at < end:
                what = f"behind the variant {found[-1].name}: write a comma before it"
                raise self.fault(f"`{self.word()}` {what}")
        self.refuse_directive(close)
        self.at = close + 1
        return tuple(found)

    # ---- modules
    def module(self, end: int) -> Module:
        """The module whose items stand from here to an end."""
        module = Module()
        while self.at < end:
            first = self.at
            try:
                self.item(module, end)
            except Fault as fault:
                module.faults.append(fault)
                self.at = first
                self.at = min(self.tokens.behind[self.find("{;", end, False)], end)
        return module

    def item(self, module: Module, end: int) -> None:
        """Reads one item, or passes one token."""
        attributes = self.attributes()
        if self.at >= end:
            return
        word, name = self.word(), self.word(1)
        if word in ("struct", "enum") and name.removeprefix("r#").isidentifier():
            definition = self.definition(attributes)
            if all(words[:1] != ["cfg"] for words in attributes):
                module.types.setdefault(definition.name, definition)
        elif word == "union" and name.isidentifier() and self.word(2) in ("{", "<"):
            raise self.fault(f"{name}: a union, which Rattle does not have: write an enum")
        elif word == "impl":
            found = IMPLEMENTED.search(self.until(self.find("{;", end, False)))
            if found:
                module.implemented.setdefault(found[2], set()).add(found[1])
        elif word == "use" or (word, name) == ("ghost", "use"):
            self.at += 1 if word == "use" else 2
            self.use(module, end, word == "ghost")
        elif word in ("mod", "type") and name.isidentifier():
            self.named(module, word, name, end)
        elif word == "fn":
            self.at = self.find("{;", end, False)
        else:
            module.names.add(name if word in ("trait", "const", "static") else "")
            self.at = self.tokens.behind[self.at]

    def named(self, module: Module, word: str, name: str, end: int) -> None:
        """Reads a module in a module, or another name of a type."""
        self.at += 2
        module.names.add(name)
        if word == "type" and self.take("="):
            module.aliases[name] = self.type(self.find(";", end))
        elif word == "mod" and self.word() == "{":
            close = self.open()
            module.inner[name] = self.module(close)
            self.at = close + 1

    def use(self, module: Module, end: int, is_ghost: bool) -> None:
        """Notes the names that a `use` brings in, with their paths."""
        for name, path in brought(self.until(self.find(";", end, False))):
            if is_ghost:
                module.ghost_uses.add(name)
            elif name == "*":
                module.globs.append(path[:-1])
            else:
                module.uses[name] = path
        self.at += 1


def directed(member: Member, said: Directive) -> Member:
    """A field with what a comment above it says."""
    found = SAYS.fullmatch(said.says) if said.is_line else None
    if not found or int(found[1] or 0) >= 2**64:
        what = "write `skip`, or `size N` with a number of bytes, on a line of its own"
        raise Fault(member.at, f"{member.name}: `// allocative: {said.says}` above it: {what}")
    return member._replace(is_skipped=found[1] is None, size=int(found[1]) if found[1] else None)


def directed_variant(variant: Variant, said: Directive) -> Variant:
    """A variant whose only field, which has no name, is what a comment above the variant speaks of."""
    if variant.bracket != "(" or len(variant.members) != 1:
        what = "stands above a variant: write it above one of the fields"
        raise Fault(said.start, f"`// allocative: {said.says}` {what}")
    return variant._replace(members=(directed(variant.members[0], said),))


def brought(text: str, prefix: tuple[str, ...] = ()) -> Iterator[tuple[str, tuple[str, ...]]]:
    """The names that the text of a `use` brings in, with their paths."""
    head, brace, inside = text.partition("{")
    path, _, alias = head.partition(" as ")
    names = prefix + tuple(" ".join(part.split()) for part in re.split(r"::|\.", path) if part.strip())
    if brace:
        for each in split(inside.rpartition("}")[0], ",", USE_EDGE):
            yield from brought(each, names)
    elif names:
        names = names[:-1] if names[-1] == "self" and len(names) > 1 else names
        yield alias.strip() or names[-1], names


def module_of(tokens: Tokens) -> Module:
    """What stands in a file."""
    return Reader(tokens).module(tokens.count)
