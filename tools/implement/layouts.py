"""The layouts of types, and of the fields and variants of those that are written, as code and as clauses."""

from __future__ import annotations

import re
from functools import reduce
from typing import NamedTuple

from . import foreign
from .known import Scope, split_at_hasher
from .library import TYPES, Bytes
from .types import Definition, Member, Type, Variant

TAGGED = ("Option", "Result", "Either", "Bound")
POINTERS = ("Rc", "Arc", "Weak", "Box")
# What stands before the value in a cell or a lock, by its crate: its bytes, and the least alignment.
BEFORE = {("std", "Mutex"): (5, 4), ("std", "RwLock"): (9, 4), ("std", "RefCell"): (8, 8), ("std", "Cell"): (0, 1)}
BEFORE |= {("std", "OnceLock"): (4, 4), ("std", "OnceCell"): (1, 1), ("std", "UnsafeCell"): (0, 1), ("std", "ManuallyDrop"): (0, 1)}
BEFORE |= {("std", "Reverse"): (0, 1), ("std", "Wrapping"): (0, 1)}
BEFORE |= {("parking_lot", "Mutex"): (1, 1), ("parking_lot", "RwLock"): (8, 8)}
# The bytes and the alignment of types that are not described: those in Rust on x86-64, or of the Rust type for which one stands.
SIZES = {
    "std": {(24, 8): "OsString JoinHandle CowSlice", (16, 8): "CString Sender SyncSender Receiver RandomState Layout TypeId"}
    | {(8, 8): "Thread ThreadId AtomicPtr NonNull Stdin Stdout", (40, 8): "Barrier", (0, 1): "Infallible"}
    | {(4, 4): "File TcpListener TcpStream UdpSocket UnixStream Condvar Once"},
    "crossbeam_channel": {(16, 8): "Sender Receiver"},
    "chrono": {(4, 4): "NaiveDate", (8, 4): "NaiveTime", (12, 4): "NaiveDateTime"},
    "regex": {(32, 8): "Regex"},
    "semver": {(40, 8): "Version"},
}
FOUND = {(home, name): size for home, sizes in SIZES.items() for size, names in sizes.items() for name in names.split()}
# What is taken for a field of which only the size is said.
UNKNOWN = Bytes(0, 8, True)
NAME = re.compile(r"\w+")
# What stands before a sign: each has a line of its own.
BREAK = "\n" + " " * 8


class Layout(NamedTuple):
    """A layout, as code and as a clause."""

    code: str
    clause: str

    @property
    def operand(self) -> str:
        """The clause as what stands at a sign."""
        return f"({self.clause})" if BREAK in self.clause else self.clause


def of_type(kind: str) -> Layout:
    """The layout of a type that is described."""
    return Layout(f"{kind if NAME.fullmatch(kind) else f'<{kind}>'}::layout()", f"⟦<{kind} as Described>⟧.layout")


def of_bytes(key: str, known: Bytes) -> Layout:
    """The layout of so many bytes."""
    numbers = known.size, known.align, str(known.needs_drop).lower()
    return Layout(f'Layout::new("{key}", {", ".join(map(str, numbers))})', f'declared (codes "{key}") {" ".join(map(str, numbers))}')


def of_fields(name: str, fields: list[Layout]) -> Layout:
    """The layout of fields one after the other."""
    code = "".join(f".with({each.code})" for each in fields)
    return Layout(f'Layout::empty("{name}"){code}', f"{BREAK}with ".join((f'empty (codes "{name}")', *(each.operand for each in fields))))


def either(one: Layout, other: Layout) -> Layout:
    """Room for the greater of two."""
    return Layout(f"{one.code}.or({other.code})", f"{one.clause}{BREAK}or {other.operand}")


def padded(layout: Layout) -> Layout:
    """A layout whose size is rounded up to its alignment."""
    return Layout(f"{layout.code}.pad_to_align()", f"pad_to_align ({layout.clause})")


def size_of(layout: Layout) -> Layout:
    """The size of a layout."""
    is_one = layout.clause.startswith("⟦")
    return Layout(f"{layout.code}.size()", f"{layout.clause if is_one else f'({layout.clause})'}.size")


class Layouts:
    """Finds the layouts of types in a scope."""

    def __init__(self, scope: Scope) -> None:
        self.scope = scope

    def of(self, definition: Definition) -> Layout:
        """The layout of a type that is written."""
        lists = [self.fields(variant, definition) for variant in definition.variants]
        if definition.is_enum:
            named = [(variant.name, fields) for variant, fields in zip(definition.variants, lists) if fields]
            variants = [fields[0] if len(fields) == 1 else of_fields(name, fields) for name, fields in named]
            lists = [[of_type("u8"), *([reduce(either, dict.fromkeys(variants))] if variants else ())]]
        return padded(of_fields(definition.name, lists[0]))

    def of_variant(self, variant: Variant, definition: Definition) -> Layout:
        """The layout of the entry of a variant."""
        return padded(of_fields(variant.name, self.fields(variant, definition)))

    def fields(self, variant: Variant, definition: Definition) -> list[Layout]:
        """The layouts of the fields that count."""
        parameters = definition.names("type")
        fields = [each for each in variant.members if each.type.name != "PhantomData"]
        return [found for found in (self.of_field(each, parameters) for each in fields) if found]

    def of_field(self, member: Member, parameters: tuple[str, ...]) -> Layout | None:
        """The layout of a field, or nothing if it is not known."""
        key = member.name if member.name.isidentifier() else f"part{member.name}"
        if member.is_whole:
            return of_type(member.type.text)
        found = self.bytes(member.type)
        if member.size is not None:
            return of_bytes(key, (found or UNKNOWN)._replace(size=member.size))
        if found:
            return of_bytes(key, found)
        return None if self.scope.reason(member.type, parameters) else of_type(member.type.text)

    def bytes(self, kind: Type) -> Bytes | None:
        """The bytes of a type, if they are known here."""
        kind = self.scope.real(kind)
        known, home = foreign.of(self.scope, kind), self.home(kind)
        if known:
            return known.bytes
        if kind.form == "reference" or kind.text.startswith("*") or (kind.name in POINTERS and kind.parts):
            return Bytes(16 if is_wide(kind) else 8, 8, kind.form == "path")
        if self.scope.is_of_library(kind) and TYPES[kind.name].bytes:
            return TYPES[kind.name].bytes if all(part.name == "RandomState" for part in split_at_hasher(kind)[1]) else None
        if home in FOUND and not self.scope.own(kind):
            return Bytes(*FOUND[home], True)
        parts = [self.bytes(part) for part in kind.parts]
        if not all(parts):
            return None
        if kind.form == "tuple":
            return laid_out(parts)
        if kind.form == "array":
            length = kind.text.rpartition("; ")[2][:-1]
            return parts[0]._replace(size=parts[0].size * int(length)) if length.isdigit() else None
        if kind.name in TAGGED and parts:
            # Rust may keep the tag in the value.
            is_declared = not any(self.home(each) in FOUND for each in kind.all())
            return laid_out(parts, 1) if is_declared else None
        if home not in BEFORE or not parts or self.scope.own(kind):
            return None
        found = laid_out(parts, *BEFORE[home])
        return found._replace(needs_drop=False) if kind.name == "ManuallyDrop" else found

    def home(self, kind: Type) -> tuple[str, str]:
        """The crate and the name of a type."""
        path = self.scope.path(kind) if kind.path else ()
        return path[0] if len(path) > 1 else "std", kind.name


def laid_out(parts: list[Bytes], before: int | None = None, least: int = 1) -> Bytes:
    """The bytes of parts: of all, or of the greatest behind some bytes."""
    sizes, align = [part.size for part in parts], max([least, *(part.align for part in parts)])
    size = sum(sizes) if before is None else before + max(sizes)
    return Bytes(-(-size // align) * align, align, any(part.needs_drop for part in parts))


def is_wide(kind: Type) -> bool:
    """Whether a reference or a pointer has two words."""
    part = kind.parts[0] if kind.parts else kind
    return part.name in ("str", "Path", "OsStr", "CStr") or part.text.startswith("dyn ") or (part.form, part.text[:1]) == ("other", "[")
