"""Types without implementations that services hold: a field of one is shown by its size, or by that and its length."""

from __future__ import annotations

from typing import NamedTuple

from .known import Scope
from .library import NUMBERS, Bytes
from .types import Type


class Foreign(NamedTuple):
    """How a type is shown: its name and declared bytes.

    A type with a buffer also has its path, the length of a value in clauses, the module of a word in that, and the call that
    gives it in code.
    """

    name: str
    bytes: Bytes
    path: str = ""
    length: str = ""
    call: str = ""
    module: str = ""

    def word(self, value: str) -> str:
        """What a value shows: an entry of the type's name."""
        inside = "shows.Nothing"
        if self.length:
            inside = f'(shows.Inside (codes "u8") ({self.length.format(value)}) shows.Nothing)'
            inside = f'(shows.Unique (codes "ptr") 8 {inside})'
        return f'shows.Inside (codes "{self.name}") {self.bytes.size} {inside}'

    def part(self, name: str, tactic: str) -> str:
        """The part of a name that shows a value with a buffer."""
        return f"""/// A `{self.name}` as it is shown: its size, and the bytes of its buffer.
#[derive(Drop)]
struct {name}<'a>(&'a {self.path});

{tactic}impl<'a> Part for {name}<'a> {{
    ghost may_show = {{ λ x. {self.word("x.0.now")} }};

    ghost is_strict = {{ true }};

    fn enter(self, visitor: &mut Visitor<'_>) -> Result<(), Refusal> {{
        let bytes = Inside("u8", self.0.{self.call}, ());
        Inside("{self.name}", {self.bytes.size}, Unique("ptr", 8, bytes)).enter(visitor)
    }}
}}

"""


def plain(name: str, size: int, align: int, needs_drop: bool = False) -> Foreign:
    """A type that is shown by its size."""
    return Foreign(name, Bytes(size, align, needs_drop))


def buffer(path: str, size: int, length: str, call: str, module: str = "") -> Foreign:
    """A type with a buffer."""
    return Foreign(path.rpartition("::")[2], Bytes(size, 8, True), path, length, call, module)


# The types by their crates, or by their paths. The sizes are those of Rust 1.95 on x86-64, with `url` 2.3, `uuid` 1.2 and `bytes` 1.2. Those
# of `jiff` were not compared.
PLAIN = """uuid Uuid 16 1|jiff Timestamp 16 8|jiff SignedDuration 16 8|jiff Span 64 8|jiff Date 4 2|jiff Time 8 4|
jiff DateTime 12 4|std SocketAddr 32 4|std SocketAddrV4 6 2|std SocketAddrV6 28 4"""
KNOWN = {(home, name): plain(name, int(size), int(align)) for home, name, size, align in map(str.split, PLAIN.split("|"))}
KNOWN |= {
    ("jiff", "Zoned"): plain("Zoned", 40, 8, True),
    ("std", "io", "Error"): plain("Error", 8, 8, True),
    ("url", "Url"): buffer("url::Url", 88, "length (serialize {})", "as_str().len()", "url.specs.Parts"),
    ("bytes", "Bytes"): buffer("bytes::Bytes", 32, "length {}", "len()"),
    ("bytes", "BytesMut"): buffer("bytes::BytesMut", 32, "length {}.items", "len()"),
    ("std", "PathBuf"): buffer(
        "std::path::PathBuf", 24, "length (path_buf_bytes {})", "as_str().len()", "std.specs.Path"
    ),
}
# The modules of words of clauses.
MODULES = {known.module: {known.length.split("(")[1].split()[0]} for known in KNOWN.values() if known.module}


def of(scope: Scope, kind: Type) -> Foreign | None:
    """How a field of a type is shown: of one of those here, of numbers in a range or an `ArrayVec`, or of an option of one without a buffer."""
    kind = scope.real(kind)
    path = scope.path(kind) if kind.path else ()
    if not path or scope.own(kind):
        return None
    homes = path[:1] if len(path) > 1 else [each[0] for each in scope.module.globs]
    known = [KNOWN[each] for each in (path, *((home, path[-1]) for home in homes)) if each in KNOWN]
    if known or not kind.parts:
        return known[0] if known else None
    part, *counts = kind.parts
    size = NUMBERS.get(part.name, 0) if part.text == part.name else 0
    if path == ("std", "ops", "Range") and size:
        return plain("Range", 2 * size, size)
    if path == ("std", "ops", "RangeInclusive") and size:
        return plain("RangeInclusive", 3 * size, size)
    count = counts[0].text if len(counts) == 1 else ""
    if path == ("arrayvec", "ArrayVec") and size and count.isdigit():
        # The layout of `arrayvec` 0.7: a `u32` for the length, and the array.
        align = max(4, size)
        return plain("ArrayVec", -(-(4 + size * int(count)) // align) * align, align)
    held = of(scope, part) if path == ("Option",) else None
    if held is None or held.length:
        return None
    size, align, needs_drop = held.bytes
    return plain("Option", (size // align + 1) * align, align, needs_drop)
