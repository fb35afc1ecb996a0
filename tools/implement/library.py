"""The types that the library implements, and what is known of each."""

from __future__ import annotations

from typing import NamedTuple

# A line for each type: its name and crate, its bytes and alignment, or `-` if they follow from its parts, and words: what it
# asks of its first parameter; `drop` if a value has something to drop; `copy` if it is `Copy`; `pointer` if its items stand
# behind a pointer, and `many` if they are any number; `tally` if its values can be counted; `loose` if it is not strict; how
# many parameters stand before the one that makes hashers.
TABLE = """
String std 24/8 drop tally
Vec std 24/8 drop tally many pointer
VecDeque std 32/8 drop tally many pointer
LinkedList std 24/8 drop tally many pointer
BinaryHeap std 24/8 drop tally many pointer Ord
BTreeMap std 24/8 drop tally many pointer Ord
BTreeSet std 24/8 drop tally many pointer Ord
HashMap std 48/8 drop tally many pointer Eq Hash 2
HashSet std 48/8 drop tally many pointer Eq Hash 1
IndexMap indexmap 72/8 drop tally many pointer Eq Hash 2
IndexSet indexmap 72/8 drop tally many pointer Eq Hash 1
LruCache lru 72/8 drop tally many pointer Eq Hash 2
Slab slab 40/8 drop tally pointer
SmallVec smallvec - drop tally
Box std 8/8 drop tally pointer
BoxedSlice std 16/8 drop tally many pointer
BoxedStr std 16/8 drop tally
OnceBox once_cell 8/8 drop pointer loose
IdRc allocative 8/8 drop pointer
IdArc allocative 8/8 drop pointer
FlameGraph allocative 40/8 drop
BoundedCache allocative_service - drop pointer Eq Hash 2
Book allocative_service 48/8 drop pointer Ord
Ledger allocative_service 48/8 drop
Store allocative_service 48/8 drop pointer Ord
Account allocative_service 64/8 drop pointer Ord
History allocative_service 40/8 drop
Value serde_json 32/8 drop
Number serde_json 16/8 copy
Error anyhow 8/8 drop
Option std - copy tally
Result std - copy tally
Either either - copy tally
ManuallyDrop std - copy
PhantomData std 0/1 copy
Cell std - Copy loose
RefCell std - loose
OnceCell std - loose
Mutex std - loose
RwLock std - loose
OnceLock std - loose
Reverse std - copy
Wrapping std - copy
Bound std - copy
Ordering std 1/1 copy
ArcStr std 16/8 drop
CowStr std 24/8 drop
Duration std 16/8 copy tally
Instant std 16/8 copy tally
SystemTime std 16/8 copy tally
IpAddr std 17/1 copy tally
Ipv4Addr std 4/1 copy tally
Ipv6Addr std 16/1 copy tally
"""
# The bytes of numbers, which are as large as their alignment.
FORMS = ("u", "i", "NonZeroU", "NonZeroI", "AtomicU", "AtomicI")
NUMBERS = {f"{form}{bits}": bits // 8 for form in FORMS for bits in (8, 16, 32, 64)}
NUMBERS |= {f"{form}size": 8 for form in FORMS} | {"u128": 16, "i128": 16, "f32": 4, "f64": 8, "char": 4}
NUMBERS |= {"bool": 1, "AtomicBool": 1}


class Bytes(NamedTuple):
    """The declared bytes of a type, its alignment, and whether a value has something to drop."""

    size: int
    align: int
    needs_drop: bool


class Known(NamedTuple):
    """A type of the library. The bytes are those without parameters that make hashers."""

    crate: str
    bytes: Bytes | None
    words: set[str]

    @property
    def asks(self) -> list[str]:
        """The traits that the first parameter needs."""
        return [word for word in ("Copy", "Eq", "Hash", "Ord") if word in self.words]


def known(line: str) -> tuple[str, Known]:
    """A type from its line, by its name."""
    name, crate, size, *words = line.split()
    numbers = [int(number) for number in size.split("/") if number.isdigit()]
    return name, Known(crate, Bytes(*numbers, "drop" in words) if numbers else None, set(words))


def number(name: str, size: int) -> Known:
    """A type of numbers."""
    return Known("std", Bytes(size, size, False), set() if name.startswith("Atomic") else {"copy", "tally"})


TYPES = dict(known(line) for line in TABLE.strip().splitlines())
TYPES |= {name: number(name, size) for name, size in NUMBERS.items()}
# The number of parameters before the one that makes hashers, which is described and not shown.
BEFORE_HASHER = {name: int(word) for name, each in TYPES.items() for word in each.words if word.isdigit()}
# Types that need no `use`.
PRELUDE = {"String", "Vec", "Option", "Result", "Box", *(name for name in NUMBERS if name[0].islower())}


def having(word: str) -> set[str]:
    """The names of the types that have a word."""
    return {name for name, each in TYPES.items() if word in each.words}
