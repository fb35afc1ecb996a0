"""The runs of built programs that tools/each_growth and tools/try_all make: what each is given, and what it ends in."""

from __future__ import annotations

import dataclasses
import os
from collections.abc import Callable, Iterator

TOP = os.path.dirname(os.path.dirname(os.path.realpath(__file__)))
STACKS = os.path.join(TOP, "tools/stacks")


@dataclasses.dataclass(frozen=True)
class Ended:
    """How a run ended, and whether the call that was to be refused was made."""

    status: int
    output: bytes
    errors: bytes
    is_met: bool = False


@dataclasses.dataclass(frozen=True)
class Case:
    """A run in the folder STACKS: what it ends in, and what it may end in otherwise if a growth is refused."""

    name: str
    command: list[str | bytes]
    is_wanted: Callable[[Ended], bool]
    is_refused: Callable[[Ended], bool] = lambda _: False
    text: bytes = b""


def built(crate: str, suffix: str = "") -> str:
    return os.path.join(TOP, "crates", crate, "out", crate + suffix)


def read(path: str) -> bytes:
    with open(os.path.join(TOP, path), "rb") as file:
        return file.read()


def rows_of(path: str) -> Iterator[list[bytes]]:
    """Gives the fields of each row of a table, with `\\n` and `\\xHH` made the bytes that they stand for."""
    for line in read(path).split(b"\n"):
        if line and not line.startswith(b"#"):
            yield [field.decode("unicode_escape").encode("latin-1") for field in line.split(b"|")]


def says(run: Ended, status: int, line: bytes) -> bool:
    """Whether a run ended with the status, this one line behind the program's name, and no output."""
    return run.status == status and not run.output and run.errors.partition(b": ")[2] == line + b"\n"


def case_of(crate: str, row: list[bytes], is_written: Callable[[Ended], bool]) -> Case:
    """A row of arguments, input, status, and what is written or the line on standard error."""
    arguments, text, status, line = row[0].split(), row[1], int(row[2]), row[3]
    is_wanted = (lambda run: says(run, status, line)) if status else is_written
    name = f"{crate} {row[0]!r} < {text[:40]!r}"
    return Case(name, [built(crate), *arguments], is_wanted, lambda run: says(run, 1, b"out of memory"), text)


def exact_case(row: list[bytes], crate: str = "allocative_json_main") -> Case:
    """A row that has what goes to standard output and to standard error."""
    return case_of(crate, row, lambda run: (run.status, run.output, run.errors) == (0, row[3], row[4]))


def filter_case(row: list[bytes]) -> Case:
    """A row that has texts of the output."""
    return case_of("allocative_picture_filter", row, lambda run: (run.status, run.errors) == (0, b"") and all(it in run.output for it in row[3:]))


def stored_case(crate: str) -> Case:
    """The run that the crate's files `args`, `stdin` and `stdout` store."""
    files = (os.path.join(TOP, "crates", crate, it) for it in ("args", "stdin", "stdout"))
    arguments, text, stored = (read(it) if os.path.exists(it) else b"" for it in files)
    return exact_case([arguments, text, b"0", stored, b""], crate)


def row_cases() -> Iterator[Case]:
    """The runs of the JSON programs and of the picture filter besides the stored ones."""
    yield from map(exact_case, rows_of("tools/documents/runs"))
    yield from map(filter_case, rows_of("tools/stacks/runs"))
    yield filter_case([b"", b";" * 10000 + b" 1\n", b"2", b"line 1 of the input has more than 10000 keys"])
    yield filter_case([b"--before change.earlier", read("tools/stacks/change.folded"), b"0", read("tools/stacks/change.svg")])
