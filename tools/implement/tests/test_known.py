"""Tests that the tool and its page know the types that the libraries implement, and no others."""

import os
import re
import unittest
from functools import cache

from ..library import NUMBERS, TYPES, Bytes, having
from ..source import Crate

TOP = os.path.realpath(os.path.join(os.path.dirname(__file__), "../../.."))
CRATES = {f"allocative{end}" for end in ("", "_described", "_graph", "_tally", "_service")}
# What the library implements for itself: values that are counted or named.
INNER = {"CountedRoots", "CountedValue", "Kept", "Named", "NamedRef"}
# Names of a `Book` of some kind.
BOOKS = {"Ledger", "Store"}
# What has a size and shows nothing: what makes hashers, and a type without values.
SIZED = {"BuildHasherDefault", "RandomState", "Infallible"}
IMPL = re.compile(r"^impl\b(.*?)\b(Allocative|Described)\s+for\s+(?:\w+::)*(\w+)(.*?)^}", re.MULTILINE | re.DOTALL)
FIXED = re.compile(r"fn layout\(\) -> Layout {\s+Layout::new\(\s*\"[\w:]+\",\s*(\d+),\s*(\d+),\s*(true|false),?\s*\)\s+}")


@cache
def library(name: str) -> Crate:
    return Crate(os.path.join(TOP, "crates", name))


def implementing(trait: str) -> set[str]:
    """The names of the types for which a library implements a trait. Tuples, arrays and references have none."""
    found = {name for crate in CRATES for each, name in library(crate).implemented if each == trait}
    return {name for name in found if len(name) > 1 and name not in INNER}


def bodies(trait: str) -> dict[str, tuple[str, str]]:
    """The parameters and the body of each implementation of a trait, by the name of its type."""
    texts = (text for crate in CRATES for text in library(crate).files.values())
    found = (each for text in texts for each in IMPL.findall(text))
    return {name: (parameters, body) for parameters, which, name, body in found if which == trait and name in TYPES}


class KnownTest(unittest.TestCase):
    def test_types_that_are_shown(self) -> None:
        self.assertEqual(implementing("Allocative"), TYPES.keys() - BOOKS)
        self.assertEqual(implementing("Described"), (TYPES.keys() | SIZED) - BOOKS)

    def test_types_that_are_counted(self) -> None:
        leaves = {name for text in library("allocative_tally").files.values() for name in re.findall(r"^impl Leaf for (\w+)", text, re.M)}
        self.assertEqual(implementing("Tallied") | leaves, having("tally"))

    def test_types_that_are_strict(self) -> None:
        loose = {name for name, (_, body) in bodies("Allocative").items() if "ghost is_strict" not in body}
        self.assertEqual(loose, having("loose"))

    def test_sizes(self) -> None:
        found = {name: FIXED.search(body) for name, (_, body) in bodies("Described").items()}
        sizes = {name: Bytes(int(each[1]), int(each[2]), each[3] == "true") for name, each in found.items() if each}
        self.assertEqual(sizes, {name: known.bytes for name, known in TYPES.items() if known.bytes and name in sizes})
        # What is put together of parts that do not differ.
        together = set("HashMap HashSet IndexMap IndexSet LruCache Book Ledger Store Account History".split())
        self.assertEqual({name for name, known in TYPES.items() if known.bytes and name not in sizes}, together)

    def test_bounds(self) -> None:
        for name, (parameters, _) in bodies("Described").items():
            first = parameters.strip("<> ").split(",")[0].partition(":")[2]
            asked = [word for word in ("Eq", "Hash", "Ord") if re.search(rf"\b{word}\b", first)]
            self.assertEqual((name, asked), (name, [word for word in TYPES[name].asks if word != "Copy"]))

    def test_the_page_has_their_sizes(self) -> None:
        with open(os.path.join(TOP, "docs/IMPLEMENTING.md"), encoding="utf-8") as file:
            table = file.read().partition("\n## Declared sizes\n")[2].partition("\n\nHere ")[0]
        rows = [line.split(" | ")[0] for line in table.splitlines() if line.startswith("| `")]
        listed = {name for row in rows for name in re.findall(r"\b[A-Z]\w{2,}", row)} - {"Record", "And"}
        self.assertEqual(listed, (TYPES.keys() | SIZED) - NUMBERS.keys())


if __name__ == "__main__":
    unittest.main()
