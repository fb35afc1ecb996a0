"""The definitions of the crates' `specs` that a clause reaches, in an order in which each file stands before those that use it."""

from __future__ import annotations

import dataclasses
import functools
import os
import re

TOP = os.path.dirname(os.path.dirname(os.path.realpath(__file__)))
WORD = re.compile(r"[^\W\d][\w'′-]*(?:\.[^\W\d][\w'′-]*)?")
USE = re.compile(r"^(?:ghost |pub )*use Rattle\.(\w+)\.specs\.([\w.]+?)(?:\.\{([^}]*)\})?(?: as (\w+))?;?$", re.M)
HEAD = re.compile(r"(?:(?:abbrev|pub|data|record)\s+)+([^\s:]+)")
# A constructor of `data`.
VARIANT = re.compile(r"^  (\S+) :", re.M)

# A module of `specs`, as `allocative_graph/specs/Path`, and a name in it; of a module itself the name is empty.
Name = tuple[str, str]


def imports(text: str) -> dict[str, Name]:
    """Returns what each name that a file uses from others stands for."""
    found = {}
    for crate, path, names, alias in USE.findall(text):
        module = f"{crate}/specs/{path.replace('.', '/')}"
        if not names:
            found[alias or path.rpartition(".")[2]] = (module, "")
        for name in filter(None, map(str.strip, names.split(","))):
            source, _, local = name.partition(" as ")
            found[local or source] = (module, source)
    return found


@dataclasses.dataclass(frozen=True)
class Module:
    """A file: what it says of itself, what it uses, its definitions with their sentences, and the definition of each name."""

    subject: str
    uses: dict[str, Name]
    definitions: tuple[str, ...]
    places: dict[str, int]


@functools.cache
def module_at(name: str) -> Module | None:
    """Returns a module, or None for one that the checker makes of the sources."""
    path = os.path.join(TOP, "crates", f"{name}.antt")
    if not os.path.isfile(path):
        return None
    with open(path, encoding="utf-8") as file:
        text = file.read()
    definitions, places = [], {}
    for paragraph in text.split("\n\n"):
        head = HEAD.match(re.sub(r"^(?:--.*\n|use .*\n)+", "", paragraph))
        if head:
            variants = VARIANT.findall(paragraph) if re.search(r"^(?:pub )?data ", paragraph, re.M) else []
            places |= dict.fromkeys([head[1], *variants], len(definitions))
            definitions.append(paragraph.strip("\n"))
    subject = re.match(r"(?:-- .*\n)*", text)[0]
    return Module(re.sub(r"^-- ", "", subject, flags=re.M), imports(text), tuple(definitions), places)


def meet(text: str, uses: dict[str, Name], home: str, seen: dict[str, set[int]]) -> None:
    """Adds the definitions that a text of a module names, and those that they name."""
    own = module_at(home)
    for word in WORD.findall(re.sub(r"--.*", "", text)):
        first, _, second = word.partition(".")
        module, name = uses.get(first, (home, first) if own and first in own.places else ("", ""))
        add(module, name or second, seen)


def add(module: str, name: str, seen: dict[str, set[int]]) -> None:
    """Adds a definition, and those that it names."""
    found = module_at(module)
    if found and name in found.uses:
        add(*found.uses[name], seen)
    place = found.places.get(name) if found else None
    if place is not None and place not in seen.setdefault(module, set()):
        seen[module].add(place)
        meet(found.definitions[place], found.uses, module, seen)


def in_order(modules: dict[str, set[int]]) -> list[str]:
    """Returns the modules, each behind those that it uses."""
    found: dict[str, None] = {}

    def visit(name: str) -> None:
        for used, _ in module_at(name).uses.values():
            if used in modules and used != name and used not in found:
                visit(used)
        found[name] = None

    for name in modules:
        visit(name)
    return list(found)


def reached(clause: str, source: str) -> list[tuple[str, str, list[str]]]:
    """Returns each module that a clause of a source reaches, what the module says of itself, and its definitions reached."""
    seen: dict[str, set[int]] = {}
    meet(clause, imports(source), "", seen)
    modules = ((name, module_at(name)) for name in in_order(seen))
    return [(name, it.subject, [it.definitions[place] for place in sorted(seen[name])]) for name, it in modules]
