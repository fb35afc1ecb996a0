"""A source file with its crate: what is read of it, its faults, and the new text of its module."""

from __future__ import annotations

import contextlib
import os
import re
from argparse import Namespace
from collections.abc import Callable
from functools import cached_property

from . import foreign
from .foreign import Foreign
from .known import Scope, is_lasting
from .layouts import Layouts, is_wide
from .names import NAME
from .tally import HOMES, MANY, Tally, find_tallied, untallied
from .text import Writer
from .tokens import Fault, Tokens
from .types import Definition, Member, Module, Type, module_of, type_of

BEGIN, END = "// allocative: begin", "// allocative: end"
CODE = set("Allocative Declared Described Field Inside Layout Part Refusal Unique Visitor Whole".split())
RESERVED = CODE | {"Option", "Result", "Box", "String"}
BY_HAND = 'write it by hand: "A type that holds itself" in docs/IMPLEMENTING.md'
TACTIC = "[tactic(auto, using(allocative::proofs::Parts::parts))]\n"
OUTWARD = re.compile(r"(?<![\w:])(self|super)::(\w+)")
# At most about so many fields, at any depth, stand in a type but behind pointers. What enters a value refers to each
# twice, and the checker takes no type that reaches too many.
LARGEST_INLINE = 8000
# If a type holds itself, at most so many names of types stand in its fields and in those of the types that it reaches. The
# checker proves the drop of such a type with 373 names, and stops with 451; with parameters it stops between 222 and 263.
REACH, GENERIC_REACH = 430, 230
LETTER = re.compile(r"[^\n]")
LINE = re.compile(r"[^\n]*")
# The words of clauses, by their modules, and the signs.
WORDS = {
    "std.specs.Prelude": "Some codes false length true ◌&&◌",
    "allocative.specs.Layouts": "declared empty pad_to_align ◌or◌ ◌with◌",
    "allocative.specs.Levels": "both both_levels box_of btree_map_of child field first hash_map_of opened option_in pair_in plain "
    "recursive second vec_in",
    "allocative_tally.specs.Whole": "is_whole starting",
    "allocative_tally.specs.Shapes": "Beside NoEntry entries pointers_shape",
}
GHOST = re.compile(r"^    ghost (?!use )\w+ = (\{.*?\});$", re.MULTILINE | re.DOTALL)
# What names no word of a clause: a text, what stands for a type, and what is behind a dot.
NO_WORD = re.compile(r'"[^"]*"|⟦[^⟧]*⟧|\.\w+')
WORD = re.compile(r"[\w-]+|&&")
DECLARED = re.compile(r"\b(?:struct|enum)\s+(\w+)")


class Crate:
    """The folder of a crate, and what its files and those of other crates of the repository implement."""

    def __init__(self, folder: str) -> None:
        self.folder = folder
        self.name = os.path.basename(folder)
        self.others: dict[str, Crate] = {}

    @cached_property
    def files(self) -> dict[str, str]:
        """The text of each source file, by its path in the crate."""
        found = {}
        for folder, _, names in os.walk(os.path.join(self.folder, "src")):
            for path in (os.path.join(folder, name) for name in sorted(names) if name.endswith(".rt")):
                with open(path, encoding="utf-8", errors="replace") as file:
                    found[os.path.relpath(path, self.folder)] = file.read()
        return found

    @cached_property
    def modules(self) -> list[Module]:
        """What stands in each file and in the modules in it. A file that cannot be read is left out."""
        found: list[Module] = []
        for text in self.files.values():
            with contextlib.suppress(Fault):
                found += module_of(Tokens(text)).all()
        return found

    @cached_property
    def implemented(self) -> set[tuple[str, str]]:
        """The traits that are implemented, each with the type."""
        pairs = (pair for module in self.modules for pair in module.implemented.items())
        return {(trait, name) for name, traits in pairs for trait in traits}

    @cached_property
    def types(self) -> dict[str, Definition]:
        """The types that the files declare."""
        return {name: each for module in self.modules for name, each in module.types.items()}

    def reached(self, name: str) -> set[str]:
        """The types of the crate that a type of it names, at any depth."""
        kinds = {each: {kind.name for member in one.members for kind in member.type.all()} for each, one in self.types.items()}
        return closure(name, lambda each: kinds.get(each, set()) & kinds.keys())

    def reason(self, path: tuple[str, ...], traits: tuple[str, ...] = ("Allocative", "Described")) -> str:
        """Why a type of another file cannot be shown, or nothing: it lacks some traits."""
        root, name = path[0], path[-1]
        is_near = root in ("crate", "super", "self")
        beside = os.path.join(os.path.dirname(self.folder), root)
        crate = self if is_near else self.others.setdefault(root, Crate(beside))
        if {(trait, name) for trait in traits} <= crate.implemented:
            return ""
        if not is_near:
            return f"`{name}` of `{root}` has no implementation"
        where = next((path for path, text in self.files.items() if name in DECLARED.findall(text)), "")
        what = f"of {where} has no implementation yet: write that one first" if where else "is not found"
        return f"`{name}` {what}"


class Source:
    """A source file. Reading it raises a fault if its tokens, or the module asked for, cannot be read."""

    def __init__(self, text: str, chosen: Namespace, is_inline: bool) -> None:
        self.chosen = chosen
        self.is_inline = is_inline
        self.inner = [part for part in chosen.module.split("::") if part]
        folder, inside = crate_of(chosen.file)
        self.path = [*inside, *self.inner]
        self.crate = Crate(folder)
        self.text = text
        self.pieces = pieces_of(text)
        blanks = [(*piece, LETTER.sub(" ", text[slice(*piece)])) for piece in self.pieces]
        self.module = self.find(spliced(text, blanks))
        if self.pieces and not is_inline:
            self.module.implemented = self.find(text).implemented
        self.text_at = self.path if is_inline else [*self.path, "shown"]
        self.declared_at = ".".join(["Rattle", self.crate.name, "specs.declared", *self.path])
        self.tactic = f"#{TACTIC}" if is_inline else ""
        is_named = bool(chosen.types) and set(chosen.types) <= self.module.types.keys()
        self.faults = [] if is_named else self.module.faults
        self.reserved = RESERVED.union(*HOMES.values() if chosen.counted else ())
        self.notes: dict[str, str] = {}
        self.taken = {name.lower() for name in (*self.module.types, *self.module.names, *self.module.uses)}
        wanted = self.wanted_types()
        names = [each.name for each in wanted]
        self.scope = Scope(self.module, names, self.crate.reason, lambda name: self.crate.types.get(name))
        self.layouts = Layouts(self.scope)
        self.passed_over: list[int | None] = []
        self.uncounted: list[str] = []
        # The names of the parts of foreign types.
        self.parts: dict[Foreign, str] = {}
        self.wanted = {each.name: self.judged(each) for each in wanted}
        self.module.types.update(self.wanted)
        # The names of the types that have the layouts of variants, by the names of both.
        entries = [(name, variant.name) for name, each in self.wanted.items() for variant in each.variants if variant.is_entry]
        self.records = {names: self.free("".join(names), "Fields") for names in entries}
        self.scope.find_strict()
        self.untallied = find_tallied(self) if chosen.counted else {}

    def find(self, text: str) -> Module:
        """The module of a text that is asked for."""
        module = module_of(Tokens(text))
        for name in self.inner:
            if name not in module.inner:
                raise Fault(0, f"the module {name}, which was asked for, does not stand in braces here")
            module = module.inner[name]
        return module

    def fault(self, at: int, what: str) -> None:
        self.faults.append(Fault(at, what))

    def wanted_types(self) -> list[Definition]:
        """The types that get implementations."""
        names, types = self.chosen.types, self.module.types
        shown = {name for name in types if "Allocative" in self.module.implemented.get(name, ())}
        for name in names:
            if name not in types:
                self.fault(0, f"{name}: the file has no struct or enum of this name")
            elif name in shown:
                what = "it has `impl Allocative` already: remove that or the name"
                self.fault(types[name].at, f"{name}: {what}")
        chosen = names or [name for name, each in types.items() if name not in shown and each.variants]
        return [each for name, each in types.items() if name in chosen]

    # ---- faults of a type
    def judged(self, definition: Definition) -> Definition:
        """A type whose fields that cannot be shown are told, or passed over if that is asked for."""
        name, at = definition.name, definition.at
        bounds = definition.where + "".join(each.bounds for each in definition.parameters)
        faults = {
            "the text that is written uses this name: rename the type, or write its implementations by hand": name in self.reserved,
            "Rattle has no bound `?Sized`: remove it": "?" in bounds,
        }
        for what in (what for what, is_fault in faults.items() if is_fault):
            self.fault(at, f"{name}: {what}")
        if not (definition.derives | self.module.implemented.get(name, set())) & {"Drop", "Copy"}:
            self.fault(at, f"{name}: it is not `Drop`: write `#[derive(Drop)]` above it")
        variants = []
        for variant in definition.variants:
            of_what = f"{name}::{variant.name}" if definition.is_enum else name
            members = tuple(self.judged_member(definition, of_what, member) for member in variant.members)
            variants.append(variant._replace(members=members))
        return definition._replace(variants=tuple(variants))

    def judged_member(self, definition: Definition, of_what: str, member: Member) -> Member:
        if not self.is_inline and "::" in member.type.text:
            member = member._replace(type=type_of(OUTWARD.sub(self.outward, member.type.text)))
        faults = [*dict.fromkeys(self.scope.refusals(member.type, definition))]
        if member.name == "deriving":
            faults.append("the checker reserves this name: rename the field")
        if member.is_whole:
            member = member._replace(foreign=foreign.of(self.scope, member.type))
            kind = self.scope.real(member.type)
            if kind.form == "reference" and not is_lasting(kind):
                member = member._replace(size=self.layouts.bytes(kind).size)
        types = definition.names("type")
        reason = self.scope.reason(member.type, types) if member.is_whole else ""
        is_known = self.layouts.of_field(member._replace(is_skipped=True, size=None), types) is not None
        where, advice = f"{of_what}.{member.name}", self.advice(member, is_known)
        is_passed = member.is_skipped or bool(reason and self.chosen.skip_unknown)
        if is_passed and not faults and (is_known or self.chosen.skip_unknown):
            return self.passed(definition.name, where, member, reason, "" if is_known else advice)
        if reason or (is_passed and not is_known):
            what = self.ring(definition.name, member.type) or f"{reason or 'its size is not known'}: {advice}"
            # What is refused of a type is not told twice.
            faults += [what] if what.split("`")[1] not in [each.split("`")[1] for each in faults if "`" in each] else []
        for what in faults:
            self.fault(member.at, f"{where}: {what}")
        return member

    def passed(self, name: str, where: str, member: Member, reason: str, advice: str) -> Member:
        """A field that is passed over, with advice if its size is not known."""
        if advice:
            self.uncounted.append(f"{where} is passed over and counts no bytes: {advice}")
        elif member.type.name != "PhantomData":
            known = self.layouts.bytes(member.type)
            self.passed_over.append(known.size if known else None)
        note = f"// `{member.name}` is passed over: {reason}.\n" if reason else ""
        self.notes[name] = self.notes.get(name, "") + note
        return member._replace(is_skipped=True)

    def ring(self, name: str, kind: Type) -> str:
        """Why a type cannot be shown that holds one of another file which holds the first in turn, or nothing."""
        for part in self.scope.real(kind).all():
            path = self.scope.path(part)[:1] if part.path and not self.scope.own(part) else ()
            if path in (("crate",), ("super",)) and name in self.crate.reached(part.name):
                return f"`{part.name}` of another file holds `{name}` in turn: put types that hold each other into one file"
        return ""

    def advice(self, member: Member, is_known: bool) -> str:
        """What to do about a field that cannot be shown, whose layout may be known."""
        known, skip = self.layouts.bytes(member.type), ", or `// allocative: skip`, for none" if is_known else ""
        size = f"size {known.size}`, for one entry of {known.size} bytes" if known else "size N`, where N is what "
        size += "" if known else f"`size_of::<{member.type.text}>()` gives in Rust, for one entry of N bytes"
        size = f"write above it `// allocative: {size}{skip}"
        for kind in self.scope.real(member.type).all():
            path, known = self.scope.path(kind) if kind.path else (), foreign.of(self.scope, kind)
            if len(path) == 1 and kind.name[0].isupper() and not (self.scope.own(kind) or self.scope.is_of_library(kind)):
                return f"add the `use` of `{kind.name}`, or {size}"
            if known:
                return f"put the `{known.name}` into a struct of your own, or {size}"
            if path[:1] == ("std",) and path[-1] in ("Rc", "Arc") and kind.parts and not is_wide(kind):
                return f"write `Id{path[-1]}<{kind.parts[0].text}>` of `allocative`, or {size}"
            held = kind.parts[0].text if kind.name == "Box" and kind.parts and is_wide(kind) else ""
            if held and not held.startswith("dyn "):
                boxed = "BoxedStr" if held == "str" else f"BoxedSlice<{held[1:-1]}>"
                return f"write `{boxed}` of `std::boxed`, or {size}"
        return size

    def passed_line(self) -> str:
        """How many fields are passed over, and their bytes."""
        known = [size for size in self.passed_over if size is not None]
        count, more = len(self.passed_over), len(self.passed_over) - len(known)
        line = f"{count} field{'s are' if count > 1 else ' is'} passed over: {sum(known)} bytes"
        return line + (f", and {more} of a size that only the checker knows" if more else "")

    def outward(self, found: re.Match[str]) -> str:
        """The beginning of a path of the file, as the module `shown` writes it."""
        if found[1] == "super":
            return f"super::{found[0]}"
        return found[2] if found[2] in self.module.types else f"super::{found[2]}"

    def check(self, definition: Definition, cycle: list[Definition]) -> None:
        """Refuses the types that are not written."""
        what = ""
        if not definition.variants:
            what = "it has no variants, so there is no value to visit: leave it out"
        elif cycle and len(definition.names("type")) < len(definition.parameters):
            what = f"a type with a lifetime or a const parameter that holds itself: {BY_HAND}"
        elif len(cycle) > 1 and definition.parameters:
            what = f"a type with parameters that holds others which hold it: {BY_HAND}"
        elif len(cycle) > 1 and (not definition.cycle or len({each.cycle for each in cycle}) > 1):
            names = ", ".join(each.name for each in cycle)
            what = f"{names} hold each other: write `#[cycle(NAME)]` above each of them, with one name"
        elif cycle and (len(cycle) > 1 or definition.parameters) and definition.is_enum and len(definition.variants) == 1:
            what = "an enum of one variant that has parameters or holds others which hold it is not written: make it a struct"
        elif cycle[:1] == [definition] and self.named(definition) > (GENERIC_REACH if definition.parameters else REACH):
            why = f"the {len(self.reached(definition.name))} types that it reaches have too many fields for the checker"
            what = f"it holds itself, and {why}: let it hold fewer types"
        elif sum(1 + self.scope.inline(member.type) for member in definition.members) > LARGEST_INLINE:
            what = "it has too many fields for the checker, with those of its fields: hold some behind a `Box`"
        if what:
            raise Fault(definition.at, what)

    # ---- what is written
    def free(self, name: str, ending: str) -> str:
        """A name for a layout that the module does not use, also in other letters."""
        name += ending
        while name.lower() in self.taken:
            name += "Of"
        self.taken.add(name.lower())
        return name

    def writers(self) -> list[Writer]:
        """What is written for each type, in the order of the file."""
        found, reach = [], {name: self.reached(name) for name in self.wanted}
        for name, definition in self.wanted.items():
            others = self.wanted if name in reach[name] else ()
            cycle = [self.wanted[other] for other in others if other in reach[name] and name in reach[other]]
            try:
                self.check(definition, cycle)
                found.append(Writer(self, definition, cycle))
                if name in self.scope.tallied:
                    found[-1].text += f"\n{Tally(found[-1]).text}"
            except Fault as fault:
                self.fault(fault.at, f"{name}: {fault.what}")
        return found

    def reached(self, name: str) -> set[str]:
        """The types of the module that a type holds, at any depth."""

        def held(each: str) -> set[str]:
            kinds = (kind for member in self.module.types[each].members for kind in self.scope.real(member.type).all())
            return {kind.name for kind in kinds if self.scope.own(kind)}

        return closure(name, held)

    def named(self, definition: Definition) -> int:
        """How many names of types stand in the fields of the types that a type reaches."""
        members = (member for name in self.reached(definition.name) for member in self.module.types[name].members)
        return sum(len(NAME.findall(member.type.text)) for member in members)

    def counts(self, kind: Type) -> bool:
        """Whether fields of a type are counted first: if it has a tally, and holds any number of items."""
        return self.chosen.counted and kind.name in MANY and not untallied(self.scope, kind, ())

    def texts(self, found: list[Writer]) -> list[str]:
        """The text of the module `shown`, or of each piece of the file."""
        texts = [self.notes.get(each.name, "") + each.text for each in found]
        imports = self.imports("\n".join(texts))
        if self.is_inline:
            return [f"{imports}{imports and chr(10)}{texts[0]}", *texts[1:]] if texts else []
        what = self.path[-1] if self.path else self.crate.name
        head = f"//! What the types of `{what}` show. `bin/implement` of `allocative` wrote it."
        return ["\n".join((f"{head}\n#!{TACTIC}\n{imports}", *texts))]

    def imports(self, text: str) -> str:
        """The imports of a text. In place, only of what the file does not import."""
        mine = self.module if self.is_inline else Module()
        clauses, code = NO_WORD.sub("", "\n".join(GHOST.findall(text))), NO_WORD.sub("", GHOST.sub("", text))
        used = {f"◌{word}◌" if word in ("with", "or", "&&") else word for word in WORD.findall(clauses)} - mine.ghost_uses
        words = {path: set(names.split()) for path, names in WORDS.items()} | foreign.MODULES
        lists = [(f"Rattle.{path}", used & names) for path, names in words.items()]
        opened = sorted({word.removeprefix("out-").removesuffix("-F") for word in used if re.fullmatch(r"out-\w+|\w+-F", word)})
        lists += [(f"{self.declared_at}.{name}", used & {f"out-{name}", f"{name}-F"}) for name in opened]
        lines = [f"ghost use {path}.{{{', '.join(sorted(names))}}};\n" for path, names in lists if names]
        lines.insert(1, "" if "shows" in mine.ghost_uses else "ghost use Rattle.allocative.specs.Shows as shows;\n")
        known = {name for name, path in mine.uses.items() if path[0] in ("allocative", "allocative_tally")}
        called = {word for word in WORD.findall(code) if word[0].isupper() or re.search(rf"{word}(\(|::<)", code)} - known
        # Traits whose methods are called.
        called |= {"Part", *["Entries"] * ("Tallied" in called)} - known
        lines.append("\n" if self.is_inline else "\nuse super::*;\n")
        homes = {"allocative": CODE} | {f"allocative_tally::{home}": names for home, names in HOMES.items()}
        lines += [f"use {path}::{{{', '.join(sorted(called & names))}}};\n" for path, names in homes.items() if called & names]
        return "".join(lines)

    def with_pieces(self, found: list[Writer], texts: list[str]) -> str:
        """The file with a piece behind each type, and without those that were written before."""
        edits = [(*piece, "") for piece in self.pieces]
        for each, text in zip(found, texts):
            end, rest = each.definition.end, LINE.match(self.text, each.definition.end)[0]
            if rest.strip() and not rest.strip().startswith("//"):
                raise Fault(end, f"{each.name}: more stands behind it on its last line: write that on a line of its own")
            edits.append((end + len(rest), end + len(rest), f"\n{BEGIN}\n{text}{END}"))
        return spliced(self.text, sorted(edits))


def crate_of(path: str) -> tuple[str, list[str]]:
    """The folder of the crate of a file, and the module that the file is."""
    parts = os.path.realpath(path).removesuffix(".rt").split(os.sep)
    if "src" not in parts[:-1]:
        raise Fault(None, "the file is not in the folder src of a crate")
    at = len(parts) - 2 - parts[-2::-1].index("src")
    inside = parts[at + 1 :]
    return os.sep.join(parts[:at]), [] if inside in (["lib"], ["main"]) else inside


def closure(first: str, reached: Callable[[str], set[str]]) -> set[str]:
    """The names that are reached from one, at any depth."""
    found: set[str] = set()
    waiting = [first]
    while waiting:
        more = reached(waiting.pop()) - found
        found |= more
        waiting += more
    return found


def pieces_of(text: str) -> list[tuple[int, int]]:
    """The pieces between marks, each from the end of the line before it to the end of its last mark."""
    said = Tokens(text).directives if BEGIN in text or END in text else []
    marks = [each for each in said if each.says in ("begin", "end") and each.depth == 0 and each.is_line]
    pieces = []
    for first, last in zip(marks[::2], [*marks[1::2], None]):
        if last is None or (first.says, last.says) != ("begin", "end"):
            what = "this mark has no other, or was changed: remove the piece or mend its marks"
            raise Fault(first.start, what)
        pieces.append((max(text.rfind("\n", 0, first.start), 0), last.end))
    return pieces


def spliced(text: str, edits: list[tuple[int, int, str]]) -> str:
    """A text with others in place of some pieces."""
    for start, end, new in reversed(edits):
        text = text[:start] + new + text[end:]
    return text
