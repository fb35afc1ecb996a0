"""The text of implementations."""

from __future__ import annotations

import re
import textwrap
from typing import TYPE_CHECKING

from .foreign import Foreign
from .layouts import Layout, size_of
from .names import NAME, all_bound, bound, holds, in_angles, joined, lettered, one_word, pattern_of, size_in_clause, tuple_of
from .proofs import Proofs
from .tokens import Fault
from .types import Definition, Member, Type, Variant, split

if TYPE_CHECKING:
    from .source import Source

INDENT, DEEPER = " " * 8, " " * 16
# A value that stands as an argument without more parentheses.
ONE_VALUE = re.compile(r"(\w+|\([^()]*\))[\w.]*")
CONTAINERS = {("Vec", 1): "vec_in", ("Option", 1): "option_in", ("Box", 1): "box_of"}
CONTAINERS |= {("BTreeMap", 2): "btree_map_of", ("HashMap", 2): "hash_map_of"}
# Words of the written text, which a variant's constructor cannot be named by.
CLAUSE_WORDS = {"codes", "true", "false", "elim", "where", "deriving", "record", "data", "open", "let", "in", "with", "or"}


class Writer:
    """Writes the implementations of one type. A type that holds itself shows levels."""

    def __init__(self, source: Source, definition: Definition, cycle: list[Definition]) -> None:
        self.source = source
        self.scope = source.scope
        self.layouts = source.layouts
        self.definition = definition
        self.name = definition.name
        self.types = definition.names("type")
        self.applied = in_angles([each.name for each in definition.parameters])
        self.members = definition.shown
        # The types that hold each other, of which this is one; this one alone if it holds itself.
        self.cycle = {each.name: each for each in cycle}
        self.nothing = "plain shows.Nothing" if cycle else "shows.Nothing"
        self.is_borrowed = bool(definition.names("lifetime"))
        whole = [member.type for each in cycle or [definition] for member in each.shown if member.is_whole]
        flags = {flag for kind in whole for flag in self.scope.flags(kind, self.types)}
        # The flags on which it depends whether what is shown is strict.
        self.flags = sorted(flag for flag in flags if not self.cycle.keys() & set(NAME.findall(flag)))
        # Whether the flag is stated: of a type that holds itself if it depends on parameters alone.
        self.is_flagged = not cycle or set(self.flags) <= {f"{each}.is_strict" for each in self.types}
        self.layout = self.layouts.of(definition)
        # The parts that stand before the implementations.
        self.parts = ""
        self.proofs = Proofs(self)
        text = self.enumeration() if definition.is_enum else self.struct()
        self.text = self.parts + self.records() + ("" if self.is_borrowed else self.described()) + text

    # ---- heads
    def declared(self, words: tuple[str, ...]) -> str:
        """The parameters with their bounds, as an `impl` declares them; those of shown fields with some words."""
        found, counted = [], NAME.findall(self.layout.clause)
        for each in self.definition.parameters:
            bounds = [each.bounds] if each.bounds else []
            if each.kind == "type":
                is_shown = any(holds(member.type, each.name) for member in self.members if member.is_whole)
                mine = words if is_shown else ("Described", "Drop") if each.name in counted else ("Drop",)
                bounds = [word for word in mine if word not in each.bounds.split(" + ")] + bounds
            name = f"const {each.name}" if each.kind == "const" else each.name
            found.append(f"{name}: {' + '.join(bounds)}" if bounds else name)
        return in_angles(found)

    def head(self, trait: str, *words: str) -> str:
        """The head of an implementation, up to its brace."""
        line = f"impl{self.declared(words or ('Allocative', 'Described'))} {trait} for {self.name}{self.applied}"
        conditions = "".join(f"    {each},\n" for each in split(self.definition.where))
        return f"{line}\nwhere\n{conditions}{{\n" if conditions else f"{line} {{\n"

    def described(self) -> str:
        """The implementation of `Described`."""
        return f"{self.head('Described')}{described(self.layout)}}}\n\n"

    # ---- what is shown
    def implementation(self, shown: str, body: str, use: str = "") -> str:
        """The implementation of `Allocative`, from what a value shows and the body of its visit."""
        cycle = f"    #[cycle({self.definition.cycle})]\n" if self.definition.cycle else ""
        return (
            f"{self.source.tactic}{self.head('Allocative')}{use}"
            f"    ghost may_show = {{ {shown} }};\n\n{self.is_strict()}{cycle}"
            f"    fn visit(&self, visitor: &mut Visitor<'_>) -> Result<(), Refusal> {{\n{body}    }}\n}}\n"
        )

    def size(self, definition: Definition) -> str:
        """The declared size of a type that is written, in clauses."""
        own = in_angles([each.name for each in definition.parameters])
        return size_of(self.layout).clause if self.is_borrowed else size_in_clause(definition.name + own)

    def variant_size(self, variant: Variant, definition: Definition) -> Layout:
        """The size of the entry of a variant. Where a type can have that layout, its size is one call for the checker."""
        if self.is_open(variant, definition):
            return size_of(self.layouts.of_variant(variant, definition))
        record = self.source.records[definition.name, variant.name]
        return Layout(f"<{record}>::size()", size_in_clause(record))

    def is_open(self, variant: Variant, definition: Definition) -> bool:
        """Whether the layout of a variant names a parameter."""
        named = NAME.findall(self.layouts.of_variant(variant, definition).clause)
        return any(each.name in named for each in definition.parameters)

    def records(self) -> str:
        """The types that have the layouts of the variants with an entry."""
        text = ""
        for variant in self.definition.variants if self.definition.is_enum else ():
            if variant.is_entry and not self.is_open(variant, self.definition):
                name, layout = self.source.records[self.name, variant.name], self.layouts.of_variant(variant, self.definition)
                about = f"/// The fields of the variant `{variant.name}` of `{self.name}`.\nstruct {name};\n\n"
                text += f"{about}impl Described for {name} {{\n{described(layout)}}}\n\n"
        return text

    def shown(self, inside: str) -> str:
        """What a value shows, from what it shows inside its entry."""
        if not self.cycle:
            return f'λ x. shows.Field (codes "{self.name}") {self.size(self.definition)}{inside}'
        *levels, last = map(self.own_level, self.cycle.values())
        for level in reversed(levels):
            last = f"both_levels\n{INDENT}({level})\n{INDENT}({last})"
        return f"λ x. recursive ({last}) ({self.embedded(self.name, 'x')})" if levels else f"recursive ({last})"

    def own_level(self, definition: Definition) -> str:
        """The level of a type of the cycle."""
        out = self.out(definition)
        entry = f'field (codes "{definition.name}") {self.size(definition)} ('
        if not definition.is_enum:
            return f"λ x. {entry}{self.inside(self.words(definition.shown, f'({out} x)'))})"
        arms = "".join(self.word_arm(each, self.case(definition, each.name), definition) for each in definition.variants)
        arms = textwrap.indent(f"{arms}    ])", "    " * (len(self.cycle) > 1))
        return f"opened {one_word(out)} (λ x. {entry}elim x [\n{arms})"

    def out(self, definition: Definition, given: str = "") -> str:
        """What opens a value of a type of the cycle: its word, and the type's parameters or what is given for each."""
        return " ".join([f"out-{definition.name}", *(given or name for name in definition.names("type"))])

    def case(self, definition: Definition, variant: str) -> str:
        """A variant of what opens an enum of the cycle, with the enum's name if another enum has it too."""
        name, enums = definition.name, [each for each in self.cycle.values() if each.is_enum]
        has_others = sum(each.name == variant for enum in enums for each in enum.variants) > 1
        return f"{name}-F.{name}::{variant}" if has_others else f"{name}-F.{variant}"

    def embedded(self, name: str, value: str) -> str:
        """A value of a type of the cycle as one of any of them."""
        at, last = [*self.cycle].index(name), len(self.cycle) - 1
        for word in ["first"] * (at < last) + ["second"] * at:
            value = f"{word} {value}" if ONE_VALUE.fullmatch(value) else f"{word} ({value})"
        return value

    def inside(self, words: list[str], indent: str = INDENT) -> str:
        """What parts in a tuple show, a line for each."""
        word = "both" if self.cycle else "shows.Both"

        def both(words: list[str]) -> str:
            lines = [f"\n{indent}({each})" for each in words]
            text = f" ({word}".join(lines[:-1]) + lines[-1] + ")" * (len(lines) - 2)
            return word + text if len(words) > 1 else words[0]

        return joined(words, both) if words else self.nothing

    def word(self, member: Member, key: str, value: str) -> str:
        """What a field shows: in a type that shows levels, as a level."""
        kind = member.type.text
        if member.is_whole and self.holds_cycle(member.type):
            return f'field (codes "{key}") {size_in_clause(kind)} ({self.level(member, member.type, value)})'
        text = f'shows.Field (codes "{key}") {size_in_clause(kind)} (⟦<{kind} as Allocative>⟧.may_show {value})'
        if member.size is not None:
            text = f'shows.Inside (codes "{key}") {member.size} shows.Nothing'
        elif member.foreign:
            text = f'shows.Inside (codes "{key}") {member.foreign.bytes.size} ({member.foreign.word(value)})'
        return f"plain ({text})" if self.cycle else text

    def words(self, members: list[Member], value: str) -> list[str]:
        """What the fields of a struct show."""
        return [self.word(member, member.name, f"{value}.{member.name}") for member in members]

    def is_strict(self) -> str:
        """The line of the flag, or nothing if it is not known."""
        flags = self.flags
        if not self.is_flagged:
            return ""
        if flags and not (self.definition.is_enum or self.cycle):
            kinds = [member.type.text if member.is_whole else "" for member in self.members]
            flags = [f"⟦<{kind} as Allocative>⟧.is_strict" if kind else "true" for kind in kinds]
        text = joined([*flags], lambda parts: f"({' && ('.join(parts)}{')' * len(parts)}")[1:-1] if flags else "true"
        return f"    ghost is_strict = {{ {text} }};\n\n"

    # ---- levels of a type that holds itself
    def holds_cycle(self, kind: Type) -> bool:
        """Whether a type names one of the cycle."""
        return bool(self.cycle) and self.scope.holds(kind, self.cycle)

    def level(self, member: Member, kind: Type, value: str) -> str:
        """The level of a value of a type, which stands in a field."""
        kind = self.scope.real(kind)
        if not self.holds_cycle(kind):
            return f"plain (⟦<{kind.text} as Allocative>⟧.may_show {value})"
        if kind.name not in self.cycle or in_angles([each.text for each in kind.parts]) != self.applied:
            return self.container(member, kind, value)
        child = self.embedded(kind.name, value)
        return f"child {child}" if ONE_VALUE.fullmatch(child) else f"child ({child})"

    def container(self, member: Member, kind: Type, value: str) -> str:
        """The level of a container that holds a type of the cycle."""
        word = CONTAINERS.get((kind.name, len(kind.parts)), "")
        if not word or any(map(self.holds_cycle, kind.parts[:-1])):
            what = "in a way that is not written: use `Vec`, `Box`, `Option`, `BTreeMap` or `HashMap`"
            raise Fault(member.at, f"`{kind.text}` holds the type itself {what}")
        if word == "box_of":
            return f"box_of ({self.level(member, kind.parts[0], f'{value}.value')})"
        if word == "vec_in" and self.types and not self.is_buffer(member):
            what = f"in a `Vec` inside another type, or in an `Option`: make it a field `Vec<{self.name}{self.applied}>`"
            raise Fault(member.at, f"`{kind.text}` holds the type itself, whose size depends on parameters, {what}")
        level, size = self.level(member, kind.parts[-1], "y"), size_in_clause(kind.parts[-1].text)
        each = "child" if level == "child y" else f"(λ y. {level})"
        if len(kind.parts) == 2:
            key = kind.parts[0].text
            pair = f"pair_in {size_in_clause(key)} ⟦<{key} as Allocative>⟧.may_show {size} {each}"
            return f"{word} ({pair}) {value}.entries"
        own_size = f" {size_in_clause(kind.text)}" if word == "option_in" else ""
        return f"{word}{own_size} {size} {each} {value}"

    def is_buffer(self, member: Member) -> bool:
        """Whether a field is a `Vec` of the type itself, whose parameters hide that the items are shown one by one."""
        kind = self.scope.real(member.type)
        return bool(self.types) and member.is_whole and kind.name == "Vec" and kind.parts[0].name in self.cycle

    # ---- visits
    def part(self, member: Member, key: str, name: str, value: str, indent: str) -> str:
        """The lines that make the part of a field. A container with a tally is counted first."""
        kind = self.scope.real(member.type)
        text = f'Field("{key}", {value})'
        if member.size is not None:
            text = f'Inside("{key}", {member.size}, ())'
        elif member.foreign:
            text = f'Inside("{key}", {member.foreign.bytes.size}, {self.foreign(member.foreign, value)})'
        elif self.is_buffer(member):
            vec = value.lstrip("&")
            text = f"items: allocative::Each({value}), item_size: <Self as Described>::size(), count: {vec}.len()"
            text = f"allocative::Buffer {{ {text}, capacity: {vec}.capacity() }}"
            text = f'Declared("{key}", Some(24), Declared("Vec", Some(24), {text}))'
        elif self.source.counts(kind) and not any(holds(kind, each) for each in self.types):
            text = f"Counted{text}"
        return f"{indent}let {name} = {text};\n"

    def foreign(self, known: Foreign, value: str) -> str:
        """The part of a foreign value. Its type gets one in the text if it has a buffer."""
        if not known.length:
            return f'Inside("{known.name}", {known.bytes.size}, ())'
        if known not in self.source.parts:
            self.source.parts[known] = self.source.free("Shown", known.name)
            self.parts += known.part(self.source.parts[known], self.source.tactic)
        return f"{self.source.parts[known]}({value})"

    def enter(self, names: list[str]) -> str:
        """The call that enters parts under the type's own entry."""
        inside = joined(names, tuple_of)
        if not (self.is_borrowed or self.cycle):
            return f"Whole(self, {inside}).enter(visitor)"
        size = size_of(self.layout).code if self.is_borrowed else "<Self as Described>::size()"
        return f'Declared("{self.name}", {size}, {inside}).enter(visitor)'

    # ---- structs
    def struct(self) -> str:
        names = bound([member.name for member in self.members])
        parts = [self.part(each, each.name, name, f"&self.{each.name}", INDENT) for each, name in zip(self.members, names)]
        words = [] if self.cycle else self.words(self.members, "x")
        inside = f"({self.inside(words)})" if words else self.nothing
        if self.cycle or self.is_borrowed:
            self.proofs.of_struct()
        return self.implementation(self.shown(f"\n{INDENT}{inside}"), f"{''.join(parts)}{INDENT}{self.enter(names)}\n")

    # ---- enums
    def enumeration(self) -> str:
        definition, variants, use, inside = self.definition, self.definition.variants, "", ""
        if self.cycle:
            cases = [self.case(definition, variant.name) for variant in variants]
            opened = {self.proofs.declared_at: [f"{self.name}-F"]}
        else:
            cases = [variant.name + ("Case" if variant.name in CLAUSE_WORDS else "") for variant in variants]
            pairs = zip([variant.name for variant in variants], cases)
            names = [case if case == name else f"«{name}» as {case}" for name, case in pairs]
            opened = {f"{self.proofs.declared_at}.TheVariants": names}
            use = "".join(f"    ghost use {at}.{{{', '.join(names)}}};\n\n" for at, names in opened.items())
            arms = "".join(self.word_arm(variant, case, definition) for variant, case in zip(variants, cases))
            inside = f" (elim x [\n{arms}    ])"
        body = f"{INDENT}match self {{\n{''.join(map(self.code_arm, variants))}{INDENT}}}\n"
        self.proofs.of_enum(cases, opened)
        return self.implementation(self.shown(inside), body, use)

    def kept(self, variant: Variant, names: list[str]) -> list[tuple[Member, str, str]]:
        """The fields that a variant shows, with keys and names. A single one without a name has its name."""
        keys = [variant.name] if variant.bracket != "{" and len(variant.members) == 1 else variant.names
        return [each for each in zip(variant.members, keys, names) if not each[0].is_skipped]

    def word_arm(self, variant: Variant, case: str, definition: Definition) -> str:
        letters = lettered(len(variant.members))
        words = self.inside([self.word(*each) for each in self.kept(variant, letters)], " " * 10)
        if variant.is_entry:
            word = "field" if self.cycle else "shows.Field"
            size = self.variant_size(variant, definition).clause
            words = f'{word} (codes "{variant.name}") {size}\n          ({words})'
        return f"      | {' '.join([case, *letters])} ↦ {words}\n"

    def code_arm(self, variant: Variant) -> str:
        names = bound(variant.names)
        pattern = pattern_of(variant, all_bound(variant) if self.cycle else names)
        pattern = f"            {self.name}::{variant.name}{pattern} =>"
        kept = self.kept(variant, names)
        parts = [self.part(member, key, name, name, DEEPER) for member, key, name in kept]
        names = [name for _, _, name in kept]
        if variant.is_entry:
            size = self.variant_size(variant, self.definition).code
            parts.append(f'{DEEPER}let inside = Declared("{variant.name}", {size}, {joined(names, tuple_of)});\n')
            names = ["inside"]
        if not parts:
            return f"{pattern} {self.enter([])},\n"
        return f"{pattern} {{\n{''.join(parts)}{DEEPER}{self.enter(names)}\n            }}\n"


def described(layout: Layout) -> str:
    """What an implementation of `Described` has."""
    return f"    ghost layout = {{ {layout.clause} }};\n\n    fn layout() -> Layout {{\n{INDENT}{layout.code}\n    }}\n"
