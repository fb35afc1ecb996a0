"""The answers that the proofs of implementations need."""

from __future__ import annotations

import re
from itertools import chain, count
from typing import TYPE_CHECKING, Sequence

from .foreign import MODULES
from .names import all_bound, bound, joined, lettered, one_word
from .types import Member, Variant

if TYPE_CHECKING:
    from .text import Writer

MARK = "-- Written by bin/implement."
WORD = re.compile(r"[\w-]+")
# What a call of a layout's chain ensures.
SIZE = "(search rules)"
# What answers cite, by its module.
LEMMAS = {
    "std.proofs.Common": "ap arith false length refl rules ◌≡◌ ◌∙◌",
    "allocative.proofs.ByHand": "visited_at",
    "allocative.proofs.ContainerMeaning": "means_buffer",
    "allocative.proofs.Levels": "means_opened means_recursive",
    "allocative.proofs.Meaning": "entered_loosely strict_same means_both means_field means_same visited_as visited_if",
    "allocative.proofs.Parts": "strict",
    "allocative_tally.proofs.Counting": "first_counted second_counted",
    "allocative_tally.proofs.Fields": "both_count case_counted field_counts holding holding_tuples next_as next_at "
    "next_both next_case next_fixed next_foreign next_nothing next_whole nothing_counted own_counted sure_first sure_second told_by "
    "told_then whole_counts",
    "allocative_tally.proofs.Items": "foreign_counts",
    "allocative_tally.proofs.Sizes": "holds_bytes",
    "allocative_tally.specs.Whole": "as_itself",
}
Proof = tuple[str, str]


class Proofs:
    """Keeps the answers of one type. `files` has the imports and the proofs by their folder."""

    def __init__(self, writer: Writer) -> None:
        self.writer, self.definition = writer, writer.definition
        self.name, self.cycle, self.flags = writer.name, writer.cycle, writer.flags
        self.declared_at = f"{writer.source.declared_at}.{self.name}"
        self.files: dict[str, tuple[dict[str, list[str]], str]] = {}
        # Of an enum: what its answers import of its own, their lemma, and how the proof for each variant begins.
        self.uses: dict[str, list[str]] = {}
        self.lemma = ""
        self.facts: list[str] = []

    def of_struct(self) -> None:
        """Keeps the answer of the visit of a struct."""
        self.uses = {self.declared_at: [f"out-{self.name}"]}
        value = f"({self.writer.out(self.definition, '_')} c.args.self.now)"
        values = [(each, f"{value}.{each.name}") for each in self.definition.shown]
        self.keep([("returns", self.proof(set(), values=values))])

    def of_enum(self, cases: list[str], opened: dict[str, list[str]]) -> None:
        """Keeps the answers of the visit of an enum, for each variant."""
        variants, taken, proofs = self.definition.variants, set(), []
        self.uses = {self.declared_at: [f"out-{self.name}", "the_lemmas"] if self.cycle else [self.name]}
        for module, names in opened.items():
            self.uses[module] = self.uses.get(module, []) + names
        source = self.writer.source
        at = ".".join((source.crate.name, "specs.contracts", *source.text_at, f"{self.name}Allocative.TheImpl"))
        self.uses[f"Rattle.{at}"] = ["ghosts"]
        self.lemma = self.one_variant(variants[0], cases[0]) if len(variants) == 1 else ""
        self.facts = [*map(self.fact, variants, cases)]
        for variant, fact in zip(variants, self.facts):
            arm = "" if self.lemma else f"-in-{variant.name}"
            kept = self.writer.kept(variant, [f"c{arm.replace('-', '.', 1)}.{name}" for name in bound(variant.names)])
            values = [(member, value) for member, _, value in kept]
            proofs.append((f"returns{arm}", self.proof(taken, arm, fact, variant, values)))
        self.keep(proofs, self.lemma)

    def one_variant(self, variant: Variant, case: str) -> str:
        """The lemma that each value of an enum of one variant is of that variant."""
        form, kinds = f"{self.name}-F", [f"T{number}" for number in range(len(self.cycle))]
        if not self.cycle:
            form, kinds = self.name, [each.name for each in self.definition.parameters if each.kind != "lifetime"]
        names, given = lettered(len(variant.members)), f"{{{' '.join(kinds)} : _}} " if kinds else ""
        value, parts, lemma = " ".join([case, *names]), "".join(f"({name} : _) × " for name in names), f"variant-{self.name}"
        text = f"{lemma} : {given}(x : {' '.join([form, *kinds])}) → {parts}(x ≡ {value})\n"
        return f"\n{text}{lemma} ({value}) = ({', '.join([*names, 'refl'])})\n"

    def fact(self, variant: Variant, case: str) -> str:
        """What says that a value is of a variant; in a type that holds itself, that what opens it is."""
        out = self.writer.out(self.definition, "_")
        value = f"({out} c.args.self.now)" if self.cycle else "c.args.self.now"
        if self.lemma:
            return f"(variant-{self.name} {value})" + (f".{len(variant.members)}" if variant.members else "")
        arm = f"c.in-{variant.name}"
        level = " ".join([case, *(f"{arm}.{name}" for name in all_bound(variant))])
        if not self.cycle:
            return f"{arm}.is"
        return f"(let e : {value[1:-1]} ≡ {level} = ap {one_word(out)} {arm}.is ∙ search the_lemmas in e)"

    def proof(
        self, taken: set[str], arm: str = "", fact: str = "", variant: Variant | None = None, values: Sequence[tuple[Member, str]] = ()
    ) -> str:
        """The proof of an arm with some values in its fields: what was entered means what may be shown."""
        means = joined([self.means(taken, arm, *each) for each in values], means_of)
        is_asked = self.writer.is_borrowed or bool(self.cycle)
        is_generic, is_entry = bool(self.definition.parameters), bool(variant and variant.is_entry)
        is_open = bool(variant) and self.writer.is_open(variant, self.definition)
        # The sizes of the variant's entry and of the type's own.
        for is_call, is_searched in [(True, is_open)] * is_entry + [(is_asked, is_generic)]:
            size = ensured(taken, "size", arm) if is_call else "refl"
            means = f"(means_field refl {SIZE if is_call and is_searched else size} {means})"
        entered = ensured(taken, "enter", arm)
        only = "(search (rules, strict))" if self.flags else "strict_same"
        if fact and not (self.lemma or self.cycle or self.definition.parameters):
            return f"visited_at ghosts.may_show {fact} {entered} {only}\n    {means}"
        if self.cycle:
            means = f"(means_opened _ _ refl {fact}\n    {means})" if fact else f"(means_recursive {means})"
        if fact and (self.lemma or not self.cycle):
            means = f"(rw {fact}\n    {means})"
        if self.flags and self.writer.is_flagged:
            return f"visited_if {entered} {only}\n    {means}"
        return f"visited_as {f'(entered_loosely {entered})' if self.flags else entered}\n    {means}"

    def means(self, taken: set[str], arm: str, member: Member, value: str) -> str:
        """That the part of a field means what the field shows."""
        if not self.writer.is_buffer(member):
            return "means_same"
        length, capacity = (ensured(taken, call, arm) for call in ("len", "capacity"))
        buffer = f"(means_buffer {SIZE} ({length} ∙ {value}.ok.0) {capacity} means_same)"
        return f"(means_field refl refl (means_field refl refl {buffer}))"

    def keep(self, proofs: list[Proof], lemma: str = "") -> None:
        """Keeps the proofs of a visit. Those of types that hold each other stand together, each with its type's name."""
        folder = f"{self.name}Allocative/{'+' * bool(self.cycle)}visit"
        if self.definition.cycle and self.cycle:
            folder, proofs = f"+{self.definition.cycle}", [(f"{self.name}Allocative::visit-{goal}", how) for goal, how in proofs]
        self.answer(folder, proofs, lemma)

    def answer(self, folder: str, proofs: list[Proof], lemma: str = "") -> None:
        """Keeps what a folder of proofs has: each goal with its proof, and the imports of what they name."""
        is_generic = self.definition.names("type") or self.definition.names("const")
        given = f"{'g ' * bool(is_generic)}{'t ' * bool(self.cycle)}c"
        body = lemma + "".join(f"\npub {goal} : goal.{goal}\n{goal} {given} =\n    {proof}\n" for goal, proof in proofs)
        words = {*WORD.findall(body), *(f"◌{sign}◌" for sign in "≡∙" if sign in body)}
        known = {each: names.split() for each, names in LEMMAS.items()} | {each: [*names] for each, names in MODULES.items()}
        modules = self.uses | {f"Rattle.{each}": names for each, names in known.items()}
        uses = {each: [name for name in names if name.split()[-1] in words] for each, names in modules.items()}
        self.files["/".join((*self.writer.source.text_at, *folder.split("/")))] = uses, body


def answers_of(crate: str, found: list[Proofs]) -> dict[str, str]:
    """The text of each file of answers, by its folder."""
    folders: dict[str, tuple[dict[str, dict[str, None]], list[str]]] = {}
    for folder, (uses, body) in (pair for each in found for pair in each.files.items()):
        modules, bodies = folders.setdefault(folder, ({}, []))
        for module, names in uses.items():
            modules.setdefault(module, {}).update(dict.fromkeys(names))
        bodies.append(body)
    texts = {}
    for folder, (modules, bodies) in folders.items():
        text = "".join(f"use {module}.{{{', '.join(names)}}}\n" for module, names in modules.items() if names)
        goals = ".".join((crate, "proofs", *folder.split("/"), "Goals"))
        texts[folder] = f"{MARK}\n{text}use Rattle.{goals} as goal\n{''.join(bodies)}"
    return texts


def means_of(parts: list[str]) -> str:
    """That a tuple of parts means what they show, from that of each."""
    if set(parts) <= {"means_same"}:
        return "means_same"
    return parts[0] if len(parts) == 1 else f"(means_both {parts[0]} {means_of(parts[1:])})"


def ensured(taken: set[str], call: str, arm: str) -> str:
    """What a call in an arm ensures. The first of its name has that name, and a later one also its arm."""
    names = chain((call, call + arm), (f"{call}{arm}-{number}" for number in count(2)))
    name = next(name for name in names if name not in taken)
    taken.add(name)
    return f"c.{name}.ensures"
