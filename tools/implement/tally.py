"""The text of tallies, which count the values of a type before they are entered, and the answers of their proofs."""

from __future__ import annotations

import re
from functools import reduce
from itertools import count
from typing import TYPE_CHECKING, Any, Callable, NamedTuple

from .foreign import Foreign
from .known import Scope, split_at_hasher
from .library import NUMBERS, having
from .names import bound, holds, in_angles, joined, pattern_of, size_in_clause
from .types import Definition, Member, Type, Variant

if TYPE_CHECKING:
    from .source import Source
    from .text import Writer

INDENT = " " * 8
# The containers of any number of items.
MANY = having("many")
# The modules of the library that have the words of the code.
HOMES = {"field": {"CountedField", "FieldMany", "OwnTally", "PointersMany", "SizedMany", "TypedMany", "count_own"}}
HOMES["tally"] = {"CountError", "Entries", "Tallied", "added", "count_bytes", "declared"}
# What a field adds to the weight of a tally, by the name of its type and those of its parts: a number 1, a map 6, a set
# or what other crates have for many items 10, any other 3. The checker's borrow checker covers what shows 32 texts, of
# the weight 96, and stops with 36. It covers all others of that weight that were tried.
WEIGHTS = dict.fromkeys(NUMBERS, 1) | dict.fromkeys(("BTreeMap", "HashMap"), 6)
WEIGHTS |= dict.fromkeys(("BTreeSet", "HashSet", "IndexMap", "IndexSet", "LruCache", "Slab", "SmallVec"), 10)
LARGEST_TALLY = 96
# The checker proves the tally of a struct whose size depends on a name with seven fields, and stops with twelve.
LARGEST_OPEN = 7
NAMED_LENGTH = re.compile(r"; *[A-Za-z_]")
HUMP = re.compile(r"(?<=[a-z0-9])(?=[A-Z])")
DECLARED = "c.in_ok-declared.ensures"
# The same in clauses and in code.
Pair = tuple[str, str]
NOTHING = "NoEntry", "()"
# Gives the name of a step in an arm, from its name alone.
Step = Callable[[str], str]
# What the code of a tally names.
TAKEN = "self tally count_bytes count_own added declared"


class Part(NamedTuple):
    """What has an entry, with its field of the tally if it has one.

    It is a field, with its type and that of its tally, or what has other parts inside it, with the type of its size.
    `is_own` says that the values of a field have a number of their own. `bytes` has the size of a field that is shown by
    its size; the tally of one that is `foreign` and has a length is the bytes of the buffers.
    """

    name: str
    key: str
    type: str
    kind: str = ""
    is_own: bool = False
    inside: tuple[Part, ...] = ()
    bytes: int | None = None
    foreign: Foreign | None = None

    @property
    def size(self) -> str:
        """The declared size of an entry, in clauses."""
        return size_in_clause(self.type) if self.bytes is None else f"(Some {self.bytes})"

    def entries(self, count: str, inside: Pair) -> Pair:
        """So many entries, with others inside them."""
        head = f'TypedMany(std::marker::PhantomData::<{self.type}>, "{self.key}"'
        head = head if self.bytes is None else f'SizedMany("{self.key}", Some({self.bytes})'
        return f'(entries (codes "{self.key}") {self.size} {count}\n{INDENT}{inside[0]})', f"{head}, {count}, {inside[1]})"


def untallied(scope: Scope, kind: Type, parameters: tuple[str, ...]) -> str:
    """The type, of one and its parts, whose values have no tally, or nothing."""
    kind = scope.real(kind)
    has_tally = kind.form in ("path", "array", "constant") or (kind.form == "tuple" and len(kind.parts) in (0, 2, 3, 4, 5))
    own = scope.own(kind)
    if own:
        has_tally = own.name in scope.tallied or "Tallied" in scope.module.implemented.get(own.name, ())
    elif kind.form == "path" and kind.name not in parameters:
        is_known = scope.is_of_library(kind) and scope.has(kind, "tally") and not split_at_hasher(kind)[1]
        has_tally = is_known or (len(scope.path(kind)) > 1 and not scope.outside(scope.path(kind), ("Tallied",)))
    held = (untallied(scope, part, parameters) for part in kind.parts)
    return next(filter(None, held), "") if has_tally else f"`{kind.text}`"


def weight(scope: Scope, kind: Type) -> int:
    """What a field of a type adds to the weight of a tally."""
    kind = scope.real(kind)
    return WEIGHTS.get(kind.name, 3) + sum(weight(scope, part) for part in kind.parts if part.form != "constant")


def reason_of(source: Source, definition: Definition) -> str:
    """Why a type that is written gets no tally, with all fields that stop it, or nothing."""
    types = definition.names("type")
    whys = ["it holds itself"] if definition.name in source.reached(definition.name) else []
    whys += ["it has a lifetime"] if definition.names("lifetime") else []
    whys += ["it has a const parameter"] if definition.names("const") else []
    for variant, each in ((variant, each) for variant in definition.variants for each in variant.members):
        held = untallied(source.scope, each.type, types) if each.is_whole else ""
        is_alone = definition.is_enum and not variant.is_entry and each.is_read and not each.is_whole
        name = f"{variant.name}.{each.name}" if definition.is_enum else each.name
        whys += [f"the field {name} holds {held or f'a lone `{each.type.text}`'}"] if held or is_alone else []
    entries = sum(each.is_entry for each in definition.variants) if definition.is_enum else 0
    whys += ["it has parameters, and a variant of several fields"] if entries and types else []
    is_long = len(definition.shown) > LARGEST_OPEN and not definition.is_enum
    whys += ["its size depends on a name, and it has more than seven fields"] if is_long and is_open(definition) else []
    weights = (weight(source.scope, each.type) if each.is_whole else 2 for each in definition.shown)
    whys += ["it has too many fields for the checker"] if 2 * entries + sum(weights) > LARGEST_TALLY else []
    return ", and ".join(whys)


def is_open(definition: Definition) -> bool:
    """Whether the size of a type depends on a parameter, or on the length of an array that has a name."""
    return bool(definition.names("type")) or any(NAMED_LENGTH.search(each.type.text) for each in definition.shown)


def find_tallied(source: Source) -> dict[str, str]:
    """Finds which of the types that are written get tallies, and returns why the others get none."""
    found: dict[str, str] = {}
    more = {"": ""}
    while more:
        source.scope.tallied = source.wanted.keys() - found.keys()
        whys = {name: reason_of(source, each) for name, each in source.wanted.items() if name not in found}
        more = {name: why for name, why in whys.items() if why}
        found |= more
    return found


def paired(parts: list[Any], pair: Callable[[Any, Any], Any], none: Any) -> Any:
    """Parts joined two by two, as what a value shows."""
    return joined(parts, lambda some: reduce(lambda last, one: pair(one, last), some[::-1])) if parts else none


class Tally:
    """Writes the tally of a type. `text` is its text; the answers are kept with those of the type."""

    def __init__(self, writer: Writer) -> None:
        self.writer, self.definition = writer, writer.definition
        self.kinds: list[str] = []
        self.names: set[str] = set()
        self.arms = [(each, self.part(each)) for each in self.definition.variants]
        parts = tuple(part for _, part in self.arms if part)
        inside = parts if self.definition.is_enum else parts[0].inside
        self.root = Part("", writer.name, writer.name + writer.applied, inside=inside)
        self.flat = [each for part in inside for each in (part, *part.inside)]
        # Those with a field of the tally: a field that is shown by its size alone has none, but a variant counts.
        self.kept = [each for each in self.flat if each.kind or each.bytes is None or (self.definition.is_enum and each in inside)]
        self.parameters = [f"S{number + 1}" for number in range(len(self.kinds))]
        # The sizes are numbers, unless a parameter or the length of an array has a name.
        self.room = "(search (rules, holding))" if is_open(self.definition) else "(holds_bytes (omega arith))"
        if is_open(self.definition) and len(self.root.inside) > 2 and not self.definition.is_enum:
            # Fields in groups hold those of a layout in their order.
            self.room = f"(search holding_tuples depth {3 * len(self.root.inside) + 3})"
        self.name = writer.source.free(writer.name, "Tally")
        self.text = self.struct() + self.tallied()

    # ---- the fields of a tally
    def free(self, name: str) -> str:
        """A name for a field that no other has."""
        while name in self.names:
            name += "_"
        self.names.add(name)
        return name

    def field(self, member: Member, key: str, name: str, is_own: bool = False) -> Part:
        """The part of a field. If its type has parameters, what counts it is a parameter of the tally."""
        if not member.is_whole:
            size = member.foreign.bytes.size if member.size is None else member.size
            return Part(self.free(name), key, "", "usize" * member.is_read, bytes=size, foreign=member.foreign)
        kind = f"<{member.type.text} as Tallied>::Tally"
        if any(holds(member.type, each) for each in self.writer.types):
            self.kinds.append(kind)
            kind = f"S{len(self.kinds)}"
        return Part(self.free(name), key, member.type.text, kind, is_own)

    def part(self, variant: Variant) -> Part | None:
        """The part of a variant, or of all fields of a struct."""
        start = f"{HUMP.sub('_', variant.name).lower()}_" if self.definition.is_enum else ""
        shown = [each for each in variant.members if not each.is_skipped]
        if start and not variant.is_entry:
            return self.field(shown[0], variant.name, f"{start}value", True) if shown else None
        names = [each.name if start or each.name.isidentifier() else f"part{each.name}" for each in shown]
        inside = [self.field(each, each.name, start + name) for each, name in zip(shown, names)]
        record = self.writer.source.records[self.writer.name, variant.name] if start else ""
        return Part(self.free(f"{start}count") if start else "", variant.name, record, inside=tuple(inside))

    # ---- what counts
    def struct(self) -> str:
        lines = ""
        for part in self.kept:
            kind = part.kind or "usize"
            lines += f"    {part.name}: {f'OwnTally<{kind}>' if part.is_own else kind},\n"
        head = f"/// Values of `{self.writer.name}`, counted.\n#[derive(Default, Drop)]\n"
        body = f"{{\n{lines}}}" if lines else "{}"
        return f"{head}pub struct {self.name}{in_angles(self.parameters)} {body}\n\n"

    def many(self, part: Part, count: str) -> Pair:
        """The entries of so many values of a part, with what is inside them."""
        value = f"tally.{part.name}"
        if part.is_own:
            value, count = f"{value}.values", f"{value}.count"
        elif part in self.kept and not part.kind:
            count = value
        if part.type and part.kind:
            shape = f'(entries (codes "{part.key}") {part.size} {count} (⟦<{part.type} as Tallied>⟧.shape {value} {count}))'
            return shape, f'FieldMany::<{part.type}>("{part.key}", &{value}, {count})'
        shapes, codes = zip(*[self.many(each, count) for each in part.inside] or [NOTHING])
        inside = paired([*shapes], f"(Beside {{}}\n{INDENT}{{}})".format, ""), paired([*codes], "({}, {})".format, "")
        if part.kind:
            inside = f'(pointers_shape 8 (codes "u8") {count} {value})', f'PointersMany(8, "u8", {count}, {value})'
        if part.foreign:
            inside = part._replace(key=part.foreign.name).entries(count, inside)
        return part.entries(count, inside)

    def tallied(self) -> str:
        writer, kind = self.writer, self.name + in_angles(self.kinds)
        body = f"{INDENT}declared::<{self.root.type}>()?;\n"
        if self.definition.is_enum:
            body += f"{INDENT}match self {{\n{''.join(self.arm(*each) for each in self.arms)}{INDENT}}}\n"
        else:
            names = locals_of(self.definition.variants[0])
            body += self.together(self.root.inside, names, [f"&self.{part.key}" for part in self.root.inside], INDENT)
        writer.proofs.answer(f"{writer.name}Tallied/tally", self.counted(), writer.proofs.lemma)
        shape, code = self.many(self.root, "count")
        return (
            f"{writer.head('Tallied', 'Tallied')}    type Tally = {kind};\n\n"
            f"    ghost shape = {{ λ tally count. {shape[1:-1]} }};\n\n"
            f"    ghost whole = {{ is_whole (Prim.search starting) }};\n\n"
            f"    fn show(tally: &Self::Tally, count: usize, visitor: &mut Visitor<'_>) -> Result<(), Refusal> {{\n"
            f"{INDENT}{code}.enter(visitor)\n    }}\n\n"
            f"    #[inline(always)]\n"
            f"    fn tally(&self, tally: &mut Self::Tally) -> Result<(), CountError> {{\n{body}    }}\n}}\n"
        )

    def together(self, parts: tuple[Part, ...], names: list[str], values: list[str], indent: str) -> str:
        """The lines that count fields and join what each comes to. A field that is shown by its size alone needs none."""
        lines = ""
        for part, name, value in zip(parts, names, values):
            call = f"Tallied::tally({value}, &mut tally.{part.name})"
            if part.foreign:
                call = f"count_bytes(&mut tally.{part.name}, {value.removeprefix('&')}.{part.foreign.call})"
            lines += f"{indent}let {name} = {call};\n" if part.kind else ""
        results = [name if part.kind else "" for part, name in zip(parts, names)]
        return f"{lines}{indent}{chained(joined(results, joined_by_and)) or 'Ok(())'}\n"

    def arm(self, variant: Variant, part: Part | None) -> str:
        """The lines that count the fields of a variant."""
        names, indent = names_of(variant), " " * 16
        head = f"{' ' * 12}{self.writer.name}::{variant.name}{pattern_of(variant, names)} => "
        if not part:
            return f"{head}Ok(()),\n"
        lines = ""
        if not part.kind:
            lines = f"{indent}declared::<{part.type}>()?;\n" if part.bytes is None else ""
            lines += f"{indent}tally.{part.name} = added(tally.{part.name}, 1)?;\n"
        shown = locals_of(variant)
        if part.is_own:
            return f"{head}count_own(&mut tally.{part.name}, {shown[0]}),\n"
        lines += self.together(part.inside, shown, shown, indent)
        return f"{head}{{\n{lines}{' ' * 12}}}\n"

    # ---- answers
    def counted(self) -> list[tuple[str, str]]:
        """The proofs of what is counted, each with the name of its goal."""
        if not self.definition.is_enum:
            values = [f"c.args.self.now.{part.key}" for part in self.root.inside]
            proof, is_sure = fields(self.root.inside, locals_of(self.definition.variants[0]), values, str)
            whole = f"whole_counts _ {DECLARED} {self.room}\n    {proof}"
            return [("returns", self.whole("next_whole", proof) if is_sure else whole)]
        found = []
        # The steps of the arms before. A step that an arm before has too is named by its arm.
        before: set[str] = set()
        for (variant, part), fact in zip(self.arms, self.writer.proofs.facts):
            arm, names = f"-in-{variant.name}" if self.arms[1:] else "", locals_of(variant)
            found += self.counted_arm(part, names, arm, fact, lambda step: step + arm if step in before else step)
            counted = [f"{calls(each)}-{name}" for each, name in zip(part.inside, names) if each.kind] if part else []
            before |= {*counted, *["and"] * (len(counted) > 1), *["count_own"] * bool(part and part.is_own)}
        return found

    def counted_arm(self, part: Part | None, names: list[str], arm: str, fact: str, step: Step) -> list[tuple[str, str]]:
        """The proofs for a variant with fields of some names, from what is known of the value."""

        def counted(proof: str) -> str:
            inside = placed(self.root.inside, part, proof, "({}_counted {})") if part else proof
            return f"next_as (rw {fact} as_itself)\n    ({self.whole('next_case', inside)})"

        def told(result: str, proof: str) -> str:
            return f"(told_then {result}\n    (λ told. {counted(proof)})).told"

        if not part:
            return [(f"returns{arm}", counted("nothing_counted"))]
        if part.is_own:
            own = f"c.{step('count_own')}"
            return [(f"returns{arm}", told(f"(told_by {own}.result {own}.ensures)", "(own_counted told)"))]
        added = f"tally{arm}"
        goal = f"returns-in_ok-{added}" if arm else "returns"
        if part.bytes is not None:
            return [(goal, counted(f"(next_at (omega arith) {sure(part)})"))]
        values = [f"c{arm.replace('-', '.', 1)}.{name}" for name in names]
        proof, is_sure = fields(part.inside, names, values, step, arm)
        declared = f"c.in_ok-declared{arm or '-2'}.ensures"
        case = f"(case_counted {declared} (omega arith)\n    {{}}\n    {self.room})".format
        return [(goal, counted(case(proof)) if is_sure else told(proof, case("told")))]

    def whole(self, lemma: str, inside: str) -> str:
        """The proof for the entry of a value, from that for what is inside it."""
        return f"{lemma} {DECLARED}\n    {inside}\n    {self.room}"


def calls(part: Part) -> str:
    """The call that counts a field."""
    return "count_bytes" if part.foreign else "tally"


def sure(part: Part) -> str:
    """The proof for a field that is shown by its size alone."""
    return "next_foreign" if part.foreign else "next_fixed"


def ordinal(at: int) -> str:
    """What a step's name ends with, if it is one of several."""
    return f"-{at}" if at > 1 else ""


def joining(first: str, at: int, arm: str) -> str:
    """The name of a step that joins results, from that of the first one of its arm."""
    return f"and{arm}{ordinal(at - 1)}" if arm and at > 1 and first == "and" else f"{first}{ordinal(at)}"


def names_of(variant: Variant) -> list[str]:
    """The names of the fields of a variant, or of a struct, in the code of its tally."""
    return bound(variant.names, TAKEN)


def locals_of(variant: Variant) -> list[str]:
    """The names of the fields that are shown."""
    return [name for each, name in zip(variant.members, names_of(variant)) if not each.is_skipped]


def joined_by_and(results: list[Any]) -> Any:
    """Results joined by `and`: each pair is one and what is joined to it. A result that is empty is left out."""
    some = list(filter(None, results))
    return reduce(lambda later, one: (one, later), some[-2::-1], some[-1]) if some else ""


def chained(tree: Any) -> str:
    """Results that are joined by `and`."""
    return tree if isinstance(tree, str) else f"{chained(tree[0])}.and({chained(tree[1])})"


def fields(parts: tuple[Part, ...], names: list[str], values: list[str], step: Step, arm: str = "") -> tuple[str, bool]:
    """The proof for fields of some values, which are counted under these names, and whether they are surely counted. `arm`
    is what the names of steps have of their arm, if it is one of several.
    """
    # The steps that join results, in the order in which they are taken.
    numbers = count(1)

    def within(tree: Any) -> tuple[str, bool]:
        if isinstance(tree, tuple):
            return tree
        (one, is_first_sure), (last, is_last_sure) = map(within, tree)
        lemma = "next_both" if is_last_sure else "sure_first"
        if not is_first_sure:
            lemma = "sure_second" if is_last_sure else f"both_count c.{joining(step('and'), next(numbers), arm)}.ensures"
        return f"({lemma}\n    {one}\n    {last})", is_first_sure and is_last_sure

    def counted(part: Part, name: str, value: str) -> tuple[str, bool]:
        lemma = "field_counts _ _ _ _ _ _"
        if part.foreign and part.kind:
            lemma = f"foreign_counts {{m = {part.foreign.length.format(value)}}} (omega arith) (search rules)"
        return (f"({lemma} c.{step(f'{calls(part)}-{name}')}.ensures)", False) if part.kind else (sure(part), True)

    steps = [*map(counted, parts, names, values)]
    return within(paired(steps, lambda one, last: [one, last], ("next_nothing", True)))


def placed(parts: tuple[Part, ...], part: Part, proof: str, lemma: str) -> str:
    """The proof for a part, from its place among others, by lemmas whose names begin with that place."""

    def within(tree: Any) -> str:
        if tree is part:
            return proof
        pairs = zip(("first", "second"), tree if isinstance(tree, list) else ())
        return "".join(lemma.format(word, inner) for word, each in pairs if (inner := within(each)))

    return within(paired([*parts], lambda one, later: [one, later], None))
