"""Tests of what is read of tokens and types."""

import unittest

from ..types import Module, module_of
from ..tokens import Fault, Tokens


def read(text: str) -> Module:
    return module_of(Tokens(text))


def fields(text: str) -> list[tuple[str, str, str]]:
    """The name, the form and the text of each field of a struct with such fields."""
    return [(each.name, each.type.form, each.type.text) for each in read(f"struct A {{ {text} }}").types["A"].members]


class ShapesTest(unittest.TestCase):
    def test_forms_of_types(self) -> None:
        forms = {
            "Vec< Option<u8> >": ("path", "Vec<Option<u8>>"),
            "std :: collections::HashMap<K, V>": ("path", "std::collections::HashMap<K, V>"),
            "Vec::<u8>": ("path", "Vec<u8>"),
            "( u8 ,String )": ("tuple", "(u8, String)"),
            "(u8,)": ("tuple", "(u8,)"),
            "((u8))": ("path", "u8"),
            "[ u8; N + 1 ]": ("array", "[u8; N + 1]"),
            "&'a mut T": ("reference", "&'a mut T"),
            "&'a [T]": ("reference", "&'a [T]"),
            "SmallVec<u64, 2>": ("path", "SmallVec<u64, 2>"),
            "Box<dyn Fn(u8) -> u8>": ("path", "Box<dyn Fn(u8) -> u8>"),
            "fn(u8) -> u8": ("other", "fn(u8) -> u8"),
            "*const u8": ("other", "*const u8"),
            "name!(u8)": ("other", "name!(u8)"),
        }
        for text, wanted in forms.items():
            with self.subTest(text):
                self.assertEqual(fields(f"a: {text}"), [("a", *wanted)])

    def test_self_is_the_type(self) -> None:
        self.assertEqual(fields("a: Vec<Self>, b: Option<Box<Self>>")[0], ("a", "path", "Vec<A>"))
        generic = read("enum B<'a, T: Ord> { C(Box<Self>), D(&'a T) }").types["B"]
        self.assertEqual(generic.members[0].type.text, "Box<B<'a, T>>")

    def test_structs(self) -> None:
        text = "/// Doc {.\n#[derive(Clone, Drop)]\n#[allow(x)]\npub(crate) struct A<'a, T: Ord + Eq, const N: usize> where T: Copy, { pub a: T, #[x] b: [u8; N] }"
        found = read(text).types["A"]
        self.assertEqual([(each.kind, each.name, each.bounds) for each in found.parameters], [("lifetime", "'a", ""), ("type", "T", "Ord + Eq"), ("const", "N", "usize")])
        self.assertEqual((found.where, "Drop" in found.derives, found.is_enum), ("T: Copy", True, False))
        self.assertEqual([each.name for each in read("struct B(pub (crate::C), pub(super) u8);").types["B"].members], ["0", "1"])
        self.assertEqual(read("struct C;").types["C"].members, [])

    def test_directives_in_other_places(self) -> None:
        for text in ("struct A { a: f64, // allocative: skip\nb: u8 }", "struct A { a: f64 // allocative: skip\n}", "enum A { B,\n// allocative: skip\nC(u8, u8) }"):
            with self.subTest(text):
                self.assertEqual(len(read(text).faults), 1)

    def test_a_directive_above_a_variant_of_one_unnamed_field(self) -> None:
        for above in ("// allocative: size 8\n#[x]\n", "#[x]\n// allocative: size 8\n"):
            found = read(f"enum A {{ B,\n{above}C(u8), D }}")
            self.assertEqual(([each.size for each in found.types["A"].members], found.faults), ([8], []))

    def test_what_is_passed_over(self) -> None:
        text = "macro_rules! m { ($a:ident) => { struct X; } }\nm! { struct Y { } }\nfn f() -> u8 ensures { struct } { struct Z; 1 }\n#[cfg(test)] struct W; mod n { struct V; } struct U;"
        found = read(text)
        self.assertEqual(list(found.types), ["U"])

    def test_implementations_and_uses(self) -> None:
        found = read("use a::{b::C, d as E, f::*};\nghost use x.y.{z, ◌<◌, out-A};\nghost use x.Shows as shows;\nimpl<T: Ord> Allocative for m::A<T> where T: Eq {}\nimpl A {}")
        self.assertEqual(found.uses, {"C": ("a", "b", "C"), "E": ("a", "d")})
        self.assertEqual(found.ghost_uses, {"z", "◌<◌", "out-A", "shows"})
        self.assertEqual((found.globs, found.implemented), ([("a", "f")], {"A": {"Allocative"}}))
        self.assertEqual(read("use a\nuse b::C;").uses, {"C": ("a use b", "C")})

    def test_all_faults_of_a_module(self) -> None:
        text = "struct r#type;\nstruct A { b }\nunion U { a: u8 }\nenum B { C D }\nstruct E {\n// allocative: sip\na: u8 }\nstruct F;"
        found = read(text)
        self.assertEqual([text.count("\n", 0, fault.at) + 1 for fault in found.faults], [1, 2, 3, 4, 7])
        self.assertEqual(list(found.types), ["F"])


def words(text: str) -> list[str]:
    tokens = Tokens(text)
    return tokens.words[: tokens.count]


class TokensTest(unittest.TestCase):
    def test_literals_and_lifetimes(self) -> None:
        self.assertEqual(words("f<'a,'b>('c', '\\'', b'\"')"), ["f", "<", "'a", ",", "'b", ">", "(", "'c'", ",", "'\\''", ",", "b'\"'", ")"])
        self.assertEqual(words('r#"a " b"# "x // y" r#type'), ['r#"a " b"#', '"x // y"', "r#type"])

    def test_comments_are_passed_over(self) -> None:
        self.assertEqual(words("a /* b /* c */ d */ e // f {\ng"), ["a", "e", "g"])

    def test_faults_have_their_places(self) -> None:
        for text, at in (("a\n(", 2), ("a\n}", 2), ("(\n]", 2), ('a\n"b', 2), ("\n\n/* a", 2)):
            with self.subTest(text), self.assertRaises(Fault) as raised:
                Tokens(text)
            self.assertEqual(raised.exception.at, at)
